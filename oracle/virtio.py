"""The two virtio devices of docs/DEVICES.md: registers, rings, the network card and the disk. It shares nothing with the program."""
import struct

NUMBERS = 2**64
ACKNOWLEDGE, DRIVER_OK, FEATURES_OK, NEEDS_RESET = 1, 4, 8, 64
KEPT_STATUS = 0x8F
VERSION_1, MAC_FEATURE, FLUSH_FEATURE = 1 << 32, 1 << 5, 1 << 9
GUEST_MAC = bytes.fromhex("020000000001")
NEXT, WRITE, INDIRECT = 1, 2, 4
HEADER = bytes(10) + b"\1\0"
SHORTEST, LONGEST, MOST, SECTOR = 14, 1514, 64, 512
BASE = 0x80000000


class Broken(Exception):
    """A malformed ring: it breaks the device."""


class Queue:
    def __init__(self):
        self.num = self.ready = self.desc = self.driver = self.device = self.taken = self.used = 0

    def numbers(self):
        return [self.num, self.ready, self.desc, self.driver, self.device, self.taken, self.used]

    def restore(self, numbers):
        self.num, self.ready, self.desc, self.driver, self.device, self.taken, self.used = numbers

    def places(self, ram):
        """Where its three areas lie in memory."""
        if self.desc % 16 or self.driver % 2 or self.device % 4:
            raise Broken
        n = self.num
        return place(ram, self.desc, 16 * n), place(ram, self.driver, 6 + 2 * n), place(ram, self.device, 6 + 8 * n)

    def waiting(self, ram):
        """How many chains are new."""
        _, driver, _ = self.places(ram)
        count = (int.from_bytes(ram[driver + 2:driver + 4], "little") - self.taken) % 2**16
        if count > MOST:
            raise Broken
        return count

    def chain(self, ram):
        """The next chain: its head, the places of its readable and of its writable bytes, and whether it has descriptors of either kind."""
        desc, driver, _ = self.places(ram)
        entry = driver + 4 + 2 * (self.taken % self.num)
        head = index = int.from_bytes(ram[entry:entry + 2], "little")
        readable, writable, has_readable, has_writable = [], [], False, False
        for _ in range(self.num):
            if index >= self.num:
                raise Broken
            address, length, flags, after = struct.unpack_from("<QIHH", ram, desc + 16 * index)
            if flags & INDIRECT:
                raise Broken
            start = place(ram, address, length) if length else 0
            if flags & WRITE:
                has_writable = True
                writable += range(start, start + length)
            elif has_writable:
                raise Broken
            else:
                has_readable = True
                readable += range(start, start + length)
            if not flags & NEXT:
                return head, readable, writable, has_readable, has_writable
            index = after
        raise Broken

    def put_used(self, ram, head, length):
        _, _, device = self.places(ram)
        entry = device + 4 + 8 * (self.used % self.num)
        ram[entry:entry + 8] = struct.pack("<II", head, length)
        self.taken, self.used = (self.taken + 1) % 2**16, (self.used + 1) % 2**16
        ram[device:device + 4] = struct.pack("<HH", 0, self.used)


def place(ram, address, length):
    at = address - BASE
    if at < 0 or at + length > len(ram):
        raise Broken
    return at


class Device:
    """What both have. A subclass says its number, its features, how many queues it has, its configuration, and what a notify does."""

    IDENTITY, FEATURES, QUEUES = 0, 0, 0

    def __init__(self):
        self.reset()

    def reset(self):
        self.status = self.device_features_sel = self.driver_features_sel = self.driver_features = self.queue_sel = self.interrupts = 0
        self.queues = [Queue() for _ in range(self.QUEUES)]

    def selected(self):
        return self.queues[self.queue_sel] if self.queue_sel < self.QUEUES else None

    def load(self, offset, width):
        """The number that a load gives; None for an access fault."""
        if offset >= 0x100:
            config = self.config()[offset - 0x100:offset - 0x100 + width]
            return int.from_bytes(config, "little")
        if width != 4:
            return None
        queue = self.selected()
        features = self.FEATURES >> 32 * self.device_features_sel & 0xFFFFFFFF if self.device_features_sel < 2 else 0
        return {0x000: 0x74726976, 0x004: 2, 0x008: self.IDENTITY, 0x010: features, 0x034: MOST if queue else 0,
                0x044: queue.ready if queue else 0, 0x060: self.interrupts, 0x070: self.status}.get(offset, 0)

    def store(self, offset, width, value, machine):
        """Whether the store is taken; else it is an access fault."""
        if offset >= 0x100:
            return True
        if width != 4:
            return False
        value &= 0xFFFFFFFF
        if offset == 0x014:
            self.device_features_sel = value
        elif offset == 0x020 and not self.status & FEATURES_OK and self.driver_features_sel < 2:
            self.driver_features = with_word(self.driver_features, self.driver_features_sel, value)
        elif offset == 0x024:
            self.driver_features_sel = value
        elif offset == 0x030:
            self.queue_sel = value
        elif offset == 0x050 and value < self.QUEUES:
            self.notify(value, machine)
        elif offset == 0x064:
            self.interrupts &= ~value
        elif offset == 0x070:
            self.set_status(value)
        elif queue := self.selected():
            self.set_queue(queue, offset, value)
        return True

    @staticmethod
    def set_queue(queue, offset, value):
        if offset == 0x044:
            if not value & 1:
                queue.ready = 0
            elif queue.num and not queue.ready:
                queue.ready, queue.taken, queue.used = 1, 0, 0
        elif queue.ready:
            return
        elif offset == 0x038 and value in (1, 2, 4, 8, 16, 32, 64):
            queue.num = value
        elif offset in (0x080, 0x084):
            queue.desc = with_word(queue.desc, offset >> 2 & 1, value)
        elif offset in (0x090, 0x094):
            queue.driver = with_word(queue.driver, offset >> 2 & 1, value)
        elif offset in (0x0A0, 0x0A4):
            queue.device = with_word(queue.device, offset >> 2 & 1, value)

    def set_status(self, value):
        if value == 0:
            self.reset()
            return
        status = value & KEPT_STATUS | self.status & NEEDS_RESET
        taken = not self.driver_features & ~self.FEATURES and self.driver_features & VERSION_1
        if status & FEATURES_OK and not self.status & FEATURES_OK and not taken:
            status &= ~FEATURES_OK
        self.status = status

    def is_serving(self, queue):
        return self.status & (DRIVER_OK | FEATURES_OK | NEEDS_RESET) == DRIVER_OK | FEATURES_OK and queue.ready

    def break_down(self):
        if self.status & DRIVER_OK:
            self.interrupts |= 2
        self.status |= NEEDS_RESET

    def serve(self, queue, ram, act):
        """Serves each chain that is new; `act` answers how many bytes it wrote."""
        if not self.is_serving(queue):
            return
        try:
            for _ in range(queue.waiting(ram)):
                chain = queue.chain(ram)
                queue.put_used(ram, chain[0], act(*chain[1:]))
                self.interrupts |= 1
        except Broken:
            self.break_down()

    def numbers(self):
        own = [self.status, self.device_features_sel, self.driver_features_sel, self.driver_features, self.queue_sel, self.interrupts]
        return own, [queue.numbers() for queue in self.queues]

    def restore(self, own, queues):
        (self.status, self.device_features_sel, self.driver_features_sel, self.driver_features, self.queue_sel,
         self.interrupts) = own
        for queue, numbers in zip(self.queues, queues):
            queue.restore(numbers)


def with_word(number, which, value):
    """The number with its low or high four bytes set."""
    return number & ~(0xFFFFFFFF << 32 * which) | value << 32 * which


class Card(Device):
    IDENTITY, FEATURES, QUEUES = 1, VERSION_1 | MAC_FEATURE, 2

    def config(self):
        return GUEST_MAC + bytes(8)

    def notify(self, number, machine):
        if number == 1:
            self.serve(self.queues[1], machine.ram, lambda *chain: self.send(machine, *chain))

    @staticmethod
    def send(machine, readable, _, __, has_writable):
        if has_writable:
            raise Broken
        frame = bytes(machine.ram[at] for at in readable[len(HEADER):])
        if SHORTEST <= len(frame) <= LONGEST:
            machine.sent.append(frame)
        return 0

    def arrive(self, frame, ram):
        """A frame arrives: it is put into the next chain, or lost."""
        queue, packet = self.queues[0], HEADER + frame
        if not self.is_serving(queue):
            return
        try:
            if not queue.waiting(ram):
                return
            head, _, writable, has_readable, _ = queue.chain(ram)
            if has_readable:
                raise Broken
            if len(writable) >= len(packet):
                for at, byte in zip(writable, packet):
                    ram[at] = byte
                queue.put_used(ram, head, len(packet))
                self.interrupts |= 1
        except Broken:
            self.break_down()


class Disk(Device):
    IDENTITY, FEATURES, QUEUES = 2, VERSION_1 | FLUSH_FEATURE, 1

    def __init__(self, data):
        super().__init__()
        self.data, self.written = data, set()

    def config(self):
        return struct.pack("<Q", len(self.data) // SECTOR) + bytes(8)

    def notify(self, _, machine):
        self.serve(self.queues[0], machine.ram, lambda *chain: self.request(machine.ram, *chain))

    def request(self, ram, readable, writable, _, __):
        if len(readable) < 16 or not writable:
            raise Broken
        request = bytes(ram[at] for at in readable)
        kind, sector = struct.unpack_from("<I4xQ", request)
        places, data = writable[:-1], request[16:]
        used, status = (0 if places else 1), 0
        if kind == 0:
            if self.has(sector, len(places)):
                for at, byte in zip(places, self.data[SECTOR * sector:]):
                    ram[at] = byte
                used = len(places) + 1
            else:
                status = 1
        elif kind == 1:
            if self.has(sector, len(data)):
                self.data[SECTOR * sector:SECTOR * sector + len(data)] = data
                self.written.update(range(sector, sector + len(data) // SECTOR))
            else:
                status = 1
        elif kind != 4:
            status = 2
        ram[writable[-1]] = status
        return used

    def has(self, sector, length):
        return length % SECTOR == 0 and SECTOR * sector + length <= len(self.data)
