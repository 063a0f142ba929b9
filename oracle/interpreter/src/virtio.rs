//! The two virtio devices: MMIO transport version 2, split virtqueues, network and block.

use crate::hart::RAM_BASE;
use crate::images::Fold;
use std::collections::BTreeSet;

const ACKNOWLEDGE_TO_FEATURES_OK: u32 = 0x8f;
const DRIVER_OK: u32 = 4;
const FEATURES_OK: u32 = 8;
const NEEDS_RESET: u32 = 64;
const VERSION_1: u64 = 1 << 32;
const MAC_FEATURE: u64 = 1 << 5;
const FLUSH_FEATURE: u64 = 1 << 9;
const MAC: [u8; 6] = [2, 0, 0, 0, 0, 1];
const NEXT: u16 = 1;
const WRITE: u16 = 2;
const INDIRECT: u16 = 4;
const HEADER: usize = 12;
const SHORTEST: usize = 14;
const LONGEST: usize = 1514;
const MOST: u16 = 64;

#[derive(Clone)]
pub enum Kind {
    Network,
    /// The bytes of the disk.
    Block(Vec<u8>),
}

#[derive(Clone, Copy, Default)]
struct Queue {
    num: u16,
    ready: bool,
    desc: u64,
    driver: u64,
    device: u64,
    available: u16,
    used: u16,
}

#[derive(Clone)]
pub struct Device {
    pub kind: Kind,
    status: u32,
    device_features_sel: u32,
    driver_features_sel: u32,
    driver_features: u64,
    queue_sel: u32,
    pub interrupt_status: u32,
    queues: [Queue; 2],
    /// The sectors that were written.
    written: BTreeSet<u32>,
}

impl Device {
    /// Becomes a copy of another device, in the memory that this one has.
    pub fn copy_from(&mut self, other: &Device) {
        let mut kind = std::mem::replace(&mut self.kind, Kind::Network);
        match (&mut kind, &other.kind) {
            (Kind::Block(mine), Kind::Block(theirs)) => mine.clone_from(theirs),
            (_, theirs) => kind = theirs.clone(),
        }
        *self = Device {
            kind,
            written: other.written.clone(),
            ..*other
        };
    }
}

/// A chain: its head, and the places of its readable and writable bytes in memory.
struct Chain {
    head: u16,
    readable: Vec<usize>,
    writable: Vec<usize>,
    has_readable: bool,
    has_writable: bool,
}

/// A malformed chain or ring.
struct Broken;

impl Device {
    pub fn boot(kind: Kind) -> Device {
        Device {
            kind,
            status: 0,
            device_features_sel: 0,
            driver_features_sel: 0,
            driver_features: 0,
            queue_sel: 0,
            interrupt_status: 0,
            queues: [Queue::default(); 2],
            written: BTreeSet::new(),
        }
    }

    /// The bytes of the disk.
    pub fn bytes(&self) -> Option<&[u8]> {
        match &self.kind {
            Kind::Block(bytes) => Some(bytes),
            Kind::Network => None,
        }
    }

    /// Writes the record's numbers in the order of a checkpoint.
    pub fn fill(&self, numbers: &mut [u64]) {
        numbers[..6].copy_from_slice(&[
            self.status.into(),
            self.device_features_sel.into(),
            self.driver_features_sel.into(),
            self.driver_features,
            self.queue_sel.into(),
            self.interrupt_status.into(),
        ]);
        for (queue, numbers) in self.queues.iter().zip(numbers[6..].chunks_exact_mut(7)) {
            numbers.copy_from_slice(&[
                queue.num.into(),
                queue.ready.into(),
                queue.desc,
                queue.driver,
                queue.device,
                queue.available.into(),
                queue.used.into(),
            ]);
        }
    }

    /// Takes the record's numbers, in the order of a checkpoint.
    pub fn restore(&mut self, numbers: &[u64]) {
        self.status = numbers[0] as u32;
        self.device_features_sel = numbers[1] as u32;
        self.driver_features_sel = numbers[2] as u32;
        self.driver_features = numbers[3];
        self.queue_sel = numbers[4] as u32;
        self.interrupt_status = numbers[5] as u32;
        for (queue, numbers) in self.queues.iter_mut().zip(numbers[6..].chunks_exact(7)) {
            *queue = Queue {
                num: numbers[0] as u16,
                ready: numbers[1] != 0,
                desc: numbers[2],
                driver: numbers[3],
                device: numbers[4],
                available: numbers[5] as u16,
                used: numbers[6] as u16,
            };
        }
    }

    /// The sectors that were written since they were asked for last, rising.
    pub fn take_written(&mut self) -> BTreeSet<u32> {
        std::mem::take(&mut self.written)
    }

    /// Folds the record.
    pub fn fold(&self, fold: &mut Fold) {
        for value in [self.status, self.device_features_sel, self.driver_features_sel] {
            fold.add(value.into());
        }
        fold.add(self.driver_features);
        fold.add(self.queue_sel.into());
        fold.add(self.interrupt_status.into());
        for queue in &self.queues {
            fold.add(queue.num.into());
            fold.add(queue.ready.into());
            for value in [queue.desc, queue.driver, queue.device] {
                fold.add(value);
            }
            fold.add(queue.available.into());
            fold.add(queue.used.into());
        }
    }

    fn offered(&self) -> u64 {
        match self.kind {
            Kind::Network => VERSION_1 | MAC_FEATURE,
            Kind::Block(_) => VERSION_1 | FLUSH_FEATURE,
        }
    }

    fn queue_count(&self) -> u32 {
        match self.kind {
            Kind::Network => 2,
            Kind::Block(_) => 1,
        }
    }

    fn selected(&mut self) -> Option<&mut Queue> {
        if self.queue_sel < self.queue_count() {
            Some(&mut self.queues[self.queue_sel as usize])
        } else {
            None
        }
    }

    fn config_byte(&self, at: u64) -> u8 {
        match &self.kind {
            Kind::Network => MAC.get(at as usize).copied().unwrap_or(0),
            Kind::Block(bytes) => {
                let capacity = (bytes.len() as u64 / 512).to_le_bytes();
                capacity.get(at as usize).copied().unwrap_or(0)
            }
        }
    }

    /// A load from a register. `None` is an access fault.
    pub fn load(&mut self, offset: u64, width: usize) -> Option<u64> {
        if offset >= 0x100 {
            let bytes = (0..width as u64).rev();
            return Some(bytes.fold(0, |sum, i| {
                sum << 8 | u64::from(self.config_byte(offset - 0x100 + i))
            }));
        }
        if width != 4 {
            return None;
        }
        let value = match offset {
            0x000 => 0x7472_6976,
            0x004 => 2,
            0x008 => match self.kind {
                Kind::Network => 1,
                Kind::Block(_) => 2,
            },
            0x010 => match self.device_features_sel {
                0 => self.offered() as u32,
                1 => (self.offered() >> 32) as u32,
                _ => 0,
            },
            0x034 => self.selected().map_or(0, |_| u32::from(MOST)),
            0x044 => self.selected().map_or(0, |queue| u32::from(queue.ready)),
            0x060 => self.interrupt_status,
            0x070 => self.status,
            _ => 0,
        };
        Some(u64::from(value))
    }

    /// A store to a register, and the queue that it notifies. `None` is an access fault.
    pub fn store(&mut self, offset: u64, width: usize, value: u64) -> Option<Option<usize>> {
        if offset >= 0x100 {
            return Some(None);
        }
        if width != 4 {
            return None;
        }
        let value = value as u32;
        match offset {
            0x014 => self.device_features_sel = value,
            0x020 if self.status & FEATURES_OK == 0 => {
                let low = self.driver_features & 0xffff_ffff;
                let high = self.driver_features >> 32;
                self.driver_features = match self.driver_features_sel {
                    0 => high << 32 | u64::from(value),
                    1 => u64::from(value) << 32 | low,
                    _ => self.driver_features,
                };
            }
            0x024 => self.driver_features_sel = value,
            0x030 => self.queue_sel = value,
            0x044 => {
                if let Some(queue) = self.selected() {
                    let ready = value & 1 == 1;
                    if ready && !queue.ready && queue.num != 0 {
                        queue.available = 0;
                        queue.used = 0;
                        queue.ready = true;
                    } else if !ready {
                        queue.ready = false;
                    }
                }
            }
            0x050 => {
                if value < self.queue_count() {
                    return Some(Some(value as usize));
                }
            }
            0x064 => self.interrupt_status &= !value,
            0x070 => self.set_status(value),
            0x038 | 0x080 | 0x084 | 0x090 | 0x094 | 0x0a0 | 0x0a4 => self.set_area(offset, value),
            _ => {}
        }
        Some(None)
    }

    /// What may be set only while the queue isn't ready.
    fn set_area(&mut self, offset: u64, value: u32) {
        let Some(queue) = self.selected() else { return };
        if queue.ready {
            return;
        }
        let low = |old: u64| old >> 32 << 32 | u64::from(value);
        let high = |old: u64| u64::from(value) << 32 | old & 0xffff_ffff;
        match offset {
            0x038 if value.is_power_of_two() && value <= u32::from(MOST) => {
                queue.num = value as u16
            }
            0x080 => queue.desc = low(queue.desc),
            0x084 => queue.desc = high(queue.desc),
            0x090 => queue.driver = low(queue.driver),
            0x094 => queue.driver = high(queue.driver),
            0x0a0 => queue.device = low(queue.device),
            0x0a4 => queue.device = high(queue.device),
            _ => {}
        }
    }

    fn set_status(&mut self, value: u32) {
        if value == 0 {
            let kind = std::mem::replace(&mut self.kind, Kind::Network);
            let written = self.take_written();
            *self = Device {
                written,
                ..Device::boot(kind)
            };
            return;
        }
        let mut status = value & ACKNOWLEDGE_TO_FEATURES_OK | self.status & NEEDS_RESET;
        let is_accepted =
            self.driver_features & !self.offered() == 0 && self.driver_features & VERSION_1 != 0;
        if status & FEATURES_OK != 0 && self.status & FEATURES_OK == 0 && !is_accepted {
            status &= !FEATURES_OK;
        }
        self.status = status;
    }

    fn is_serving(&self, queue: usize) -> bool {
        let wanted = DRIVER_OK | FEATURES_OK;
        self.status & (wanted | NEEDS_RESET) == wanted && self.queues[queue].ready
    }

    fn break_down(&mut self) {
        if self.status & DRIVER_OK != 0 {
            self.interrupt_status |= 2;
        }
        self.status |= NEEDS_RESET;
    }

    /// Serves the network's queue 1: each chain is a frame that is sent.
    pub fn transmit(&mut self, queue: usize, ram: &mut [u8], sent: &mut Vec<Vec<u8>>) {
        if queue != 1 || !self.is_serving(queue) {
            return;
        }
        let served = self.queues[queue].serve(ram, |chain, ram| {
            if chain.has_writable {
                return Err(Broken);
            }
            let frame: Vec<u8> = chain
                .readable
                .iter()
                .skip(HEADER)
                .map(|at| ram[*at])
                .collect();
            if (SHORTEST..=LONGEST).contains(&frame.len()) {
                sent.push(frame);
            }
            Ok(0)
        });
        self.finish(served);
    }

    /// A frame arrives at the network's queue 0. Answers whether the guest got it.
    pub fn arrive(&mut self, ram: &mut [u8], frame: &[u8]) -> bool {
        if !self.is_serving(0) {
            return false;
        }
        let mut packet = vec![0; HEADER];
        packet[10] = 1;
        packet.extend_from_slice(frame);
        match self.queues[0].receive(ram, &packet) {
            Ok(is_taken) => {
                if is_taken {
                    self.interrupt_status |= 1;
                }
                is_taken
            }
            Err(Broken) => {
                self.break_down();
                false
            }
        }
    }

    /// Serves the disk's queue: each chain is a request.
    pub fn serve_blocks(&mut self, queue: usize, ram: &mut [u8]) {
        if queue != 0 || !self.is_serving(queue) {
            return;
        }
        let Kind::Block(disk) = &mut self.kind else {
            return;
        };
        let written = &mut self.written;
        let served =
            self.queues[queue].serve(ram, |chain, ram| serve_request(disk, written, chain, ram));
        self.finish(served);
    }

    fn finish(&mut self, (served, outcome): (usize, Result<(), Broken>)) {
        if served > 0 {
            self.interrupt_status |= 1;
        }
        if outcome.is_err() {
            self.break_down();
        }
    }
}

/// A request of the block device. Answers how many bytes were written from the front.
fn serve_request(
    disk: &mut [u8],
    written: &mut BTreeSet<u32>,
    chain: &Chain,
    ram: &mut [u8],
) -> Result<u32, Broken> {
    let Some((status_at, places)) = chain.writable.split_last() else {
        return Err(Broken);
    };
    if chain.readable.len() < 16 {
        return Err(Broken);
    }
    let request: Vec<u8> = chain.readable.iter().map(|at| ram[*at]).collect();
    let kind = u32::from_le_bytes(request[..4].try_into().unwrap());
    let sector = u64::from_le_bytes(request[8..16].try_into().unwrap());
    let data = &request[16..];
    let alone = u32::from(places.is_empty());
    let range = |length: usize| {
        let start = usize::try_from(sector).ok()?.checked_mul(512)?;
        let end = start.checked_add(length)?;
        (length % 512 == 0 && end <= disk.len()).then_some(start..end)
    };
    let (status, used) = match kind {
        0 => match range(places.len()) {
            Some(range) => {
                for (at, byte) in places.iter().zip(&disk[range]) {
                    ram[*at] = *byte;
                }
                (0, places.len() as u32 + 1)
            }
            None => (1, alone),
        },
        1 => match range(data.len()) {
            Some(range) => {
                disk[range.clone()].copy_from_slice(data);
                written.extend((range.start / 512) as u32..(range.end / 512) as u32);
                (0, alone)
            }
            None => (1, alone),
        },
        4 => (0, alone),
        _ => (2, alone),
    };
    ram[*status_at] = status;
    Ok(used)
}

fn place(ram: &[u8], address: u64, length: usize) -> Result<usize, Broken> {
    let at = address.checked_sub(RAM_BASE).ok_or(Broken)? as usize;
    match at.checked_add(length) {
        Some(end) if end <= ram.len() => Ok(at),
        _ => Err(Broken),
    }
}

fn le16(ram: &[u8], at: usize) -> u16 {
    u16::from_le_bytes([ram[at], ram[at + 1]])
}

impl Queue {
    fn areas(&self, ram: &[u8]) -> Result<(usize, usize, usize), Broken> {
        if self.desc % 16 != 0 || self.driver % 2 != 0 || self.device % 4 != 0 {
            return Err(Broken);
        }
        let n = usize::from(self.num);
        Ok((
            place(ram, self.desc, 16 * n)?,
            place(ram, self.driver, 6 + 2 * n)?,
            place(ram, self.device, 6 + 8 * n)?,
        ))
    }

    /// How many chains are available.
    fn count(&self, ram: &[u8]) -> Result<u16, Broken> {
        let (_, driver, _) = self.areas(ram)?;
        let count = le16(ram, driver + 2).wrapping_sub(self.available);
        if count > MOST {
            return Err(Broken);
        }
        Ok(count)
    }

    fn chain(&self, ram: &[u8]) -> Result<Chain, Broken> {
        let (desc, driver, _) = self.areas(ram)?;
        let head = le16(ram, driver + 4 + 2 * usize::from(self.available % self.num));
        let mut chain = Chain {
            head,
            readable: Vec::new(),
            writable: Vec::new(),
            has_readable: false,
            has_writable: false,
        };
        let mut index = head;
        for _ in 0..self.num {
            if index >= self.num {
                return Err(Broken);
            }
            let entry = &ram[desc + 16 * usize::from(index)..][..16];
            let address = u64::from_le_bytes(entry[..8].try_into().unwrap());
            let length = u32::from_le_bytes(entry[8..12].try_into().unwrap()) as usize;
            let flags = u16::from_le_bytes([entry[12], entry[13]]);
            if flags & INDIRECT != 0 {
                return Err(Broken);
            }
            let start = if length == 0 {
                0
            } else {
                place(ram, address, length)?
            };
            if flags & WRITE != 0 {
                chain.has_writable = true;
                chain.writable.extend(start..start + length);
            } else if !chain.has_writable {
                chain.has_readable = true;
                chain.readable.extend(start..start + length);
            } else {
                return Err(Broken);
            }
            if flags & NEXT == 0 {
                return Ok(chain);
            }
            index = u16::from_le_bytes([entry[14], entry[15]]);
        }
        Err(Broken)
    }

    fn put_used(&mut self, ram: &mut [u8], head: u16, length: u32) -> Result<(), Broken> {
        let (_, _, device) = self.areas(ram)?;
        let entry = device + 4 + 8 * usize::from(self.used % self.num);
        ram[entry..entry + 4].copy_from_slice(&u32::from(head).to_le_bytes());
        ram[entry + 4..entry + 8].copy_from_slice(&length.to_le_bytes());
        self.available = self.available.wrapping_add(1);
        self.used = self.used.wrapping_add(1);
        ram[device..device + 2].fill(0);
        ram[device + 2..device + 4].copy_from_slice(&self.used.to_le_bytes());
        Ok(())
    }

    /// Serves each chain that was available at the start. Answers how many were served, and whether one was malformed.
    fn serve(
        &mut self,
        ram: &mut [u8],
        mut act: impl FnMut(&Chain, &mut [u8]) -> Result<u32, Broken>,
    ) -> (usize, Result<(), Broken>) {
        let count = match self.count(ram) {
            Ok(count) => count,
            Err(broken) => return (0, Err(broken)),
        };
        for served in 0..usize::from(count) {
            let outcome = self.chain(ram).and_then(|chain| {
                let length = act(&chain, ram)?;
                self.put_used(ram, chain.head, length)
            });
            if let Err(broken) = outcome {
                return (served, Err(broken));
            }
        }
        (usize::from(count), Ok(()))
    }

    /// Puts a packet into the next chain. Answers whether there was one that is long enough.
    fn receive(&mut self, ram: &mut [u8], packet: &[u8]) -> Result<bool, Broken> {
        if self.count(ram)? == 0 {
            return Ok(false);
        }
        let chain = self.chain(ram)?;
        if chain.has_readable {
            return Err(Broken);
        }
        if chain.writable.len() < packet.len() {
            return Ok(false);
        }
        for (at, byte) in chain.writable.iter().zip(packet) {
            ram[*at] = *byte;
        }
        self.put_used(ram, chain.head, packet.len() as u32)?;
        Ok(true)
    }
}
