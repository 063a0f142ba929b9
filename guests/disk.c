/* Writes 200 sectors of the disk and reads them back: by the virtio block device (virtio 1.1, section 5.2). It sends one frame to
   client 1 with what it found, where after the addresses and the type 0x88b5 stand the number of requests that failed, and the FNV-1a
   hash of all bytes read, 8 bytes each, the highest first. Requests have 1 to 16 sectors, and their bytes lie in several
   descriptors. It asks the used ring for what is done, and takes no interrupt. Answers the hash. */
#include "virtio.h"

#define SECTOR 512
#define SECTORS 200
#define MOST 16
#define PIECE 1000

/* Types of requests. */
#define IN 0
#define OUT 1
#define FLUSH 4

#define FLUSH_FEATURE (1u << 9)
#define MAC_FEATURE (1u << 5)
#define NETWORK_CARD 1
#define DISK 2
#define TRANSMIT 1
#define HEADER 12

struct request {
    u32 type;
    u32 reserved;
    u64 sector;
};

static struct queue disk_queue;
static struct queue transmit_queue;
static struct request request __attribute__((aligned(8)));
static u8 data[MOST * SECTOR];
static u8 status;
static u8 packet[HEADER + 30];
static u64 failures;

static void describe(u16 i, u64 address, u32 length, u16 flags) {
    struct descriptor *descriptor = &disk_queue.descriptors[i];
    descriptor->address = address;
    descriptor->length = length;
    descriptor->flags = flags;
    descriptor->next = (u16)(i + 1);
}

/* Asks for one request, whose data lies in pieces of 1000 bytes and a rest, and waits until it is done. */
static void do_request(u32 type, u64 sector, u32 count) {
    u16 data_flags = type == IN ? NEXT | WRITE : NEXT;
    u32 length = count * SECTOR;
    u16 i = 0;
    request.type = type;
    request.sector = sector;
    status = 0xff;
    describe(i++, (u64)&request, sizeof request, NEXT);
    for (u32 at = 0; at < length; at += PIECE) {
        u32 rest = length - at;
        describe(i++, (u64)&data[at], rest < PIECE ? rest : PIECE, data_flags);
    }
    describe(i, (u64)&status, 1, WRITE);
    make_available(&disk_queue, 0);
    notify(BLOCK, 0);
    while (!has_used(&disk_queue))
        ;
    struct used_entry entry = take_used(&disk_queue);
    store(BLOCK, INTERRUPT_ACK, load(BLOCK, INTERRUPT_STATUS));
    u32 written = type == IN ? length + 1 : 0;
    if (status != 0 || entry.id != 0 || (type == IN && entry.length != written))
        failures++;
}

/* The byte that stands at a place of the disk: the top byte of a multiple of the place, counted from 1. */
static u8 pattern(u64 place) { return (u8)((place + 1) * 0x9e3779b97f4a7c15 >> 56); }

static void put_big_endian_64(u8 *at, u64 value) {
    for (int i = 0; i < 8; i++)
        at[i] = (u8)(value >> (56 - 8 * i));
}

static void report(u64 hash) {
    static const u8 client_1[6] = {2, 0, 0, 0, 1, 1};
    u8 *frame = packet + HEADER;
    for (int i = 0; i < 6; i++) {
        frame[i] = client_1[i];
        frame[6 + i] = ((volatile u8 *)(NETWORK + CONFIG))[i];
    }
    frame[12] = 0x88;
    frame[13] = 0xb5;
    put_big_endian_64(frame + 14, failures);
    put_big_endian_64(frame + 22, hash);
    struct descriptor *descriptor = &transmit_queue.descriptors[0];
    descriptor->address = (u64)packet;
    descriptor->length = sizeof packet;
    make_available(&transmit_queue, 0);
    notify(NETWORK, TRANSMIT);
}

u64 main(void) {
    if (!negotiate(BLOCK, DISK, FLUSH_FEATURE) || !set_up(BLOCK, 0, &disk_queue)
        || !negotiate(NETWORK, NETWORK_CARD, MAC_FEATURE) || !set_up(NETWORK, TRANSMIT, &transmit_queue))
        return 0;
    start_device(BLOCK);
    start_device(NETWORK);
    u32 count = 1;
    for (u32 sector = 0; sector < SECTORS; sector += count, count = count % MOST + 1) {
        if (count > SECTORS - sector)
            count = SECTORS - sector;
        for (u32 i = 0; i < count * SECTOR; i++)
            data[i] = pattern((u64)sector * SECTOR + i);
        do_request(OUT, sector, count);
    }
    do_request(FLUSH, 0, 0);
    u64 hash = 0xcbf29ce484222325;
    count = MOST;
    for (u32 sector = 0; sector < SECTORS; sector += count, count = count > 1 ? count - 1 : MOST) {
        if (count > SECTORS - sector)
            count = SECTORS - sector;
        for (u32 i = 0; i < count * SECTOR; i++)
            data[i] = 0;
        do_request(IN, sector, count);
        for (u32 i = 0; i < count * SECTOR; i++)
            hash = (hash ^ data[i]) * 0x100000001b3;
    }
    report(hash);
    return hash;
}
