/* What drivers need of virtio 1.1: the registers of the MMIO transport (section 4.2.2), the split virtqueue (2.6), and the
   steps of device initialization (3.1.1). */
#ifndef VIRTIO_H
#define VIRTIO_H

typedef unsigned char u8;
typedef unsigned short u16;
typedef unsigned int u32;
typedef unsigned long u64;

#define NETWORK 0x10001000UL
#define BLOCK 0x10002000UL

/* Registers, by their offset. */
#define MAGIC 0x000
#define VERSION 0x004
#define DEVICE_ID 0x008
#define DEVICE_FEATURES 0x010
#define DEVICE_FEATURES_SEL 0x014
#define DRIVER_FEATURES 0x020
#define DRIVER_FEATURES_SEL 0x024
#define QUEUE_SEL 0x030
#define QUEUE_NUM_MAX 0x034
#define QUEUE_NUM 0x038
#define QUEUE_READY 0x044
#define QUEUE_NOTIFY 0x050
#define INTERRUPT_STATUS 0x060
#define INTERRUPT_ACK 0x064
#define STATUS 0x070
#define QUEUE_DESC 0x080
#define QUEUE_DRIVER 0x090
#define QUEUE_DEVICE 0x0a0
#define CONFIG 0x100

/* Bits of Status. */
#define ACKNOWLEDGE 1
#define DRIVER 2
#define DRIVER_OK 4
#define FEATURES_OK 8
#define FAILED 128

/* Features: VERSION_1 is bit 32, so bit 0 of the second word. */
#define VERSION_1_HIGH 1

#define MAGIC_VALUE 0x74726976
#define QUEUE_SIZE 64

/* Flags of a descriptor. */
#define NEXT 1
#define WRITE 2

struct descriptor {
    u64 address;
    u32 length;
    u16 flags;
    u16 next;
};

struct available {
    u16 flags;
    u16 index;
    u16 ring[QUEUE_SIZE];
    u16 used_event;
};

struct used_entry {
    u32 id;
    u32 length;
};

struct used {
    u16 flags;
    u16 index;
    struct used_entry ring[QUEUE_SIZE];
    u16 available_event;
};

/* A queue: the three areas, aligned as 2.6 asks, and how far the driver has read the used ring. */
struct queue {
    struct descriptor descriptors[QUEUE_SIZE] __attribute__((aligned(16)));
    struct available available __attribute__((aligned(2)));
    struct used used __attribute__((aligned(4)));
    u16 seen;
};

static inline u32 load(u64 device, u32 offset) { return *(volatile u32 *)(device + offset); }

static inline void store(u64 device, u32 offset, u32 value) { *(volatile u32 *)(device + offset) = value; }

/* Orders what the device reads before it is told to, and what it wrote before that is read (2.6.13). */
static inline void fence(void) { __asm__ volatile("fence" ::: "memory"); }

static inline void store_wide(u64 device, u32 offset, u64 value) {
    store(device, offset, (u32)value);
    store(device, offset + 4, (u32)(value >> 32));
}

/* The first steps of 3.1.1: reset to FEATURES_OK, with `features` of the first 32 bits and VERSION_1. Answers whether
   the device accepted them. */
static __attribute__((unused)) int negotiate(u64 device, u32 id, u32 features) {
    if (load(device, MAGIC) != MAGIC_VALUE || load(device, VERSION) != 2 || load(device, DEVICE_ID) != id)
        return 0;
    store(device, STATUS, 0);
    store(device, STATUS, ACKNOWLEDGE);
    store(device, STATUS, ACKNOWLEDGE | DRIVER);
    store(device, DEVICE_FEATURES_SEL, 0);
    u32 low = load(device, DEVICE_FEATURES) & features;
    store(device, DEVICE_FEATURES_SEL, 1);
    u32 high = load(device, DEVICE_FEATURES) & VERSION_1_HIGH;
    store(device, DRIVER_FEATURES_SEL, 0);
    store(device, DRIVER_FEATURES, low);
    store(device, DRIVER_FEATURES_SEL, 1);
    store(device, DRIVER_FEATURES, high);
    store(device, STATUS, ACKNOWLEDGE | DRIVER | FEATURES_OK);
    return (load(device, STATUS) & FEATURES_OK) != 0;
}

/* Sets up a queue (4.2.3.2). Answers whether the device has it, at its full size. */
static __attribute__((unused)) int set_up(u64 device, u32 number, struct queue *queue) {
    store(device, QUEUE_SEL, number);
    if (load(device, QUEUE_READY) != 0 || load(device, QUEUE_NUM_MAX) < QUEUE_SIZE)
        return 0;
    store(device, QUEUE_NUM, QUEUE_SIZE);
    store_wide(device, QUEUE_DESC, (u64)queue->descriptors);
    store_wide(device, QUEUE_DRIVER, (u64)&queue->available);
    store_wide(device, QUEUE_DEVICE, (u64)&queue->used);
    store(device, QUEUE_READY, 1);
    return 1;
}

/* The device may use the queues from now on. */
static inline void start_device(u64 device) {
    store(device, STATUS, ACKNOWLEDGE | DRIVER | FEATURES_OK | DRIVER_OK);
}

/* Makes the chain that begins at `head` available (2.6.13); `notify` tells the device. */
static inline void make_available(struct queue *queue, u16 head) {
    queue->available.ring[queue->available.index % QUEUE_SIZE] = head;
    fence();
    ((volatile struct available *)&queue->available)->index = queue->available.index + 1;
}

static inline void notify(u64 device, u32 number) {
    fence();
    store(device, QUEUE_NOTIFY, number);
}

/* Whether the device has used a chain that the driver has not seen (2.6.14). */
static inline int has_used(struct queue *queue) {
    u16 index = ((volatile struct used *)&queue->used)->index;
    fence();
    return index != queue->seen;
}

static inline struct used_entry take_used(struct queue *queue) {
    return queue->used.ring[queue->seen++ % QUEUE_SIZE];
}

#endif
