// What the module of the page has in the place of a C library: a heap, copies of bytes, and a product of 128 bits. And its exports, by which
// a page plays the lines of a session. tools/targets compiles it beside the program.
typedef unsigned long word;
typedef unsigned char byte;

// ---- the heap. A block has a size of its class, of which there are four to a power of two, and goes back to the list of its class.
enum { HEAD = 16, SMALLEST = 64, CLASSES = 4 * 40, PAGE = 65536, PAGES_AT_ONCE = 64 };
#define MOST (1ul << 34)

struct block {
    word class;
    struct block *next;
};

extern byte __heap_base;
static struct block *freed[CLASSES];
static byte *top, *end;

// Of class 4k + j: (4 + j) * 2^k times a quarter of the smallest.
static word size_of(word class) { return (4 + (class & 3)) * (SMALLEST / 4) << (class >> 2); }

static word class_of(word size) {
    word class = 0;
    if (size > SMALLEST) class = (word)(57 - __builtin_clzl(size - 1)) * 4 + ((size - 1) >> (61 - __builtin_clzl(size - 1)) & 3) + 1;
    return class;
}

// Bytes that nobody has had, or null where the memory can't grow by so many.
static byte *fresh(word size) {
    if (!top) {
        top = (byte *)(((word)&__heap_base + HEAD - 1) & ~(word)(HEAD - 1));
        end = (byte *)(__builtin_wasm_memory_size(0) * PAGE);
    }
    word left = (word)(end - top);
    if (left < size) {
        word pages = (size - left + PAGE - 1) / PAGE;
        if (pages < PAGES_AT_ONCE) pages = PAGES_AT_ONCE;
        if (__builtin_wasm_memory_grow(0, pages) == ~0ul) return 0;
        end += pages * PAGE;
    }
    byte *at = top;
    top += size;
    return at;
}

static struct block *block_of(void *at) { return (struct block *)((byte *)at - HEAD); }

static word room_of(void *at) { return size_of(block_of(at)->class) - HEAD; }

static void *take(word size) {
    if (size > MOST) return 0;
    word class = class_of(size + HEAD);
    struct block *block = freed[class];
    if (block) {
        freed[class] = block->next;
    } else {
        block = (struct block *)fresh(size_of(class));
        if (!block) return 0;
        block->class = class;
    }
    return (byte *)block + HEAD;
}

static void give(void *at) {
    if (!at) return;
    struct block *block = block_of(at);
    block->next = freed[block->class];
    freed[block->class] = block;
}

// Whether there was memory, and where. `at` is never null, also where there was none.
struct tried {
    word is_there;
    void *at;
};

static byte nothing;

static struct tried tried(void *at) { return (struct tried){at != 0, at ? at : &nothing}; }

// A block of no bytes is as large as its alignment.
struct tried rattle_alloc(word size, word align) { return tried(take(size ? size : align)); }

void rattle_dealloc(void *at) { give(at); }

struct tried rattle_realloc(void *at, word kept, word size, word align) {
    if (!size) size = align;
    if (size <= room_of(at) && room_of(at) / 2 <= size + SMALLEST) return tried(at);
    void *other = take(size);
    if (other) {
        __builtin_memcpy(other, at, kept < size ? kept : size);
        give(at);
    }
    return tried(other);
}

// ---- copies. Few bytes are copied here, since an engine's own copy is a call.
enum { FEW = 128 };
typedef word __attribute__((aligned(1), may_alias)) part;

void *memcpy(void *restrict to, const void *restrict from, word count) {
    if (count > FEW) return __builtin_memcpy(to, from, count);
    byte *t = to;
    const byte *f = from;
    for (; count >= 8; count -= 8, t += 8, f += 8) *(part *)t = *(const part *)f;
    for (; count; count--) *t++ = *f++;
    return to;
}

void *memmove(void *to, const void *from, word count) {
    if (count > FEW) return __builtin_memmove(to, from, count);
    byte *t = to;
    const byte *f = from;
    if (t <= f) {
        for (; count >= 8; count -= 8, t += 8, f += 8) *(part *)t = *(const part *)f;
        for (; count; count--) *t++ = *f++;
    } else {
        for (t += count, f += count; count >= 8; count -= 8) t -= 8, f -= 8, *(part *)t = *(const part *)f;
        for (; count; count--) *--t = *--f;
    }
    return to;
}

void *memset(void *to, int value, word count) {
    if (count > FEW) return __builtin_memset(to, value, count);
    for (byte *t = to; count; count--) *t++ = (byte)value;
    return to;
}

int memcmp(const void *one, const void *other, word count) {
    const byte *a = one, *b = other;
    for (; count; count--, a++, b++)
        if (*a != *b) return *a - *b;
    return 0;
}

// The product of two numbers of 128 bits, modulo 2^128.
__int128 __multi3(__int128 one, __int128 other) {
    const word half = 0xffffffff, a = (word)one, b = (word)other;
    word low = (a & half) * (b & half), cross = (a >> 32) * (b & half) + (low >> 32), other_cross = (a & half) * (b >> 32) + (cross & half);
    word high = (a >> 32) * (b >> 32) + (cross >> 32) + (other_cross >> 32);
    high += a * (word)(other >> 64) + (word)(one >> 64) * b;
    return (__int128)((unsigned __int128)high << 64 | (other_cross << 32 | (low & half)));
}

// ---- what the page calls besides the functions of a session (exports.ll)

// Room for a line; null where there is none. The page keeps it, and asks for more only where a line is longer.
void *page_room(word bytes) { return take(bytes); }
