// Tries demo/page/module/glue.c, built for this machine: its heap, beside what was put into each block; its copies, beside the C library's; and
// its product, beside the compiler's. The module's memory is a stretch of this process at a fixed address. tests/gate/page compiles both.
#include <stdio.h>
#include <stdlib.h>
#include <string.h>
#include <sys/mman.h>

#define BASE 0x40000000ul
#define MOST_PAGES 4096ul
enum { BLOCKS = 400, ROUNDS = 200000, COPIES = 20000 };

static unsigned long pages_grown = 1;

unsigned long pages_there(void) { return BASE / 65536 + pages_grown; }

unsigned long grow_pages(unsigned long more) {
    if (more > MOST_PAGES - pages_grown) return ~0ul;
    pages_grown += more;
    return 0;
}

struct tried {
    unsigned long is_there;
    unsigned char *at;
};
struct tried rattle_alloc(unsigned long, unsigned long);
struct tried rattle_realloc(void *, unsigned long, unsigned long, unsigned long);
void rattle_dealloc(void *);
void *glue_memcpy(void *, const void *, unsigned long);
void *glue_memmove(void *, const void *, unsigned long);
void *glue_memset(void *, int, unsigned long);
int glue_memcmp(const void *, const void *, unsigned long);
__int128 glue_multi3(__int128, __int128);

static struct {
    unsigned char *at, mark;
    unsigned long size;
} blocks[BLOCKS];

static void expect(int holds, const char *what) {
    if (holds) return;
    printf("%s\n", what);
    exit(1);
}

static unsigned long some(unsigned long below) { return ((unsigned long)random() << 31 ^ (unsigned long)random()) % below; }

static void check(int k) {
    for (unsigned long n = 0; n < blocks[k].size; n++) expect(blocks[k].at[n] == blocks[k].mark, "a block was written over");
}

static void heap(void) {
    for (int round = 0; round < ROUNDS; round++) {
        int k = (int)some(BLOCKS);
        unsigned long size = some(some(20) ? 300 : 200000), kept = blocks[k].size < size ? blocks[k].size : size;
        if (!blocks[k].at || some(3)) check(k);
        if (!blocks[k].at) {
            struct tried tried = rattle_alloc(size, 8);
            expect(tried.is_there == 1 && (unsigned long)tried.at % 16 == 0, "a block that isn't there, or not in its place");
            blocks[k].at = tried.at;
        } else if (some(2)) {
            rattle_dealloc(blocks[k].at);
            blocks[k].at = 0;
            size = 0;
        } else {
            struct tried tried = rattle_realloc(blocks[k].at, blocks[k].size, size, 8);
            expect(tried.is_there == 1, "a block that can't change its size");
            blocks[k].at = tried.at, blocks[k].size = kept;
            check(k);
        }
        blocks[k].size = size, blocks[k].mark = (unsigned char)random();
        if (size) memset(blocks[k].at, blocks[k].mark, size);
    }
    expect(pages_grown < MOST_PAGES / 2, "what is given back isn't taken again");
    expect(rattle_alloc(1ul << 40, 8).is_there == 0, "a block of a terabyte");
    expect(rattle_alloc((MOST_PAGES + 1) * 65536, 8).is_there == 0, "a block that the memory can't grow by");
    expect(rattle_alloc(0, 8).is_there == 1, "a block of no bytes");
}

static void copies(void) {
    static unsigned char one[600], other[600];
    for (int round = 0; round < COPIES; round++) {
        unsigned long from = some(200), to = some(200), count = some(300);
        for (int n = 0; n < 600; n++) one[n] = other[n] = (unsigned char)random();
        expect(glue_memmove(one + to, one + from, count) == one + to, "what memmove answers");
        memmove(other + to, other + from, count);
        expect(memcmp(one, other, 600) == 0, "memmove");
        glue_memcpy(one, one + 300, count);
        memcpy(other, other + 300, count);
        glue_memset(one + to, (int)from, count);
        memset(other + to, (int)from, count);
        expect(memcmp(one, other, 600) == 0, "memcpy and memset");
        one[to] ^= (unsigned char)some(2);
        int wanted = memcmp(one + to, other + to, count), came = glue_memcmp(one + to, other + to, count);
        expect((came > 0) == (wanted > 0) && (came < 0) == (wanted < 0), "memcmp");
    }
}

static void products(void) {
    for (int round = 0; round < 100000; round++) {
        __int128 a = 0, b = 0;
        for (int part = 0; part < 5; part++) a = (__int128)((unsigned __int128)a << 31 ^ some(1ul << 31)), b = (__int128)((unsigned __int128)b << 31 ^ some(1ul << 31));
        if (round % 3 == 0) a = (__int128)(unsigned long)a;
        if (round % 5 == 0) b = -(__int128)(unsigned long)b;
        expect(glue_multi3(a, b) == (__int128)((unsigned __int128)a * (unsigned __int128)b), "a product");
    }
}

int main(void) {
    void *at = mmap((void *)BASE, MOST_PAGES * 65536, PROT_READ | PROT_WRITE, MAP_PRIVATE | MAP_ANONYMOUS | MAP_FIXED_NOREPLACE | MAP_NORESERVE, -1, 0);
    expect(at == (void *)BASE, "no memory at that address");
    heap();
    copies();
    products();
    return 0;
}
