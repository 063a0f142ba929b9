// What the program for aarch64 has of C beside the C library: where it starts, and the six functions that Rattle's libraries call. The kit
// has these for x86-64 alone. tests/gate/arm64 tries the six, built for this machine with -DFOR_A_TEST.
typedef unsigned long word;
typedef long signed_word;

extern void *malloc(word size);
extern void *realloc(void *block, word size);
extern void free(void *block);
extern int *__errno_location(void);

// Whether there was memory, and where. `at` is never null, also where there was none.
struct tried {
    word is_there;
    void *at;
};

static char nothing;

static struct tried tried(void *block) { return (struct tried){block != 0, block ? block : &nothing}; }

// A block of no bytes is as large as its alignment.
struct tried rattle_alloc(word size, word align) { return tried(malloc(size ? size : align)); }

struct tried rattle_realloc(void *block, word kept, word size, word align) {
    (void)kept;
    return tried(realloc(block, size ? size : align));
}

void rattle_dealloc(void *block) { free(block); }

int rattle_errno(void) { return *__errno_location(); }

void rattle_set_errno(int error) { *__errno_location() = error; }

// The words of the command line, the program's name first. The loader calls `keep` before `main`.
static word count;
static char **words;

static void keep(int given, char **at) {
    count = given > 0 ? (word)given : 0;
    words = at;
}

__attribute__((section(".init_array"), used)) static void (*const keeps)(int, char **) = keep;

// Puts the word of that number into the buffer, without its zero byte, and answers its length: -1 where there is no such word, and -2
// where it is longer than the buffer.
signed_word rattle_arg(word number, char *buffer, word room) {
    if (number >= count || !words[number]) return -1;
    word length = 0;
    for (const char *from = words[number]; from[length]; length++) {
        if (length == room) return -2;
        buffer[length] = from[length];
    }
    return (signed_word)length;
}

#ifndef FOR_A_TEST
// Where the kernel, or the loader, hands over: the stack begins with the words' count and then the words, and register 0 has what is to be
// called at the end. __libc_start_main wants main, the count, the words, two functions for C libraries before 2.34, the last, and the stack.
__attribute__((naked, noreturn)) void _start(void) {
    __asm__("mov x29, #0\n"
            "mov x30, #0\n"
            "mov x5, x0\n"
            "ldr x1, [sp]\n"
            "add x2, sp, #8\n"
            "mov x6, sp\n"
            "adrp x0, main\n"
            "add x0, x0, :lo12:main\n"
            "mov x3, #0\n"
            "mov x4, #0\n"
            "bl __libc_start_main\n"
            "bl abort\n");
}
#endif
