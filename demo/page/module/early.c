// What the module with the wrong gate has besides: the frames that were handed out, until the page has taken them.
typedef unsigned long word;
typedef unsigned char byte;

enum { FRAME_BYTES = 1514, MOST_FRAMES = 256 };

// As ArrayVec lays a frame out.
struct frame {
    byte bytes[FRAME_BYTES];
    word length;
};

static struct frame kept[MOST_FRAMES];
static word count;

void hand_out(const struct frame *frames, word given) {
    for (; given && count < MOST_FRAMES; given--) __builtin_memcpy(&kept[count++], frames++, sizeof *kept);
}

word early_count(void) { return count; }

const byte *early_frame(word number) { return kept[number].bytes; }

word early_bytes(word number) { return kept[number].length; }

void early_forget(void) { count = 0; }
