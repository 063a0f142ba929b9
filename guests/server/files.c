/* The files of lwIP's server (LWIP_HTTPD_CUSTOM_FILES): '/' is a page that loads itself again each second, '/count' a counter in a sector
   of the disk, and '/big' 200,000 bytes of the disk. */
#include "files.h"

#include <string.h>

#include "disk.h"
#include "lwip/apps/fs.h"
#include "lwip/def.h"
#include "lwip/mem.h"
#include "lwip/sys.h"

/* The disk: sector 0 has the counter, and the bytes of '/big' stand from sector BIG_SECTOR on. */
#define BIG_SECTOR 1
#define BIG_BYTES 200000
#define BIG_SECTORS ((BIG_BYTES + SECTOR - 1) / SECTOR)

/* So many sectors are read or written by one request. */
#define AT_ONCE 16

/* The first bytes of sector 0 on a disk that was written: 'counter' and a zero. */
#define WRITTEN 0x007265746e756f63

/* The longest number, and the longest file that is made when it is asked for. */
#define LONGEST 20
#define LONGEST_TEXT 1024

struct head {
    uint64_t written;
    uint64_t count; /* How often '/count' was asked for. */
    uint64_t pages; /* How often '/' was. */
    uint8_t rest[SECTOR - 24];
};

/* A file that is made when it is asked for, until it is closed. */
struct text {
    int length;
    char bytes[LONGEST_TEXT];
};

static struct head head;
static uint64_t sectors[AT_ONCE * SECTOR / 8];

/* The eight bytes of '/big' that stand at a place, the lowest first. */
static uint64_t big_word(uint64_t place) {
    uint64_t word = (place + 1) * 0x9e3779b97f4a7c15;
    return word ^ word >> 32;
}

static void write_big(void) {
    uint64_t place = 0;
    uint32_t count;
    for (uint32_t done = 0; done < BIG_SECTORS; done += count) {
        count = LWIP_MIN(AT_ONCE, BIG_SECTORS - done);
        for (uint32_t i = 0; i < count * SECTOR / 8; i++)
            sectors[i] = big_word(place++);
        disk_write(BIG_SECTOR + done, sectors, count);
    }
}

int files_start(void) {
    if (!disk_start(BIG_SECTOR + BIG_SECTORS))
        return 0;
    disk_read(0, &head, 1);
    if (head.written != WRITTEN) {
        write_big();
        /* Last, so that a disk that says that it was written has all the rest. */
        head.written = WRITTEN;
        head.count = head.pages = 0;
        disk_write(0, &head, 1);
    }
    return 1;
}

static void add(struct text *text, const char *more) {
    while (*more != '\0' && text->length < LONGEST_TEXT)
        text->bytes[text->length++] = *more++;
}

/* The number, in so many digits at least. */
static void add_number(struct text *text, uint64_t number, int least) {
    char digits[LONGEST + 1];
    int at = LONGEST;
    digits[at] = '\0';
    do
        digits[--at] = (char)('0' + number % 10);
    while (number /= 10, number != 0 || LONGEST - at < least);
    add(text, digits + at);
}

static void add_time(struct text *text, uint32_t seconds) {
    add_number(text, seconds / 3600, 1);
    add(text, ":");
    add_number(text, seconds / 60 % 60, 2);
    add(text, ":");
    add_number(text, seconds % 60, 2);
}

/* Counts once more. The sector is on the disk before the answer is made. */
static void count_once(uint64_t *count) {
    ++*count;
    disk_write(0, &head, 1);
}

static void make_page(struct text *text) {
    count_once(&head.pages);
    add(text, "<!doctype html><meta http-equiv=refresh content=1><title>A server that survives</title>\n"
              "<body style='font:20px sans-serif;margin:2em'><h1>A server that survives</h1>\n"
              "<p>This page was loaded <b>");
    add_number(text, head.pages, 1);
    add(text, "</b> times, and <a href=/count>/count</a> stands at <b>");
    add_number(text, head.count, 1);
    add(text, "</b>.\n<p>The server has been up for <b>");
    add_time(text, sys_now() / 1000);
    add(text, "</b>, and never went down.\n"
              "<p>It is lwIP's own server, and <a href=/big>/big</a> has 200,000 bytes of its disk.\n");
}

/* With its own head: lwIP's would call it a file to be kept, since its name has no ending. */
static void make_count(struct text *text) {
    struct text body = {0};
    count_once(&head.count);
    add_number(&body, head.count, 1);
    add(&body, "\n");
    add(text, "HTTP/1.1 200 OK\r\nContent-Type: text/plain\r\nContent-Length: ");
    add_number(text, (uint64_t)body.length, 1);
    add(text, "\r\n\r\n");
    add(text, body.bytes);
}

/* Opens what `fs_read_custom` reads: a text, or, where that is NULL, '/big'. */
static int open(struct fs_file *file, struct text *text, u8_t flags) {
    memset(file, 0, sizeof *file);
    file->len = text == NULL ? BIG_BYTES : text->length;
    file->pextension = text;
    file->flags = flags | FS_FILE_FLAGS_HEADER_PERSISTENT;
    return 1;
}

/* Opens a file that is made now. Without memory for it there is no such file. */
static int open_made(struct fs_file *file, void (*make)(struct text *), u8_t flags) {
    struct text *text = mem_malloc(sizeof *text);
    if (text == NULL)
        return 0;
    memset(text, 0, sizeof *text);
    make(text);
    return open(file, text, flags);
}

int fs_open_custom(struct fs_file *file, const char *name) {
    if (strcmp(name, "/index.html") == 0)
        return open_made(file, make_page, 0);
    if (strcmp(name, "/count") == 0)
        return open_made(file, make_count, FS_FILE_FLAGS_HEADER_INCLUDED);
    return strcmp(name, "/big") == 0 && open(file, NULL, 0);
}

void fs_close_custom(struct fs_file *file) {
    if (file->pextension != NULL)
        mem_free(file->pextension);
}

/* Reads from one place of '/big' as much as one request reads. Answers how many bytes. */
static int read_big(char *to, int from, int most) {
    uint32_t skipped = (uint32_t)from % SECTOR;
    uint32_t wanted = LWIP_MIN((uint32_t)most, sizeof sectors - skipped);
    disk_read(BIG_SECTOR + (uint32_t)from / SECTOR, sectors, (skipped + wanted + SECTOR - 1) / SECTOR);
    memcpy(to, (char *)sectors + skipped, wanted);
    return (int)wanted;
}

int fs_read_custom(struct fs_file *file, char *buffer, int count) {
    const struct text *text = file->pextension;
    int wanted = LWIP_MIN(count, file->len - file->index);
    if (text != NULL)
        memcpy(buffer, text->bytes + file->index, (size_t)wanted);
    else
        for (int done = 0; done < wanted;)
            done += read_big(buffer + done, file->index + done, wanted - done);
    file->index += wanted;
    return wanted;
}
