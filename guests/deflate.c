/* Deflates a text of 8 KiB, and inflates it again: it answers the Adler-32 of what comes out, or 0 where that isn't the text. The code is
   fixed (RFC 1951, section 3.2.6), and matches are found by chains of hashes and read by tables, as zlib does. The deflated bytes stand
   at 0x80001000, behind their number in four bytes. */
typedef unsigned char u8;
typedef unsigned short u16;
typedef unsigned u32;
typedef unsigned long u64;

enum { TEXT = 8192, HASHES = 1024, MOST_TRIES = 16, SHORTEST = 3, LONGEST = 258, END = 256, LENGTHS = 29, DISTANCES = 30 };

__attribute__((section(".answer"))) struct {
    u32 count;
    u8 bytes[2 * TEXT];
} deflated;

static u8 text[TEXT], again[TEXT];

/* RFC 1951, section 3.2.5. */
static const u16 length_base[LENGTHS] = {
    3, 4, 5, 6, 7, 8, 9, 10, 11, 13, 15, 17, 19, 23, 27, 31, 35, 43, 51, 59, 67, 83, 99, 115, 131, 163, 195, 227, 258,
};
static const u8 length_bits[LENGTHS] = {
    0, 0, 0, 0, 0, 0, 0, 0, 1, 1, 1, 1, 2, 2, 2, 2, 3, 3, 3, 3, 4, 4, 4, 4, 5, 5, 5, 5, 0,
};
static const u16 distance_base[DISTANCES] = {
    1, 2, 3, 4, 5, 7, 9, 13, 17, 25, 33, 49, 65, 97, 129, 193, 257, 385, 513, 769, 1025, 1537, 2049, 3073, 4097, 6145, 8193, 12289, 16385, 24577,
};
static const u8 distance_bits[DISTANCES] = {
    0, 0, 0, 0, 1, 1, 2, 2, 3, 3, 4, 4, 5, 5, 6, 6, 7, 7, 8, 8, 9, 9, 10, 10, 11, 11, 12, 12, 13, 13,
};

/* Words of two to nine letters, 64 of them in a random order, and a space behind each. */
static void write_text(void) {
    u64 x = 88172645463325252;
    u32 at = 0;
    while (at < TEXT) {
        x ^= x << 13, x ^= x >> 7, x ^= x << 17;
        u32 word = x >> 58, letters = 2 + word % 8;
        for (u32 i = 0; i < letters && at < TEXT; i++)
            text[at++] = 'a' + (7 * word + 5 * i * i + word * i) % 26;
        if (at < TEXT)
            text[at++] = ' ';
    }
}

/* Bits that wait to be written or read, the first one lowest. */
static u64 bits;
static u32 bit_count;

static void put(u32 value, u32 count) {
    bits |= (u64)value << bit_count;
    bit_count += count;
    while (bit_count >= 8) {
        deflated.bytes[deflated.count++] = (u8)bits;
        bits >>= 8;
        bit_count -= 8;
    }
}

static u32 reversed(u32 code, u32 count) {
    u32 back = 0;
    while (count--) {
        back = back << 1 | (code & 1);
        code >>= 1;
    }
    return back;
}

/* How many bits the fixed code gives a symbol, and the code. */
static u32 fixed_length(u32 symbol) {
    return symbol < 144 ? 8 : symbol < 256 ? 9 : symbol < 280 ? 7 : 8;
}

static u32 fixed_code(u32 symbol) {
    return symbol < 144 ? 0x30 + symbol : symbol < 256 ? 0x190 + symbol - 144 : symbol < 280 ? symbol - 256 : 0xc0 + symbol - 280;
}

static void put_symbol(u32 symbol) {
    u32 count = fixed_length(symbol);
    put(reversed(fixed_code(symbol), count), count);
}

/* The last row of a table whose base is at most the number. */
static u32 row_of(const u16 *base, u32 rows, u32 number) {
    while (base[rows - 1] > number)
        rows--;
    return rows - 1;
}

static void put_match(u32 length, u32 distance) {
    u32 row = row_of(length_base, LENGTHS, length);
    put_symbol(END + 1 + row);
    put(length - length_base[row], length_bits[row]);
    row = row_of(distance_base, DISTANCES, distance);
    put(reversed(row, 5), 5);
    put(distance - distance_base[row], distance_bits[row]);
}

/* For each hash of three bytes the place behind the last one that has it, and for each place the one before it; 0 is none. */
static u16 newest[HASHES], older[TEXT];

static u32 hash_of(u32 at) {
    return ((u32)text[at] << 10 ^ (u32)text[at + 1] << 5 ^ text[at + 2]) * 0x9e3779b1u >> 22;
}

static void insert(u32 at) {
    if (at + SHORTEST > TEXT)
        return;
    u32 hash = hash_of(at);
    older[at] = newest[hash];
    newest[hash] = (u16)(at + 1);
}

/* The longest match at a place, of those that were tried, and how far back it is. */
static u32 longest_match(u32 at, u32 *distance) {
    u32 best = 0, most = TEXT - at < LONGEST ? TEXT - at : LONGEST;
    if (most < SHORTEST)
        return 0;
    u32 next = newest[hash_of(at)];
    for (int tries = 0; next && tries < MOST_TRIES; tries++) {
        u32 from = next - 1, length = 0;
        while (length < most && text[from + length] == text[at + length])
            length++;
        if (length > best) {
            best = length;
            *distance = at - from;
        }
        next = older[from];
    }
    return best;
}

static void deflate(void) {
    for (u32 i = 0; i < HASHES; i++)
        newest[i] = 0;
    deflated.count = 0;
    bits = 0, bit_count = 0;
    put(1, 1);
    put(1, 2);
    for (u32 at = 0; at < TEXT;) {
        u32 distance = 0, length = longest_match(at, &distance);
        if (length < SHORTEST) {
            length = 1;
            put_symbol(text[at]);
        } else {
            put_match(length, distance);
        }
        for (; length > 0; length--)
            insert(at++);
    }
    put_symbol(END);
    put(0, 7);
}

/* By the next nine bits a symbol and, in the lowest four bits, how many of them are its code. */
static u16 symbols[512];

static void write_symbols(void) {
    for (u32 symbol = 0; symbol < 288; symbol++) {
        u32 count = fixed_length(symbol), code = reversed(fixed_code(symbol), count);
        for (; code < 512; code += 1u << count)
            symbols[code] = (u16)(symbol << 4 | count);
    }
}

static u32 taken;

static void refill(void) {
    while (bit_count <= 48 && taken < deflated.count) {
        bits |= (u64)deflated.bytes[taken++] << bit_count;
        bit_count += 8;
    }
}

static u32 get(u32 count) {
    u32 value = (u32)(bits & ((1ul << count) - 1));
    bits >>= count;
    bit_count -= count;
    return value;
}

/* How many bytes come out, or 0 where it is no block of the fixed code that fits. */
static u32 inflate(void) {
    u32 at = 0;
    bits = 0, bit_count = 0, taken = 0;
    refill();
    if (get(3) != 3)
        return 0;
    for (;;) {
        refill();
        u32 found = symbols[bits & 511], symbol = found >> 4;
        get(found & 15);
        if (symbol == END)
            return at;
        if (symbol < END) {
            if (at == TEXT)
                return 0;
            again[at++] = (u8)symbol;
            continue;
        }
        u32 row = symbol - END - 1;
        if (row >= LENGTHS)
            return 0;
        u32 length = length_base[row] + get(length_bits[row]);
        row = reversed(get(5), 5);
        if (row >= DISTANCES)
            return 0;
        u32 distance = distance_base[row] + get(distance_bits[row]);
        if (distance > at || length > TEXT - at)
            return 0;
        for (; length > 0; length--, at++)
            again[at] = again[at - distance];
    }
}

/* RFC 1950, section 8.2. */
static u32 adler32(const u8 *bytes, u32 count) {
    u32 low = 1, high = 0;
    for (u32 i = 0; i < count; i++) {
        low = (low + bytes[i]) % 65521;
        high = (high + low) % 65521;
    }
    return high << 16 | low;
}

unsigned long main(void) {
    write_text();
    deflate();
    write_symbols();
    if (inflate() != TEXT)
        return 0;
    for (u32 i = 0; i < TEXT; i++)
        if (again[i] != text[i])
            return 0;
    return adler32(again, TEXT);
}
