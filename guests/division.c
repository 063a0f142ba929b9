/* Compares the eight instructions of division with long division by shifts: DIV, DIVU, REM, REMU and the word forms over 256 pairs of
   numbers. Every quotient and remainder is folded into the answer, which is 0 where two disagree. */
typedef unsigned long u64;

static const u64 numbers[] = {
    0,
    1,
    2,
    3,
    10,
    0x7fffffff,
    0x80000000,
    0xffffffff,
    0x100000001,
    0x123456789abcdef0,
    0x7fffffffffffffff,
    0x8000000000000000,
    0x8000000000000001,
    0xffffffff80000000,
    0xfffffffffffffff6,
    0xffffffffffffffff,
};

#define COUNT (sizeof numbers / sizeof numbers[0])

#define INSTRUCTION(name)                                              \
    static u64 name(u64 a, u64 b) {                                    \
        u64 result;                                                    \
        __asm__ volatile(#name " %0, %1, %2" : "=r"(result) : "r"(a), "r"(b)); \
        return result;                                                 \
    }

INSTRUCTION(div)
INSTRUCTION(divu)
INSTRUCTION(rem)
INSTRUCTION(remu)
INSTRUCTION(divw)
INSTRUCTION(divuw)
INSTRUCTION(remw)
INSTRUCTION(remuw)

/* Divides bit by bit. By zero, the quotient is all ones and the remainder the dividend. */
static u64 long_division(u64 a, u64 b, u64 *remainder) {
    u64 quotient = 0, rest = 0;
    for (int bit = 63; bit >= 0; bit--) {
        u64 carry = rest >> 63;
        rest = rest << 1 | (a >> bit & 1);
        quotient <<= 1;
        if (carry || rest >= b) {
            rest -= b;
            quotient |= 1;
        }
    }
    *remainder = rest;
    return quotient;
}

/* The same of signed numbers: the quotient rounds toward zero, the remainder has the dividend's sign. */
static u64 signed_division(u64 a, u64 b, u64 *remainder) {
    int a_is_negative = a >> 63, b_is_negative = b >> 63;
    u64 quotient = long_division(a_is_negative ? -a : a, b_is_negative ? -b : b, remainder);
    if (a_is_negative)
        *remainder = -*remainder;
    if (b == 0)
        return quotient;
    return a_is_negative != b_is_negative ? -quotient : quotient;
}

static u64 sign_extended(u64 x) { return (u64)(long)(int)(unsigned)x; }

static u64 zero_extended(u64 x) { return (unsigned)x; }

static u64 folded(u64 sum, u64 x) { return (sum ^ x) * 0x100000001b3; }

u64 main(void) {
    u64 sum = 0xcbf29ce484222325;
    for (unsigned i = 0; i < COUNT; i++) {
        for (unsigned j = 0; j < COUNT; j++) {
            u64 a = numbers[i], b = numbers[j];
            u64 q, r;
            q = long_division(a, b, &r);
            if (divu(a, b) != q || remu(a, b) != r)
                return 0;
            sum = folded(folded(sum, q), r);
            q = signed_division(a, b, &r);
            if (div(a, b) != q || rem(a, b) != r)
                return 0;
            sum = folded(folded(sum, q), r);
            q = sign_extended(long_division(zero_extended(a), zero_extended(b), &r));
            r = sign_extended(r);
            if (divuw(a, b) != q || remuw(a, b) != r)
                return 0;
            sum = folded(folded(sum, q), r);
            q = sign_extended(signed_division(sign_extended(a), sign_extended(b), &r));
            r = sign_extended(r);
            if (divw(a, b) != q || remw(a, b) != r)
                return 0;
            sum = folded(folded(sum, q), r);
        }
    }
    return sum;
}
