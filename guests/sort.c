/* Sorts 100 numbers by heap sort, signed: it answers the sum of each number times its place, counted from 1, modulo 2^64, and 0 where they
   are out of order. */
#define COUNT 100

static long numbers[COUNT];

static unsigned long next(unsigned long x) {
    x ^= x << 13;
    x ^= x >> 7;
    return x ^ x << 17;
}

static void sift_down(long *heap, unsigned long root, unsigned long count) {
    long value = heap[root];
    for (;;) {
        unsigned long child = 2 * root + 1;
        if (child >= count)
            break;
        if (child + 1 < count && heap[child] < heap[child + 1])
            child++;
        if (heap[child] <= value)
            break;
        heap[root] = heap[child];
        root = child;
    }
    heap[root] = value;
}

static void sort(long *numbers, unsigned long count) {
    for (unsigned long root = count / 2; root-- > 0;)
        sift_down(numbers, root, count);
    for (unsigned long end = count; end-- > 1;) {
        long first = numbers[0];
        numbers[0] = numbers[end];
        numbers[end] = first;
        sift_down(numbers, 0, end);
    }
}

unsigned long main(void) {
    unsigned long x = 88172645463325252;
    for (int i = 0; i < COUNT; i++) {
        x = next(x);
        numbers[i] = (long)x;
    }
    sort(numbers, COUNT);
    unsigned long sum = 0;
    for (int i = 0; i < COUNT; i++) {
        if (i > 0 && numbers[i - 1] > numbers[i])
            return 0;
        sum += (unsigned long)numbers[i] * (i + 1);
    }
    return sum;
}
