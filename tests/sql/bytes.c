/* guests/sql/memory.c beside this machine's C library: random calls on places that lie in their words in every way. It prints how many
   calls there were, or ends at the first that comes out otherwise. */
#include <stdio.h>
#include <stdlib.h>
#include <string.h>

#define memcpy guest_memcpy
#define memmove guest_memmove
#define memset guest_memset
#define memcmp guest_memcmp
#define strlen guest_strlen
#define memchr guest_memchr
#include "../../guests/sql/memory.c"
#undef memcpy
#undef memmove
#undef memset
#undef memcmp
#undef strlen
#undef memchr

#define CALLS 400000
#define MOST 160
#define ROOM 600

static uint8_t ours[ROOM] __attribute__((aligned(8))), theirs[ROOM] __attribute__((aligned(8)));

static int sign(int number) { return (number > 0) - (number < 0); }

static int differs(int kind, size_t to, size_t from, size_t count) {
    uint8_t *one = ours + to, *other = theirs + to;
    switch (kind) {
    case 0:
        from = to + ROOM / 2; /* not over each other */
        guest_memcpy(one, ours + from, count);
        memcpy(other, theirs + from, count);
        break;
    case 1:
        guest_memmove(one, ours + from, count);
        memmove(other, theirs + from, count);
        break;
    case 2:
        guest_memset(one, (int)from, count);
        memset(other, (int)from, count);
        break;
    case 3:
        guest_memmove(ours + ROOM / 2 + to % 8, ours + from, count);
        memmove(theirs + ROOM / 2 + to % 8, theirs + from, count);
        ours[ROOM / 2 + to % 8 + to % (count + 1)] ^= to % 3 == 0;
        theirs[ROOM / 2 + to % 8 + to % (count + 1)] ^= to % 3 == 0;
        return sign(guest_memcmp(ours + ROOM / 2 + to % 8, ours + from, count))
               != sign(memcmp(theirs + ROOM / 2 + to % 8, theirs + from, count));
    case 4: return guest_strlen((const char *)one) != strlen((const char *)other);
    default: {
        const uint8_t *found = guest_memchr(one, (int)(from % 4), count), *wanted = memchr(other, (int)(from % 4), count);
        return (found == NULL) != (wanted == NULL) || (found != NULL && found - ours != wanted - theirs);
    }
    }
    return memcmp(ours, theirs, ROOM) != 0;
}

int main(void) {
    srand(1);
    for (int call = 0; call < CALLS; call++) {
        ours[rand() % (ROOM - 1)] = (uint8_t)(rand() % 3 == 0 ? 0 : rand());
        ours[ROOM - 1] = 0;
        memcpy(theirs, ours, ROOM);
        if (differs(call % 6, (size_t)(rand() % 100), (size_t)(rand() % 100), (size_t)(rand() % MOST))) {
            printf("call %d of kind %d comes out otherwise\n", call, call % 6);
            return 1;
        }
    }
    printf("%d calls\n", CALLS);
    return 0;
}
