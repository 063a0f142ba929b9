#include "expressions.h"

#include <string.h>

#define MOST_PARTS 400
#define MOST_DEPTH 20
#define MOST_REPEATED 50

/* An expression is a program of parts, in which threads go on beside each other (Thompson, 1968). Where a thread goes is told from the
   part's own place, so that parts can be moved and copied. */
enum kind { CHARACTER, ANY, SET, FORK, JUMP, AT_BEGIN, AT_END, FOUND };

struct part {
    enum kind kind;
    uint32_t character;
    const uint8_t *set;
    int one, other;
};

struct program {
    struct part parts[MOST_PARTS];
    int count, is_bad;
    const uint8_t *at; /* of the expression, what comes next */
};

static void put(struct program *program, int at, struct part part) {
    if (program->count == MOST_PARTS - 1) {
        program->is_bad = 1;
        return;
    }
    memmove(&program->parts[at + 1], &program->parts[at], (size_t)(program->count - at) * sizeof part);
    program->parts[at] = part;
    program->count++;
}

static void append(struct program *program, struct part part) { put(program, program->count, part); }

static void append_copy(struct program *program, int from, int count) {
    for (int i = 0; i < count && !program->is_bad; i++)
        append(program, program->parts[from + i]);
}

static void read_alternatives(struct program *program, int depth);

static const uint8_t *after_set(const uint8_t *at) {
    at += *at == '^';
    at += *at == ']';
    while (*at != '\0' && *at != ']') {
        const char *end = at[0] == '[' && at[1] == ':' ? strstr((const char *)at + 2, ":]") : NULL;
        at = end != NULL ? (const uint8_t *)end + 2 : at[0] == '\\' && at[1] != '\0' ? at + 2 : at + 1;
    }
    return at;
}

static void read_atom(struct program *program, int depth) {
    uint32_t c = next_character(&program->at);
    if (c == '(') {
        if (program->at[0] == '?' && program->at[1] == ':')
            program->at += 2;
        read_alternatives(program, depth + 1);
        program->is_bad |= *program->at != ')';
        program->at += *program->at == ')';
    } else if (c == '[') {
        append(program, (struct part){.kind = SET, .set = program->at});
        program->at = after_set(program->at);
        program->is_bad |= *program->at != ']';
        program->at += *program->at == ']';
    } else if (c == '\\') {
        static const char *const classes[] = {"d[:digit:]]", "w[:alnum:]_]", "s[:space:]]", "D^[:digit:]]", "W^[:alnum:]_]", "S^[:space:]]"};
        c = next_character(&program->at);
        for (int i = 0; i < 6; i++)
            if (c == (uint8_t)classes[i][0]) {
                append(program, (struct part){.kind = SET, .set = (const uint8_t *)classes[i] + 1});
                return;
            }
        int is_letter = (c | 32) >= 'a' && (c | 32) <= 'z';
        program->is_bad |= c == 0 || is_letter || (c >= '0' && c <= '9');
        append(program, (struct part){.kind = CHARACTER, .character = c});
    } else if (strchr("*+?{", (int)c) != NULL && c < 0x80) {
        program->is_bad = 1;
    } else {
        append(program, (struct part){.kind = c == '.' ? ANY : c == '^' ? AT_BEGIN : c == '$' ? AT_END : CHARACTER, .character = c});
    }
}

static int read_number(struct program *program, int otherwise) {
    int number = 0, digits = 0;
    for (; *program->at >= '0' && *program->at <= '9' && digits < 4; program->at++, digits++)
        number = 10 * number + (*program->at - '0');
    return digits == 0 ? otherwise : number;
}

/* As often as from `least` to `most` times, -1 being without end. */
static void repeat(struct program *program, int from, int least, int most) {
    int length = program->count - from;
    if (most < least && most >= 0)
        program->is_bad = 1;
    program->is_bad |= least > MOST_REPEATED || most > MOST_REPEATED;
    if (program->is_bad)
        return;
    for (int i = 1; i < least; i++)
        append_copy(program, from, length);
    if (most < 0 && least > 0) {
        append(program, (struct part){.kind = FORK, .one = -length, .other = 1});
    } else if (most < 0) {
        put(program, from, (struct part){.kind = FORK, .one = 1, .other = length + 2});
        append(program, (struct part){.kind = JUMP, .one = -length - 1});
    } else {
        if (least == 0)
            put(program, from, (struct part){.kind = FORK, .one = 1, .other = length + 1});
        for (int i = least > 1 ? least : 1; i < most; i++) {
            append(program, (struct part){.kind = FORK, .one = 1, .other = length + 1});
            append_copy(program, from + (least == 0), length);
        }
        if (most == 0)
            program->count = from;
    }
}

static void read_piece(struct program *program, int depth) {
    int from = program->count;
    read_atom(program, depth);
    while (!program->is_bad && *program->at != '\0' && strchr("*+?{", *program->at) != NULL) {
        uint8_t sign = *program->at++;
        int least = sign == '+', most = sign == '?' ? 1 : -1;
        if (sign == '{') {
            least = read_number(program, 0);
            most = *program->at == ',' ? -1 : least;
            if (*program->at == ',') {
                program->at++;
                most = read_number(program, -1);
            }
            program->is_bad |= *program->at != '}';
            program->at += *program->at == '}';
        }
        repeat(program, from, least, most);
    }
}

static void read_alternatives(struct program *program, int depth) {
    int from = program->count;
    program->is_bad |= depth > MOST_DEPTH;
    while (!program->is_bad && *program->at != '\0' && *program->at != '|' && *program->at != ')')
        read_piece(program, depth);
    if (program->is_bad || *program->at != '|')
        return;
    program->at++;
    int length = program->count - from;
    put(program, from, (struct part){.kind = FORK, .one = 1, .other = length + 2});
    int jump = program->count;
    append(program, (struct part){.kind = JUMP});
    read_alternatives(program, depth);
    program->parts[jump].one = program->count - jump;
}

/* Threads. */

struct threads {
    int places[MOST_PARTS], count;
    uint8_t is_there[MOST_PARTS];
};

static void add_thread(const struct program *program, struct threads *threads, int place, int is_begin, int is_end) {
    int waiting[MOST_PARTS + 1], count = 0;
    for (waiting[count++] = place; count > 0;) {
        place = waiting[--count];
        if (threads->is_there[place])
            continue;
        threads->is_there[place] = 1;
        const struct part *part = &program->parts[place];
        if (part->kind == FORK && count + 2 <= MOST_PARTS) {
            waiting[count++] = place + part->other;
            waiting[count++] = place + part->one;
        } else if (part->kind == JUMP || (part->kind == AT_BEGIN && is_begin) || (part->kind == AT_END && is_end)) {
            waiting[count++] = place + (part->kind == JUMP ? part->one : 1);
        } else if (part->kind != AT_BEGIN && part->kind != AT_END) {
            threads->places[threads->count++] = place;
        }
    }
}

static uint32_t small(uint32_t c) { return c >= 'A' && c <= 'Z' ? c | 32 : c; }

static uint32_t other_case(uint32_t c) { return (small(c) >= 'a' && small(c) <= 'z') ? c ^ 32 : c; }

static int is_of_class(const char *name, uint32_t c) {
    int is_digit = c >= '0' && c <= '9', is_letter = (c < 0x80 && (c | 32) >= 'a' && (c | 32) <= 'z') || c > 0x7f;
    return strncmp(name, "digit", 5) == 0   ? is_digit
           : strncmp(name, "alnum", 5) == 0 ? is_digit || is_letter
           : strncmp(name, "alpha", 5) == 0 ? is_letter
           : strncmp(name, "space", 5) == 0 ? c == ' ' || (c >= 9 && c <= 13)
           : strncmp(name, "upper", 5) == 0 ? c >= 'A' && c <= 'Z'
                                            : strncmp(name, "lower", 5) == 0 && c >= 'a' && c <= 'z';
}

static int is_of_set(const uint8_t *at, uint32_t c) {
    int is_inverted = *at == '^', is_in = 0;
    at += is_inverted;
    for (int is_first = 1; *at != '\0' && (*at != ']' || is_first); is_first = 0) {
        if (at[0] == '[' && at[1] == ':') {
            is_in |= is_of_class((const char *)at + 2, c);
            at = (const uint8_t *)strstr((const char *)at, ":]") + 2;
            continue;
        }
        at += at[0] == '\\' && at[1] != '\0';
        uint32_t first = next_character(&at), last = first;
        if (at[0] == '-' && at[1] != ']' && at[1] != '\0') {
            at++;
            last = next_character(&at);
        }
        is_in |= c >= first && c <= last;
    }
    return is_in != is_inverted;
}

static int takes(const struct part *part, uint32_t c, int has_capitals) {
    switch (part->kind) {
    case ANY: return 1;
    case CHARACTER: return part->character == c || (!has_capitals && small(part->character) == small(c));
    case SET: return is_of_set(part->set, c) || (!has_capitals && is_of_set(part->set, other_case(c)));
    default: return 0;
    }
}

static int is_over(const struct program *program, const struct threads *threads) {
    for (int i = 0; i < threads->count; i++)
        if (program->parts[threads->places[i]].kind == FOUND)
            return 1;
    return 0;
}

static int find(const struct program *program, const uint8_t *text, int has_capitals, struct patience *patience) {
    struct threads both[2] = {{.count = 0}}, *now = &both[0], *then = &both[1], *spare;
    for (const uint8_t *at = text;; spare = now, now = then, then = spare) {
        add_thread(program, now, 0, at == text, *at == '\0');
        if (is_over(program, now))
            return 1;
        if (*at == '\0')
            return 0;
        if (is_out_of_patience(patience, (uint32_t)now->count + 16))
            return -1;
        uint32_t c = next_character(&at);
        then->count = 0;
        memset(then->is_there, 0, (size_t)program->count);
        for (int i = 0; i < now->count; i++)
            if (takes(&program->parts[now->places[i]], c, has_capitals))
                add_thread(program, then, now->places[i] + 1, 0, *at == '\0');
    }
}

int is_found(const char *expression, const char *text, int has_capitals, struct patience *patience) {
    struct program program = {.at = (const uint8_t *)expression};
    read_alternatives(&program, 0);
    if (program.is_bad || *program.at != '\0')
        return -2;
    program.parts[program.count++] = (struct part){.kind = FOUND};
    return find(&program, (const uint8_t *)text, has_capitals, patience);
}
