#include "functions.h"

#include <string.h>

#include "patterns.h"
#include "session.h"

/* A pattern may have so many bytes, as in SQLite. */
#define MOST_PATTERN 50000

static int is_stopped(void *session) { return session_is_stopped(session); }

static struct patience patience_of(sqlite3_context *context) { return (struct patience){is_stopped, sqlite3_user_data(context), 0}; }

static void stop(sqlite3_context *context) { sqlite3_result_error_code(context, SQLITE_INTERRUPT); }

/* LIKE and GLOB: of the pattern, the text, and the sign that takes the others' meaning. */
static void match(sqlite3_context *context, sqlite3_value *const values[], const struct signs *signs) {
    struct patience patience = patience_of(context);
    if (sqlite3_value_bytes(values[0]) > MOST_PATTERN) {
        sqlite3_result_error(context, "LIKE or GLOB pattern too complex", -1);
        return;
    }
    const uint8_t *text = sqlite3_value_text(values[1]), *pattern = sqlite3_value_text(values[0]);
    if (text == NULL || pattern == NULL)
        return;
    int answer = is_of_pattern(pattern, text, signs, &patience);
    if (answer < 0)
        stop(context);
    else
        sqlite3_result_int(context, answer);
}

static void do_glob(sqlite3_context *context, int count, sqlite3_value **values) {
    static const struct signs signs = {'*', '?', '[', 1, 1};
    (void)count;
    match(context, values, &signs);
}

static void do_like(sqlite3_context *context, int count, sqlite3_value **values) {
    struct signs signs = {'%', '_', 0, 0, 0};
    if (count == 3) {
        const uint8_t *escape = sqlite3_value_text(values[2]);
        if (escape == NULL)
            return;
        signs.escape = next_character(&escape);
        if (signs.escape == 0 || *escape != 0) {
            sqlite3_result_error(context, "ESCAPE expression must be a single character", -1);
            return;
        }
        signs.all = signs.escape == signs.all ? 0 : signs.all;
        signs.one = signs.escape == signs.one ? 0 : signs.one;
    }
    match(context, values, &signs);
}

/* A value's bytes, as a text or as they are. */
struct part {
    const uint8_t *bytes;
    int length;
};

/* Whether a part stands at the beginning of another. */
static int begins_with(struct part whole, struct part part) {
    return part.length <= whole.length && whole.bytes[0] == part.bytes[0] && memcmp(whole.bytes, part.bytes, (size_t)part.length) == 0;
}

/* Steps of a look at one place. */
static uint32_t steps_of(struct part whole, struct part part) {
    return whole.bytes[0] == part.bytes[0] ? (uint32_t)part.length / 8 + 1 : 1;
}

/* How many bytes there are before the first that a part begins with. */
static int before_first(struct part whole, struct part part) {
    const uint8_t *at = memchr(whole.bytes, part.bytes[0], (size_t)whole.length);
    return at == NULL ? whole.length : (int)(at - whole.bytes);
}

static void find(sqlite3_context *context, struct part whole, struct part part, int is_text) {
    struct patience patience = patience_of(context);
    int place = 1;
    while (part.length <= whole.length && !begins_with(whole, part)) {
        if (is_out_of_patience(&patience, steps_of(whole, part))) {
            stop(context);
            return;
        }
        place++;
        do {
            whole.bytes++;
            whole.length--;
        } while (is_text && whole.length > 0 && (whole.bytes[0] & 0xc0) == 0x80);
    }
    sqlite3_result_int(context, part.length > whole.length ? 0 : place);
}

static void find_value(sqlite3_context *context, sqlite3_value *whole, sqlite3_value *part, int is_text) {
    struct part parts[2];
    sqlite3_value *values[] = {whole, part};
    for (int i = 0; i < 2; i++) {
        parts[i].bytes = is_text ? sqlite3_value_text(values[i]) : sqlite3_value_blob(values[i]);
        parts[i].length = sqlite3_value_bytes(values[i]);
        if (parts[i].bytes == NULL && (is_text || parts[i].length > 0)) {
            sqlite3_result_error_nomem(context);
            return;
        }
    }
    if (parts[1].length == 0)
        sqlite3_result_int(context, 1);
    else
        find(context, parts[0], parts[1], is_text);
}

/* A value that is read as a text stays one. So where one of them is none copies are read. */
static void do_instr(sqlite3_context *context, int count, sqlite3_value **values) {
    int is_blob[2];
    for (int i = 0; i < count; i++) {
        if (sqlite3_value_type(values[i]) == SQLITE_NULL)
            return;
        is_blob[i] = sqlite3_value_type(values[i]) == SQLITE_BLOB;
    }
    if (is_blob[0] == is_blob[1]) {
        find_value(context, values[0], values[1], !is_blob[0]);
        return;
    }
    sqlite3_value *whole = sqlite3_value_dup(values[0]), *part = sqlite3_value_dup(values[1]);
    find_value(context, whole, part, 1);
    sqlite3_value_free(whole);
    sqlite3_value_free(part);
}

/* Writes a text with a part of it replaced. Answers its length, or -1 where it was stopped. `to` is NULL where only the length is asked. */
static int64_t write_replaced(struct part whole, struct part part, struct part by, uint8_t *to, struct patience *patience) {
    int64_t length = 0;
    while (whole.length > 0) {
        int until = before_first(whole, part);
        if (is_out_of_patience(patience, until > 0 ? (uint32_t)until / 8 + 1 : steps_of(whole, part)))
            return -1;
        int is_here = until == 0 && begins_with(whole, part), taken = until > 0 ? until : is_here ? part.length : 1;
        struct part given = is_here ? by : (struct part){whole.bytes, taken};
        if (to != NULL)
            memcpy(to + length, given.bytes, (size_t)given.length);
        length += given.length;
        whole.bytes += taken;
        whole.length -= taken;
    }
    return length;
}

static void do_replace(sqlite3_context *context, int count, sqlite3_value **values) {
    struct patience patience = patience_of(context);
    struct part parts[3];
    for (int i = 0; i < count; i++) {
        parts[i].bytes = sqlite3_value_text(values[i]);
        if (parts[i].bytes == NULL)
            return;
        parts[i].length = sqlite3_value_bytes(values[i]);
        if (i == 1 && parts[1].bytes[0] == 0) {
            sqlite3_result_value(context, values[0]);
            return;
        }
    }
    int64_t length = write_replaced(parts[0], parts[1], parts[2], NULL, &patience);
    if (length > sqlite3_limit(sqlite3_context_db_handle(context), SQLITE_LIMIT_LENGTH, -1)) {
        sqlite3_result_error_toobig(context);
        return;
    }
    uint8_t *made = length < 0 ? NULL : sqlite3_malloc64((uint64_t)length + 1);
    if (length < 0) {
        stop(context);
    } else if (made == NULL) {
        sqlite3_result_error_nomem(context);
    } else if (write_replaced(parts[0], parts[1], parts[2], made, &patience) < 0) {
        sqlite3_free(made);
        stop(context);
    } else {
        sqlite3_result_text(context, (char *)made, (int)length, sqlite3_free);
    }
}

/* How many bytes a character of a set takes at an end of a text; 0: none of them stands there, or -1: it was stopped. */
static int set_at_end(struct part text, const char *set, int is_left, struct patience *patience) {
    for (const uint8_t *at = (const uint8_t *)set, *next; *at != 0; at = next) {
        next = at + 1;
        while (at[0] >= 0xc0 && (*next & 0xc0) == 0x80)
            next++;
        int length = (int)(next - at);
        if (is_out_of_patience(patience, 1))
            return -1;
        if (length <= text.length && memcmp(is_left ? text.bytes : text.bytes + text.length - length, at, (size_t)length) == 0)
            return length;
    }
    return 0;
}

static void trim(sqlite3_context *context, sqlite3_value *const values[], int at_left, int at_right) {
    struct patience patience = patience_of(context);
    struct part text = {sqlite3_value_text(values[0]), sqlite3_value_bytes(values[0])};
    const char *set = (const char *)sqlite3_value_text(values[1]);
    int length = 0;
    if (text.bytes == NULL || set == NULL)
        return;
    while (at_left && text.length > 0 && (length = set_at_end(text, set, 1, &patience)) > 0) {
        text.bytes += length;
        text.length -= length;
    }
    while (at_right && length >= 0 && text.length > 0 && (length = set_at_end(text, set, 0, &patience)) > 0)
        text.length -= length;
    if (length < 0)
        stop(context);
    else
        sqlite3_result_text(context, (const char *)text.bytes, text.length, SQLITE_TRANSIENT);
}

static void do_trim(sqlite3_context *context, int count, sqlite3_value **values) {
    (void)count;
    trim(context, values, 1, 1);
}

static void do_ltrim(sqlite3_context *context, int count, sqlite3_value **values) {
    (void)count;
    trim(context, values, 1, 0);
}

static void do_rtrim(sqlite3_context *context, int count, sqlite3_value **values) {
    (void)count;
    trim(context, values, 0, 1);
}

static void do_current_setting(sqlite3_context *context, int count, sqlite3_value **values) {
    const struct session *session = sqlite3_user_data(context);
    const char *name = (const char *)sqlite3_value_text(values[0]);
    char shown[MOST_SHOWN];
    (void)count;
    if (name == NULL || !setting_show(&session->settings, name, shown))
        sqlite3_result_error(context, "there is no such setting here", -1);
    else
        sqlite3_result_text(context, shown, -1, SQLITE_TRANSIENT);
}

int functions_make(struct session *session) {
    static const struct {
        const char *name;
        int count;
        void (*act)(sqlite3_context *, int, sqlite3_value **);
        int flags;
    } functions[] = {
        {"like", 2, do_like, SQLITE_DETERMINISTIC},       {"like", 3, do_like, SQLITE_DETERMINISTIC},
        {"glob", 2, do_glob, SQLITE_DETERMINISTIC},       {"instr", 2, do_instr, SQLITE_DETERMINISTIC},
        {"replace", 3, do_replace, SQLITE_DETERMINISTIC}, {"trim", 2, do_trim, SQLITE_DETERMINISTIC},
        {"ltrim", 2, do_ltrim, SQLITE_DETERMINISTIC},     {"rtrim", 2, do_rtrim, SQLITE_DETERMINISTIC},
        {"current_setting", 1, do_current_setting, 0},
    };
    int said = SQLITE_OK;
    for (unsigned i = 0; said == SQLITE_OK && i < sizeof functions / sizeof functions[0]; i++)
        said = sqlite3_create_function(session->database, functions[i].name, functions[i].count,
                                       SQLITE_UTF8 | SQLITE_INNOCUOUS | functions[i].flags, session, functions[i].act, NULL, NULL);
    return said == SQLITE_OK;
}
