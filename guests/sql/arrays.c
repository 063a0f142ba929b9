#include "arrays.h"

#include <stdlib.h>
#include <string.h>

#include "session.h"

/* So many rows are sorted at most by ORDER BY within a call, which nobody can stop. */
#define MOST_SORTED 4000

int elements_start(struct elements *elements, const char *array) {
    size_t length = strlen(array);
    *elements = (struct elements){.is_vector = array[0] != '{', .value.most = MOST_VALUE_BYTES};
    elements->at = array + !elements->is_vector;
    return elements->is_vector ? array[strspn(array, "0123456789- ")] == '\0' : length >= 2 && array[length - 1] == '}' && array[1] != '{';
}

static const char *read_quoted(struct elements *elements, const char *at) {
    while (*at != '\0' && *at != '"') {
        at += *at == '\\' && at[1] != '\0';
        add_bytes(&elements->value, at++, 1);
    }
    return *at == '\0' ? at : at + 1;
}

int elements_next(struct elements *elements) {
    const char *at = elements->at, *ends = elements->is_vector ? " " : ",}";
    while (*at == ' ' || *at == ',')
        at++;
    if (*at == '\0' || *at == '}')
        return 0;
    text_cut(&elements->value, 0);
    int is_quoted = *at == '"';
    if (is_quoted)
        at = read_quoted(elements, at + 1);
    else
        for (; *at != '\0' && strchr(ends, *at) == NULL; at++)
            add_bytes(&elements->value, at, 1);
    elements->is_null = !is_quoted && elements->value.length == 4 && sqlite3_strnicmp(elements->value.bytes, "NULL", 4) == 0;
    elements->at = at;
    return !elements->value.is_full;
}

void elements_drop(struct elements *elements) { text_drop(&elements->value); }

/* Writing. */

static int is_bare(const char *bytes, uint32_t count) {
    if (count == 0 || (count == 4 && sqlite3_strnicmp(bytes, "NULL", 4) == 0))
        return 0;
    for (uint32_t i = 0; i < count; i++)
        if (bytes[i] == '\0' || strchr("{},\"\\ \n\t\r", bytes[i]) != NULL)
            return 0;
    return 1;
}

static void answer(sqlite3_context *context, struct text *text) {
    if (text->is_full == TOO_LONG)
        sqlite3_result_error_toobig(context);
    else if (text->is_full)
        sqlite3_result_error_nomem(context);
    else
        sqlite3_result_text(context, text->length == 0 ? "" : text->bytes, (int)text->length, SQLITE_TRANSIENT);
    text_drop(text);
}

/* An array's kind goes with it to the client (rows.c), where nothing comes between. */
static void answer_array(sqlite3_context *context, struct text *array, int is_of_numbers) {
    answer(context, array);
    sqlite3_result_subtype(context, is_of_numbers ? ARRAY_OF_NUMBERS : ARRAY_OF_TEXTS);
}

static void add_element(struct text *array, sqlite3_value *value) {
    const char *bytes = (const char *)sqlite3_value_text(value);
    uint32_t count = (uint32_t)sqlite3_value_bytes(value);
    add(array, array->length == 0 ? "{" : ",");
    if (bytes == NULL || is_bare(bytes, count)) {
        add_bytes(array, bytes == NULL ? "NULL" : bytes, bytes == NULL ? 4 : count);
        return;
    }
    add(array, "\"");
    for (uint32_t i = 0; i < count; i++) {
        if (bytes[i] == '"' || bytes[i] == '\\')
            add(array, "\\");
        add_bytes(array, bytes + i, 1);
    }
    add(array, "\"");
}

static void do_array(sqlite3_context *context, int count, sqlite3_value **values) {
    struct text array = {.most = MOST_VALUE_BYTES};
    int are_numbers = count > 0;
    for (int i = 0; i < count; i++) {
        add_element(&array, values[i]);
        are_numbers &= sqlite3_value_type(values[i]) == SQLITE_INTEGER;
    }
    add(&array, count == 0 ? "{}" : "}");
    answer_array(context, &array, are_numbers);
}

/* Reading. */

/* Begins to read the first value. Answers 0 where it is NULL, or none, which is said. */
static int begin(sqlite3_context *context, sqlite3_value *value, struct elements *elements) {
    const char *array = (const char *)sqlite3_value_text(value);
    *elements = (struct elements){0};
    if (array == NULL)
        return 0;
    int is_one = elements_start(elements, array);
    if (!is_one)
        sqlite3_result_error(context, "malformed array: one dimension and its braces are needed", -1);
    return is_one;
}

static int is_number(const struct text *text) {
    uint32_t i = text->length > 1 && text->bytes[0] == '-';
    for (; i < text->length && text->bytes[i] >= '0' && text->bytes[i] <= '9'; i++)
        ;
    return i == text->length && i > 0 && i < 19;
}

static void answer_element(sqlite3_context *context, const struct elements *elements) {
    if (elements->is_null)
        return;
    sqlite3_result_text(context, elements->value.length == 0 ? "" : elements->value.bytes, (int)elements->value.length, SQLITE_TRANSIENT);
}

void element_result(sqlite3_context *context, const struct elements *elements) {
    char digits[20];
    if (elements->is_null || !is_number(&elements->value)) {
        answer_element(context, elements);
        return;
    }
    memcpy(digits, elements->value.bytes, elements->value.length);
    digits[elements->value.length] = '\0';
    sqlite3_result_int64(context, strtoll(digits, NULL, 10));
}

/* x[i]; of a vector the first is x[0]. */
static void do_element(sqlite3_context *context, int count, sqlite3_value **values) {
    struct elements elements;
    (void)count;
    if (sqlite3_value_type(values[1]) != SQLITE_NULL && begin(context, values[0], &elements)) {
        int64_t left = sqlite3_value_int64(values[1]) + elements.is_vector;
        while (left > 0 && elements_next(&elements))
            if (--left == 0)
                element_result(context, &elements);
    }
    elements_drop(&elements);
}

static void do_length(sqlite3_context *context, int count, sqlite3_value **values) {
    struct elements elements;
    int length = 0;
    (void)count;
    if (!begin(context, values[0], &elements))
        return;
    while (elements_next(&elements))
        length++;
    if (length > 0 || sqlite3_user_data(context) != NULL)
        sqlite3_result_int(context, length);
    elements_drop(&elements);
}

static void do_to_string(sqlite3_context *context, int count, sqlite3_value **values) {
    struct elements elements;
    struct text joined = {.most = MOST_VALUE_BYTES};
    const char *between = (const char *)sqlite3_value_text(values[1]);
    const char *null = count > 2 ? (const char *)sqlite3_value_text(values[2]) : NULL;
    if (between == NULL || !begin(context, values[0], &elements))
        return;
    for (int is_next = 0; elements_next(&elements);) {
        if (elements.is_null && null == NULL)
            continue;
        add(&joined, is_next ? between : "");
        if (elements.is_null)
            add(&joined, null);
        else
            add_bytes(&joined, elements.value.bytes, elements.value.length);
        is_next = 1;
    }
    elements_drop(&elements);
    answer(context, &joined);
}

/* Aggregates: array_agg(x, [by]), string_agg(x, between, [by]), and an array of all of a query's rows. */

struct row {
    sqlite3_value *value, *by;
};

struct rows {
    struct row *rows;
    int count, room, is_wrong; /* more than are sorted, or no memory */
    char *between;
};

static void add_row(struct rows *rows, sqlite3_value *value, sqlite3_value *by) {
    if (by != NULL && rows->count == MOST_SORTED)
        rows->is_wrong = TOO_LONG;
    if (rows->count == rows->room && !rows->is_wrong) {
        int room = rows->room == 0 ? 8 : 2 * rows->room;
        struct row *more = sqlite3_realloc64(rows->rows, (uint64_t)room * sizeof *more);
        rows->is_wrong = more == NULL ? NO_MEMORY : 0;
        rows->rows = more == NULL ? rows->rows : more;
        rows->room = more == NULL ? rows->room : room;
    }
    if (rows->is_wrong)
        return;
    struct row *row = &rows->rows[rows->count++];
    row->value = sqlite3_value_dup(value);
    row->by = by == NULL ? NULL : sqlite3_value_dup(by);
    if (row->value == NULL || (by != NULL && row->by == NULL))
        rows->is_wrong = NO_MEMORY;
}

static int compare(const void *one, const void *other) {
    sqlite3_value *a = ((const struct row *)one)->by, *b = ((const struct row *)other)->by;
    int is_text = sqlite3_value_type(a) == SQLITE_TEXT || sqlite3_value_type(b) == SQLITE_TEXT;
    if (sqlite3_value_type(a) == SQLITE_NULL || sqlite3_value_type(b) == SQLITE_NULL)
        return (sqlite3_value_type(a) == SQLITE_NULL) - (sqlite3_value_type(b) == SQLITE_NULL);
    if (is_text)
        return strcmp((const char *)sqlite3_value_text(a), (const char *)sqlite3_value_text(b));
    double x = sqlite3_value_double(a), y = sqlite3_value_double(b);
    return (x > y) - (x < y);
}

static void step_array(sqlite3_context *context, int count, sqlite3_value **values) {
    struct rows *rows = sqlite3_aggregate_context(context, sizeof *rows);
    if (rows == NULL)
        sqlite3_result_error_nomem(context);
    else
        add_row(rows, values[0], count > 1 ? values[1] : NULL);
}

static void step_string(sqlite3_context *context, int count, sqlite3_value **values) {
    struct rows *rows = sqlite3_aggregate_context(context, sizeof *rows);
    const char *between = (const char *)sqlite3_value_text(values[1]);
    if (rows == NULL || sqlite3_value_type(values[0]) == SQLITE_NULL)
        return;
    if (rows->between == NULL)
        rows->between = sqlite3_mprintf("%s", between == NULL ? "" : between);
    add_row(rows, values[0], count > 2 ? values[2] : NULL);
}

/* Takes the rows in their order. Answers whether there are any; where they are too many that is said. */
static int take_rows(sqlite3_context *context, struct rows *rows) {
    if (rows == NULL)
        return 0;
    if (rows->is_wrong == TOO_LONG)
        sqlite3_result_error(context, "too many rows: ORDER BY within a call sorts 4000 of them", -1);
    else if (rows->is_wrong)
        sqlite3_result_error_nomem(context);
    else if (rows->count > 1 && rows->rows[0].by != NULL)
        qsort(rows->rows, (size_t)rows->count, sizeof *rows->rows, compare);
    return !rows->is_wrong && rows->count > 0;
}

static void drop_rows(struct rows *rows) {
    if (rows == NULL)
        return;
    for (int i = 0; i < rows->count; i++) {
        sqlite3_value_free(rows->rows[i].value);
        sqlite3_value_free(rows->rows[i].by);
    }
    sqlite3_free(rows->rows);
    sqlite3_free(rows->between);
}

static void end_array(sqlite3_context *context) {
    struct rows *rows = sqlite3_aggregate_context(context, 0);
    struct text array = {.most = MOST_VALUE_BYTES};
    int is_there = take_rows(context, rows), are_numbers = is_there;
    for (int i = 0; is_there && i < rows->count; i++) {
        add_element(&array, rows->rows[i].value);
        are_numbers &= sqlite3_value_type(rows->rows[i].value) == SQLITE_INTEGER;
    }
    add(&array, is_there ? "}" : "{}");
    if (is_there || (sqlite3_user_data(context) != NULL && (rows == NULL || !rows->is_wrong)))
        answer_array(context, &array, are_numbers);
    text_drop(&array);
    drop_rows(rows);
}

static void end_string(sqlite3_context *context) {
    struct rows *rows = sqlite3_aggregate_context(context, 0);
    struct text joined = {.most = MOST_VALUE_BYTES};
    if (take_rows(context, rows)) {
        for (int i = 0; i < rows->count; i++) {
            add(&joined, i > 0 && rows->between != NULL ? rows->between : "");
            add_bytes(&joined, sqlite3_value_text(rows->rows[i].value), (uint32_t)sqlite3_value_bytes(rows->rows[i].value));
        }
        answer(context, &joined);
    }
    drop_rows(rows);
}

int arrays_make(sqlite3 *database) {
    static int also; /* what an empty one comes to: 0, or {} */
    static const struct {
        const char *name;
        int count;
        void *with;
        void (*act)(sqlite3_context *, int, sqlite3_value **), (*step)(sqlite3_context *, int, sqlite3_value **), (*end)(sqlite3_context *);
    } functions[] = {
        {"pg_array", -1, NULL, do_array, NULL, NULL},
        {"pg_element", 2, NULL, do_element, NULL, NULL},
        {"array_length", 2, NULL, do_length, NULL, NULL},
        {"array_upper", 2, NULL, do_length, NULL, NULL},
        {"cardinality", 1, &also, do_length, NULL, NULL},
        {"array_to_string", 2, NULL, do_to_string, NULL, NULL},
        {"array_to_string", 3, NULL, do_to_string, NULL, NULL},
        {"array_agg", 1, NULL, NULL, step_array, end_array},
        {"array_agg", 2, NULL, NULL, step_array, end_array},
        {"pg_array_all", 1, &also, NULL, step_array, end_array},
        {"string_agg", 2, NULL, NULL, step_string, end_string},
        {"string_agg", 3, NULL, NULL, step_string, end_string},
    };
    int said = SQLITE_OK;
    for (unsigned i = 0; said == SQLITE_OK && i < sizeof functions / sizeof functions[0]; i++)
        said = sqlite3_create_function(database, functions[i].name, functions[i].count, SQLITE_UTF8 | SQLITE_INNOCUOUS, functions[i].with,
                                       functions[i].act, functions[i].step, functions[i].end);
    return said == SQLITE_OK;
}
