#include "copy.h"

#include <string.h>

#include "messages.h"
#include "parameters.h"
#include "rows.h"

#define MOST_SQL MOST_ASKED

/* The most bytes of rows that wait, and of a row. */
#define MOST_ROWS (2 * MOST_ASKED)

/* Rows are said when there are so many bytes of them. */
#define ENOUGH (8 * 1024)

/* What the binary format begins with, before flags and the length of an extension. */
static const char signature[] = "PGCOPY\n\377\r\n";
#define SIGNED 19

static void *allocate(uint64_t count) {
    void *memory = sqlite3_malloc64(count + 1);
    if (memory != NULL)
        memset(memory, 0, count + 1);
    return memory;
}

static enum outcome refuse(struct failure *failure, const char *code, const char *why) {
    set_failure(failure, code, why);
    return FAILED;
}

static enum outcome no_memory(struct failure *failure) { return refuse(failure, "53200", "out of memory"); }

void copy_drop(struct copy *copy) {
    sqlite3_finalize(copy->prepared);
    sqlite3_free(copy->columns.of);
    sqlite3_free(copy->fields);
    sqlite3_free(copy->types);
    sqlite3_free(copy->formats);
    columns_drop(&copy->binary);
    text_drop(&copy->rows);
    sqlite3_free(copy->text);
    memset(copy, 0, sizeof *copy);
}

void copy_fail(struct session *session, struct copy *copy, const struct failure *failure) {
    struct failure told = *failure;
    sqlite3_finalize(copy->prepared);
    copy->prepared = NULL;
    if (copy->line > 0)
        sqlite3_snprintf(MOST_WHY, told.why, "line %lld: %s", copy->line, failure->why);
    copy_drop(copy);
    has_failed(session, NOTHING);
    session_rest(session);
    say_error(&session->out, "ERROR", told.code, told.why);
    say_ready(session);
}

static void is_over(struct session *session, struct copy *copy) {
    say_complete(&session->out, "COPY", 1, copy->count);
    copy_drop(copy);
    session_rest(session);
    say_ready(session);
}

/* Statements of its own. */

static void add_name(struct text *sql, const char *name) {
    add(sql, "\"");
    for (; *name != '\0'; name++)
        add_bytes(sql, (char[]){*name, '"'}, *name == '"' ? 2 : 1);
    add(sql, "\"");
}

/* Compiles a text, which goes then. */
static enum outcome prepare_sql(struct session *session, struct text *sql, sqlite3_stmt **prepared, struct failure *failure) {
    struct statement statement;
    const char *rest;
    add_bytes(sql, "", 1);
    if (sql->is_full) {
        text_drop(sql);
        return no_memory(failure);
    }
    read_statement(sql->bytes, &statement);
    enum outcome outcome = prepare(session, &statement, prepared, &rest, failure);
    if (outcome == ENDED && (*prepared == NULL || !is_blank(rest)))
        outcome = refuse(failure, "42601", "COPY: one query alone can be copied");
    text_drop(sql);
    return outcome;
}

/* Columns. */

static enum outcome add_column(struct copy *copy, const char *name, const char *declared, struct failure *failure) {
    struct copy_columns *columns = &copy->columns;
    if (columns->count % 16 == 0) {
        struct copy_column *more = sqlite3_realloc64(columns->of, (uint64_t)(columns->count + 16) * sizeof *more);
        if (more == NULL)
            return no_memory(failure);
        columns->of = more;
    }
    struct copy_column *column = &columns->of[columns->count];
    if (strlen(name) >= sizeof column->name)
        return refuse(failure, "42622", "COPY: a column's name has more than 63 bytes");
    const struct copy_form *form = &copy->words.form;
    strcpy(column->name, name);
    column->type = type_of_declaration(declared);
    column->is_truth = declared != NULL && sqlite3_strnicmp(declared, "BOOL", 4) == 0;
    column->is_quoted = is_listed(form->quoted, name);
    column->is_not_null = is_listed(form->not_null, name);
    column->is_also_null = is_listed(form->also_null, name);
    columns->count++;
    return ENDED;
}

/* Looks at a table's own columns, without those that are worked out, for one of a name, or takes all. */
static enum outcome find_columns(struct session *session, struct copy *copy, const char *name, struct failure *failure) {
    struct text sql = {.most = MOST_SQL};
    sqlite3_stmt *described = NULL;
    add(&sql, "PRAGMA table_info(");
    add_name(&sql, copy->words.table);
    add(&sql, ")");
    enum outcome outcome = prepare_sql(session, &sql, &described, failure);
    int found = 0, said;
    while (outcome == ENDED && (said = sqlite3_step(described)) == SQLITE_ROW) {
        const char *has = (const char *)sqlite3_column_text(described, 1), *declared = (const char *)sqlite3_column_text(described, 2);
        if (has == NULL)
            outcome = no_memory(failure);
        else if (name == NULL || sqlite3_stricmp(name, has) == 0) {
            outcome = add_column(copy, has, declared, failure);
            found = 1;
        }
    }
    sqlite3_finalize(described);
    if (outcome != ENDED || found)
        return outcome;
    char why[160];
    sqlite3_snprintf(sizeof why, why, name == NULL ? "no such table: %s" : "no such column: %s.%s", copy->words.table, name);
    return refuse(failure, name == NULL ? "42P01" : "42703", why);
}

static enum outcome list_columns(struct session *session, struct copy *copy, struct failure *failure) {
    const char *list = copy->words.columns;
    char name[64];
    enum outcome outcome = find_columns(session, copy, NULL, failure);
    if (list == NULL || outcome != ENDED)
        return outcome;
    copy->columns.count = 0;
    while (outcome == ENDED && next_listed(&list, name)) {
        for (int i = 0; i < copy->columns.count; i++)
            if (sqlite3_stricmp(copy->columns.of[i].name, name) == 0)
                return refuse(failure, "42701", "COPY: a column is named twice");
        outcome = find_columns(session, copy, name, failure);
    }
    return outcome;
}

static void add_columns(struct text *sql, const struct copy_columns *columns) {
    for (int i = 0; i < columns->count; i++) {
        add(sql, i == 0 ? "" : ",");
        add_name(sql, columns->of[i].name);
    }
}

/* The messages of the protocol. */

static void say_begin(struct session *session, const struct copy *copy, char type) {
    int is_binary = copy->words.form.kind == AS_BINARY;
    uint32_t at = message_begin(&session->out, type);
    add_bytes(&session->out, is_binary ? "\1" : "", 1);
    add_16(&session->out, (uint32_t)copy->columns.count);
    for (int i = 0; i < copy->columns.count; i++)
        add_16(&session->out, (uint32_t)is_binary);
    message_end(&session->out, at);
}

/* To the client. */

static enum outcome prepare_out(struct session *session, struct copy *copy, struct failure *failure) {
    struct copy_words *words = &copy->words;
    struct text sql = {.most = MOST_SQL};
    enum outcome outcome = words->query != NULL ? ENDED : list_columns(session, copy, failure);
    if (outcome != ENDED)
        return outcome;
    if (words->query != NULL) {
        add_bytes(&sql, words->query, words->query_length);
    } else {
        add(&sql, "SELECT ");
        add_columns(&sql, &copy->columns);
        add(&sql, " FROM ");
        add_name(&sql, words->table);
    }
    outcome = prepare_sql(session, &sql, &copy->prepared, failure);
    if (outcome == ENDED && (!sqlite3_stmt_readonly(copy->prepared) || sqlite3_column_count(copy->prepared) == 0))
        return refuse(failure, "0A000", "COPY: what is copied is a query that only reads");
    for (int i = 0; outcome == ENDED && words->query != NULL && i < sqlite3_column_count(copy->prepared); i++) {
        const char *name = sqlite3_column_name(copy->prepared, i);
        outcome = name == NULL ? no_memory(failure)
                               : add_column(copy, name, sqlite3_column_decltype(copy->prepared, i), failure);
    }
    return outcome;
}

/* A row in binary is what a row of an answer is. */
static void say_binary_row(struct copy *copy, sqlite3_stmt *prepared) {
    uint32_t at = copy->rows.length;
    say_row(&copy->rows, prepared, &copy->binary);
    if (!copy->rows.is_full)
        copy->rows.bytes[at] = 'd';
}

/* A row, or the columns' names. */
static void say_row_of_text(struct copy *copy, sqlite3_stmt *prepared) {
    uint32_t at = message_begin(&copy->rows, 'd');
    if (prepared == NULL)
        write_names(&copy->rows, &copy->words.form, &copy->columns);
    else
        write_row(&copy->rows, &copy->words.form, &copy->columns, prepared);
    message_end(&copy->rows, at);
}

static void say_bytes(struct text *out, const void *bytes, uint32_t count) {
    uint32_t at = message_begin(out, 'd');
    add_bytes(out, bytes, count);
    message_end(out, at);
}

static void say_start(struct session *session, struct copy *copy) {
    uint8_t front[SIGNED] = {0};
    say_begin(session, copy, 'H');
    copy->is_signed = 1;
    if (copy->words.form.kind == AS_BINARY) {
        memcpy(front, signature, sizeof signature);
        say_bytes(&copy->rows, front, sizeof front);
        columns_drop(&copy->binary);
        columns_start(&copy->binary, copy->prepared, copy->formats, copy->types);
    } else if (copy->words.form.header != NO_HEADER) {
        say_row_of_text(copy, NULL);
    }
}

/* Hands the rows that are written on, and waits until most of it is sent. */
static void hand_on(struct session *session, struct copy *copy) {
    add_bytes(&session->out, copy->rows.bytes, copy->rows.length);
    text_cut(&copy->rows, 0);
    session_stream(session);
}

static void take_row(struct session *session, sqlite3_stmt *prepared, int64_t number) {
    struct copy *copy = copy_of(session);
    if (number == 1)
        say_start(session, copy);
    if (copy->words.form.kind == AS_BINARY)
        say_binary_row(copy, prepared);
    else
        say_row_of_text(copy, prepared);
    if (copy->rows.length >= ENOUGH && !copy->rows.is_full)
        hand_on(session, copy);
}

/* In binary each column has the type by which it was declared. */
static enum outcome tell_types(struct copy *copy, struct failure *failure) {
    uint64_t count = (uint64_t)copy->columns.count;
    copy->types = allocate(count * sizeof *copy->types);
    copy->formats = allocate(count);
    if (copy->types == NULL || copy->formats == NULL)
        return no_memory(failure);
    memset(copy->formats, 1, count);
    for (uint64_t i = 0; i < count; i++)
        copy->types[i] = copy->columns.of[i].type;
    return ENDED;
}

static enum outcome send_all(struct session *session, struct copy *copy, struct failure *failure) {
    enum outcome outcome = copy->prepared == NULL ? prepare_out(session, copy, failure) : ENDED;
    if (outcome == ENDED && copy->words.form.kind == AS_BINARY && copy->types == NULL)
        outcome = tell_types(copy, failure);
    if (outcome != ENDED)
        return outcome;
    copy->rows.most = MOST_ANSWER;
    outcome = run(session, copy->prepared, &copy->rows, take_row, &copy->count, failure);
    if (outcome != ENDED)
        return outcome;
    if (copy->binary.is_mixed)
        return refuse(failure, "42804", "a column has values of more than one type, which its binary form can't have: use CAST");
    if (!copy->is_signed)
        say_start(session, copy);
    if (copy->words.form.kind == AS_BINARY)
        say_bytes(&copy->rows, "\xff\xff", 2);
    hand_on(session, copy);
    say_empty(&session->out, 'c');
    has_ended(session, PLAIN);
    return session->out.is_full ? no_memory(failure) : ENDED;
}

/* From the client. */

static enum outcome prepare_in(struct session *session, struct copy *copy, struct failure *failure) {
    struct text sql = {.most = MOST_SQL};
    enum outcome outcome = list_columns(session, copy, failure);
    if (outcome != ENDED)
        return outcome;
    add(&sql, "INSERT INTO ");
    add_name(&sql, copy->words.table);
    add(&sql, "(");
    add_columns(&sql, &copy->columns);
    add(&sql, ") VALUES(");
    for (int i = 0; i < copy->columns.count; i++)
        add(&sql, i == 0 ? "?" : ",?");
    add(&sql, ")");
    copy->fields = allocate((uint64_t)copy->columns.count * sizeof *copy->fields);
    if (copy->fields == NULL) {
        text_drop(&sql);
        return no_memory(failure);
    }
    return prepare_sql(session, &sql, &copy->prepared, failure);
}

/* Lets the client send, once what it sends can be written. */
static enum outcome let_send(struct session *session, struct copy *copy, struct failure *failure) {
    enum outcome outcome = begin_load(session);
    if (outcome == ENDED)
        outcome = prepare_in(session, copy, failure);
    if (outcome != ENDED)
        return outcome;
    copy->rows.most = MOST_ROWS;
    copy->stage = TAKES_ROWS;
    say_begin(session, copy, 'G');
    return ENDED;
}

/* A whole number that SQLite would make of a text for such a column; most are. */
static int read_whole(const struct field *field, int64_t *number) {
    const char *at = field->at, *end = at + field->length;
    int is_negative = at < end && *at == '-';
    at += is_negative;
    if (at == end || end - at > 18)
        return 0;
    for (*number = 0; at < end; at++) {
        if (*at < '0' || *at > '9')
            return 0;
        *number = 10 * *number + (*at - '0');
    }
    *number = is_negative ? -*number : *number;
    return 1;
}

static const char *bind_field(const struct copy *copy, int i) {
    const struct field *field = &copy->fields[i];
    const struct copy_column *column = &copy->columns.of[i];
    int is_binary = copy->words.form.kind == AS_BINARY;
    int64_t number;
    if (!is_binary && field->at != NULL && column->type == INT8 && read_whole(field, &number))
        return sqlite3_bind_int64(copy->prepared, i + 1, number) == SQLITE_OK ? NULL : "53200";
    int is_bytes = column->type == BYTEA && field->at != NULL && field->length >= 2 && memcmp(field->at, "\\x", 2) == 0;
    uint32_t type = is_binary ? column->type : is_bytes ? BYTEA : column->is_truth ? BOOL : TEXT;
    struct value value = {type, is_binary, (const uint8_t *)field->at, field->length};
    return bind_value(copy->prepared, i + 1, &value);
}

static enum outcome refuse_field(const struct copy *copy, int i, const char *code, struct failure *failure) {
    char why[MOST_WHY];
    sqlite3_snprintf(sizeof why, why, "column %s: %s", copy->columns.of[i].name,
                     strcmp(code, "22021") == 0 ? NOT_UTF8 : "a value isn't of its type, or can't be read");
    return refuse(failure, code, why);
}

static void take_nothing(struct session *session, sqlite3_stmt *prepared, int64_t number) { (void)session, (void)prepared, (void)number; }

static enum outcome write_fields(struct session *session, struct copy *copy, struct failure *failure) {
    struct text none = {.most = 1};
    int64_t rows;
    for (int i = 0; i < copy->columns.count; i++) {
        const char *code = bind_field(copy, i);
        if (code != NULL)
            return refuse_field(copy, i, code, failure);
    }
    enum outcome outcome = run(session, copy->prepared, &none, take_nothing, &rows, failure);
    sqlite3_reset(copy->prepared);
    return outcome;
}

static enum outcome match_names(const struct copy *copy, struct failure *failure) {
    for (int i = 0; i < copy->columns.count; i++) {
        const struct field *field = &copy->fields[i];
        const char *name = copy->columns.of[i].name;
        if (field->at == NULL || field->length != strlen(name) || memcmp(field->at, name, field->length) != 0)
            return refuse(failure, "22P04", "COPY: the header doesn't have the columns' names");
    }
    return ENDED;
}

/* A row with its end, which is split into fields once. */
static enum outcome split(struct copy *copy, char *row, uint32_t length, struct failure *failure) {
    const struct copy_form *form = &copy->words.form;
    length -= form->kind == AS_BINARY || copy->is_cut ? 0 : end_of_row(row, length);
    copy->line++;
    uint32_t mark = find_end_mark(form, row, length);
    copy->is_ended = mark != NO_MARK;
    if (copy->is_ended && mark + 2 != length)
        return refuse(failure, "22P04", "the mark of the end, \\., isn't at its line's end");
    length -= copy->is_ended ? 2 : 0;
    int is_header = copy->line == 1 && form->header != NO_HEADER;
    if ((copy->is_ended && length == 0) || (is_header && form->header == HAS_HEADER))
        return ENDED;
    const char *why = read_row(form, &copy->columns, row, length, copy->fields);
    if (why != NULL)
        return refuse(failure, "22P04", why);
    copy->is_split = !is_header;
    return is_header ? match_names(copy, failure) : ENDED;
}

/* What came can't be asked for again, where a transaction of its own would have to begin anew. */
static enum outcome collides(const struct session *session, struct failure *failure) {
    return session->wants_room ? FAILED : refuse(failure, "40001", "another client's transaction stands in the way of this one");
}

static enum outcome write_row_of(struct session *session, struct copy *copy, char *row, uint32_t length, struct failure *failure) {
    enum outcome outcome = copy->is_split ? ENDED : split(copy, row, length, failure);
    if (outcome != ENDED || !copy->is_split)
        return outcome;
    outcome = write_fields(session, copy, failure);
    copy->is_split = outcome == WAITS;
    copy->count += outcome == ENDED;
    return outcome == COLLIDES ? collides(session, failure) : outcome;
}

/* What stands before the rows of the binary format: flags, of which none may be set, and an extension. 0: it hasn't come whole. */
static uint32_t signed_length(const uint8_t *bytes, uint32_t count) {
    return count < SIGNED || get_32(bytes + SIGNED - 4) > count - SIGNED ? 0 : SIGNED + get_32(bytes + SIGNED - 4);
}

/* The next row that came, or what stands before the first; the last one may lack its end. */
static uint32_t next_row(struct copy *copy) {
    const char *from = copy->rows.bytes + copy->done;
    uint32_t left = copy->rows.length - copy->done;
    if (copy->words.form.kind == AS_BINARY && !copy->is_signed)
        return signed_length((const uint8_t *)from, left);
    uint32_t length = copy->is_split ? copy->row : find_row(&copy->finder, &copy->words.form, from, left);
    copy->is_cut = length == 0 && copy->stage == ENDS;
    return copy->is_cut ? left : length;
}

static enum outcome check_signed(struct copy *copy, const char *from, struct failure *failure) {
    copy->is_signed = 1;
    if (memcmp(from, signature, sizeof signature) != 0 || (get_32((const uint8_t *)from + sizeof signature) & 0xffff0000) != 0)
        return refuse(failure, "22P04", "COPY: this doesn't begin as rows in binary do");
    return ENDED;
}

static enum outcome write_next(struct session *session, struct copy *copy, uint32_t length, struct failure *failure) {
    char *from = copy->rows.bytes + copy->done;
    int is_front = copy->words.form.kind == AS_BINARY && !copy->is_signed;
    copy->row = length;
    enum outcome outcome = is_front ? check_signed(copy, from, failure) : write_row_of(session, copy, from, length, failure);
    if (outcome != ENDED)
        return outcome;
    copy->done += length;
    copy->finder = (struct row_finder){0};
    if (!session_is_stopped(session))
        return ENDED;
    stop_failure(session, failure);
    return FAILED;
}

static enum outcome write_rows(struct session *session, struct copy *copy, struct failure *failure) {
    enum outcome outcome = ENDED;
    if (copy->rows.is_full == NO_MEMORY)
        return no_memory(failure);
    for (uint32_t length; outcome == ENDED && !copy->is_ended && (length = next_row(copy)) > 0;)
        outcome = write_next(session, copy, length, failure);
    if (outcome != ENDED)
        return outcome;
    if (copy->is_ended)
        copy->done = copy->rows.length;
    text_shift(&copy->rows, copy->done);
    copy->done = 0;
    if (copy->rows.is_full || copy->rows.length > MOST_ASKED)
        return refuse(failure, "54000", "a row has more than 256 KB");
    if (copy->stage == ENDS && copy->words.form.kind == AS_BINARY && !copy->is_signed)
        return refuse(failure, "22P04", "COPY: this doesn't begin as rows in binary do");
    return ENDED;
}

/* All came: where it is a transaction of its own it comes about. */
static enum outcome end_all(struct session *session, struct copy *copy, struct failure *failure) {
    enum outcome outcome = write_rows(session, copy, failure);
    if (outcome != ENDED)
        return outcome;
    sqlite3_finalize(copy->prepared);
    copy->prepared = NULL;
    outcome = end_implicit(session, failure);
    if (outcome == ENDED)
        has_ended(session, PLAIN);
    return outcome == COLLIDES ? FAILED : outcome;
}

/* Stages. */

static enum outcome go_on(struct session *session, struct copy *copy, struct failure *failure) {
    enum outcome outcome;
    switch (copy->stage) {
    case BEGINS: return copy->words.is_out ? send_all(session, copy, failure) : let_send(session, copy, failure);
    case HAS_ROWS:
        outcome = write_rows(session, copy, failure);
        copy->stage = outcome == ENDED ? TAKES_ROWS : HAS_ROWS;
        return outcome;
    default: return end_all(session, copy, failure);
    }
}

void copy_go_on(struct session *session, struct copy *copy) {
    struct failure failure;
    session->was_block = is_in_block(session);
    enum outcome outcome = go_on(session, copy, &failure);
    if (outcome == WAITS)
        session_wait(session);
    else if (outcome != ENDED)
        copy_fail(session, copy, &failure);
    else if (copy->stage != TAKES_ROWS)
        is_over(session, copy);
    else
        session_rest(session);
}

static void take_failure(struct session *session, struct copy *copy, const char *why, uint32_t count) {
    struct failure failure;
    char words[MOST_WHY];
    int is_text = count > 0 && memchr(why, '\0', count) == why + count - 1 && is_utf8(why, count - 1);
    sqlite3_snprintf(sizeof words, words, "COPY from stdin failed: %s", is_text ? why : "the client says so");
    set_failure(&failure, "57014", words);
    copy_fail(session, copy, &failure);
}

void copy_take(struct session *session, struct copy *copy, uint8_t type, const char *bytes, uint32_t count) {
    struct failure failure;
    switch (type) {
    case 'd':
        if (!copy->is_ended)
            add_bytes(&copy->rows, bytes, count);
        copy->stage = HAS_ROWS;
        copy_go_on(session, copy);
        break;
    case 'c':
        copy->stage = ENDS;
        copy_go_on(session, copy);
        break;
    case 'f': take_failure(session, copy, bytes, count); break;
    case 'H':
    case 'S': break;
    default:
        set_failure(&failure, "08P01", "a message that can't come while rows are copied");
        copy_fail(session, copy, &failure);
    }
}

void copy_start(struct session *session, struct copy *copy, const char *text, uint32_t length) {
    struct failure failure;
    copy->stage = BEGINS;
    copy->text = allocate(length);
    if (copy->text == NULL || !session_open(session)) {
        no_memory(&failure);
    } else if (!is_let_in(session, COPY)) {
        set_failure(&failure, "25P02", "current transaction is aborted, commands ignored until end of transaction block");
    } else {
        memcpy(copy->text, text, length);
        if (read_copy(after_blanks(copy->text), &copy->words, &failure)) {
            copy_go_on(session, copy);
            return;
        }
    }
    copy_fail(session, copy, &failure);
}
