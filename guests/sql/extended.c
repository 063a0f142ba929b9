#include "extended.h"

#include <string.h>

#include "parameters.h"
#include "rows.h"
#include "types.h"

#define MOST_NAME 64
#define MOST_PARAMETERS 1000

struct prepared {
    struct prepared *next;
    char name[MOST_NAME];
    char *text;
    struct statement statement;
    sqlite3_stmt *compiled; /* or NULL, where nothing runs */
    int columns;     /* that it had when it was prepared, which are all that a portal and `told` have room for */
    int parameters;
    uint32_t *types; /* of the parameters; 0: none was named */
    uint32_t *beside; /* the types that these have by what stands beside them, or NULL while nobody has asked */
    uint32_t *told;  /* the columns' types that the client was told last, or NULL */
};

struct portal {
    struct portal *next;
    char name[MOST_NAME];
    struct prepared *of;
    struct statement statement;
    uint8_t *message;      /* the values, as they came */
    struct value *values;
    uint8_t *binary;       /* whether each column is asked for in binary */
    int is_run;            /* to its end */
    struct columns columns;
    struct text rows;
    uint32_t sent;         /* bytes of `rows` that were */
    int64_t count;         /* of rows, or of what was changed */
};

static enum outcome refuse(struct failure *failure, const char *code, const char *why) {
    set_failure(failure, code, why);
    return FAILED;
}

static enum outcome no_memory(struct failure *failure) { return refuse(failure, "53200", "out of memory"); }

static enum outcome malformed(struct failure *failure) { return refuse(failure, "08P01", "a message is not as the protocol has it"); }

static void *allocate(uint64_t count) {
    void *memory = sqlite3_malloc64(count + 1);
    if (memory != NULL)
        memset(memory, 0, count + 1);
    return memory;
}

/* SQLite compiles a statement anew where tables have changed. */
static int has_changed(const struct prepared *prepared) { return sqlite3_column_count(prepared->compiled) != prepared->columns; }

static enum outcome other_columns(struct failure *failure) { return refuse(failure, "0A000", "cached plan must not change result type"); }

/* Lists by name. */

static struct prepared *statement_of(struct extended *extended, const char *name) {
    struct prepared *prepared = extended->statements;
    while (prepared != NULL && strcmp(prepared->name, name) != 0)
        prepared = prepared->next;
    return prepared;
}

static struct portal *portal_of(struct extended *extended, const char *name) {
    struct portal *portal = extended->portals;
    while (portal != NULL && strcmp(portal->name, name) != 0)
        portal = portal->next;
    return portal;
}

static void free_portal(struct portal *portal) {
    columns_drop(&portal->columns);
    text_drop(&portal->rows);
    sqlite3_free(portal->message);
    sqlite3_free(portal->values);
    sqlite3_free(portal->binary);
    sqlite3_free(portal);
}

/* Forgets the portals of a name, or, where it is NULL, those of a statement, or, where that is NULL too, all. */
static void forget_portals_of(struct extended *extended, const char *name, const struct prepared *of) {
    struct portal **place = &extended->portals;
    while (*place != NULL) {
        struct portal *portal = *place;
        int is_one = name != NULL ? strcmp(portal->name, name) == 0 : of == NULL || portal->of == of;
        if (is_one) {
            *place = portal->next;
            free_portal(portal);
        } else {
            place = &portal->next;
        }
    }
}

void forget_portals(struct extended *extended) { forget_portals_of(extended, NULL, NULL); }

static void free_statement(struct prepared *prepared) {
    sqlite3_finalize(prepared->compiled);
    sqlite3_free(prepared->text);
    sqlite3_free(prepared->types);
    sqlite3_free(prepared->beside);
    sqlite3_free(prepared->told);
    sqlite3_free(prepared);
}

static void forget_statement(struct extended *extended, const char *name) {
    for (struct prepared **place = &extended->statements; *place != NULL; place = &(*place)->next)
        if (strcmp((*place)->name, name) == 0) {
            struct prepared *prepared = *place;
            forget_portals_of(extended, NULL, prepared);
            *place = prepared->next;
            free_statement(prepared);
            return;
        }
}

void forget_unnamed(struct extended *extended) {
    forget_statement(extended, "");
    forget_portals_of(extended, "", NULL);
}

void forget_all(struct extended *extended) {
    forget_portals(extended);
    while (extended->statements != NULL) {
        struct prepared *prepared = extended->statements;
        extended->statements = prepared->next;
        free_statement(prepared);
    }
}

/* Parse. */

static enum outcome check_new(struct session *session, struct extended *extended, const char *name, const struct statement *statement,
                              struct failure *failure) {
    if (strlen(name) >= MOST_NAME)
        return refuse(failure, "42622", "a name has more than 63 bytes");
    if (name[0] != '\0' && statement_of(extended, name) != NULL)
        return refuse(failure, "42P05", "a prepared statement of this name exists");
    if (!is_let_in(session, statement->kind))
        return refuse(failure, "25P02", "current transaction is aborted, commands ignored until end of transaction block");
    if (statement->kind == COPY)
        return refuse(failure, "0A000", "COPY is asked by a simple query");
    return ENDED;
}

/* Compiles, and reads the types of the parameters. */
static enum outcome compile(struct session *session, struct prepared *prepared, struct reader *reader, struct failure *failure) {
    const char *rest = prepared->text;
    do
        read_statement(rest, &prepared->statement);
    while (prepared->statement.kind == NOTHING && *(rest = prepared->statement.end) != '\0');
    enum outcome outcome = prepare(session, &prepared->statement, &prepared->compiled, &rest, failure);
    prepared->statement.sql = NULL;
    if (outcome != ENDED)
        return outcome;
    if (prepared->statement.more != NULL)
        return refuse(failure, "0A000", "a prepared statement drops or empties one table alone");
    if (!is_blank(rest))
        return refuse(failure, "42601", "cannot insert multiple commands into a prepared statement");
    int given = (int)read_16(reader);
    prepared->columns = sqlite3_column_count(prepared->compiled);
    prepared->parameters = parameters_of(prepared->compiled);
    prepared->parameters = prepared->parameters > given ? prepared->parameters : given;
    if (prepared->parameters > MOST_PARAMETERS)
        return refuse(failure, "54000", "a statement has more than 1000 parameters");
    prepared->types = allocate((uint64_t)prepared->parameters * sizeof *prepared->types);
    if (prepared->types == NULL)
        return no_memory(failure);
    for (int i = 0; i < given; i++)
        prepared->types[i] = read_32(reader);
    return is_at_end(reader) ? ENDED : malformed(failure);
}

enum outcome take_parse(struct session *session, struct extended *extended, struct reader *reader, struct failure *failure) {
    const char *name = read_string(reader), *text = read_string(reader);
    struct statement statement;
    if (reader->is_short)
        return malformed(failure);
    if (!is_utf8(text, (uint32_t)strlen(text)))
        return refuse(failure, "22021", NOT_UTF8);
    if (!session_open(session))
        return no_memory(failure);
    read_statement(text, &statement);
    if (check_new(session, extended, name, &statement, failure) != ENDED)
        return FAILED;
    forget_statement(extended, name);
    struct prepared *prepared = allocate(sizeof *prepared);
    if (prepared == NULL)
        return no_memory(failure);
    strcpy(prepared->name, name);
    prepared->text = sqlite3_mprintf("%s", text);
    enum outcome outcome = prepared->text == NULL ? no_memory(failure) : compile(session, prepared, reader, failure);
    if (outcome != ENDED) {
        free_statement(prepared);
        return outcome;
    }
    prepared->next = extended->statements;
    extended->statements = prepared;
    say_empty(&session->out, '1');
    return ENDED;
}

/* Bind. */

/* Format codes: none for text, one for all, or one each. Answers whether they are that. */
static int read_formats(struct reader *reader, uint8_t *formats, int count) {
    int given = (int)read_16(reader), one = 0;
    if (given > 1 && given != count)
        return 0;
    for (int i = 0; i < given; i++) {
        uint32_t format = read_16(reader);
        if (format > 1)
            return 0;
        one = (int)format;
        if (given > 1)
            formats[i] = (uint8_t)format;
    }
    for (int i = 0; given == 1 && i < count; i++)
        formats[i] = (uint8_t)one;
    return !reader->is_short;
}

/* The type in which a value comes in binary, and which a client that asks for it is told. In text a value whose type nobody named is text,
   and takes the affinity of its column. */
static uint32_t type_of_parameter(const struct prepared *prepared, int place) {
    return prepared->types[place] != 0 || prepared->beside == NULL ? prepared->types[place] : prepared->beside[place];
}

/* Answers whether there was memory. */
static int look_beside(struct session *session, struct prepared *prepared) {
    if (prepared->beside != NULL)
        return 1;
    prepared->beside = allocate((uint64_t)prepared->parameters * sizeof *prepared->beside);
    if (prepared->beside != NULL)
        types_of_parameters(session->database, prepared->text, prepared->beside, prepared->parameters);
    return prepared->beside != NULL;
}

static enum outcome read_values(struct portal *portal, struct reader *reader, struct failure *failure) {
    struct prepared *of = portal->of;
    uint8_t formats[MOST_PARAMETERS] = {0};
    if (!read_formats(reader, formats, of->parameters))
        return malformed(failure);
    if ((int)read_16(reader) != of->parameters)
        return refuse(failure, "08P01", "a statement needs another number of values");
    for (int i = 0; i < of->parameters; i++) {
        uint32_t count;
        const uint8_t *bytes = read_value(reader, &count);
        portal->values[i] = (struct value){formats[i] ? type_of_parameter(of, i) : of->types[i], formats[i], bytes, count};
    }
    return reader->is_short ? malformed(failure) : ENDED;
}

/* Copies what is left of the message, and reads it there. */
static enum outcome fill_portal(struct portal *portal, struct reader *reader, struct failure *failure) {
    uint32_t count = (uint32_t)(reader->end - reader->at);
    int columns = portal->of->columns;
    portal->message = allocate(count);
    portal->values = allocate((uint64_t)portal->of->parameters * sizeof *portal->values);
    portal->binary = allocate((uint64_t)columns);
    if (portal->message == NULL || portal->values == NULL || portal->binary == NULL)
        return no_memory(failure);
    memcpy(portal->message, reader->at, count);
    struct reader copied = {portal->message, portal->message + count, 0};
    enum outcome outcome = read_values(portal, &copied, failure);
    if (outcome == ENDED && !(read_formats(&copied, portal->binary, columns) && is_at_end(&copied)))
        return malformed(failure);
    return outcome;
}

enum outcome take_bind(struct session *session, struct extended *extended, struct reader *reader, struct failure *failure) {
    const char *name = read_string(reader), *statement = read_string(reader);
    struct prepared *of = statement_of(extended, statement);
    if (reader->is_short)
        return malformed(failure);
    if (of == NULL)
        return refuse(failure, "26000", "there is no prepared statement of this name");
    if (strlen(name) >= MOST_NAME)
        return refuse(failure, "42622", "a name has more than 63 bytes");
    if (name[0] != '\0' && portal_of(extended, name) != NULL)
        return refuse(failure, "42P03", "a portal of this name exists");
    if (!is_let_in(session, of->statement.kind))
        return refuse(failure, "25P02", "current transaction is aborted, commands ignored until end of transaction block");
    forget_portals_of(extended, name, NULL);
    struct portal *portal = allocate(sizeof *portal);
    if (portal == NULL)
        return no_memory(failure);
    strcpy(portal->name, name);
    portal->of = of;
    portal->statement = of->statement;
    portal->rows.most = MOST_ANSWER;
    if (fill_portal(portal, reader, failure) != ENDED) {
        free_portal(portal);
        return FAILED;
    }
    portal->next = extended->portals;
    extended->portals = portal;
    say_empty(&session->out, '2');
    return ENDED;
}

/* What runs. */

static void take_row(struct session *session, sqlite3_stmt *prepared, int64_t number);

static enum outcome bind_values(struct portal *portal, struct failure *failure) {
    sqlite3_stmt *compiled = portal->of->compiled;
    sqlite3_reset(compiled);
    sqlite3_clear_bindings(compiled);
    for (int place = 1; place <= sqlite3_bind_parameter_count(compiled); place++) {
        const char *code = bind_value(compiled, place, &portal->values[number_of_place(compiled, place) - 1]);
        if (code != NULL)
            return refuse(failure, code, strcmp(code, "22021") == 0 ? NOT_UTF8 : "a parameter's value isn't of its type, or can't be read");
    }
    return ENDED;
}

/* Runs a compiled statement. One that fails when it has changed something must be in a transaction, so that it can be taken back. */
static enum outcome run_compiled(struct session *session, struct extended *extended, struct portal *portal, const uint32_t *told,
                                 struct failure *failure) {
    const struct prepared *of = portal->of;
    const struct statement *statement = &portal->statement;
    int is_plain = statement->kind == PLAIN && !is_outside(statement);
    int is_safe = sqlite3_stmt_readonly(of->compiled) || sqlite3_column_count(of->compiled) == 0;
    if (bind_values(portal, failure) != ENDED)
        return FAILED;
    if (has_changed(of))
        return other_columns(failure);
    int is_first = sqlite3_get_autocommit(session->database);
    if (is_plain && !(extended->is_alone && is_safe) && begin_implicit(session, 0) != ENDED)
        return WAITS;
    columns_drop(&portal->columns);
    columns_start(&portal->columns, of->compiled, portal->binary, told);
    extended->running = portal;
    enum outcome outcome = run(session, of->compiled, &portal->rows, take_row, &portal->count, failure);
    if (outcome == COLLIDES && is_first) {
        give_up_implicit(session);
        return WAITS;
    }
    if (outcome == COLLIDES)
        return refuse(failure, "40001", "another client's transaction came between the statements of this one");
    if (outcome == FAILED && portal->columns.is_changed)
        return other_columns(failure);
    if (outcome != ENDED)
        return outcome;
    if (portal->columns.is_mixed)
        return refuse(failure, "42804", "a column has values of more than one type, which its binary form can't have: use CAST");
    if (statement->is_counted && strcmp(statement->tag, "SELECT") != 0)
        portal->count = sqlite3_changes(session->database);
    sqlite3_reset(of->compiled);
    has_ended(session, statement->kind);
    return ENDED;
}

static enum outcome run_portal(struct session *session, struct extended *extended, struct portal *portal, const uint32_t *told,
                               struct failure *failure) {
    struct statement *statement = &portal->statement;
    struct failure warning;
    if (!is_let_in(session, statement->kind))
        return refuse(failure, "25P02", "current transaction is aborted, commands ignored until end of transaction block");
    if (portal->is_run)
        return ENDED;
    portal->is_run = is_noted(session, statement, &warning);
    if (warning.code != NULL)
        say_warning(&session->out, warning.code, warning.why);
    if (set_setting(session, statement, failure) != ENDED)
        return FAILED;
    if (portal->is_run || portal->of->compiled == NULL) {
        portal->is_run = 1;
        return ENDED;
    }
    enum outcome outcome = run_compiled(session, extended, portal, told, failure);
    portal->is_run = outcome == ENDED;
    if (outcome == FAILED)
        has_failed(session, statement->kind);
    return outcome;
}

/* Describe. */

static void say_types(struct text *out, const struct prepared *prepared) {
    uint32_t at = message_begin(out, 't');
    add_16(out, (uint32_t)prepared->parameters);
    for (int i = 0; i < prepared->parameters; i++)
        add_32(out, type_of_parameter(prepared, i));
    message_end(out, at);
}

/* Tells the columns, and keeps what was told. `columns` is NULL where there are no rows yet. */
static enum outcome tell_columns(struct text *out, struct prepared *prepared, const struct columns *columns, struct failure *failure) {
    int count = prepared->columns;
    if (count == 0) {
        say_empty(out, 'n');
        return ENDED;
    }
    if (has_changed(prepared))
        return other_columns(failure);
    uint32_t *told = allocate((uint64_t)count * sizeof *told);
    if (told == NULL)
        return no_memory(failure);
    for (int i = 0; i < count; i++)
        told[i] = columns == NULL ? declared_type(prepared->compiled, i) : type_of_column(columns, prepared->compiled, i);
    say_columns(out, prepared->compiled, columns);
    sqlite3_free(prepared->told);
    prepared->told = told;
    return ENDED;
}

static enum outcome describe_portal(struct session *session, struct extended *extended, struct portal *portal, struct failure *failure) {
    sqlite3_stmt *compiled = portal->of->compiled;
    if (compiled == NULL || portal->of->columns == 0 || has_changed(portal->of))
        return tell_columns(&session->out, portal->of, NULL, failure);
    if (sqlite3_stmt_readonly(compiled)) {
        enum outcome outcome = run_portal(session, extended, portal, NULL, failure);
        if (outcome != ENDED)
            return outcome;
    } else if (portal->columns.seen.length == 0) {
        columns_start(&portal->columns, compiled, portal->binary, NULL);
    }
    portal->columns.told = NULL;
    if (portal->columns.seen.length < (uint32_t)portal->of->columns)
        return no_memory(failure);
    return tell_columns(&session->out, portal->of, &portal->columns, failure);
}

enum outcome take_describe(struct session *session, struct extended *extended, struct reader *reader, struct failure *failure) {
    const uint8_t *kind = read_bytes_of(reader, 1);
    const char *name = read_string(reader);
    if (!is_at_end(reader) || (*kind != 'S' && *kind != 'P'))
        return malformed(failure);
    if (*kind == 'S') {
        struct prepared *prepared = statement_of(extended, name);
        if (prepared == NULL)
            return refuse(failure, "26000", "there is no prepared statement of this name");
        if (!look_beside(session, prepared))
            return no_memory(failure);
        say_types(&session->out, prepared);
        return tell_columns(&session->out, prepared, NULL, failure);
    }
    struct portal *portal = portal_of(extended, name);
    if (portal == NULL)
        return refuse(failure, "34000", "there is no portal of this name");
    return describe_portal(session, extended, portal, failure);
}

/* Execute. */

static void take_row(struct session *session, sqlite3_stmt *prepared, int64_t number) {
    (void)number;
    struct extended *extended = extended_of(session);
    say_row(&extended->running->rows, prepared, &extended->running->columns);
}

/* Sends at most so many rows, or all where it is 0. Answers whether some are left. */
static int send_rows(struct text *out, struct portal *portal, uint32_t most) {
    uint32_t begun = portal->sent;
    for (uint32_t i = 0; portal->sent < portal->rows.length && (most == 0 || i < most); i++)
        portal->sent += 1 + get_32((const uint8_t *)portal->rows.bytes + portal->sent + 1);
    add_bytes(out, portal->rows.bytes + begun, portal->sent - begun);
    return portal->sent < portal->rows.length;
}

static void tell_end(struct session *session, struct extended *extended, struct portal *portal) {
    const struct statement *statement = &portal->statement;
    if (statement->kind == NOTHING)
        say_empty(&session->out, 'I');
    else
        say_complete(&session->out, statement->tag, statement->is_counted, portal->count);
    forget_after(session, extended, statement);
}

void forget_after(struct session *session, struct extended *extended, const struct statement *statement) {
    if (statement->kind == DISCARD)
        forget_all(extended);
    else if (statement->kind == DEALLOCATE)
        forget_statement(extended, statement->name);
    else if ((statement->kind == COMMIT || statement->kind == ROLLBACK) && !is_in_block(session))
        forget_portals(extended);
}

enum outcome take_execute(struct session *session, struct extended *extended, struct reader *reader, struct failure *failure) {
    const char *name = read_string(reader);
    uint32_t most = read_32(reader);
    struct portal *portal = portal_of(extended, name);
    if (!is_at_end(reader))
        return malformed(failure);
    if (portal == NULL)
        return refuse(failure, "34000", "there is no portal of this name");
    enum outcome outcome = run_portal(session, extended, portal, portal->of->told, failure);
    if (outcome != ENDED)
        return outcome;
    uint32_t begun = session->out.length;
    int is_more = send_rows(&session->out, portal, most);
    if (is_more)
        say_empty(&session->out, 's');
    else
        tell_end(session, extended, portal);
    if (!session->out.is_full)
        return ENDED;
    text_cut(&session->out, begun);
    return no_memory(failure);
}

enum outcome take_close(struct session *session, struct extended *extended, struct reader *reader, struct failure *failure) {
    const uint8_t *kind = read_bytes_of(reader, 1);
    const char *name = read_string(reader);
    if (!is_at_end(reader) || (*kind != 'S' && *kind != 'P'))
        return malformed(failure);
    if (*kind == 'S')
        forget_statement(extended, name);
    else
        forget_portals_of(extended, name, NULL);
    say_empty(&session->out, '3');
    return ENDED;
}
