#include "sets.h"

#include <stdlib.h>
#include <string.h>

#include "arrays.h"

#define MOST_ARRAYS 3

enum kind { UNNEST, SERIES, SUBSCRIPTS, NOTHING };

struct table {
    sqlite3_vtab base;
    enum kind kind;
    int columns;    /* of values */
    int has_number; /* and one of their number behind them */
};

struct cursor {
    sqlite3_vtab_cursor base;
    char *arrays[MOST_ARRAYS];
    struct elements elements[MOST_ARRAYS];
    int has[MOST_ARRAYS], is_over;
    sqlite3_int64 number, value, last, step;
};

static struct cursor *of(sqlite3_vtab_cursor *cursor) { return (struct cursor *)cursor; }

static enum kind kind_of(const char *name) {
    return strncmp(name, "unnest ", 7) == 0        ? UNNEST
           : strncmp(name, "generate_se", 11) == 0 ? SERIES
           : name[0] == 'g'                        ? SUBSCRIPTS
                                                   : NOTHING;
}

/* The columns of a name, and those by which its values come. */
static char *declaration(struct table *table, const char *name) {
    char *made = sqlite3_mprintf("CREATE TABLE x("), *names = sqlite3_mprintf("%s", strchr(name, ' ') + 1);
    table->has_number = 1;
    table->columns = -1;
    for (char *at = names, *end; made != NULL && at != NULL; at = end) {
        end = strchr(at, ' ');
        if (end != NULL)
            *end++ = '\0';
        table->has_number = strcmp(at, "-") != 0;
        if (table->has_number)
            made = sqlite3_mprintf("%z\"%w\", ", made, at);
        table->columns++;
    }
    sqlite3_free(names);
    return made == NULL ? NULL : sqlite3_mprintf("%zone HIDDEN, two HIDDEN, three HIDDEN)", made);
}

static int connect_table(sqlite3 *database, void *name, int count, const char *const *words, sqlite3_vtab **made, char **why) {
    (void)count, (void)words, (void)why;
    struct table *table = sqlite3_malloc64(sizeof *table);
    if (table == NULL)
        return SQLITE_NOMEM;
    memset(table, 0, sizeof *table);
    table->kind = kind_of(name);
    char *sql = declaration(table, name);
    int said = sql == NULL ? SQLITE_NOMEM : sqlite3_declare_vtab(database, sql);
    sqlite3_free(sql);
    if (said == SQLITE_OK)
        *made = &table->base;
    else
        sqlite3_free(table);
    return said;
}

static int disconnect(sqlite3_vtab *table) {
    sqlite3_free(table);
    return SQLITE_OK;
}

/* Each value that is given must be known when the rows are made; bit i of the plan is value i's. */
static int best_index(sqlite3_vtab *base, sqlite3_index_info *info) {
    const struct table *table = (struct table *)base;
    int first = table->columns + table->has_number, values = 0;
    for (int i = 0; i < info->nConstraint; i++) {
        int value = info->aConstraint[i].iColumn - first;
        if (value < 0 || info->aConstraint[i].op != SQLITE_INDEX_CONSTRAINT_EQ)
            continue;
        if (!info->aConstraint[i].usable)
            return SQLITE_CONSTRAINT;
        info->idxNum |= 1 << value;
        info->aConstraintUsage[i].omit = 1;
        values++;
    }
    for (int i = 0; i < info->nConstraint; i++)
        if (info->aConstraintUsage[i].omit)
            info->aConstraintUsage[i].argvIndex = info->aConstraint[i].iColumn - first + 1;
    info->estimatedCost = values > 0 ? 10 : 1e9;
    info->estimatedRows = 10;
    return SQLITE_OK;
}

static int open_cursor(sqlite3_vtab *table, sqlite3_vtab_cursor **made) {
    (void)table;
    struct cursor *cursor = sqlite3_malloc64(sizeof *cursor);
    if (cursor == NULL)
        return SQLITE_NOMEM;
    memset(cursor, 0, sizeof *cursor);
    *made = &cursor->base;
    return SQLITE_OK;
}

static void forget_arrays(struct cursor *cursor) {
    for (int i = 0; i < MOST_ARRAYS; i++) {
        elements_drop(&cursor->elements[i]);
        sqlite3_free(cursor->arrays[i]);
        cursor->arrays[i] = NULL;
        cursor->has[i] = 0;
    }
}

static int close_cursor(sqlite3_vtab_cursor *cursor) {
    forget_arrays(of(cursor));
    sqlite3_free(cursor);
    return SQLITE_OK;
}

/* The next element of each array; one that is shorter has NULL in its place. */
static int next_elements(struct cursor *cursor) {
    cursor->is_over = 1;
    for (int i = 0; i < MOST_ARRAYS; i++) {
        cursor->has[i] = cursor->arrays[i] != NULL && elements_next(&cursor->elements[i]);
        cursor->is_over &= !cursor->has[i];
        if (cursor->arrays[i] != NULL && cursor->elements[i].value.is_full)
            return SQLITE_NOMEM;
    }
    return SQLITE_OK;
}

static int go_on(sqlite3_vtab_cursor *base) {
    struct cursor *cursor = of(base);
    cursor->number++;
    if (((struct table *)base->pVtab)->kind == UNNEST)
        return next_elements(cursor);
    cursor->is_over = __builtin_add_overflow(cursor->value, cursor->step, &cursor->value)
                      || (cursor->step > 0 ? cursor->value > cursor->last : cursor->value < cursor->last);
    return SQLITE_OK;
}

static int malformed(struct cursor *cursor) {
    cursor->base.pVtab->zErrMsg = sqlite3_mprintf("malformed array: one dimension and its braces are needed");
    return SQLITE_ERROR;
}

static int begin_arrays(struct cursor *cursor, int count, sqlite3_value **values) {
    for (int i = 0; i < count && i < MOST_ARRAYS; i++) {
        const char *array = (const char *)sqlite3_value_text(values[i]);
        if (array == NULL)
            continue;
        cursor->arrays[i] = sqlite3_mprintf("%s", array);
        if (cursor->arrays[i] == NULL)
            return SQLITE_NOMEM;
        if (!elements_start(&cursor->elements[i], cursor->arrays[i]))
            return malformed(cursor);
    }
    return SQLITE_OK;
}

static int count_elements(struct cursor *cursor) {
    int count = 0;
    while (cursor->arrays[0] != NULL && elements_next(&cursor->elements[0]))
        count++;
    return count;
}

static int filter(sqlite3_vtab_cursor *base, int plan, const char *text, int count, sqlite3_value **values) {
    struct cursor *cursor = of(base);
    enum kind kind = ((struct table *)base->pVtab)->kind;
    (void)plan, (void)text;
    forget_arrays(cursor);
    cursor->number = 0;
    cursor->is_over = 1;
    int said = kind == UNNEST || kind == SUBSCRIPTS ? begin_arrays(cursor, kind == UNNEST ? count : 1, values) : SQLITE_OK;
    for (int i = 0; i < count && kind == SERIES; i++)
        if (sqlite3_value_type(values[i]) == SQLITE_NULL)
            return SQLITE_OK;
    if (said != SQLITE_OK || kind == NOTHING || (kind == SERIES && count < 2))
        return said;
    cursor->step = kind == SERIES && count > 2 ? sqlite3_value_int64(values[2]) : 1;
    if (cursor->step == 0) {
        base->pVtab->zErrMsg = sqlite3_mprintf("step size cannot equal zero");
        return SQLITE_ERROR;
    }
    cursor->last = kind == SERIES ? sqlite3_value_int64(values[1]) : kind == SUBSCRIPTS ? count_elements(cursor) : 0;
    cursor->value = (kind == SERIES ? sqlite3_value_int64(values[0]) : 1);
    if (kind == UNNEST)
        return go_on(base);
    cursor->number = 1;
    cursor->is_over = cursor->step > 0 ? cursor->value > cursor->last : cursor->value < cursor->last;
    return SQLITE_OK;
}

static int is_at_end(sqlite3_vtab_cursor *cursor) { return of(cursor)->is_over; }

static int column(sqlite3_vtab_cursor *base, sqlite3_context *context, int number) {
    struct cursor *cursor = of(base);
    const struct table *table = (struct table *)base->pVtab;
    if (number == table->columns && table->has_number)
        sqlite3_result_int64(context, cursor->number);
    else if (number < table->columns && table->kind != UNNEST)
        sqlite3_result_int64(context, cursor->value);
    else if (number < table->columns && number < MOST_ARRAYS && cursor->has[number])
        element_result(context, &cursor->elements[number]);
    return SQLITE_OK;
}

static int row_number(sqlite3_vtab_cursor *cursor, sqlite3_int64 *number) {
    *number = of(cursor)->number;
    return SQLITE_OK;
}

static const sqlite3_module module = {
    .xConnect = connect_table,
    .xBestIndex = best_index,
    .xDisconnect = disconnect,
    .xDestroy = disconnect,
    .xOpen = open_cursor,
    .xClose = close_cursor,
    .xFilter = filter,
    .xNext = go_on,
    .xEof = is_at_end,
    .xColumn = column,
    .xRowid = row_number,
};

int set_make(sqlite3 *database, const char *name) {
    char *kept = sqlite3_mprintf("%s", name);
    return kept != NULL && sqlite3_create_module_v2(database, name, &module, kept, sqlite3_free) == SQLITE_OK;
}
