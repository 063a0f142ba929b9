#include "catalog.h"

#include <string.h>

#include "arrays.h"
#include "catalog_queries.h"
#include "declarations.h"
#include "session.h"
#include "sqlite3.h"

/* Relations as virtual tables. */

struct table {
    sqlite3_vtab base;
    sqlite3 *database;
    const struct relation *relation;
};

struct cursor {
    sqlite3_vtab_cursor base;
    sqlite3_stmt *rows; /* compiled for a plan, or NULL */
    int plan, is_over;
    sqlite3_int64 number;
};

static struct table *table_of(sqlite3_vtab_cursor *cursor) { return (struct table *)cursor->pVtab; }

static int connect_table(sqlite3 *database, void *relation, int count, const char *const *words, sqlite3_vtab **made, char **why) {
    (void)count, (void)words, (void)why;
    struct table *table = sqlite3_malloc64(sizeof *table);
    char *sql = sqlite3_mprintf("CREATE TABLE x(%s)", ((const struct relation *)relation)->columns);
    int said = table == NULL || sql == NULL ? SQLITE_NOMEM : sqlite3_declare_vtab(database, sql);
    sqlite3_free(sql);
    if (said != SQLITE_OK) {
        sqlite3_free(table);
        return said;
    }
    *table = (struct table){.database = database, .relation = relation};
    *made = &table->base;
    return SQLITE_OK;
}

static int disconnect(sqlite3_vtab *table) {
    sqlite3_free(table);
    return SQLITE_OK;
}

/* A column that is compared to a value is compared within the query: the plan is a bit for each, of the first 30. */
static int best_index(sqlite3_vtab *base, sqlite3_index_info *info) {
    (void)base;
    int known = 0;
    for (int column = 0; column < 30; column++)
        for (int i = 0; i < info->nConstraint; i++)
            if (info->aConstraint[i].iColumn == column && info->aConstraint[i].usable
                && info->aConstraint[i].op == SQLITE_INDEX_CONSTRAINT_EQ) {
                info->aConstraintUsage[i].argvIndex = ++known;
                info->idxNum |= 1 << column;
                break;
            }
    info->estimatedRows = known > 0 ? 4 : 400;
    info->estimatedCost = known > 0 ? 1000 : 10000;
    return SQLITE_OK;
}

static int open_cursor(sqlite3_vtab *table, sqlite3_vtab_cursor **made) {
    (void)table;
    struct cursor *cursor = sqlite3_malloc64(sizeof *cursor);
    if (cursor == NULL)
        return SQLITE_NOMEM;
    *cursor = (struct cursor){.is_over = 1};
    *made = &cursor->base;
    return SQLITE_OK;
}

static int close_cursor(sqlite3_vtab_cursor *base) {
    struct cursor *cursor = (struct cursor *)base;
    sqlite3_finalize(cursor->rows);
    sqlite3_free(cursor);
    return SQLITE_OK;
}

/* Adds the names of a relation's columns, or a condition for each that a plan compares. */
static char *add_names(char *sql, const char *columns, int plan, int is_condition) {
    const char *between = is_condition ? " WHERE " : "";
    for (int column = 0; sql != NULL; column++) {
        int length = (int)strcspn(columns, " ");
        if (!is_condition || (column < 30 && plan >> column & 1)) {
            sql = sqlite3_mprintf(is_condition ? "%z%s%.*s = ?" : "%z%s%.*s", sql, between, length, columns);
            between = is_condition ? " AND " : ", ";
        }
        columns = strchr(columns, ',');
        if (columns == NULL)
            break;
        columns += 2;
    }
    return sql;
}

static int compile(struct cursor *cursor, int plan) {
    const struct table *table = table_of(&cursor->base);
    char *sql = add_names(sqlite3_mprintf("WITH r("), table->relation->columns, 0, 0);
    sql = sql == NULL ? NULL : sqlite3_mprintf("%z) AS (%s) SELECT * FROM r", sql, table->relation->sql);
    sql = add_names(sql, table->relation->columns, plan, 1);
    int said = sql == NULL ? SQLITE_NOMEM : sqlite3_prepare_v2(table->database, sql, -1, &cursor->rows, NULL);
    sqlite3_free(sql);
    cursor->plan = plan;
    return said;
}

static int tell(struct cursor *cursor, int said) {
    sqlite3_vtab *table = cursor->base.pVtab;
    if (said == SQLITE_ERROR && table->zErrMsg == NULL)
        table->zErrMsg = sqlite3_mprintf("%s", sqlite3_errmsg(table_of(&cursor->base)->database));
    return said;
}

static int go_on(sqlite3_vtab_cursor *base) {
    struct cursor *cursor = (struct cursor *)base;
    int said = sqlite3_step(cursor->rows);
    cursor->is_over = said != SQLITE_ROW;
    cursor->number++;
    return said == SQLITE_ROW || said == SQLITE_DONE ? SQLITE_OK : tell(cursor, said);
}

/* A relation's columns are compared as they are declared: '5' is the number 5 beside one of numbers. */
static int bind_values(struct cursor *cursor, sqlite3_value **values) {
    const char *columns = table_of(&cursor->base)->relation->columns;
    int said = SQLITE_OK, place = 0;
    for (int column = 0; column < 30 && columns != NULL; column++) {
        columns += column == 0 ? 0 : 2;
        if (said == SQLITE_OK && cursor->plan >> column & 1) {
            const char *type = strchr(columns, ' ') + 1;
            if (strncmp(type, "INTEGER", 7) == 0 || strncmp(type, TRUTH, sizeof TRUTH - 1) == 0)
                sqlite3_value_numeric_type(values[place]);
            said = sqlite3_bind_value(cursor->rows, place + 1, values[place]);
            place++;
        }
        columns = strchr(columns, ',');
    }
    return said;
}

static int filter(sqlite3_vtab_cursor *base, int plan, const char *text, int count, sqlite3_value **values) {
    struct cursor *cursor = (struct cursor *)base;
    int said = SQLITE_OK;
    (void)text, (void)count;
    cursor->is_over = 1;
    cursor->number = 0;
    if (table_of(base)->relation->sql == NULL)
        return SQLITE_OK;
    if (cursor->rows != NULL && cursor->plan != plan) {
        sqlite3_finalize(cursor->rows);
        cursor->rows = NULL;
    }
    if (cursor->rows == NULL)
        said = compile(cursor, plan);
    else
        sqlite3_reset(cursor->rows);
    if (said == SQLITE_OK)
        said = bind_values(cursor, values);
    return said == SQLITE_OK ? go_on(base) : tell(cursor, said);
}

static int is_at_end(sqlite3_vtab_cursor *cursor) { return ((struct cursor *)cursor)->is_over; }

static int column(sqlite3_vtab_cursor *cursor, sqlite3_context *context, int number) {
    sqlite3_result_value(context, sqlite3_column_value(((struct cursor *)cursor)->rows, number));
    return SQLITE_OK;
}

static int row_number(sqlite3_vtab_cursor *cursor, sqlite3_int64 *number) {
    *number = ((struct cursor *)cursor)->number;
    return SQLITE_OK;
}

static const sqlite3_module module = {
    .xConnect = connect_table,
    .xBestIndex = best_index,
    .xDisconnect = disconnect,
    .xDestroy = disconnect,
    .xOpen = open_cursor,
    .xClose = close_cursor,
    .xFilter = filter,
    .xNext = go_on,
    .xEof = is_at_end,
    .xColumn = column,
    .xRowid = row_number,
};

/* Functions. */

static void answer(sqlite3_context *context, int count, sqlite3_value **values) {
    const struct function *function = sqlite3_user_data(context);
    sqlite3 *database = sqlite3_context_db_handle(context);
    sqlite3_stmt *prepared = NULL;
    int said = sqlite3_prepare_v2(database, function->sql, -1, &prepared, NULL);
    for (int i = 0; said == SQLITE_OK && i < count && i < sqlite3_bind_parameter_count(prepared); i++)
        said = sqlite3_bind_value(prepared, i + 1, values[i]);
    if (said == SQLITE_OK)
        said = sqlite3_step(prepared);
    if (said == SQLITE_ROW) {
        sqlite3_result_value(context, sqlite3_column_value(prepared, 0));
    } else if (said == SQLITE_DONE && function->missing != NULL && sqlite3_value_type(values[0]) != SQLITE_NULL) {
        char *why = sqlite3_mprintf(function->missing, sqlite3_value_text(values[0]));
        sqlite3_result_error(context, why == NULL ? "out of memory" : why, -1);
        sqlite3_free(why);
    } else if (said != SQLITE_DONE) {
        sqlite3_result_error(context, sqlite3_errmsg(database), -1);
        sqlite3_result_error_code(context, said);
    }
    sqlite3_finalize(prepared);
}

int catalog_make(struct session *session) {
    int said = SQLITE_OK;
    for (const struct relation *relation = catalog_relations; said == SQLITE_OK && relation->name != NULL; relation++)
        said = sqlite3_create_module(session->database, relation->name, &module, (void *)relation);
    for (const struct function *function = catalog_functions; function->name != NULL; function++)
        for (int count = function->least; said == SQLITE_OK && count <= function->most; count++)
            said = sqlite3_create_function(session->database, function->name, count, SQLITE_UTF8, (void *)function, answer, NULL, NULL);
    return said == SQLITE_OK && arrays_make(session->database) && declarations_make(session);
}

int is_of_catalog(const char *name) {
    for (const struct relation *relation = catalog_relations; relation->name != NULL; relation++)
        if (sqlite3_stricmp(relation->name, name) == 0)
            return 1;
    for (const struct function *function = catalog_functions; function->name != NULL; function++)
        if (sqlite3_stricmp(function->name, name) == 0)
            return 1;
    return 0;
}

int is_truth_of_catalog(const char *name) {
    size_t length = strlen(name);
    for (const struct relation *relation = catalog_relations; relation->name != NULL; relation++)
        for (const char *at = relation->columns; at != NULL; at = strchr(at, ',')) {
            at += at == relation->columns ? 0 : 2;
            if (sqlite3_strnicmp(at, name, (int)length) == 0 && strncmp(at + length, " " TRUTH, sizeof TRUTH) == 0)
                return 1;
        }
    return 0;
}
