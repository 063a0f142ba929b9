#include "statement.h"

#include <string.h>

#include "escapes.h"
#include "sqlite3.h"

#define MOST_WORD 24

static int is_letter(char c) { return ((c | 32) >= 'a' && (c | 32) <= 'z') || c == '_' || (c & 0x80) != 0; }

static int is_digit(char c) { return c >= '0' && c <= '9'; }

const char *after_quoted(const char *at) {
    if (*at == '\'' || *at == '"' || *at == '`' || *at == '[') {
        char end = *at == '[' ? ']' : *at;
        for (at++; *at != '\0' && *at != end; at++)
            ;
        return *at == '\0' ? at : at + 1;
    }
    if (at[0] == '-' && at[1] == '-') {
        while (*at != '\0' && *at != '\n')
            at++;
    } else if (at[0] == '/' && at[1] == '*') {
        const char *end = strstr(at + 2, "*/");
        return end == NULL ? at + strlen(at) : end + 2;
    }
    return at;
}

static int is_comment(const char *at) { return (at[0] == '-' && at[1] == '-') || (at[0] == '/' && at[1] == '*'); }

const char *after_blanks(const char *at) {
    for (;;) {
        while (*at == ' ' || *at == '\n' || *at == '\t' || *at == '\r' || *at == '\f')
            at++;
        if (!is_comment(at))
            return at;
        at = after_quoted(at);
    }
}

/* Reads the next word, in capitals; an empty one where there is none. Answers what is after it. */
static const char *next_word(const char *at, char word[MOST_WORD]) {
    int length = 0;
    at = after_blanks(at);
    if (is_letter(*at))
        for (; is_letter(*at) || is_digit(*at); at++)
            if (length < MOST_WORD - 1)
                word[length++] = *at >= 'a' && *at <= 'z' ? (char)(*at - 32) : *at;
    word[length] = '\0';
    return at;
}

static int is_one_of(const char *word, const char *const words[]) {
    for (; *words != NULL; words++)
        if (strcmp(word, *words) == 0)
            return 1;
    return 0;
}

/* Whether a string with escapes begins here, E'..', behind another character. */
static int is_escaped(const char *at, const char *begin) {
    return (*at | 32) == 'e' && at[1] == '\'' && (at == begin || !(is_letter(at[-1]) || is_digit(at[-1])));
}

/* After the next semicolon that isn't within quotes, or at the end. */
static const char *after_semicolon(const char *at) {
    static const uint8_t ends_run[256] = {['\0'] = 1, [';'] = 1, ['\''] = 1, ['"'] = 1, ['`'] = 1, ['['] = 1, ['-'] = 1, ['/'] = 1};
    for (const char *begin = at;;) {
        while (!ends_run[(uint8_t)*at])
            at++;
        if (*at == '\0' || *at == ';')
            return *at == '\0' ? at : at + 1;
        const char *after = *at == '\'' && at > begin && is_escaped(at - 1, begin) ? after_escaped(at) : after_quoted(at);
        at = after == at ? at + 1 : after;
    }
}

/* The word that says what a statement with WITH does: the first of these that isn't within parentheses. */
static void main_word(const char *at, char word[MOST_WORD]) {
    static const char *const words[] = {"SELECT", "VALUES", "INSERT", "REPLACE", "UPDATE", "DELETE", NULL};
    int depth = 0;
    while (*at != '\0' && *at != ';') {
        const char *after = after_quoted(at);
        if (after != at) {
            at = after;
        } else if (is_letter(*at)) {
            at = next_word(at, word);
            if (depth == 0 && is_one_of(word, words))
                return;
        } else {
            depth += *at == '(' ? 1 : *at == ')' ? -1 : 0;
            at++;
        }
    }
    strcpy(word, "SELECT");
}

/* The tag of a statement that SQLite is given as it stands. */
static void set_tag(struct statement *statement, const char *word, const char *after) {
    static const char *const reading[] = {"SELECT", "VALUES", "PRAGMA", "EXPLAIN", NULL};
    static const char *const made[] = {"CREATE", "DROP", "ALTER", NULL};
    static const char *const passed[] = {"TEMP", "TEMPORARY", "UNIQUE", "VIRTUAL", NULL};
    char main[MOST_WORD];
    memcpy(main, word, MOST_WORD);
    if (strcmp(word, "WITH") == 0)
        main_word(after, main);
    statement->is_counted = 1;
    if (is_one_of(main, reading)) {
        strcpy(statement->tag, "SELECT");
    } else if (strcmp(main, "INSERT") == 0 || strcmp(main, "REPLACE") == 0) {
        strcpy(statement->tag, "INSERT 0");
    } else {
        statement->is_counted = strcmp(main, "UPDATE") == 0 || strcmp(main, "DELETE") == 0;
        strcpy(statement->tag, main);
    }
    if (is_one_of(main, made)) {
        do
            after = next_word(after, main);
        while (is_one_of(main, passed));
        sqlite3_snprintf(sizeof statement->tag, statement->tag, "%s %s", word, main);
    }
}

/* What SQLite is told where a transaction begins: its own words stand, and PostgreSQL's modes are passed over. Answers NULL where a word is
   neither. */
static const char *beginning(const char *after, const char *end) {
    static const char *const passed[] = {"TRANSACTION", "WORK", "ISOLATION", "LEVEL",     "SERIALIZABLE", "REPEATABLE", "READ",
                                         "COMMITTED",   "ONLY", "WRITE",     "UNCOMMITTED", "NOT",        "DEFERRABLE", NULL};
    const char *told = "BEGIN";
    char word[MOST_WORD];
    for (after = next_word(after, word); word[0] != '\0'; after = next_word(after, word)) {
        if (strcmp(word, "IMMEDIATE") == 0 || strcmp(word, "EXCLUSIVE") == 0)
            told = word[0] == 'I' ? "BEGIN IMMEDIATE" : "BEGIN EXCLUSIVE";
        else if (strcmp(word, "DEFERRED") != 0 && !is_one_of(word, passed))
            return NULL;
        after = after_blanks(after);
        after += *after == ',';
    }
    return after_blanks(after) >= end - (end[-1] == ';') ? told : NULL;
}

/* Whether only such words are left. */
static int has_only(const char *after, const char *const words[]) {
    char word[MOST_WORD];
    do
        after = next_word(after, word);
    while (is_one_of(word, words));
    return word[0] == '\0' && (*after == ';' || *after == '\0');
}

static void set(struct statement *statement, enum kind kind, const char *sql, const char *tag) {
    statement->kind = kind;
    statement->sql = sql;
    statement->is_counted = 0;
    strcpy(statement->tag, tag);
}

/* A name or a value, with the quotes around it taken off, in small letters where it has none. Answers what is after it. */
static const char *read_until(const char *at, char *name, int room) {
    int length = 0;
    at = after_blanks(at);
    char quote = *at == '"' || *at == '\'' ? *at++ : '\0';
    for (; *at != '\0' && (quote != '\0' ? *at != quote : is_letter(*at) || is_digit(*at) || *at == '.' || *at == '-'); at++)
        if (length < room - 1)
            name[length++] = quote == '\0' && *at >= 'A' && *at <= 'Z' ? (char)(*at + 32) : *at;
    name[length] = '\0';
    return quote != '\0' && *at == quote ? at + 1 : at;
}

static const char *read_name(const char *at, char name[64]) { return read_until(at, name, 64); }

/* The words of transactions. Answers whether it is one of these. */
static int read_transaction(struct statement *statement, const char *word, const char *after) {
    static const char *const passed[] = {"TRANSACTION", "WORK", NULL};
    char next[MOST_WORD];
    next_word(after, next);
    if (strcmp(word, "BEGIN") == 0 || (strcmp(word, "START") == 0 && strcmp(next, "TRANSACTION") == 0)) {
        const char *sql = beginning(after, statement->end);
        if (sql != NULL)
            set(statement, BEGIN, sql, "BEGIN");
        return sql != NULL;
    }
    if ((strcmp(word, "COMMIT") == 0 || strcmp(word, "END") == 0) && has_only(after, passed)) {
        set(statement, COMMIT, "COMMIT", "COMMIT");
    } else if ((strcmp(word, "ROLLBACK") == 0 || strcmp(word, "ABORT") == 0) && has_only(after, passed)) {
        set(statement, ROLLBACK, "ROLLBACK", "ROLLBACK");
    } else if (strcmp(word, "ROLLBACK") == 0) {
        set(statement, ROLLBACK_TO, NULL, "ROLLBACK");
    } else if (strcmp(word, "SAVEPOINT") == 0) {
        set(statement, SAVEPOINT, NULL, "SAVEPOINT");
    } else {
        return 0;
    }
    return 1;
}

/* What is to be set: [SESSION | LOCAL] NAME {= | TO} VALUE, after SET. */
static void read_set(struct statement *statement, const char *after) {
    char next[MOST_WORD];
    const char *behind = next_word(after, next);
    statement->is_local = strcmp(next, "LOCAL") == 0;
    if (statement->is_local || strcmp(next, "SESSION") == 0)
        after = behind;
    after = read_name(after, statement->name);
    behind = next_word(after, next);
    after = after_blanks(after);
    after = strcmp(next, "TO") == 0 ? behind : after + (*after == '=');
    next_word(after, next);
    statement->is_default = strcmp(next, "DEFAULT") == 0;
    if (!statement->is_default)
        read_until(after, statement->value, sizeof statement->value);
}

/* The words of settings, and of what was prepared. */
static void read_setting(struct statement *statement, const char *word, const char *after) {
    char next[MOST_WORD];
    const char *behind = next_word(after, next);
    if (strcmp(word, "SET") == 0) {
        set(statement, SET, NULL, word);
        read_set(statement, after);
    } else if (strcmp(word, "RESET") == 0) {
        set(statement, SET, NULL, word);
        read_name(after, statement->name);
        statement->is_default = 1;
    } else if (strcmp(word, "SHOW") == 0) {
        set(statement, SHOW, NULL, "SHOW");
        read_name(after, statement->name);
        if (strcmp(next, "TRANSACTION") == 0)
            strcpy(statement->name, "transaction_isolation");
    } else if (strcmp(word, "DISCARD") == 0) {
        set(statement, DISCARD, NULL, "DISCARD ALL");
        statement->is_default = strcmp(next, "ALL") == 0;
        strcpy(statement->name, "all");
    } else if (strcmp(word, "DEALLOCATE") == 0) {
        if (strcmp(next, "PREPARE") == 0) {
            after = behind;
            next_word(behind, next);
        }
        read_name(after, statement->name);
        set(statement, strcmp(next, "ALL") == 0 ? DISCARD : DEALLOCATE, NULL, "DEALLOCATE");
    }
}

void read_statement(const char *text, struct statement *statement) {
    char word[MOST_WORD];
    memset(statement, 0, sizeof *statement);
    statement->begin = after_blanks(text);
    const char *after = next_word(statement->begin, word);
    statement->end = after_semicolon(statement->begin);
    if (*statement->begin == '\0' || *statement->begin == ';') {
        statement->kind = NOTHING;
        return;
    }
    statement->kind = PLAIN;
    set_tag(statement, word, after);
    if (strcmp(word, "COPY") == 0) {
        set(statement, COPY, NULL, word);
        statement->is_counted = 1;
    } else if (!read_transaction(statement, word, after)) {
        read_setting(statement, word, after);
    }
}

int is_blank(const char *text) {
    for (text = after_blanks(text); *text == ';'; text = after_blanks(text + 1))
        ;
    return *text == '\0';
}

int is_outside(const struct statement *statement) {
    static const char *const words[] = {"PRAGMA", "ATTACH", "DETACH", "VACUUM", NULL};
    char word[MOST_WORD];
    next_word(statement->begin, word);
    return is_one_of(word, words);
}
