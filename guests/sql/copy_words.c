#include "copy_words.h"

#include <stddef.h>
#include <string.h>

#include "lexer.h"

#define MOST_STRING MOST_NULL

/* The words of the statement that aren't read yet. */
struct reading {
    const char *at;
    struct failure *failure;
    int is_told; /* which options there were, a bit for each */
};

static int refuse(struct reading *reading, const char *code, const char *why) {
    set_failure(reading->failure, code, why);
    return 0;
}

static int is_wrong(struct reading *reading) { return refuse(reading, "42601", "COPY: syntax error, or an option that it doesn't have"); }

static char escaped(char c) { return c == 't' ? '\t' : c == 'n' ? '\n' : c == 'r' ? '\r' : c == 'b' ? '\b' : c == 'f' ? '\f' : c; }

/* A string, with \ where it begins with E. Answers its length, or -1 where there is none, or a longer one than is served. */
static int takes_string(struct reading *reading, char string[MOST_STRING]) {
    const char *at = after_blanks(reading->at);
    int is_escaped = (*at | 32) == 'e' && at[1] == '\'', length = 0;
    at += is_escaped;
    if (*at++ != '\'')
        return -1;
    for (; *at != '\0' && (*at != '\'' || at[1] == '\''); at++) {
        char c = *at;
        if (c == '\'' || (is_escaped && c == '\\' && at[1] != '\0'))
            c = is_escaped && c == '\\' ? escaped(*++at) : *++at;
        if (length == MOST_STRING - 1)
            return -1;
        string[length++] = c;
    }
    if (*at != '\'')
        return -1;
    reading->at = at + 1;
    string[length] = '\0';
    return length;
}

/* Steps over a list in parentheses, and answers where it begins; NULL where there is none. */
static const char *takes_list(struct reading *reading) {
    const char *begun;
    if (!takes(&reading->at, "("))
        return NULL;
    begun = reading->at;
    for (const char *at = begun; *at != '\0';) {
        const char *after = after_quoted(at);
        if (after == at && *at == ')') {
            reading->at = at + 1;
            return begun;
        }
        at = after == at ? at + 1 : after;
    }
    return NULL;
}

int next_listed(const char **list, char name[MOST_NAME]) {
    struct reading reading = {.at = *list};
    takes(&reading.at, ",");
    if (!takes_name(&reading.at, name))
        return 0;
    *list = reading.at;
    return 1;
}

int is_listed(const char *list, const char *name) {
    char other[MOST_NAME];
    if (list == NULL || *list == '*')
        return list != NULL;
    while (next_listed(&list, other))
        if (sqlite3_stricmp(name, other) == 0)
            return 1;
    return 0;
}

/* Options. */

enum { FORMAT, FREEZE, DELIMITER, NULLS, HEADER, QUOTE, ESCAPE, FORCE_QUOTE, FORCE_NOT_NULL, FORCE_NULL, ENCODING };

static int is_first(struct reading *reading, int option) {
    if (reading->is_told >> option & 1)
        return refuse(reading, "42601", "COPY: conflicting or redundant options");
    reading->is_told |= 1 << option;
    return 1;
}

static int takes_character(struct reading *reading, char *to) {
    char string[MOST_STRING];
    if (takes_string(reading, string) != 1 || (string[0] & 0x80) != 0)
        return refuse(reading, "0A000", "COPY: a delimiter, quote or escape is one character of one byte");
    *to = string[0];
    return 1;
}

static int takes_null(struct reading *reading, struct copy_form *form) {
    int length = takes_string(reading, form->null);
    if (length < 0)
        return refuse(reading, "0A000", "COPY: what stands for NULL is a string of less than 64 bytes");
    form->null_length = (uint32_t)length;
    return 1;
}

/* An option's value: a string, a word or a number. It is empty where it is left out. */
static int takes_value(struct reading *reading, char value[MOST_STRING]) {
    const char *at = after_blanks(reading->at);
    int length = 0;
    if (*at == '\'' || ((*at | 32) == 'e' && at[1] == '\''))
        return takes_string(reading, value) >= 0;
    for (; is_in_word(*at); at++)
        if (length < MOST_STRING - 1)
            value[length++] = *at;
    value[length] = '\0';
    reading->at = at;
    return 1;
}

/* Which of these words a value is; -1: none. */
static int which(const char *value, const char *const words[]) {
    for (int i = 0; words[i] != NULL; i++)
        if (sqlite3_stricmp(value, words[i]) == 0)
            return i;
    return -1;
}

static int takes_truth(struct reading *reading, int *truth) {
    static const char *const words[] = {"false", "off", "0", "", "true", "on", "1", NULL};
    char value[MOST_STRING];
    int word = takes_value(reading, value) ? which(value, words) : -1;
    *truth = word > 2;
    return word < 0 ? refuse(reading, "22023", "COPY: an option that is on or off is neither") : 1;
}

static int takes_header(struct reading *reading, struct copy_form *form) {
    struct reading before = *reading;
    char value[MOST_STRING];
    int truth = 0;
    if (takes_value(reading, value) && sqlite3_stricmp(value, "match") == 0) {
        form->header = MATCHES_HEADER;
        return 1;
    }
    *reading = before;
    int is_right = takes_truth(reading, &truth);
    form->header = truth ? HAS_HEADER : NO_HEADER;
    return is_right;
}

static int takes_format(struct reading *reading, struct copy_form *form) {
    static const char *const words[] = {"text", "csv", "binary", NULL};
    char value[MOST_STRING];
    int word = takes_value(reading, value) ? which(value, words) : -1;
    if (word < 0)
        return refuse(reading, "22023", "COPY: the formats are text, csv and binary");
    form->kind = word;
    return 1;
}

static int takes_encoding(struct reading *reading) {
    static const char *const words[] = {"utf8", "utf-8", "unicode", "sql_ascii", NULL};
    char value[MOST_STRING];
    if (!takes_value(reading, value) || which(value, words) < 0)
        return refuse(reading, "0A000", "COPY: texts are UTF-8");
    return 1;
}

static int takes_columns(struct reading *reading, const char **list) {
    if (takes(&reading->at, "*")) {
        *list = "*";
        return 1;
    }
    *list = takes_list(reading);
    return *list != NULL || is_wrong(reading);
}

static int takes_option(struct reading *reading, struct copy_form *form) {
    static const char *const names[] = {"FORMAT", "FREEZE",      "DELIMITER",      "NULL",       "HEADER",   "QUOTE",
                                        "ESCAPE", "FORCE_QUOTE", "FORCE_NOT_NULL", "FORCE_NULL", "ENCODING"};
    int option = 0, passed;
    while (option <= ENCODING && !takes(&reading->at, names[option]))
        option++;
    if (option > ENCODING)
        return is_wrong(reading);
    if (!is_first(reading, option))
        return 0;
    switch (option) {
    case FORMAT: return takes_format(reading, form);
    case FREEZE: return takes_truth(reading, &passed);
    case DELIMITER: return takes_character(reading, &form->delimiter);
    case NULLS: return takes_null(reading, form);
    case HEADER: return takes_header(reading, form);
    case QUOTE: return takes_character(reading, &form->quote);
    case ESCAPE: return takes_character(reading, &form->escape);
    case FORCE_QUOTE: return takes_columns(reading, &form->quoted);
    case FORCE_NOT_NULL: return takes_columns(reading, &form->not_null);
    case FORCE_NULL: return takes_columns(reading, &form->also_null);
    default: return takes_encoding(reading);
    }
}

/* Options in parentheses. */
static int takes_options(struct reading *reading, struct copy_form *form) {
    do
        if (!takes_option(reading, form))
            return 0;
    while (takes(&reading->at, ","));
    return takes(&reading->at, ")") || is_wrong(reading);
}

/* A list of columns without parentheses, up to the next word. */
static int takes_bare_columns(struct reading *reading, const char **list) {
    char name[MOST_NAME];
    if (takes(&reading->at, "*")) {
        *list = "*";
        return 1;
    }
    *list = after_blanks(reading->at);
    const char *at = *list;
    while (next_listed(&at, name)) {
        reading->at = at;
        if (*after_blanks(at) != ',')
            return 1;
    }
    return is_wrong(reading);
}

static int takes_force(struct reading *reading, struct copy_form *form) {
    if (takes(&reading->at, "QUOTE"))
        return is_first(reading, FORCE_QUOTE) && takes_bare_columns(reading, &form->quoted);
    int is_not = takes(&reading->at, "NOT");
    if (!takes(&reading->at, "NULL"))
        return is_wrong(reading);
    return is_first(reading, is_not ? FORCE_NOT_NULL : FORCE_NULL)
           && takes_bare_columns(reading, is_not ? &form->not_null : &form->also_null);
}

static int takes_as(struct reading *reading) {
    takes(&reading->at, "AS");
    return 1;
}

/* The words of before PostgreSQL 9, which stand one after another. */
static int takes_old_option(struct reading *reading, struct copy_form *form) {
    if (takes(&reading->at, "BINARY") || takes(&reading->at, "CSV")) {
        form->kind = (reading->at[-1] | 32) == 'y' ? AS_BINARY : AS_CSV;
        return is_first(reading, FORMAT);
    }
    if (takes(&reading->at, "FREEZE"))
        return is_first(reading, FREEZE);
    if (takes(&reading->at, "HEADER")) {
        form->header = HAS_HEADER;
        return is_first(reading, HEADER);
    }
    if (takes(&reading->at, "DELIMITERS") || takes(&reading->at, "DELIMITER"))
        return is_first(reading, DELIMITER) && takes_as(reading) && takes_character(reading, &form->delimiter);
    if (takes(&reading->at, "NULL"))
        return is_first(reading, NULLS) && takes_as(reading) && takes_null(reading, form);
    if (takes(&reading->at, "QUOTE"))
        return is_first(reading, QUOTE) && takes_as(reading) && takes_character(reading, &form->quote);
    if (takes(&reading->at, "ESCAPE"))
        return is_first(reading, ESCAPE) && takes_as(reading) && takes_character(reading, &form->escape);
    if (takes(&reading->at, "ENCODING"))
        return is_first(reading, ENCODING) && takes_encoding(reading);
    return takes(&reading->at, "FORCE") ? takes_force(reading, form) : is_wrong(reading);
}

static int is_ended(const struct reading *reading) { return is_blank(reading->at); }

static int takes_all_options(struct reading *reading, struct copy_form *form) {
    takes(&reading->at, "WITH");
    if (takes(&reading->at, "("))
        return takes_options(reading, form) && (is_ended(reading) || is_wrong(reading));
    while (!is_ended(reading))
        if (!takes_old_option(reading, form))
            return 0;
    return 1;
}

/* What stands for itself where nothing else was said, and what can't be. */
static int complete(struct reading *reading, struct copy_form *form) {
    int is_csv = form->kind == AS_CSV;
    int csv_only = 1 << QUOTE | 1 << ESCAPE | 1 << FORCE_QUOTE | 1 << FORCE_NOT_NULL | 1 << FORCE_NULL;
    if (form->kind == AS_BINARY && (reading->is_told & ~(1 << FORMAT | 1 << FREEZE | 1 << ENCODING)) != 0)
        return refuse(reading, "42601", "COPY: rows in binary have no such options");
    if (!is_csv && (reading->is_told & csv_only) != 0)
        return refuse(reading, "0A000", "COPY: QUOTE, ESCAPE and FORCE are of CSV alone");
    if (!(reading->is_told >> DELIMITER & 1))
        form->delimiter = is_csv ? ',' : '\t';
    if (!(reading->is_told >> QUOTE & 1))
        form->quote = '"';
    if (!(reading->is_told >> ESCAPE & 1))
        form->escape = form->quote;
    if (!(reading->is_told >> NULLS & 1) && !is_csv) {
        strcpy(form->null, "\\N");
        form->null_length = 2;
    }
    if (form->delimiter == '\n' || form->delimiter == '\r' || (is_csv && form->delimiter == form->quote)
        || (!is_csv && strchr("\\.abcdefghijklmnopqrstuvwxyz0123456789", form->delimiter) != NULL))
        return refuse(reading, "22023", "COPY: this delimiter can't be told from a row's end, a quote or a value");
    if (memchr(form->null, form->delimiter, form->null_length) != NULL || memchr(form->null, '\n', form->null_length) != NULL
        || memchr(form->null, '\r', form->null_length) != NULL || (is_csv && memchr(form->null, form->quote, form->null_length) != NULL))
        return refuse(reading, "0A000", "COPY: what stands for NULL has a delimiter, a quote or a row's end in it");
    return 1;
}

/* The table, with the one schema that there is. */
static int takes_source(struct reading *reading, struct copy_words *words) {
    if (!takes_name(&reading->at, words->table))
        return is_wrong(reading);
    if (takes(&reading->at, ".") && !takes_name(&reading->at, words->table))
        return is_wrong(reading);
    words->columns = takes_list(reading);
    return 1;
}

/* Where a query's parentheses end: others may stand within. */
static int takes_query(struct reading *reading, struct copy_words *words) {
    int depth = 0;
    const char *at = after_blanks(reading->at), *begun = at + 1;
    if (*at != '(')
        return 0;
    do {
        const char *after = after_quoted(at);
        depth += after != at ? 0 : *at == '(' ? 1 : *at == ')' ? -1 : 0;
        at = after != at ? after : at + 1;
    } while (depth > 0 && *at != '\0');
    words->query = begun;
    words->query_length = (uint32_t)(at - begun - 1);
    reading->at = at;
    return depth == 0;
}

int read_copy(const char *text, struct copy_words *words, struct failure *failure) {
    struct reading reading = {text, failure, 0};
    memset(words, 0, sizeof *words);
    takes(&reading.at, "COPY");
    if (takes(&reading.at, "BINARY"))
        words->form.kind = AS_BINARY;
    if (!takes_query(&reading, words) && !takes_source(&reading, words))
        return 0;
    words->is_out = takes(&reading.at, "TO");
    if (!words->is_out && (words->query != NULL || !takes(&reading.at, "FROM")))
        return is_wrong(&reading);
    if (!takes(&reading.at, words->is_out ? "STDOUT" : "STDIN"))
        return refuse(&reading, "0A000", "COPY: from STDIN and to STDOUT alone; there are no files or programs here (psql has \\copy)");
    if (!takes_all_options(&reading, &words->form) || !complete(&reading, &words->form))
        return 0;
    if (words->is_out ? words->form.header == MATCHES_HEADER || words->form.not_null != NULL || words->form.also_null != NULL
                      : words->form.quoted != NULL)
        return refuse(&reading, "0A000", "COPY: this option is of the other direction");
    return 1;
}
