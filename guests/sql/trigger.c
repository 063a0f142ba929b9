#include "trigger.h"

#include <string.h>

#include "session.h"
#include "statement.h"

/* Whether a statement can stand in a trigger's body, or ends it. */
static int is_of_body(const struct statement *statement) {
    static const char *const tags[] = {"SELECT", "INSERT 0", "UPDATE", "DELETE"};
    for (unsigned i = 0; i < sizeof tags / sizeof tags[0]; i++)
        if (statement->kind == PLAIN && strcmp(statement->tag, tags[i]) == 0)
            return 1;
    return statement->kind == NOTHING || (statement->kind == COMMIT && sqlite3_strnicmp(statement->begin, "END", 3) == 0);
}

static enum part give_up(struct text *kept, enum part part) {
    text_drop(kept);
    return part;
}

enum part take_part(struct text *kept, const char *text) {
    struct statement statement;
    int is_first = kept->length == 0;
    read_statement(text, &statement);
    if (is_first && (statement.kind != PLAIN || strcmp(statement.tag, "CREATE TRIGGER") != 0))
        return IS_NONE;
    if (!is_first && !is_of_body(&statement))
        return give_up(kept, IS_ELSE);
    kept->most = MOST_ASKED;
    add(kept, text);
    add(kept, "\n");
    uint32_t length = kept->length;
    add_bytes(kept, ";", 2); /* which may be left out behind the last one */
    if (kept->is_full)
        return give_up(kept, NO_ROOM);
    int is_whole = sqlite3_complete(kept->bytes);
    text_cut(kept, length);
    if (is_whole && is_first)
        return give_up(kept, IS_NONE);
    return is_whole ? IS_LAST : IS_PART;
}
