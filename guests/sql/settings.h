/* What a client may set of its session: how long what it does may take, in milliseconds; 0: as long as it likes. As in PostgreSQL, what is
   set within a transaction that is rolled back is as before, and SET LOCAL lasts until the transaction's end. */
#ifndef SETTINGS_H
#define SETTINGS_H

#include <stdint.h>

enum { STATEMENT_TIMEOUT, LOCK_TIMEOUT, IDLE_IN_TRANSACTION_SESSION_TIMEOUT, SETTINGS };

struct settings {
    uint32_t now[SETTINGS];
    uint32_t kept[SETTINGS]; /* what holds after the transaction */
    uint32_t before[SETTINGS]; /* and after one that is rolled back */
};

/* Those of the image. */
void settings_start(struct settings *settings);

/* The number of a setting of this name, or -1. */
int setting_of(const char *name);

/* Sets one; all where it is SETTINGS. `value` is a number of milliseconds or one with its unit, or NULL: as at the start. Answers whether
   that can be read. */
int settings_set(struct settings *settings, int setting, const char *value, int is_local);

/* Of a transaction that ends. */
void settings_end(struct settings *settings, int is_kept);

/* A value as PostgreSQL shows it: of these, in its largest unit, and of others that it has, which can't be set. Answers whether there is one
   of this name. */
#define MOST_SHOWN 64
int setting_show(const struct settings *settings, const char *name, char shown[MOST_SHOWN]);

/* What a setting's column is called, or NULL where there is none of this name. */
const char *setting_label(const char *name);

#endif
