#include "settings.h"

#include <string.h>

#include "sqlite3.h"
#include "turns.h"

/* The image's, in milliseconds (build.sh). */
#ifndef MOST_STATEMENT
#define MOST_STATEMENT 20000
#define MOST_LOCK 10000
#define MOST_IDLE 60000
#endif

#define LARGEST 2147483647

static const struct {
    const char *name;
    uint32_t at_start;
} settings_there[SETTINGS] = {
    [STATEMENT_TIMEOUT] = {"statement_timeout", MOST_STATEMENT},
    [LOCK_TIMEOUT] = {"lock_timeout", MOST_LOCK},
    [IDLE_IN_TRANSACTION_SESSION_TIMEOUT] = {"idle_in_transaction_session_timeout", MOST_IDLE},
};

/* From the smallest to the largest. */
static const struct {
    const char *name;
    uint32_t milliseconds;
} units[] = {{"ms", 1}, {"s", 1000}, {"min", 60000}, {"h", 3600000}, {"d", 86400000}};

#define UNITS (int)(sizeof units / sizeof units[0])

void settings_start(struct settings *settings) {
    for (int i = 0; i < SETTINGS; i++)
        settings->now[i] = settings->kept[i] = settings->before[i] = settings_there[i].at_start;
}

int setting_of(const char *name) {
    for (int i = 0; i < SETTINGS; i++)
        if (sqlite3_stricmp(name, settings_there[i].name) == 0)
            return i;
    return -1;
}

/* Reads a value. Answers -1 where it is none. */
static int64_t read_value(const char *text) {
    int64_t number = 0;
    int digits = 0;
    while (*text == ' ')
        text++;
    for (; *text >= '0' && *text <= '9' && number <= LARGEST; text++, digits++)
        number = 10 * number + (*text - '0');
    while (*text == ' ')
        text++;
    if (digits == 0 || number > LARGEST)
        return -1;
    for (int i = 0; i < UNITS; i++)
        if (*text == '\0' || strcmp(text, units[i].name) == 0)
            return number * units[i].milliseconds > LARGEST ? -1 : number * units[i].milliseconds;
    return -1;
}

static void set_one(struct settings *settings, int setting, uint32_t value, int is_local) {
    settings->now[setting] = value;
    if (!is_local)
        settings->kept[setting] = value;
}

int settings_set(struct settings *settings, int setting, const char *value, int is_local) {
    int64_t number = value == NULL ? 0 : read_value(value);
    if (number < 0)
        return 0;
    for (int i = 0; i < SETTINGS; i++)
        if (i == setting || setting == SETTINGS)
            set_one(settings, i, value == NULL ? settings_there[i].at_start : (uint32_t)number, is_local);
    return 1;
}

void settings_end(struct settings *settings, int is_kept) {
    for (int i = 0; i < SETTINGS; i++) {
        if (is_kept)
            settings->before[i] = settings->kept[i];
        else
            settings->kept[i] = settings->before[i];
        settings->now[i] = settings->kept[i];
    }
}

static void show(const struct settings *settings, int setting, char shown[MOST_SHOWN]) {
    uint32_t value = settings->now[setting];
    int unit = 0;
    while (unit + 1 < UNITS && value % units[unit + 1].milliseconds == 0)
        unit++;
    if (value == 0)
        strcpy(shown, "0");
    else
        sqlite3_snprintf(MOST_SHOWN, shown, "%u%s", value / units[unit].milliseconds, units[unit].name);
}

/* How long the longest turn was since this was asked before: this guest's own, by which one sees who keeps the others waiting. */
#define LONGEST_TURN "longest_turn"

/* What can't be set: a name, what its column is called, and its value. */
static const char *const fixed[][3] = {
    {"transaction_isolation", "transaction_isolation", "serializable"},
    {"default_transaction_isolation", "default_transaction_isolation", "serializable"},
    {"transaction_read_only", "transaction_read_only", "off"},
    {"default_transaction_read_only", "default_transaction_read_only", "off"},
    {"server_version", "server_version", "15.0 (SQLite %s)"},
    {"server_version_num", "server_version_num", "150000"},
    {"server_encoding", "server_encoding", "UTF8"},
    {"client_encoding", "client_encoding", "UTF8"},
    {"standard_conforming_strings", "standard_conforming_strings", "on"},
    {"datestyle", "\"DateStyle\"", "ISO, MDY"},
    {"timezone", "\"TimeZone\"", "UTC"},
    {"search_path", "search_path", "public"},
    {"max_identifier_length", "max_identifier_length", "63"},
    {LONGEST_TURN, LONGEST_TURN, ""},
};

static int fixed_of(const char *name) {
    for (int i = 0; i < (int)(sizeof fixed / sizeof fixed[0]); i++)
        if (sqlite3_stricmp(name, fixed[i][0]) == 0)
            return i;
    return -1;
}

int setting_show(const struct settings *settings, const char *name, char shown[MOST_SHOWN]) {
    int setting = setting_of(name), other = fixed_of(name);
    if (setting >= 0)
        show(settings, setting, shown);
    else if (sqlite3_stricmp(name, LONGEST_TURN) == 0)
        sqlite3_snprintf(MOST_SHOWN, shown, "%llums", turn_longest());
    else if (other >= 0)
        sqlite3_snprintf(MOST_SHOWN, shown, fixed[other][2], sqlite3_libversion());
    return setting >= 0 || other >= 0;
}

const char *setting_label(const char *name) {
    int setting = setting_of(name), other = fixed_of(name);
    return setting >= 0 ? settings_there[setting].name : other >= 0 ? fixed[other][1] : NULL;
}
