#include "request.h"

#include <stddef.h>
#include <string.h>

#include "sqlite3.h"

uint32_t head_of(const char *bytes, uint32_t length) {
    for (uint32_t i = 0; i + 1 < length; i++) {
        if (bytes[i] != '\n')
            continue;
        if (bytes[i + 1] == '\n')
            return i + 2;
        if (i + 2 < length && bytes[i + 1] == '\r' && bytes[i + 2] == '\n')
            return i + 3;
    }
    return 0;
}

static int is(const char *at, uint32_t length, const char *word) {
    return length == strlen(word) && sqlite3_strnicmp(at, word, (int)length) == 0;
}

static int begins(const char *at, uint32_t length, const char *word) {
    return length >= strlen(word) && sqlite3_strnicmp(at, word, (int)strlen(word)) == 0;
}

static int has(const char *at, uint32_t length, const char *word) {
    for (; length >= strlen(word); at++, length--)
        if (begins(at, length, word))
            return 1;
    return 0;
}

static enum method method_of(const char *at, uint32_t length) {
    static const char *const names[] = {"GET", "HEAD", "POST", "OPTIONS"};
    for (int i = 0; i < OTHER; i++)
        if (length == strlen(names[i]) && memcmp(at, names[i], length) == 0)
            return (enum method)i;
    return OTHER;
}

/* The first line: METHOD TARGET VERSION. */
static int read_line(const char *at, uint32_t length, struct request *request) {
    const char *end = at + length, *first = memchr(at, ' ', length);
    const char *second = first == NULL ? NULL : memchr(first + 1, ' ', (size_t)(end - first - 1));
    if (second == NULL || !begins(second + 1, (uint32_t)(end - second - 1), "HTTP/1.") || (first[1] != '/' && first[1] != '*'))
        return 400;
    const char *asked = memchr(first, '?', (size_t)(second - first));
    const char *path_end = asked == NULL ? second : asked;
    size_t path = (size_t)(path_end - first - 1);
    path = path < sizeof request->path - 1 ? path : sizeof request->path - 1;
    request->method = method_of(at, (uint32_t)(first - at));
    memcpy(request->path, first + 1, path);
    request->asked = asked == NULL ? NULL : asked + 1;
    request->asked_length = asked == NULL ? 0 : (uint32_t)(second - asked - 1);
    request->is_old = second[8] == '0';
    request->is_kept = !request->is_old;
    return 0;
}

/* Two lengths are two readings of where the next request begins, one of which a proxy may have. */
static int read_length(const char *at, uint32_t length, struct request *request) {
    if (request->has_length)
        return 400;
    request->has_length = 1;
    for (uint32_t i = 0; i < length; i++) {
        if (at[i] < '0' || at[i] > '9')
            return 400;
        if (request->length > 100000000)
            return 413;
        request->length = 10 * request->length + (uint32_t)(at[i] - '0');
    }
    return length == 0 ? 400 : 0;
}

/* A field's value, or its front where it is long. */
static void keep(char to[MOST_VALUE], const char *at, uint32_t length) {
    uint32_t count = length < MOST_VALUE ? length : MOST_VALUE - 1;
    memcpy(to, at, count);
    to[count] = '\0';
}

/* What a browser says of who asks; empty where it isn't said. */
struct asker {
    char host[MOST_VALUE], origin[MOST_VALUE], referer[MOST_VALUE], site[MOST_VALUE];
    int is_browser;
};

/* How long a place is, HOST or HOST:PORT, without the port that its scheme has anyway. */
static uint32_t place_length(const char *place, const char *port) {
    uint32_t length = (uint32_t)strcspn(place, "/?#"), tail = (uint32_t)strlen(port);
    return length > tail && memcmp(place + length - tail, port, tail) == 0 ? length - tail : length;
}

/* Whether a URI is of the host that was asked. Behind a proxy its scheme may be https. */
static int is_of_host(const char *uri, const char *host) {
    uint32_t length = (uint32_t)strlen(uri);
    int is_plain = begins(uri, length, "http://"), is_secret = begins(uri, length, "https://");
    if (!is_plain && !is_secret)
        return 0;
    const char *place = uri + (is_plain ? 7 : 8), *port = is_plain ? ":80" : ":443";
    uint32_t count = place_length(place, port);
    return count > 0 && count == place_length(host, port) && sqlite3_strnicmp(place, host, (int)count) == 0;
}

/* Browsers send Sec-Fetch-Site to addresses that are protected, Origin where a page asks by POST, and Referer where the page doesn't forbid
   it. No page can write any of them. Where a browser sends none it may be a page that asks. */
static int is_strange(const struct asker *asker) {
    if (asker->site[0] != '\0')
        return strcmp(asker->site, "same-origin") != 0 && strcmp(asker->site, "none") != 0;
    if (asker->origin[0] != '\0')
        return !is_of_host(asker->origin, asker->host);
    if (asker->referer[0] != '\0')
        return !is_of_host(asker->referer, asker->host);
    return asker->is_browser;
}

static int read_field(const char *name, uint32_t name_length, const char *at, uint32_t length, struct request *request,
                      struct asker *asker) {
    if (name_length == 0 || memchr(name, ' ', name_length) != NULL || memchr(name, '\t', name_length) != NULL)
        return 400;
    if (is(name, name_length, "Content-Length"))
        return read_length(at, length, request);
    if (is(name, name_length, "Transfer-Encoding"))
        return 411;
    if (is(name, name_length, "Connection"))
        request->is_kept = has(at, length, "close") ? 0 : has(at, length, "keep-alive") ? 1 : request->is_kept;
    else if (is(name, name_length, "Expect"))
        request->is_expecting = has(at, length, "100-continue");
    else if (is(name, name_length, "Content-Type"))
        request->is_form = begins(at, length, "application/x-www-form-urlencoded");
    else if (is(name, name_length, "Accept"))
        request->is_json = has(at, length, "application/json");
    else if (is(name, name_length, "Authorization") && begins(at, length, "Basic ") && length - 6 < MOST_VALUE)
        keep(request->password, at + 6, length - 6);
    else if (is(name, name_length, "Origin"))
        keep(asker->origin, at, length);
    else if (is(name, name_length, "Referer"))
        keep(asker->referer, at, length);
    else if (is(name, name_length, "Sec-Fetch-Site"))
        keep(asker->site, at, length);
    else if (is(name, name_length, "User-Agent"))
        asker->is_browser = begins(at, length, "Mozilla/");
    else if (is(name, name_length, "Host") && asker->host[0] != '\0')
        return 400;
    else if (is(name, name_length, "Host"))
        keep(asker->host, at, length);
    return 0;
}

int read_request(const char *bytes, uint32_t length, struct request *request) {
    struct asker asker;
    memset(&asker, 0, sizeof asker);
    memset(request, 0, sizeof *request);
    request->head = length;
    int status = 0, is_first = 1;
    for (const char *at = bytes, *end = bytes + length; at < end && status == 0; is_first = 0) {
        const char *line_end = memchr(at, '\n', (size_t)(end - at)), *next = line_end + 1;
        if (line_end > at && line_end[-1] == '\r')
            line_end--;
        const char *colon = memchr(at, ':', (size_t)(line_end - at));
        if (is_first) {
            status = read_line(at, (uint32_t)(line_end - at), request);
        } else if (colon != NULL) {
            const char *value = colon + 1;
            while (value < line_end && (*value == ' ' || *value == '\t'))
                value++;
            while (line_end > value && (line_end[-1] == ' ' || line_end[-1] == '\t'))
                line_end--;
            status = read_field(at, (uint32_t)(colon - at), value, (uint32_t)(line_end - value), request, &asker);
        } else if (line_end > at) {
            status = 400;
        }
        at = next;
    }
    request->is_strange = is_strange(&asker);
    return status;
}

static int digit(char c) { return c >= '0' && c <= '9' ? c - '0' : (c | 32) >= 'a' && (c | 32) <= 'f' ? (c | 32) - 'a' + 10 : -1; }

/* Takes a value back to what it stands for. */
static int32_t decode(const char *at, uint32_t length, char *to) {
    char *begun = to;
    for (const char *end = at + length; at < end; at++) {
        if (*at == '%' && end - at > 2 && digit(at[1]) >= 0 && digit(at[2]) >= 0) {
            *to++ = (char)(digit(at[1]) << 4 | digit(at[2]));
            at += 2;
        } else {
            *to++ = *at == '+' ? ' ' : *at;
        }
    }
    return (int32_t)(to - begun);
}

int32_t value_of(const char *asked, uint32_t length, const char *name, char *to) {
    size_t name_length = strlen(name);
    for (const char *at = asked, *end = asked + length; at != NULL && at < end;) {
        const char *next = memchr(at, '&', (size_t)(end - at)), *value_end = next == NULL ? end : next;
        if ((size_t)(value_end - at) > name_length && memcmp(at, name, name_length) == 0 && at[name_length] == '=')
            return decode(at + name_length + 1, (uint32_t)(value_end - at - (ptrdiff_t)name_length - 1), to);
        at = next == NULL ? end : next + 1;
    }
    return -1;
}
