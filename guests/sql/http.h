/* SQL over HTTP/1.1: GET and HEAD /sql?q=STATEMENTS for what only reads, POST /sql, whose body is statements, and a page at /. */
#ifndef HTTP_H
#define HTTP_H

#include "session.h"

extern const struct service http;

#endif
