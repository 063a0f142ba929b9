/* What a TCP service of one's own has: build.sh --service FILE compiles FILE with service.c, which calls this once lwIP is up. It sets up
   what listens, by lwIP's calls (lwip/tcp.h), and comes back; from then on lwIP calls what it was given. */
#ifndef SERVICE_H
#define SERVICE_H

void service_start(void);

#endif
