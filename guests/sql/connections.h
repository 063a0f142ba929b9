/* Sessions over lwIP's TCP. */
#ifndef CONNECTIONS_H
#define CONNECTIONS_H

/* Listens for both protocols. */
void connections_start(void);

/* Gives places that are free to connections that wait for one. */
void connections_poll(void);

#endif
