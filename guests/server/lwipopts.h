/* The options of lwIP that are not its defaults (include/lwip/opt.h and include/lwip/apps/httpd_opts.h of its sources). */
#ifndef LWIPOPTS_H
#define LWIPOPTS_H

/* One loop that polls: no threads, no locks, no sockets. */
#define NO_SYS 1
#define SYS_LIGHTWEIGHT_PROT 0
#define LWIP_NETCONN 0
#define LWIP_SOCKET 0

/* TCP and ICMP over IPv4 and ARP alone. */
#define LWIP_UDP 0
#define LWIP_RAW 0
#define IP_REASSEMBLY 0
#define IP_FRAG 0
#define LWIP_STATS 0

/* A word is aligned to 8 bytes here: pointers have as many. */
#define MEM_ALIGNMENT 8

/* Places for 32 connections, where a guest names no other number: each has the server's state and a buffer, a window of frames on their way with the segments that hold them,
   and parts of frames that stand in no buffer. */
#ifndef CONNECTIONS
#define CONNECTIONS 32
#endif
#define MEMP_NUM_TCP_PCB CONNECTIONS
#define MEMP_NUM_TCP_SEG (CONNECTIONS * TCP_SND_QUEUELEN)
#define MEMP_NUM_PBUF (CONNECTIONS * 8)
#define MEM_SIZE (CONNECTIONS * 96 * 1024)
#define PBUF_POOL_SIZE 128

/* The checksum that adds four bytes at a time. */
#define LWIP_CHKSUM_ALGORITHM 3

/* Whole frames, and 64 KB of them on their way. */
#define TCP_MSS 1460
#define TCP_WND (44 * TCP_MSS)
#define TCP_SND_BUF (44 * TCP_MSS)
#define TCP_SND_QUEUELEN 96

/* The server: every file is opened and read by files.c, its headers are made as it is sent, and a client may ask again on the same
   connection. */
#define LWIP_HTTPD_CUSTOM_FILES 1
#define LWIP_HTTPD_DYNAMIC_FILE_READ 1
#define LWIP_HTTPD_DYNAMIC_HEADERS 1
#define LWIP_HTTPD_SUPPORT_11_KEEPALIVE 1
#define HTTPD_FSDATA_FILE "no_pages.h"
/* So much of a file is read at once. */
#define HTTPD_MAX_WRITE_LEN(connection) (16 * TCP_MSS)
#define HTTPD_LIMIT_SENDING_TO_2MSS 0
/* A connection on which nothing goes on for a minute is closed: one poll is two seconds. By default eight seconds would be enough, and
   failures in a row can keep a client silent for longer. */
#define HTTPD_MAX_RETRIES 30

/* A client may open a connection from a port of before. */
#define LWIP_HOOK_FILENAME "reopen.h"
#define LWIP_HOOK_IP4_INPUT reopen

#endif
