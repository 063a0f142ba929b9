/* What lwIP asks of a compiler and a system (doc/sys_arch.txt of its sources). */
#ifndef ARCH_CC_H
#define ARCH_CC_H

/* There is no C library but what stands in ../libc. */
#define LWIP_NO_INTTYPES_H 1
#define LWIP_NO_UNISTD_H 1
#define LWIP_NO_CTYPE_H 1

/* Nothing prints here; an assertion that fails stops the guest where it is. */
#define LWIP_PLATFORM_DIAG(message) do { } while (0)
#define LWIP_PLATFORM_ASSERT(message) stop()

void stop(void) __attribute__((noreturn));

#endif
