/* Bytes at the edge of a page that may not be touched, and pages that may not be written, or not even read: what a call reads or
   writes outside its slices or in an unread one, or writes in a const one, ends the test and is told by the call's name. The
   program defines _DEFAULT_SOURCE before its first include. */

#ifndef FENCE_H
#define FENCE_H

#include <signal.h>
#include <sys/mman.h>
#include <unistd.h>

#include "guard.h"

static inline void touched(int signal)
{
    fprintf(stderr, "  failed: %s: a forbidden or a read-only page was touched, signal %d\n", calling, signal);
    _exit(1);
}

static inline void watch_fences(void) { signal(SIGSEGV, touched); signal(SIGBUS, touched); }

static inline size_t page_len(void) { return (size_t)sysconf(_SC_PAGESIZE); }
static inline size_t pages_len(size_t len) { return (len + page_len() - 1) / page_len() * page_len(); }
static inline uint8_t *page_of(uint8_t *at) { return at - (uintptr_t)at % page_len(); }

/* `len` bytes that end, or begin, at a page that may not be touched */
static inline uint8_t *fenced(size_t len, int at_end)
{
    size_t page = page_len(), inner = pages_len(len);
    uint8_t *p = mmap(0, inner + 2 * page, PROT_NONE, MAP_PRIVATE | MAP_ANONYMOUS, -1, 0);
    if (p == MAP_FAILED || (inner && mprotect(p + page, inner, PROT_READ | PROT_WRITE))) stop("no memory", "mmap");
    return at_end ? p + page + inner - len : p + page;
}

/* fenced bytes, from now on never written */
static inline void read_only(uint8_t *at, size_t len)
{
    if (len && mprotect(page_of(at), pages_len(len), PROT_READ)) stop("no read-only page", "mprotect");
}

/* fenced bytes, from now on not touched at all, until they are read-only again */
static inline void forbid(uint8_t *at, size_t len)
{
    if (len && mprotect(page_of(at), pages_len(len), PROT_NONE)) stop("no forbidden page", "mprotect");
}

static inline void unfence(uint8_t *at, size_t len) { munmap(page_of(at) - page_len(), pages_len(len) + 2 * page_len()); }

/* 2^32; 0 where size_t is narrower, and then no slice is so long */
static const size_t wide = (size_t)0xFFFFFFFF + 1;

/* 2^33 bytes that are promised, and there only where they are touched; 0, and it is said, where there is no room for them */
static inline uint8_t *promise(const char *program, int access)
{
    uint8_t *p = wide ? mmap(0, 2 * wide, access, MAP_PRIVATE | MAP_ANONYMOUS | MAP_NORESERVE, -1, 0) : MAP_FAILED;
    if (p != MAP_FAILED) return p;
    printf("%s: slices above 2^32 bytes skipped, no address space\n", program);
    return 0;
}

/* a slice in promised bytes; no guard bytes stand about it, and nobody gives it back */
static inline slice lend_promised(uint8_t *promised, size_t len)
{
    slice s = lend_null();
    s.at = promised;
    s.len = len;
    return s;
}

#endif
