/* Where a host of robust/ puts the buffers that it lends. The places are
 *   heap    a block of just the buffer's size, which AddressSanitizer and valgrind watch
 *   end     pages with the buffer at their end, before a page that nobody may touch
 *   start   pages with the buffer at their start, after a page that nobody may touch
 * The pages catch what AddressSanitizer does not see: the library is compiled without its tests, so of
 * the library's own it sees only the calls of memcpy and memset. */
#ifndef PLACES_H
#define PLACES_H

#include <inttypes.h>
#include <stdio.h>
#include <stdlib.h>
#include <sys/mman.h>
#include <unistd.h>

enum place { HEAP, END, START, PLACES };
static const char *const NAMES[PLACES] = {"heap", "end", "start"};

/* The longest buffer; texts of 65,537 bytes and replies longer than any listing are below it. */
enum { MOST = 1 << 18 };

static uint64_t case_number;

static _Noreturn void stop(const char *what)
{
    fprintf(stderr, "robust: case %" PRIu64 ": %s\n", case_number, what);
    exit(2);
}

/* AddressSanitizer calls this before its report, which doesn't know the case. */
void __asan_on_error(void);
void __asan_on_error(void)
{
    fprintf(stderr, "robust: case %" PRIu64 "\n", case_number);
}

static void *pages(size_t size)
{
    void *at = mmap(NULL, size, PROT_NONE, MAP_PRIVATE | MAP_ANONYMOUS, -1, 0);
    if (at == MAP_FAILED)
        stop("no memory");
    return at;
}

static void allow(uint8_t *at, int what)
{
    if (mprotect(at, MOST, what) != 0)
        stop("pages cannot be set");
}

/* MOST bytes between two pages that nobody may touch. */
static uint8_t *between_guards(void)
{
    size_t page = (size_t)sysconf(_SC_PAGESIZE);
    uint8_t *at = (uint8_t *)pages(MOST + 2 * page) + page;
    allow(at, PROT_READ | PROT_WRITE);
    return at;
}

static uint8_t *placed(enum place place, uint8_t *guarded, size_t length)
{
    if (place == START)
        return guarded;
    if (place == END)
        return guarded + MOST - length;
    uint8_t *at = malloc(length);
    if (at == NULL)
        stop("no memory");
    return at;
}

/* What stands in a buffer that is to be written, before a call. */
static uint8_t filler(size_t i)
{
    return (uint8_t)(i * 37 + 11);
}

static void read_bytes(uint8_t *to, size_t length)
{
    if (length > MOST || fread(to, 1, length, stdin) != length)
        stop("the input is cut");
}

#endif
