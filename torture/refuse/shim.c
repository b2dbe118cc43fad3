// Preloaded into `pimlab`: refuses one allocation, or refuses, shortens or interrupts one write. `torture/run program` builds it
// and says by the environment what is to be done:
//
//   REFUSE_ALLOC, REFUSE_REALLOC  where the program's own functions lie, in hexadecimal
//   REFUSE_KIND    alloc, write, short or again; without it nothing is refused
//   REFUSE_AT      which call of that kind, counted from 1
//   REFUSE_COUNTS  a file in which the calls are counted at the end: allocations and writes
//
// The program takes `write` from the C library, and so finds the one that is defined here.
#include "replaced.h"

#include <errno.h>

static unsigned long allocations, writes, chosen;
static const char *kind = "";
static char nowhere[16];

static int is_chosen(const char *asked, unsigned long count) { return chosen == count && strcmp(kind, asked) == 0; }

static struct block answered(void *at) { return at ? (struct block){1, at} : (struct block){0, nowhere}; }

static struct block allocate(size_t size, size_t align) {
    if (is_chosen("alloc", ++allocations)) return answered(NULL);
    return answered(malloc(size ? size : align));
}

static struct block reallocate(void *old, size_t kept, size_t size, size_t align) {
    (void)kept;
    if (is_chosen("alloc", ++allocations)) return answered(NULL);
    return answered(realloc(old, size ? size : align));
}

ssize_t write(int file, const void *bytes, size_t count) {
    writes++;
    if (is_chosen("write", writes)) { errno = ENOSPC; return -1; }
    if (is_chosen("again", writes)) { errno = EINTR; return -1; }
    if (is_chosen("short", writes) && count > 1) count = 1;
    return syscall(SYS_write, file, bytes, count);
}

__attribute__((constructor)) static void begin(void) {
    if (getenv("REFUSE_KIND")) kind = getenv("REFUSE_KIND");
    if (getenv("REFUSE_AT")) chosen = strtoul(getenv("REFUSE_AT"), NULL, 10);
    replace("REFUSE_ALLOC", allocate);
    replace("REFUSE_REALLOC", reallocate);
}

__attribute__((destructor)) static void end(void) { tell("REFUSE_COUNTS", allocations, writes); }
