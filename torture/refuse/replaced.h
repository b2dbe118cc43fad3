// What the libraries that are preloaded into a program with a router have in common: they replace functions of its own.
#define _GNU_SOURCE
#include <fcntl.h>
#include <link.h>
#include <stdint.h>
#include <stdio.h>
#include <stdlib.h>
#include <string.h>
#include <sys/mman.h>
#include <sys/syscall.h>
#include <unistd.h>

// What the program's allocation answers: whether there is a block, and where.
struct block { uint64_t is_there; void *at; };

static int first(struct dl_phdr_info *program, size_t size, void *base) {
    (void)size;
    *(uintptr_t *)base = program->dlpi_addr;
    return 1;
}

// Puts a jump to another function at the start of one of the program's, which lies where the environment says.
static void replace(const char *name, void *by) {
    const char *place = getenv(name);
    uintptr_t at = place ? strtoul(place, NULL, 16) : 0, base = 0;
    if (!at) return;
    dl_iterate_phdr(first, &base);
    at += base;
    if (mprotect((void *)(at & ~(uintptr_t)4095), 8192, PROT_READ | PROT_WRITE | PROT_EXEC)) _exit(99);
    unsigned char jump[12] = {0x48, 0xb8, 0, 0, 0, 0, 0, 0, 0, 0, 0xff, 0xe0};
    memcpy(jump + 2, &by, sizeof by);
    memcpy((void *)at, jump, sizeof jump);
}

// Writes two counts into the file that the environment names.
static void tell(const char *where, unsigned long one, unsigned long other) {
    const char *name = getenv(where);
    int file = name ? open(name, O_WRONLY | O_CREAT | O_TRUNC, 0600) : -1;
    if (file < 0) return;
    char line[64];
    int length = snprintf(line, sizeof line, "%lu %lu\n", one, other);
    if (syscall(SYS_write, file, line, length) != length) _exit(98);
    close(file);
}
