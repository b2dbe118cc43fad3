// Preloaded into a program with a router: adds up the sizes of the blocks that it holds. `torture/run events` builds
// it and says by the environment:
//
//   BYTES_ALLOC, BYTES_REALLOC, BYTES_DEALLOC  where the program's own functions lie, in hexadecimal
//   BYTES_SAID     a file in which stands at the end what was held at the last write: bytes and blocks
//
// The program takes `write` from the C library, and so finds the one that is defined here. Each block has its size before it.
#include "../refuse/replaced.h"

enum { BEFORE = 16 };

static unsigned long bytes, blocks, bytes_then, blocks_then;
static char nowhere[BEFORE];

static struct block answered(char *made, size_t size) {
    if (!made) return (struct block){0, nowhere};
    memcpy(made, &size, sizeof size);
    bytes += size;
    return (struct block){1, made + BEFORE};
}

static struct block allocate(size_t size, size_t align) {
    if (align > BEFORE) _exit(97);
    struct block made = answered(malloc(size + BEFORE), size);
    blocks += made.is_there;
    return made;
}

static size_t size_of(char *made) {
    size_t size;
    memcpy(&size, made, sizeof size);
    return size;
}

static struct block reallocate(char *old, size_t kept, size_t size, size_t align) {
    (void)kept;
    if (align > BEFORE) _exit(97);
    size_t was = size_of(old - BEFORE);
    struct block made = answered(realloc(old - BEFORE, size + BEFORE), size);
    if (made.is_there) bytes -= was;
    return made;
}

static void release(char *old) {
    if (!old) return;
    bytes -= size_of(old - BEFORE);
    blocks--;
    free(old - BEFORE);
}

ssize_t write(int file, const void *what, size_t count) {
    bytes_then = bytes;
    blocks_then = blocks;
    return syscall(SYS_write, file, what, count);
}

__attribute__((constructor)) static void begin(void) {
    replace("BYTES_ALLOC", allocate);
    replace("BYTES_REALLOC", reallocate);
    replace("BYTES_DEALLOC", release);
}

__attribute__((destructor)) static void end(void) { tell("BYTES_SAID", bytes_then, blocks_then); }
