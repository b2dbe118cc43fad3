/* Has the library that it is linked with, by --wrap=malloc, realloc and free, be refused memory where `refuses` says so.
 * It counts allocations, and the blocks that are kept. */
#include <stddef.h>

void *__real_malloc(size_t size);
void *__real_realloc(void *old, size_t size);
void __real_free(void *old);

static unsigned long asked, refused_at;
static long kept;

static int refuses(void);

void *__wrap_malloc(size_t size) {
    void *made = refuses() ? NULL : __real_malloc(size);
    kept += made != NULL;
    return made;
}

void *__wrap_realloc(void *old, size_t size) {
    void *made = refuses() ? NULL : __real_realloc(old, size);
    kept += made != NULL && old == NULL;
    return made;
}

void __wrap_free(void *old) {
    kept -= old != NULL;
    __real_free(old);
}
