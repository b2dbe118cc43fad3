/* A kernel that lacks memory for entries of its forwarding cache, as long as the file that NO_MEMORY names is there:
 * loaded before the C library (LD_PRELOAD), it answers ENOMEM where a process sets one. */
#define _GNU_SOURCE
#include <dlfcn.h>
#include <errno.h>
#include <netinet/in.h>
#include <stdlib.h>
#include <sys/socket.h>
#include <unistd.h>

enum { MRT_ADD_MFC = 204 };

int setsockopt(int socket, int level, int option, const void *value, socklen_t length) {
    static int (*real)(int, int, int, const void *, socklen_t);
    if (!real) {
        real = (int (*)(int, int, int, const void *, socklen_t))dlsym(RTLD_NEXT, "setsockopt");
    }
    const char *file = getenv("NO_MEMORY");
    if (level == IPPROTO_IP && option == MRT_ADD_MFC && file && access(file, F_OK) == 0) {
        errno = ENOMEM;
        return -1;
    }
    return real(socket, level, option, value, length);
}
