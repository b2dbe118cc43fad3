// Preloaded into `pimlab`: has calls of its sockets and its reads fail, or has a stranger send to its sockets.
// `tools/tests/test_wires.py` builds it and says by the environment what is to be done:
//
//   SOCKETS_FAIL_FROM  which call of a socket fails, counted from 1, and with it all later ones
//   SOCKETS_STRANGER   set: a stranger sends a datagram to each socket before it is connected, and before each packet
//   SOCKETS_COUNT      a file in which the calls of sockets are counted at the end
//   READS_FAIL         how reads fail, as a number of errno; until then each reads one byte
//   READS_LEFT         how many reads don't fail
#define _GNU_SOURCE
#include <arpa/inet.h>
#include <errno.h>
#include <fcntl.h>
#include <netinet/in.h>
#include <stdio.h>
#include <stdlib.h>
#include <string.h>
#include <sys/socket.h>
#include <sys/syscall.h>
#include <unistd.h>

static unsigned long calls, fails_from;
static long reads_left;
static int has_stranger, read_error;
static int stranger = -1;
static const unsigned char strange[4] = {0xde, 0xad, 0xbe, 0xef};

static int fails(void) {
    calls++;
    if (!fails_from || calls < fails_from) return 0;
    errno = EIO;
    return 1;
}

// The stranger has a socket of its own on the loopback interface.
static void intrude(int at) {
    struct sockaddr_in to;
    socklen_t length = sizeof to;
    if (!has_stranger || syscall(SYS_getsockname, at, &to, &length)) return;
    if (stranger < 0) stranger = syscall(SYS_socket, AF_INET, SOCK_DGRAM, 0);
    if (syscall(SYS_sendto, stranger, strange, sizeof strange, 0, &to, length) != sizeof strange) _exit(97);
}

int socket(int domain, int type, int protocol) {
    return fails() ? -1 : (int)syscall(SYS_socket, domain, type, protocol);
}

int bind(int at, const struct sockaddr *to, socklen_t length) {
    return fails() ? -1 : (int)syscall(SYS_bind, at, to, length);
}

int setsockopt(int at, int level, int name, const void *value, socklen_t length) {
    return fails() ? -1 : (int)syscall(SYS_setsockopt, at, level, name, value, length);
}

int getsockname(int at, struct sockaddr *to, socklen_t *length) {
    return fails() ? -1 : (int)syscall(SYS_getsockname, at, to, length);
}

int connect(int at, const struct sockaddr *to, socklen_t length) {
    if (fails()) return -1;
    intrude(at);
    return (int)syscall(SYS_connect, at, to, length);
}

ssize_t send(int at, const void *bytes, size_t count, int flags) {
    if (fails()) return -1;
    intrude(at);
    return syscall(SYS_sendto, at, bytes, count, flags, NULL, 0);
}

ssize_t recvfrom(int at, void *bytes, size_t count, int flags, struct sockaddr *from, socklen_t *length) {
    return fails() ? -1 : syscall(SYS_recvfrom, at, bytes, count, flags, from, length);
}

ssize_t read(int file, void *bytes, size_t count) {
    if (!read_error) return syscall(SYS_read, file, bytes, count);
    if (reads_left-- > 0) return syscall(SYS_read, file, bytes, count ? 1 : 0);
    errno = read_error;
    return -1;
}

static unsigned long number(const char *name) {
    const char *text = getenv(name);
    return text ? strtoul(text, NULL, 10) : 0;
}

__attribute__((constructor)) static void begin(void) {
    fails_from = number("SOCKETS_FAIL_FROM");
    has_stranger = getenv("SOCKETS_STRANGER") != NULL;
    read_error = (int)number("READS_FAIL");
    reads_left = (long)number("READS_LEFT");
}

__attribute__((destructor)) static void end(void) {
    const char *name = getenv("SOCKETS_COUNT");
    int file = name ? open(name, O_WRONLY | O_CREAT | O_TRUNC, 0600) : -1;
    if (file < 0) return;
    char line[32];
    int length = snprintf(line, sizeof line, "%lu\n", calls);
    if (syscall(SYS_write, file, line, length) != length) _exit(98);
    close(file);
}
