/* A preload shim that fails or shortens the calls of a program from the entry of main on. hostile/failing_devices builds it.
 *
 *   FAULT_SHORT=1      each read and each write moves one byte at most
 *   FAULT_CALL=NAME    the call that fails: read, write or openat
 *   FAULT_AT=N         the number of that call, from 1
 *   FAULT_STEP=K       each K-th call after it fails too; 0 or none: no other
 *   FAULT_ERROR=E      the number of the error
 *   FAULT_LOG=F        a file that gets a line for each call: its name, its descriptor and the path of that
 */
#define _GNU_SOURCE
#include <dlfcn.h>
#include <errno.h>
#include <fcntl.h>
#include <stdarg.h>
#include <stdio.h>
#include <stdlib.h>
#include <string.h>
#include <sys/syscall.h>
#include <sys/uio.h>
#include <unistd.h>

static long at, step, error, seen;
static int begun, one, log_file = -1;
static const char *call;

static void logged(const char *name, int fd, const char *path) {
    char link[32], text[4200], target[4097] = "";
    if (log_file < 0) return;
    if (path) {
        snprintf(target, sizeof target, "%s", path);
    } else {
        snprintf(link, sizeof link, "/proc/self/fd/%d", fd);
        if (readlink(link, target, sizeof target - 1) < 0) strcpy(target, "?");
    }
    int length = snprintf(text, sizeof text, "%s %d %s\n", name, fd, target);
    syscall(SYS_write, log_file, text, length);
}

static int fails(const char *name, int fd, const char *path) {
    if (!begun) return 0;
    logged(name, fd, path);
    if (!call || strcmp(name, call)) return 0;
    long past = ++seen - at;
    if (past != 0 && !(step && past > 0 && past % step == 0)) return 0;
    errno = error;
    return 1;
}

static size_t most(size_t size) { return begun && one && size > 1 ? 1 : size; }

ssize_t read(int fd, void *to, size_t size) { return fails("read", fd, NULL) ? -1 : syscall(SYS_read, fd, to, most(size)); }
ssize_t write(int fd, const void *from, size_t size) { return fails("write", fd, NULL) ? -1 : syscall(SYS_write, fd, from, most(size)); }
ssize_t writev(int fd, const struct iovec *parts, int many) {
    if (fails("write", fd, NULL)) return -1;
    if (!begun || !one) return syscall(SYS_writev, fd, parts, many);
    while (many > 0 && parts->iov_len == 0) parts++, many--;
    return many > 0 ? syscall(SYS_write, fd, parts->iov_base, 1) : 0;
}

ssize_t __read(int fd, void *to, size_t size) { return read(fd, to, size); }
ssize_t __write(int fd, const void *from, size_t size) { return write(fd, from, size); }

int openat(int folder, const char *path, int flags, ...) {
    va_list rest;
    va_start(rest, flags);
    mode_t mode = flags & (O_CREAT | O_TMPFILE) ? va_arg(rest, mode_t) : 0;
    va_end(rest);
    return fails("openat", folder, path) ? -1 : syscall(SYS_openat, folder, path, flags, mode);
}

static int (*real_main)(int, char **, char **);

static int begun_main(int argc, char **argv, char **env) {
    begun = 1;
    return real_main(argc, argv, env);
}

static long number(const char *name) {
    const char *text = getenv(name);
    return text ? atol(text) : 0;
}

int __libc_start_main(int (*entry)(int, char **, char **), int argc, char **argv, void (*init)(void), void (*fini)(void),
                      void (*loader)(void), void *stack) {
    int (*start)(int (*)(int, char **, char **), int, char **, void (*)(void), void (*)(void), void (*)(void), void *);
    *(void **)&start = dlsym(RTLD_NEXT, "__libc_start_main");
    const char *path = getenv("FAULT_LOG");
    if (path) log_file = fcntl(syscall(SYS_openat, AT_FDCWD, path, O_WRONLY | O_CREAT | O_APPEND, 0600), F_DUPFD_CLOEXEC, 100);
    call = getenv("FAULT_CALL");
    at = number("FAULT_AT");
    step = number("FAULT_STEP");
    error = number("FAULT_ERROR");
    one = number("FAULT_SHORT");
    real_main = entry;
    return start(begun_main, argc, argv, init, fini, loader, stack);
}
