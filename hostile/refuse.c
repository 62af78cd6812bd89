/* A preload shim that refuses allocations of a program. hostile/refused_growths builds it and says how it is used.
 *
 *   REFUSE_AT=N       the number of the allocation that is refused, from 1 at the entry of main; 0 or none: no allocation
 *   REFUSE_ON=1       refuses each later allocation too
 *   REFUSE_COUNTS=F   a file of 16 bytes for two counts, each of 8 bytes: the allocations, and those that were refused
 */
#define _GNU_SOURCE
#include <dlfcn.h>
#include <errno.h>
#include <fcntl.h>
#include <stdlib.h>
#include <sys/mman.h>
#include <unistd.h>

extern void *__libc_malloc(size_t), *__libc_calloc(size_t, size_t), *__libc_realloc(void *, size_t);
extern void *__libc_memalign(size_t, size_t);

static volatile unsigned long long without_file[2], *counts = without_file;
static unsigned long long at;
static int on, begun;

static int refused(void) {
    if (!begun) return 0;
    unsigned long long n = ++counts[0];
    if (!at || (on ? n < at : n != at)) return 0;
    counts[1]++;
    errno = ENOMEM;
    return 1;
}

void *malloc(size_t size) { return refused() ? NULL : __libc_malloc(size); }
void *calloc(size_t many, size_t size) { return refused() ? NULL : __libc_calloc(many, size); }
void *realloc(void *old, size_t size) { return refused() ? NULL : __libc_realloc(old, size); }
void *memalign(size_t align, size_t size) { return refused() ? NULL : __libc_memalign(align, size); }
void *aligned_alloc(size_t align, size_t size) { return refused() ? NULL : __libc_memalign(align, size); }
int posix_memalign(void **out, size_t align, size_t size) {
    void *made = refused() ? NULL : __libc_memalign(align, size);
    if (!made) return ENOMEM;
    *out = made;
    return 0;
}

static int (*real_main)(int, char **, char **);

static int counted_main(int argc, char **argv, char **env) {
    begun = 1;
    int status = real_main(argc, argv, env);
    begun = 0;
    return status;
}

int __libc_start_main(int (*entry)(int, char **, char **), int argc, char **argv, void (*init)(void), void (*fini)(void),
                      void (*loader)(void), void *stack) {
    int (*start)(int (*)(int, char **, char **), int, char **, void (*)(void), void (*)(void), void (*)(void), void *);
    *(void **)&start = dlsym(RTLD_NEXT, "__libc_start_main");
    const char *number = getenv("REFUSE_AT"), *path = getenv("REFUSE_COUNTS");
    int file = path ? open(path, O_RDWR) : -1;
    if (file >= 0) {
        void *mapped = mmap(NULL, 16, PROT_READ | PROT_WRITE, MAP_SHARED, file, 0);
        if (mapped != MAP_FAILED) counts = mapped;
        close(file);
    }
    at = number ? strtoull(number, NULL, 10) : 0;
    on = getenv("REFUSE_ON") != NULL;
    real_main = entry;
    return start(counted_main, argc, argv, init, fini, loader, stack);
}
