// Preloaded before a program, this refuses the allocation whose number, from 1 on, the variable REFUSE names,
// and, where REFUSE is `threads`, each thread. The call of open, read or write whose number, from 1 on, the
// variable FAIL names fails as a broken device does. To the file that COUNT names it writes how many allocations,
// threads and such calls were asked for.
#define _GNU_SOURCE
#include <dlfcn.h>
#include <fcntl.h>
#include <pthread.h>
#include <stdarg.h>
#include <stdatomic.h>
#include <stddef.h>
#include <stdio.h>
#include <stdlib.h>
#include <string.h>
#include <errno.h>
#include <sys/syscall.h>
#include <unistd.h>

extern void *__libc_malloc(size_t), *__libc_calloc(size_t, size_t), *__libc_realloc(void *, size_t);
extern void *__libc_memalign(size_t, size_t);

static atomic_ulong asked, threads, outside;
static unsigned long refuse, fail;
static int counting, alone;

__attribute__((constructor)) static void begin(void) {
    const char *number = getenv("REFUSE");
    alone = number && strcmp(number, "threads") == 0;
    refuse = number && !alone ? strtoul(number, NULL, 10) : 0;
    const char *call = getenv("FAIL");
    fail = call ? strtoul(call, NULL, 10) : 0;
    counting = 1;
}

__attribute__((destructor)) static void end(void) {
    if (!counting) {
        return;
    }
    counting = 0;
    const char *name = getenv("COUNT");
    FILE *out = name ? fopen(name, "w") : NULL;
    if (out) {
        fprintf(out, "%lu %lu %lu\n", atomic_load(&asked), atomic_load(&threads), atomic_load(&outside));
        fclose(out);
    }
}

// A program that ends by this call runs no destructor.
void _exit(int status) {
    end();
    for (;;) {
        syscall(SYS_exit_group, status);
    }
}

static int is_refused(void) {
    if (counting && atomic_fetch_add(&asked, 1) + 1 == refuse) {
        errno = ENOMEM;
        return 1;
    }
    return 0;
}

void *malloc(size_t size) {
    return is_refused() ? NULL : __libc_malloc(size);
}

void *calloc(size_t count, size_t size) {
    return is_refused() ? NULL : __libc_calloc(count, size);
}

void *realloc(void *old, size_t size) {
    return is_refused() ? NULL : __libc_realloc(old, size);
}

void *aligned_alloc(size_t alignment, size_t size) {
    return is_refused() ? NULL : __libc_memalign(alignment, size);
}

int posix_memalign(void **to, size_t alignment, size_t size) {
    if (is_refused()) {
        return ENOMEM;
    }
    *to = __libc_memalign(alignment, size);
    return *to ? 0 : ENOMEM;
}

static int is_broken(void) {
    if (counting && atomic_fetch_add(&outside, 1) + 1 == fail) {
        errno = EIO;
        return 1;
    }
    return 0;
}

int open(const char *name, int flags, ...) {
    va_list more;
    va_start(more, flags);
    int mode = va_arg(more, int);
    va_end(more);
    return is_broken() ? -1 : (int)syscall(SYS_openat, AT_FDCWD, name, flags, mode);
}

ssize_t read(int file, void *to, size_t most) {
    return is_broken() ? -1 : syscall(SYS_read, file, to, most);
}

ssize_t write(int file, const void *from, size_t most) {
    return is_broken() ? -1 : syscall(SYS_write, file, from, most);
}

typedef void *(*Body)(void *);

int pthread_create(pthread_t *thread, const pthread_attr_t *how, Body body, void *value) {
    int (*create)(pthread_t *, const pthread_attr_t *, Body, void *) = dlsym(RTLD_NEXT, "pthread_create");
    atomic_fetch_add(&threads, 1);
    return alone || !create ? EAGAIN : create(thread, how, body, value);
}
