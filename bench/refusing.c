// Loaded before the C library (LD_PRELOAD), this refuses a call that the program makes of it, or cuts its reads and
// writes short. REFUSED_CALL is growth, read, write, thread, open or affinity; REFUSED_AT the number of the call, from
// 1; with REFUSED_ON all that follow are refused too. REFUSED_ERROR is the error's number. REFUSED_STEP is the most
// bytes that a read or a write moves. Each refusal writes a byte to the file REFUSED_TOLD, a number.
#define _GNU_SOURCE
#include <dlfcn.h>
#include <errno.h>
#include <fcntl.h>
#include <pthread.h>
#include <sched.h>
#include <stdarg.h>
#include <stdatomic.h>
#include <stdlib.h>
#include <string.h>
#include <sys/syscall.h>
#include <unistd.h>

extern void *__libc_malloc(size_t size);
extern void *__libc_realloc(void *old, size_t size);

static atomic_ulong calls;

static unsigned long number(const char *name) {
    const char *text = getenv(name);
    return text ? strtoul(text, NULL, 10) : 0;
}

static int is_refused(const char *call) {
    const char *named = getenv("REFUSED_CALL");
    if (!named || strcmp(named, call) != 0)
        return 0;
    unsigned long at = number("REFUSED_AT"), now = atomic_fetch_add(&calls, 1) + 1;
    if (at == 0 || now < at || (now > at && !number("REFUSED_ON")))
        return 0;
    syscall(SYS_write, number("REFUSED_TOLD"), "!", 1);
    return 1;
}

static size_t short_of(size_t size) {
    size_t most = number("REFUSED_STEP");
    return most && most < size ? most : size;
}

void *malloc(size_t size) {
    if (is_refused("growth")) {
        errno = ENOMEM;
        return NULL;
    }
    return __libc_malloc(size);
}

void *realloc(void *old, size_t size) {
    if (is_refused("growth")) {
        errno = ENOMEM;
        return NULL;
    }
    return __libc_realloc(old, size);
}

ssize_t read(int file, void *bytes, size_t size) {
    if (is_refused("read")) {
        errno = (int)number("REFUSED_ERROR");
        return -1;
    }
    return syscall(SYS_read, file, bytes, short_of(size));
}

ssize_t write(int file, const void *bytes, size_t size) {
    if (file == 1 && is_refused("write")) {
        errno = (int)number("REFUSED_ERROR");
        return -1;
    }
    return syscall(SYS_write, file, bytes, short_of(size));
}

int pthread_create(pthread_t *thread, const pthread_attr_t *how, void *(*start)(void *), void *given) {
    if (is_refused("thread"))
        return EAGAIN;
    int (*create)(pthread_t *, const pthread_attr_t *, void *(*)(void *), void *) = dlsym(RTLD_NEXT, "pthread_create");
    return create(thread, how, start, given);
}

int open(const char *path, int flags, ...) {
    if (is_refused("open")) {
        errno = (int)number("REFUSED_ERROR");
        return -1;
    }
    va_list more;
    va_start(more, flags);
    int mode = flags & O_CREAT ? va_arg(more, int) : 0;
    va_end(more);
    return (int)syscall(SYS_openat, AT_FDCWD, path, flags, mode);
}

int sched_getaffinity(pid_t process, size_t size, cpu_set_t *processors) {
    if (is_refused("affinity")) {
        errno = (int)number("REFUSED_ERROR");
        return -1;
    }
    int (*get)(pid_t, size_t, cpu_set_t *) = dlsym(RTLD_NEXT, "sched_getaffinity");
    return get(process, size, processors);
}
