// Loaded before the C library (LD_PRELOAD), this tells each call that the program makes on the file `poets.journal` and
// on the folder `.` that it stands in, and each write to standard output; and it disturbs one of them.
//
// REFUSED_AT is the number of the call, from 1; with REFUSED_ON all that follow are disturbed too. REFUSED_HOW says
// how: refuse (it does nothing, and fails), tear (it does half, and fails), halve (it does half, and says so), before
// (the program is killed ahead of it), within (it is killed once half is done). Of a call that neither reads nor writes,
// half is all of it. REFUSED_ERROR is the error's number.
//
// Each call is told to the file REFUSED_TOLD, a number, by a line `KIND PLACE SIZE DISTURBED` and, of a write, the
// bytes that it wrote: o opens the journal, d the folder, l asks how long it is, r reads, w writes, t cuts, s syncs the
// journal, f the folder, p prints. Of what failed SIZE is what was done of it; of an opening PLACE has its flags.
#define _GNU_SOURCE
#include <errno.h>
#include <fcntl.h>
#include <signal.h>
#include <stdarg.h>
#include <stdatomic.h>
#include <stdio.h>
#include <stdlib.h>
#include <string.h>
#include <sys/stat.h>
#include <sys/syscall.h>
#include <sys/uio.h>
#include <unistd.h>

#define FILES 1024

// Of each open file whether it is the journal, or its folder.
static atomic_char known[FILES];
static atomic_ulong calls;

static unsigned long number(const char *name) {
    const char *text = getenv(name);
    return text ? strtoul(text, NULL, 10) : 0;
}

static char kind_of(int file) {
    return file >= 0 && file < FILES ? atomic_load(&known[file]) : 0;
}

// How the next call is disturbed, if it is.
static const char *disturbed(void) {
    unsigned long at = number("REFUSED_AT"), now = atomic_fetch_add(&calls, 1) + 1;
    const char *how = getenv("REFUSED_HOW");
    return how && at && (now == at || (now > at && number("REFUSED_ON"))) ? how : NULL;
}

static int is(const char *how, const char *wanted) {
    return how && strcmp(how, wanted) == 0;
}

static void tell(char kind, unsigned long place, long size, const void *bytes, const char *how) {
    char line[80];
    int long_line = snprintf(line, sizeof line, "%c %lu %ld %d\n", kind, place, size < 0 ? 0 : size, how != NULL);
    struct iovec parts[] = {{line, long_line}, {(void *)bytes, bytes && size > 0 ? size : 0}};
    syscall(SYS_writev, number("REFUSED_TOLD"), parts, 2);
}

static void stop(void) {
    syscall(SYS_kill, getpid(), SIGKILL);
    for (;;)
        pause();
}

static long fail(void) {
    errno = (int)number("REFUSED_ERROR");
    return -1;
}

// A call that writes nothing: it is made whole, or not at all. ONCE gives its answer.
#define WHOLE(kind, place, once)                                                                                      \
    const char *how = disturbed();                                                                                    \
    if (is(how, "before") || is(how, "refuse"))                                                                       \
        tell(kind, place, 0, NULL, how);                                                                              \
    if (is(how, "before"))                                                                                            \
        stop();                                                                                                       \
    if (is(how, "refuse"))                                                                                            \
        return fail();                                                                                                \
    long answer = once;                                                                                               \
    int error = errno;                                                                                                \
    if (is(how, "halve") && answer > 0)                                                                               \
        answer = (answer + 1) / 2;                                                                                    \
    tell(kind, place, answer, NULL, how);                                                                             \
    if (is(how, "within"))                                                                                            \
        stop();                                                                                                       \
    if (is(how, "tear"))                                                                                              \
        return fail();                                                                                                \
    errno = error;                                                                                                    \
    return answer

static long write_some(char kind, int file, const void *bytes, size_t size, long place, long code) {
    const char *how = disturbed();
    size_t some = is(how, "before") || is(how, "refuse") ? 0 : how ? size / 2 : size;
    if (is(how, "halve") && size == 1)
        some = 1;
    long done = some || !how ? syscall(code, file, bytes, some, place) : 0;
    int error = errno;
    tell(kind, place, done, bytes, how);
    if (is(how, "before") || is(how, "within"))
        stop();
    if (is(how, "refuse") || is(how, "tear"))
        return fail();
    errno = error;
    return done;
}

static int opened(int folder, const char *path, int flags, int mode) {
    const char *name = strrchr(path, '/');
    char kind = strcmp(name ? name + 1 : path, "poets.journal") == 0 ? 'o' : strcmp(path, ".") == 0 ? 'd' : 0;
    if (!kind)
        return (int)syscall(SYS_openat, folder, path, flags, mode);
    const char *how = disturbed();
    int file = -1;
    if (!is(how, "before") && !is(how, "refuse"))
        file = (int)syscall(SYS_openat, folder, path, flags, mode);
    int error = errno;
    tell(kind, flags, 0, NULL, how);
    if (is(how, "before") || is(how, "within"))
        stop();
    if (is(how, "refuse") || is(how, "tear"))
        return (int)fail();
    if (file >= 0 && file < FILES)
        atomic_store(&known[file], kind);
    errno = error;
    return file;
}

static int mode_in(int flags, va_list more) {
    return flags & (O_CREAT | __O_TMPFILE) ? va_arg(more, int) : 0;
}

#define OPEN(name)                                                                                                    \
    int name(const char *path, int flags, ...) {                                                                      \
        va_list more;                                                                                                 \
        va_start(more, flags);                                                                                        \
        int mode = mode_in(flags, more);                                                                              \
        va_end(more);                                                                                                 \
        return opened(AT_FDCWD, path, flags, mode);                                                                   \
    }

#define OPEN_AT(name)                                                                                                 \
    int name(int folder, const char *path, int flags, ...) {                                                          \
        va_list more;                                                                                                 \
        va_start(more, flags);                                                                                        \
        int mode = mode_in(flags, more);                                                                              \
        va_end(more);                                                                                                 \
        return opened(folder, path, flags, mode);                                                                     \
    }

OPEN(open)
OPEN(open64)
OPEN_AT(openat)
OPEN_AT(openat64)

int close(int file) {
    if (kind_of(file))
        atomic_store(&known[file], 0);
    return (int)syscall(SYS_close, file);
}

ssize_t write(int file, const void *bytes, size_t size) {
    if (kind_of(file) == 'o')
        return write_some('w', file, bytes, size, syscall(SYS_lseek, file, 0, SEEK_CUR), SYS_write);
    if (file == 1)
        return write_some('p', file, bytes, size, 0, SYS_write);
    return syscall(SYS_write, file, bytes, size);
}

#define WRITE_AT(name)                                                                                                \
    ssize_t name(int file, const void *bytes, size_t size, off64_t place) {                                           \
        if (kind_of(file) == 'o')                                                                                     \
            return write_some('w', file, bytes, size, place, SYS_pwrite64);                                           \
        return syscall(SYS_pwrite64, file, bytes, size, place);                                                       \
    }

WRITE_AT(pwrite)
WRITE_AT(pwrite64)

#define READ_AT(name)                                                                                                 \
    ssize_t name(int file, void *bytes, size_t size, off64_t place) {                                                 \
        if (kind_of(file) != 'o')                                                                                     \
            return syscall(SYS_pread64, file, bytes, size, place);                                                    \
        WHOLE('r', place, syscall(SYS_pread64, file, bytes, size, place));                                            \
    }

READ_AT(pread)
READ_AT(pread64)

#define SYNC(name, code)                                                                                              \
    int name(int file) {                                                                                              \
        if (!kind_of(file))                                                                                           \
            return (int)syscall(code, file);                                                                          \
        WHOLE(kind_of(file) == 'o' ? 's' : 'f', 0, syscall(code, file));                                              \
    }

SYNC(fsync, SYS_fsync)
SYNC(fdatasync, SYS_fdatasync)

#define CUT(name)                                                                                                     \
    int name(int file, off64_t size) {                                                                                \
        if (kind_of(file) != 'o')                                                                                     \
            return (int)syscall(SYS_ftruncate, file, size);                                                           \
        WHOLE('t', size, syscall(SYS_ftruncate, file, size));                                                         \
    }

CUT(ftruncate)
CUT(ftruncate64)

int statx(int folder, const char *path, int flags, unsigned mask, struct statx *found) {
    if (kind_of(folder) != 'o' || *path)
        return (int)syscall(SYS_statx, folder, path, flags, mask, found);
    WHOLE('l', 0, syscall(SYS_statx, folder, path, flags, mask, found));
}
