/*
 * Preloaded under flexbox by the scenes that need to see its system calls, or to come between two of them.
 *
 * Each call on a file is a line in the file that WITNESS_LOG names: open, or make with the mode, lock or share, read, and those
 * that put an image in place: write, sync, rename, move (a rename that replaces nothing), link, remove. Of these last, the
 * WITNESS_STOP-th ends the process before it is made, as a cut of power would; the WITNESS_FAIL-th is not made, but fails; and just
 * before the WITNESS_STORE-th another program, which asks for no lock, stores a byte, '!', at the start of the file 'disk'.
 *
 * WITNESS_AT_OPEN, WITNESS_AT_LOCK, WITNESS_AT_CLAIM and WITNESS_AT_MOVE hold renames, "FROM TO FROM TO ..", which another program
 * makes just before the first file is opened, the first lock asked for, the first exclusive lock, or the first file moved. With WITNESS_NO_LOCKS the file system has no locks,
 * with WITNESS_NO_MOVES no rename that replaces nothing.
 */
#define _GNU_SOURCE
#include <dlfcn.h>
#include <errno.h>
#include <fcntl.h>
#include <stdarg.h>
#include <stdio.h>
#include <stdlib.h>
#include <string.h>
#include <sys/file.h>
#include <unistd.h>

typedef int (*open_call)(const char *, int, ...);
typedef int (*lock_call)(int, int);
typedef ssize_t (*read_call)(int, void *, size_t);
typedef ssize_t (*write_call)(int, const void *, size_t);
typedef int (*sync_call)(int);
typedef int (*rename_call)(const char *, const char *);
typedef int (*move_call)(int, const char *, int, const char *, unsigned int);
typedef int (*link_call)(int, const char *, int, const char *, int);
typedef int (*remove_call)(const char *);

static int calls;

static int number(const char *variable) {
    const char *text = getenv(variable);
    return text ? atoi(text) : 0;
}

static const char *last_part(const char *path) {
    const char *slash = strrchr(path, '/');
    return slash && slash[1] ? slash + 1 : path;
}

static void logged(const char *what, const char *path) {
    FILE *log = fopen(getenv("WITNESS_LOG"), "a");
    if (log) {
        fprintf(log, "%s %s\n", what, last_part(path));
        fclose(log);
    }
}

/* Where an open file is. */
static const char *path_of(int file) {
    static char path[4096];
    char link[64];
    ssize_t length;
    snprintf(link, sizeof link, "/proc/self/fd/%d", file);
    length = readlink(link, path, sizeof path - 1);
    path[length > 0 ? length : 0] = 0;
    return path;
}

static void store(void) {
    int file = ((open_call)dlsym(RTLD_NEXT, "open"))("disk", O_WRONLY);
    if (file < 0 || ((write_call)dlsym(RTLD_NEXT, "write"))(file, "!", 1) != 1) _exit(98);
    close(file);
}

/* Notes a call that puts an image in place. Not 0: it is to fail. */
static int noted(const char *what, const char *path) {
    calls++;
    if (calls == number("WITNESS_STOP")) _exit(99);
    if (calls == number("WITNESS_STORE")) store();
    logged(what, path);
    return calls == number("WITNESS_FAIL");
}

/* What another program does meanwhile, once. */
static void meanwhile(const char *variable) {
    rename_call real = (rename_call)dlsym(RTLD_NEXT, "rename");
    const char *given = getenv(variable);
    char *moves, *from, *to;
    if (!given) return;
    moves = strdup(given);
    unsetenv(variable);
    for (from = strtok(moves, " "); from && (to = strtok(NULL, " ")); from = strtok(NULL, " ")) {
        if (real(from, to)) _exit(98);
    }
    free(moves);
}

/* Whether somebody, flexbox too, has the exclusive lock on the file there. */
static int is_locked(const char *path) {
    open_call open_file = (open_call)dlsym(RTLD_NEXT, "open");
    lock_call lock = (lock_call)dlsym(RTLD_NEXT, "flock");
    int file = open_file(path, O_RDONLY | O_NONBLOCK);
    int refused = file >= 0 && lock(file, LOCK_SH | LOCK_NB) != 0;
    if (file >= 0) close(file);
    return refused;
}

static int opened(const char *name, const char *path, int flags, int mode) {
    char make[32];
    meanwhile("WITNESS_AT_OPEN");
    snprintf(make, sizeof make, "make %o", mode);
    logged(flags & O_CREAT ? make : "open", path);
    return ((open_call)dlsym(RTLD_NEXT, name))(path, flags, mode);
}

/* The mode stands behind the flags where a file may be made, and only there. */
#define OPEN(name)                                \
    int name(const char *path, int flags, ...) {  \
        int mode = 0;                             \
        if (flags & O_CREAT) {                    \
            va_list rest;                         \
            va_start(rest, flags);                \
            mode = va_arg(rest, int);             \
            va_end(rest);                         \
        }                                         \
        return opened(#name, path, flags, mode);  \
    }

OPEN(open)
OPEN(open64)

int flock(int file, int operation) {
    meanwhile("WITNESS_AT_LOCK");
    if (operation & LOCK_EX) meanwhile("WITNESS_AT_CLAIM");
    logged(operation & LOCK_EX ? "lock" : "share", path_of(file));
    if (number("WITNESS_NO_LOCKS")) {
        errno = ENOLCK;
        return -1;
    }
    return ((lock_call)dlsym(RTLD_NEXT, "flock"))(file, operation);
}

ssize_t read(int file, void *bytes, size_t count) {
    if (file > 2) logged("read", path_of(file));
    return ((read_call)dlsym(RTLD_NEXT, "read"))(file, bytes, count);
}

ssize_t write(int file, const void *bytes, size_t count) {
    if (file > 2 && noted("write", path_of(file))) {
        errno = ENOSPC;
        return -1;
    }
    return ((write_call)dlsym(RTLD_NEXT, "write"))(file, bytes, count);
}

int fsync(int file) {
    if (noted("sync", path_of(file))) {
        errno = EIO;
        return -1;
    }
    return ((sync_call)dlsym(RTLD_NEXT, "fsync"))(file);
}

int rename(const char *from, const char *to) {
    if (noted(is_locked(to) ? "rename" : "rename unlocked", to)) {
        errno = EIO;
        return -1;
    }
    return ((rename_call)dlsym(RTLD_NEXT, "rename"))(from, to);
}

int renameat2(int from_folder, const char *from, int to_folder, const char *to, unsigned int flags) {
    meanwhile("WITNESS_AT_MOVE");
    if (noted(flags & RENAME_NOREPLACE ? "move" : "rename", to)) {
        errno = EIO;
        return -1;
    }
    if (number("WITNESS_NO_MOVES")) {
        errno = EINVAL;
        return -1;
    }
    return ((move_call)dlsym(RTLD_NEXT, "renameat2"))(from_folder, from, to_folder, to, flags);
}

int linkat(int from_folder, const char *from, int to_folder, const char *to, int flags) {
    if (noted("link", to)) {
        errno = EIO;
        return -1;
    }
    return ((link_call)dlsym(RTLD_NEXT, "linkat"))(from_folder, from, to_folder, to, flags);
}

int unlink(const char *path) {
    if (noted("remove", path)) {
        errno = EIO;
        return -1;
    }
    return ((remove_call)dlsym(RTLD_NEXT, "unlink"))(path);
}
