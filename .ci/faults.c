/*
 * Is loaded before the C library, and has one call of a program fail that otherwise succeeds. The environment tells which:
 *
 *   FAULTS_KIND   which calls count. memory: the requests for memory. input, output: reads and writes of standard input, standard
 *                 output and connections. disk: all calls on files that the program opens by their names
 *   FAULTS_AT     which of these calls fails, counted from 1 on. With 0 none does
 *   FAULTS_HOW    error: it fails with an error. end: it takes no byte, and doesn't say why
 *   FAULTS_BYTES  how many bytes a read or a write of the counted kind takes at the most. With 0 there is no limit
 *   FAULTS_SAYS   the file that gets the number of calls that counted, at the end of the program
 *   FAULTS_TRACE  the file that gets each call that has opened, written, cut or synced a file which the program opens by its name. Of
 *                 each a line has the call, the descriptor, a size and a place; behind it stands the name, or what was written
 *
 * The program has a single thread, so nothing is locked.
 */
#define _GNU_SOURCE
#include <dlfcn.h>
#include <errno.h>
#include <fcntl.h>
#include <stdarg.h>
#include <stdio.h>
#include <stdlib.h>
#include <string.h>
#include <sys/file.h>
#include <sys/socket.h>
#include <sys/stat.h>
#include <unistd.h>

enum kind { NONE, MEMORY, INPUT, OUTPUT, DISK };

static const char *const kinds[] = {"", "memory", "input", "output", "disk"};

static enum kind counted = NONE;
static FILE *trace;
static unsigned long at, count, most;
static int ends;

/* The descriptors of files that were opened by their names. */
static char is_file[1024];

static unsigned long number(const char *name) {
    const char *text = getenv(name);
    return text ? strtoul(text, NULL, 10) : 0;
}

__attribute__((constructor)) static void begin(void) {
    const char *kind = getenv("FAULTS_KIND"), *how = getenv("FAULTS_HOW");
    at = number("FAULTS_AT");
    most = number("FAULTS_BYTES");
    ends = how && !strcmp(how, "end");
    if (getenv("FAULTS_TRACE"))
        trace = fopen(getenv("FAULTS_TRACE"), "w");
    for (int it = MEMORY; kind && it <= DISK; it++)
        if (!strcmp(kind, kinds[it]))
            counted = it;
}

__attribute__((destructor)) static void end(void) {
    const char *file = getenv("FAULTS_SAYS");
    FILE *said;
    unsigned long found = count;
    counted = NONE;
    if (file && (said = fopen(file, "w"))) {
        fprintf(said, "%lu\n", found);
        fclose(said);
    }
    if (trace)
        fclose(trace);
}

/* Counts a call, and tells whether it is the one that fails. */
static int fails(enum kind kind) {
    return kind == counted && ++count == at;
}

/* What the call that fails returns, for the calls that return -1 with an error. */
static long failure(enum kind kind) {
    if (ends && kind != DISK)
        return 0;
    errno = EIO;
    return -1;
}

static enum kind kind_of(int file, enum kind otherwise) {
    if (file >= 0 && file < (int)sizeof is_file && is_file[file])
        return DISK;
    return file == STDERR_FILENO ? NONE : otherwise;
}

static size_t taken(enum kind kind, size_t length) {
    return kind == counted && kind != DISK && most && length > most ? most : length;
}

#define NEXT(name) ((__typeof__(&name))dlsym(RTLD_NEXT, #name))

/* --- Memory. The C library has these names too, since `dlsym` asks for memory. */

extern void *__libc_malloc(size_t), *__libc_calloc(size_t, size_t), *__libc_realloc(void *, size_t);

static void *no_memory(void) {
    errno = ENOMEM;
    return NULL;
}

void *malloc(size_t size) {
    return fails(MEMORY) ? no_memory() : __libc_malloc(size);
}

void *calloc(size_t items, size_t size) {
    return fails(MEMORY) ? no_memory() : __libc_calloc(items, size);
}

void *realloc(void *old, size_t size) {
    return fails(MEMORY) ? no_memory() : __libc_realloc(old, size);
}

/* --- Reads and writes */

ssize_t read(int file, void *into, size_t length) {
    enum kind kind = kind_of(file, INPUT);
    return fails(kind) ? failure(kind) : NEXT(read)(file, into, taken(kind, length));
}

ssize_t recv(int file, void *into, size_t length, int flags) {
    return fails(INPUT) ? failure(INPUT) : NEXT(recv)(file, into, taken(INPUT, length), flags);
}

ssize_t write(int file, const void *from, size_t length) {
    enum kind kind = kind_of(file, OUTPUT);
    return fails(kind) ? failure(kind) : NEXT(write)(file, from, taken(kind, length));
}

ssize_t send(int file, const void *from, size_t length, int flags) {
    return fails(OUTPUT) ? failure(OUTPUT) : NEXT(send)(file, from, taken(OUTPUT, length), flags);
}

/* --- Files */

/* Notes a call that was made, and returns what it has returned. */
static long noted(const char *call, int file, long returned, long size, long place, const void *bytes) {
    if (trace && returned >= 0) {
        fprintf(trace, "%s %d %ld %ld\n", call, file, size, place);
        if (bytes)
            fwrite(bytes, 1, size, trace);
    }
    return returned;
}

static int opened(int file, const char *name) {
    if (file >= 0 && file < (int)sizeof is_file)
        is_file[file] = 1;
    return (int)noted("open", file, file, strlen(name), 0, name);
}

int open(const char *name, int flags, ...) {
    va_list rest;
    va_start(rest, flags);
    mode_t mode = va_arg(rest, mode_t);
    va_end(rest);
    return fails(DISK) ? (int)failure(DISK) : opened(NEXT(open)(name, flags, mode), name);
}

int close(int file) {
    if (file >= 0 && file < (int)sizeof is_file)
        is_file[file] = 0;
    return NEXT(close)(file);
}

int fcntl(int file, int what, ...) {
    va_list rest;
    va_start(rest, what);
    void *more = va_arg(rest, void *);
    va_end(rest);
    return fails(kind_of(file, NONE)) ? (int)failure(DISK) : NEXT(fcntl)(file, what, more);
}

ssize_t pread(int file, void *into, size_t length, off_t from) {
    return fails(DISK) ? failure(DISK) : NEXT(pread)(file, into, length, from);
}

ssize_t pwrite(int file, const void *from, size_t length, off_t to) {
    if (fails(DISK))
        return failure(DISK);
    ssize_t done = NEXT(pwrite)(file, from, length, to);
    return noted("write", file, done, done, to, from);
}

int fsync(int file) {
    return fails(DISK) ? (int)failure(DISK) : (int)noted("sync", file, NEXT(fsync)(file), 0, 0, NULL);
}

int fdatasync(int file) {
    return fails(DISK) ? (int)failure(DISK) : (int)noted("sync", file, NEXT(fdatasync)(file), 0, 0, NULL);
}

int ftruncate(int file, off_t length) {
    return fails(DISK) ? (int)failure(DISK) : (int)noted("cut", file, NEXT(ftruncate)(file, length), length, 0, NULL);
}

off_t lseek(int file, off_t to, int from) {
    return fails(kind_of(file, NONE)) ? failure(DISK) : NEXT(lseek)(file, to, from);
}

int statx(int folder, const char *restrict name, int flags, unsigned what, struct statx *restrict found) {
    return fails(DISK) ? (int)failure(DISK) : NEXT(statx)(folder, name, flags, what, found);
}

int flock(int file, int what) {
    return fails(DISK) ? (int)failure(DISK) : NEXT(flock)(file, what);
}

int fchmod(int file, mode_t mode) {
    return fails(DISK) ? (int)failure(DISK) : NEXT(fchmod)(file, mode);
}

int fchown(int file, uid_t user, gid_t group) {
    return fails(DISK) ? (int)failure(DISK) : NEXT(fchown)(file, user, group);
}

/* It returns its error. */
int posix_fadvise(int file, off_t from, off_t length, int advice) {
    return fails(DISK) ? EIO : NEXT(posix_fadvise)(file, from, length, advice);
}

char *realpath(const char *restrict name, char *restrict into) {
    return fails(DISK) ? (failure(DISK), NULL) : NEXT(realpath)(name, into);
}
