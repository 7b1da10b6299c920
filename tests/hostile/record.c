/* Writes down what the program that it is loaded into (LD_PRELOAD) does: each write at a place of a file, each sync of one, and each write to
   standard output, one behind the other, into the file RECORD. An entry is a head, the file's name, and the bytes that were written. */
#define _GNU_SOURCE
#include <dlfcn.h>
#include <fcntl.h>
#include <pthread.h>
#include <stdint.h>
#include <stdio.h>
#include <stdlib.h>
#include <string.h>
#include <sys/uio.h>
#include <unistd.h>

extern ssize_t __pwrite64(int, const void *, size_t, off_t);
extern ssize_t __write(int, const void *, size_t);

struct head {
    uint8_t kind, name;
    uint16_t none;
    uint32_t size;
    uint64_t place;
};

static pthread_mutex_t lock = PTHREAD_MUTEX_INITIALIZER;
static int record = -1;

__attribute__((constructor)) static void begin(void) {
    const char *path = getenv("RECORD");
    if (path) record = open(path, O_WRONLY | O_CREAT | O_TRUNC | O_APPEND, 0600);
}

static void note(char kind, int file, off_t place, const void *data, ssize_t size) {
    char link[64], path[4096] = "";
    if (record < 0 || size < 0) return;
    snprintf(link, sizeof link, "/proc/self/fd/%d", file);
    ssize_t length = readlink(link, path, sizeof path - 1);
    if (length > 0) path[length] = 0;
    char *slash = strrchr(path, '/');
    char *name = slash ? slash + 1 : path;
    struct head head = {kind, strlen(name), 0, size, place};
    struct iovec parts[] = {{&head, sizeof head}, {name, head.name}, {(void *)data, size}};
    if (writev(record, parts, 3) < 0) abort();
}

ssize_t pwrite64(int file, const void *data, size_t size, off_t place) {
    pthread_mutex_lock(&lock);
    ssize_t done = __pwrite64(file, data, size, place);
    note('W', file, place, data, done);
    pthread_mutex_unlock(&lock);
    return done;
}

ssize_t pwrite(int file, const void *data, size_t size, off_t place) { return pwrite64(file, data, size, place); }

ssize_t write(int file, const void *data, size_t size) {
    if (file != STDOUT_FILENO) return __write(file, data, size);
    pthread_mutex_lock(&lock);
    ssize_t done = __write(file, data, size);
    note('O', file, 0, data, done);
    pthread_mutex_unlock(&lock);
    return done;
}

#define SYNCS(name)                                                          \
    int name(int file) {                                                     \
        static int (*next)(int);                                             \
        pthread_mutex_lock(&lock);                                           \
        if (!next) next = (int (*)(int))dlsym(RTLD_NEXT, #name);             \
        int done = next(file);                                               \
        if (!done) note('S', file, 0, NULL, 0);                              \
        pthread_mutex_unlock(&lock);                                         \
        return done;                                                         \
    }

SYNCS(fsync)
SYNCS(fdatasync)
