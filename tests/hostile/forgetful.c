/* What the system does with failed syncs, for the program that it is loaded into (LD_PRELOAD). An image reads as the system keeps it.
   What its disk has stands beside, in the folder FORGET_DISKS, in a file that is named by the image's inode and outlives the run, and so
   do the blocks that aren't synced. A sync takes these to the disk. One that fails takes some of them there, those that FORGET_SEED
   draws (none for 0), and has the system take the others for synced: they are lost, though they read as before. It is told once to each
   opening of the image, whoever syncs over that one next, and to the first that opens it later if nobody was told. Advice that an image
   isn't needed lets all synced blocks read as the disk has them. The sync number FORGET_AT fails, counted from 1 over all images; with
   0 none does. How many there were stands in the first eight bytes of the file FORGET_COUNT. FORGET_WITHOUT has the system be as a
   program finds it that asks for less: `drop` drops nothing, `openings` has one for each image, whoever opens it. */
#define _GNU_SOURCE
#include <dlfcn.h>
#include <errno.h>
#include <fcntl.h>
#include <pthread.h>
#include <stdarg.h>
#include <stdatomic.h>
#include <stdint.h>
#include <stdio.h>
#include <stdlib.h>
#include <string.h>
#include <sys/stat.h>
#include <unistd.h>

enum { BLOCK = 512, FILES = 4096 };

/* What is kept of an image: failed syncs, how many of these anybody was told of, and its bytes. Behind these, in the same file, is a byte
   for each block, 1 where it isn't synced, and then the disk's content. */
struct head {
    int64_t failed, told, bytes;
};

/* An opening of an image: of how many failed syncs it was told. */
struct opening {
    int is_image;
    int64_t told;
};

static struct opening openings[FILES];
static pthread_mutex_t lock = PTHREAD_MUTEX_INITIALIZER;
static atomic_long made;
static long at;
static int drops, shares;
static uint64_t choice;
static int counter = -1;
static const char *disks;

static int (*next_openat)(int, const char *, int, ...);
static int (*next_sync)(int);
static int (*next_resize)(int, off_t);
static ssize_t (*next_read)(int, void *, size_t, off_t);
static ssize_t (*next_write)(int, const void *, size_t, off_t);

__attribute__((constructor)) static void begin(void) {
    next_openat = (int (*)(int, const char *, int, ...))dlsym(RTLD_NEXT, "openat");
    next_sync = (int (*)(int))dlsym(RTLD_NEXT, "fdatasync");
    next_resize = (int (*)(int, off_t))dlsym(RTLD_NEXT, "ftruncate");
    next_read = (ssize_t(*)(int, void *, size_t, off_t))dlsym(RTLD_NEXT, "pread");
    next_write = (ssize_t(*)(int, const void *, size_t, off_t))dlsym(RTLD_NEXT, "pwrite");
    const char *number = getenv("FORGET_AT"), *seed = getenv("FORGET_SEED"), *count = getenv("FORGET_COUNT");
    disks = getenv("FORGET_DISKS");
    at = number ? atol(number) : 0;
    choice = seed ? strtoull(seed, NULL, 10) : 0;
    const char *without = getenv("FORGET_WITHOUT");
    drops = !without || strcmp(without, "drop");
    shares = without && !strcmp(without, "openings");
    if (count) counter = next_openat(AT_FDCWD, count, O_RDWR | O_CREAT | O_TRUNC | O_CLOEXEC, 0600);
}

/* The next number of a generator; 0 stays. */
static uint64_t drawn(void) {
    choice ^= choice << 13;
    choice ^= choice >> 7;
    choice ^= choice << 17;
    return choice;
}

static void stop(const char *why) {
    dprintf(2, "forgetful.c: %s\n", why);
    _exit(99);
}

/* What is kept of an image, opened and with its head read; where there is nothing yet its disk has what it reads as. */
static int kept_of(int file, struct head *head) {
    struct stat found;
    char path[4096];
    if (fstat(file, &found)) stop("no image");
    snprintf(path, sizeof path, "%s/%lu", disks, (unsigned long)found.st_ino);
    int kept = next_openat(AT_FDCWD, path, O_RDWR | O_CREAT | O_CLOEXEC, 0600);
    if (kept < 0) stop("no folder for disks");
    if (next_read(kept, head, sizeof *head, 0) == sizeof *head && head->bytes == found.st_size) return kept;
    int64_t failed = head->bytes ? head->failed : 0, told = head->bytes ? head->told : 0, blocks = (found.st_size + BLOCK - 1) / BLOCK;
    *head = (struct head){failed, told, found.st_size};
    char block[BLOCK];
    if (next_resize(kept, 0) || next_resize(kept, sizeof *head + blocks * (1 + BLOCK))) stop("no room");
    for (int64_t number = 0; number < blocks; number++) {
        ssize_t had = next_read(file, block, BLOCK, number * BLOCK);
        if (had > 0) (void)!next_write(kept, block, had, sizeof *head + blocks + number * BLOCK);
    }
    (void)!next_write(kept, head, sizeof *head, 0);
    return kept;
}

static int64_t blocks_of(const struct head *head) { return (head->bytes + BLOCK - 1) / BLOCK; }

/* Moves one block between the image and its disk. */
static void move_block(int from, off_t place, int to, off_t there) {
    char block[BLOCK];
    ssize_t had = next_read(from, block, BLOCK, place);
    if (had > 0) (void)!next_write(to, block, had, there);
}

/* Each block that isn't synced (or, with 0, that is) goes to the disk (or comes from it), but for those that `loses` draws. */
static void settle(int file, int kept, struct head *head, int loses) {
    int64_t blocks = blocks_of(head);
    char *unsynced = malloc(blocks + 1);
    if (!unsynced || next_read(kept, unsynced, blocks, sizeof *head) != blocks) stop("no blocks");
    for (int64_t number = 0; number < blocks; number++) {
        if (!unsynced[number]) continue;
        if (!loses || drawn() % 2) move_block(file, number * BLOCK, kept, sizeof *head + blocks + number * BLOCK);
        unsynced[number] = 0;
    }
    (void)!next_write(kept, unsynced, blocks, sizeof *head);
    free(unsynced);
}

static int is_image(int file) { return file >= 0 && file < FILES && openings[file].is_image; }

static int opened(int file, const char *path) {
    if (file < 0 || file >= FILES) return file;
    size_t length = strlen(path);
    struct stat found;
    openings[file].is_image = disks && length > 4 && !strcmp(path + length - 4, ".vol") && !fstat(file, &found) && S_ISREG(found.st_mode);
    if (!openings[file].is_image) return file;
    struct head head = {0, 0, 0};
    pthread_mutex_lock(&lock);
    close(kept_of(file, &head));
    openings[file].told = head.told;
    pthread_mutex_unlock(&lock);
    return file;
}

#define OPENS(name, words, folder)                                        \
    int name words {                                                      \
        va_list more;                                                     \
        va_start(more, flags);                                            \
        int mode = flags & O_CREAT ? va_arg(more, int) : 0;               \
        va_end(more);                                                     \
        return opened(next_openat(folder, path, flags, mode), path);      \
    }

OPENS(open, (const char *path, int flags, ...), AT_FDCWD)
OPENS(open64, (const char *path, int flags, ...), AT_FDCWD)
OPENS(openat, (int folder, const char *path, int flags, ...), folder)
OPENS(openat64, (int folder, const char *path, int flags, ...), folder)

ssize_t pwrite(int file, const void *out, size_t size, off_t place) {
    if (!is_image(file)) return next_write(file, out, size, place);
    struct head head = {0, 0, 0};
    pthread_mutex_lock(&lock);
    int kept = kept_of(file, &head);
    ssize_t done = next_write(file, out, size, place);
    for (off_t number = place / BLOCK; done > 0 && number <= (place + done - 1) / BLOCK; number++)
        (void)!next_write(kept, "\1", 1, sizeof head + number);
    close(kept);
    pthread_mutex_unlock(&lock);
    return done;
}

ssize_t pwrite64(int file, const void *out, size_t size, off_t place) { return pwrite(file, out, size, place); }

/* Whether this opening has yet to be told of a failed sync, which it is now. */
static int is_told(int file, int kept, struct head *head) {
    int64_t *known = shares ? &head->told : &openings[file].told;
    int is_late = *known < head->failed;
    *known = head->failed;
    if (is_late) head->told = head->failed;
    (void)!next_write(kept, head, sizeof *head, 0);
    return is_late;
}

static int told_now(int file) {
    struct head head = {0, 0, 0};
    pthread_mutex_lock(&lock);
    int kept = kept_of(file, &head), is_late = is_told(file, kept, &head);
    close(kept);
    pthread_mutex_unlock(&lock);
    return is_late;
}

/* A sync takes a while, in which others write and sync, over this opening too: one that fails is told before that or behind it. */
static int synced(int file) {
    if (!is_image(file)) return next_sync(file);
    struct head head = {0, 0, 0};
    long number = atomic_fetch_add(&made, 1) + 1;
    int fails = number == at, is_early = fails && at % 2;
    usleep(fails ? 500 : 50);
    pthread_mutex_lock(&lock);
    number = made;
    if (counter >= 0) (void)!next_write(counter, &number, sizeof number, 0);
    int kept = kept_of(file, &head);
    settle(file, kept, &head, fails);
    head.failed += fails;
    (void)!next_write(kept, &head, sizeof head, 0);
    if (is_early) is_early = is_told(file, kept, &head);
    close(kept);
    pthread_mutex_unlock(&lock);
    usleep(fails ? 2000 : 50);
    int is_late = is_early || told_now(file);
    if (is_late) errno = EIO;
    return is_late ? -1 : 0;
}

int fdatasync(int file) { return synced(file); }
int fsync(int file) { return synced(file); }

int posix_fadvise(int file, off_t from, off_t size, int advice) {
    if (!is_image(file) || !drops || advice != POSIX_FADV_DONTNEED || from || size) return 0;
    struct head head = {0, 0, 0};
    pthread_mutex_lock(&lock);
    int kept = kept_of(file, &head);
    int64_t blocks = blocks_of(&head);
    char *unsynced = malloc(blocks + 1);
    if (!unsynced || next_read(kept, unsynced, blocks, sizeof head) != blocks) stop("no blocks");
    for (int64_t number = 0; number < blocks; number++)
        if (!unsynced[number]) move_block(kept, sizeof head + blocks + number * BLOCK, file, number * BLOCK);
    free(unsynced);
    close(kept);
    pthread_mutex_unlock(&lock);
    return 0;
}

int posix_fadvise64(int file, off_t from, off_t size, int advice) { return posix_fadvise(file, from, size, advice); }
