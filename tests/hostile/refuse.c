/* Refuses something to the program that it is loaded into (LD_PRELOAD): memory, or with REFUSE_FILES set calls of files (reads and
   writes at a place, syncs, new lengths). The one numbered REFUSE_AT is refused, counted from 1, and with REFUSE_FROM set all later
   ones too. How many there were so far stands in the first eight bytes of the file REFUSE_COUNT. With REFUSE_SHORT set each read and
   write at a place moves one block at most. With REFUSE_LOSE set to a number the first refused call is a loss of power: of the blocks
   that were written since the last sync of their file some have their old content again, those that the number says; all for 0. */
#include <dlfcn.h>
#include <errno.h>
#include <fcntl.h>
#include <pthread.h>
#include <stdatomic.h>
#include <stdint.h>
#include <stddef.h>
#include <stdlib.h>
#include <sys/mman.h>
#include <sys/stat.h>
#include <unistd.h>

enum { BLOCK = 512 };

extern void *__libc_malloc(size_t);
extern void *__libc_calloc(size_t, size_t);
extern void *__libc_realloc(void *, size_t);
extern void *__libc_memalign(size_t, size_t);
extern ssize_t __pread64(int, void *, size_t, off_t);
extern ssize_t __pwrite64(int, const void *, size_t, off_t);

static atomic_long unseen;
static atomic_long *made = &unseen;
static long at, from, files, few;

/* A block that was written and not yet synced, and what it was before. */
struct unsynced {
    struct unsynced *next;
    ino_t of;
    int file;
    off_t place;
    ssize_t size;
    char old[BLOCK];
};

static pthread_mutex_t lock = PTHREAD_MUTEX_INITIALIZER;
static struct unsynced *unsynced;
static int loses;
static uint64_t choice;

/* The next number of a generator; the choice 0 stays. */
static uint64_t drawn(void) {
    choice ^= choice << 13;
    choice ^= choice >> 7;
    choice ^= choice << 17;
    return choice;
}

/* A file may be open several times, and be synced by another opening than it is written by. */
static ino_t number_of(int file) {
    struct stat found;
    return fstat(file, &found) ? 0 : found.st_ino;
}

static void forget(int file) {
    ino_t of = number_of(file);
    pthread_mutex_lock(&lock);
    for (struct unsynced **it = &unsynced; *it;) {
        struct unsynced *gone = *it;
        if (gone->of == of) *it = gone->next;
        else it = &gone->next;
    }
    pthread_mutex_unlock(&lock);
}

static void remember(int file, off_t place, size_t size) {
    ino_t of = number_of(file);
    pthread_mutex_lock(&lock);
    for (size_t done = 0; done < size; done += BLOCK) {
        struct unsynced *it = unsynced;
        while (it && (it->of != of || it->place != place + (off_t)done)) it = it->next;
        if (it || !(it = __libc_malloc(sizeof *it))) continue;
        *it = (struct unsynced){unsynced, of, file, place + (off_t)done, 0, {0}};
        it->size = __pread64(file, it->old, BLOCK, it->place);
        unsynced = it;
    }
    pthread_mutex_unlock(&lock);
}

static void lose(void) {
    pthread_mutex_lock(&lock);
    for (struct unsynced *it = unsynced; it; it = it->next)
        if (it->size > 0 && drawn() % 2 == 0) (void)!__pwrite64(it->file, it->old, it->size, it->place);
    unsynced = NULL;
    pthread_mutex_unlock(&lock);
}

__attribute__((constructor)) static void begin(void) {
    const char *number = getenv("REFUSE_AT"), *path = getenv("REFUSE_COUNT");
    int file = path ? open(path, O_RDWR | O_CREAT | O_TRUNC, 0600) : -1;
    if (file >= 0) {
        void *there = MAP_FAILED;
        int (*resize)(int, off_t) = (int (*)(int, off_t))dlsym(RTLD_NEXT, "ftruncate");
        if (!resize(file, sizeof *made)) there = mmap(NULL, sizeof *made, PROT_READ | PROT_WRITE, MAP_SHARED, file, 0);
        if (there != MAP_FAILED) made = there;
        close(file);
    }
    at = number ? atol(number) : 0;
    from = getenv("REFUSE_FROM") != NULL;
    files = getenv("REFUSE_FILES") != NULL;
    loses = getenv("REFUSE_LOSE") != NULL;
    choice = loses ? strtoull(getenv("REFUSE_LOSE"), NULL, 10) : 0;
    few = getenv("REFUSE_SHORT") != NULL;
}

static int is_refused(int of_files) {
    if (of_files != files) return 0;
    long number = atomic_fetch_add(made, 1) + 1;
    if (!at || (from ? number < at : number != at)) return 0;
    if (loses && number == at) lose();
    errno = of_files ? EIO : ENOMEM;
    return 1;
}

void *malloc(size_t size) { return is_refused(0) ? NULL : __libc_malloc(size); }
void *calloc(size_t count, size_t size) { return is_refused(0) ? NULL : __libc_calloc(count, size); }
void *realloc(void *old, size_t size) { return is_refused(0) ? NULL : __libc_realloc(old, size); }
void *memalign(size_t align, size_t size) { return is_refused(0) ? NULL : __libc_memalign(align, size); }
void *aligned_alloc(size_t align, size_t size) { return is_refused(0) ? NULL : __libc_memalign(align, size); }

int posix_memalign(void **out, size_t align, size_t size) {
    void *made_now = is_refused(0) ? NULL : __libc_memalign(align, size);
    if (!made_now) return ENOMEM;
    *out = made_now;
    return 0;
}

static size_t moved(size_t size) { return few && size > BLOCK ? BLOCK : size; }

ssize_t pread64(int file, void *out, size_t size, off_t place) {
    return is_refused(1) ? -1 : __pread64(file, out, moved(size), place);
}

ssize_t pwrite64(int file, const void *out, size_t size, off_t place) {
    if (is_refused(1)) return -1;
    if (loses) remember(file, place, moved(size));
    return __pwrite64(file, out, moved(size), place);
}

ssize_t pread(int file, void *out, size_t size, off_t place) { return pread64(file, out, size, place); }
ssize_t pwrite(int file, const void *out, size_t size, off_t place) { return pwrite64(file, out, size, place); }

/* What the C library does; of what was written before nothing is lost any more. */
#define SETTLES(name, words, given)                                   \
    int name words {                                                  \
        static int(*next) words;                                      \
        if (is_refused(1)) return -1;                                 \
        if (!next) next = (int(*) words)dlsym(RTLD_NEXT, #name);      \
        int done = next given;                                        \
        if (!done && loses) forget(file);                             \
        return done;                                                  \
    }

SETTLES(fsync, (int file), (file))
SETTLES(fdatasync, (int file), (file))
SETTLES(ftruncate, (int file, off_t size), (file, size))
SETTLES(ftruncate64, (int file, off_t size), (file, size))
