// A library to be loaded before the C library. It makes faults in a program, of the kind whose variable is set in the environment. Calls are
// counted from 1; at 0 all of a kind are counted and none fails.
//
//   FAULT_FILE=N        The Nth call that reads, writes, cuts or syncs a file by place fails, and the later ones if FAULT_ALSO is set.
//   FAULT_SLOW=N        Each call that reads a file by place takes N microseconds longer.
//   FAULT_READ=N        The Nth read of standard input fails, and each later one. A read gives FAULT_PIECE bytes at most.
//   FAULT_WRITE=N       The same of writes to standard output. (A write to standard error takes FAULT_PIECE bytes at most, too.)
//   FAULT_INTERRUPT=N   The Nth read of standard input is interrupted, and the Nth write to standard output and to standard error.
//   FAULT_STOP=N        The machine stops at the Nth call that writes, cuts or syncs a file by place: of what the files were given since they were
//                       last synced a part is lost, and the process ends at once with status 9. FAULT_LOSE is what is lost: `all`, `none`, or a
//                       number, by which each write is kept, lost or cut at a sector.
//   FAULT_ALLOCATION=N  The Nth allocation is refused, or as many from there on as FAULT_MANY says. Where FAULT_STEP is set, it counts from the
//                       read of standard input with that number on, until the next one, and refuses among these; so a script that writes a line
//                       at a time refuses those of one call. Where FAULT_MAIN is set, it counts and refuses those of the main thread alone.
//   FAULT_HELD          Nothing fails: what is counted is how many bytes are allocated and not given back.
//
// FAULT_ASKED names a file that keeps how many calls were made, and then how many allocations in each step: those before the first read are step 0.
// Without it nothing but reads and writes of the standard streams fails, and files may be slow.
#define _GNU_SOURCE
#include <dlfcn.h>
#include <errno.h>
#include <fcntl.h>
#include <malloc.h>
#include <stdlib.h>
#include <string.h>
#include <sys/mman.h>
#include <sys/stat.h>
#include <unistd.h>

#define SECTOR 512
#define STEPS 64

// Lets `next` be the function of this name that this library is loaded before.
#define NEXT(call) \
    static __typeof__(call) *next; \
    if (next == NULL) \
        next = (__typeof__(call) *)dlsym(RTLD_NEXT, #call)

static unsigned long number, *asked;

// Counts a call.
static unsigned long counted(void) {
    unsigned long this = __atomic_add_fetch(&number, 1, __ATOMIC_RELAXED);
    *asked = this;
    return this;
}

// Files that fail

static int fails, also;
static unsigned long fail, slow;

static int is_failed(void) {
    unsigned long this;
    if (!fails)
        return 0;
    this = counted();
    if (fail == 0 || this < fail || (this > fail && !also))
        return 0;
    errno = EIO;
    return 1;
}

// Standard streams that fail

static unsigned long fail_stream[3], made[3], interrupt, piece;

static int is_stream_failed(int file) {
    made[file]++;
    if (made[file] == interrupt) {
        errno = EINTR;
        return 1;
    }
    if (fail_stream[file] == 0 || made[file] < fail_stream[file])
        return 0;
    errno = EIO;
    return 1;
}

static size_t within(size_t count) {
    return piece != 0 && piece < count ? piece : count;
}

// Allocations that are refused

static int refuses, by_step, only_main;
static unsigned long refuse, many = 1, at_step, wanted;

// Those before `start` aren't the program's.
static int is_refused(void) {
    unsigned long this;
    if (!refuses || (only_main && gettid() != getpid()))
        return 0;
    this = counted();
    if (by_step) {
        if (at_step >= STEPS)
            return 0;
        this = ++asked[1 + at_step];
        if (at_step != wanted)
            return 0;
    }
    if (refuse == 0 || this < refuse || this - refuse >= many)
        return 0;
    errno = ENOMEM;
    return 1;
}

// Bytes that are held

static int holds;
static long held;

static void count_bytes(long bytes) {
    if (holds)
        *asked = (unsigned long)__atomic_add_fetch(&held, bytes, __ATOMIC_RELAXED);
}

static long bytes_of(void *block) {
    return holds ? (long)malloc_usable_size(block) : 0;
}

static void *counted_in(void *block) {
    count_bytes(bytes_of(block));
    return block;
}

// The machine stops

// A write or a cut: what stood there before, and what was given.
struct change {
    struct change *before;
    int file;
    off_t at, old_length, new_length;
    size_t old_count, count;
    unsigned char *old, *given;
};

static int stops;
static struct change *last;
static unsigned long stop;
static const char *lose = "none";
static unsigned long long drawn;

static ssize_t next_pwrite(int file, const void *bytes, size_t count, off_t at) {
    NEXT(pwrite);
    return next(file, bytes, count, at);
}

static int next_ftruncate(int file, off_t length) {
    NEXT(ftruncate);
    return next(file, length);
}

// A number below the bound, by Knuth's MMIX.
static unsigned long below(unsigned long bound) {
    drawn = drawn * 6364136223846793005ULL + 1442695040888963407ULL;
    return (unsigned long)((drawn >> 33) % bound);
}

static off_t length_of(int file) {
    struct stat found;
    return fstat(file, &found) == 0 ? found.st_size : 0;
}

static void *taken(size_t count) {
    void *bytes = malloc(count + 1);
    if (bytes == NULL)
        _exit(10);
    return bytes;
}

// Keeps what a write or a cut is about to change.
static void keep(int file, const void *given, size_t count, off_t at, off_t new_length) {
    struct change *it;
    ssize_t found;
    if (!stops)
        return;
    it = taken(sizeof *it);
    it->before = last;
    it->file = file;
    it->at = at;
    it->old_length = length_of(file);
    it->new_length = new_length;
    it->count = count;
    it->given = taken(count);
    if (count > 0)
        memcpy(it->given, given, count);
    it->old_count = count > 0 ? count : it->old_length > at ? (size_t)(it->old_length - at) : 0;
    it->old = taken(it->old_count);
    found = pread(file, it->old, it->old_count, at);
    it->old_count = found > 0 ? (size_t)found : 0;
    last = it;
}

// What the file was given is on its disk.
static void forget(int file) {
    struct change **it = &last;
    while (*it != NULL)
        if ((*it)->file == file)
            *it = (*it)->before;
        else
            it = &(*it)->before;
}

static void undo(const struct change *it) {
    if (it->old_count > 0)
        next_pwrite(it->file, it->old, it->old_count, it->at);
    next_ftruncate(it->file, it->old_length);
}

// Gives the file what was kept of the change.
static void redo(const struct change *it) {
    size_t at;
    if (it->count == 0) {
        if (below(2))
            next_ftruncate(it->file, it->new_length);
        return;
    }
    switch (below(3)) {
    case 0:
        return;
    case 1:
        next_pwrite(it->file, it->given, it->count, it->at);
        return;
    }
    for (at = 0; at < it->count; at += SECTOR)
        if (below(2))
            next_pwrite(it->file, it->given + at, it->count - at < SECTOR ? it->count - at : SECTOR, it->at + (off_t)at);
}

static void redo_all(const struct change *it) {
    if (it == NULL)
        return;
    redo_all(it->before);
    redo(it);
}

// Counts a call, and stops the machine where it is the one to be stopped at.
static void step(void) {
    const struct change *it;
    if (!stops || counted() < stop || stop == 0)
        return;
    if (strcmp(lose, "none") != 0) {
        for (it = last; it != NULL; it = it->before)
            undo(it);
        if (strcmp(lose, "all") != 0)
            redo_all(last);
    }
    _exit(9);
}

// What the environment says

// Whether a kind of fault is asked for, and at which call.
static int has(const char *name, unsigned long *at) {
    const char *text = getenv(name);
    if (text != NULL)
        *at = strtoul(text, NULL, 10);
    return text != NULL;
}

static unsigned long *mapped(const char *path) {
    int file = path == NULL ? -1 : open(path, O_RDWR);
    void *found;
    if (file < 0)
        return NULL;
    found = mmap(NULL, (STEPS + 1) * sizeof *asked, PROT_READ | PROT_WRITE, MAP_SHARED, file, 0);
    close(file);
    return found == MAP_FAILED ? NULL : found;
}

__attribute__((constructor)) static void start(void) {
    has("FAULT_SLOW", &slow);
    has("FAULT_READ", &fail_stream[0]);
    has("FAULT_WRITE", &fail_stream[1]);
    has("FAULT_INTERRUPT", &interrupt);
    has("FAULT_PIECE", &piece);
    asked = mapped(getenv("FAULT_ASKED"));
    if (asked == NULL)
        return;
    fails = has("FAULT_FILE", &fail);
    also = getenv("FAULT_ALSO") != NULL;
    stops = has("FAULT_STOP", &stop);
    if (getenv("FAULT_LOSE") != NULL)
        lose = getenv("FAULT_LOSE");
    drawn = strtoull(lose, NULL, 10);
    has("FAULT_MANY", &many);
    by_step = has("FAULT_STEP", &wanted);
    only_main = getenv("FAULT_MAIN") != NULL;
    refuses = has("FAULT_ALLOCATION", &refuse);
    holds = getenv("FAULT_HELD") != NULL;
}

// The functions of the C library

ssize_t pread(int file, void *bytes, size_t count, off_t at) {
    NEXT(pread);
    if (slow != 0)
        usleep(slow);
    return is_failed() ? -1 : next(file, bytes, count, at);
}

ssize_t pwrite(int file, const void *bytes, size_t count, off_t at) {
    if (is_failed())
        return -1;
    keep(file, bytes, count, at, 0);
    step();
    return next_pwrite(file, bytes, count, at);
}

int ftruncate(int file, off_t length) {
    if (is_failed())
        return -1;
    keep(file, NULL, 0, length, length);
    step();
    return next_ftruncate(file, length);
}

static int synced(int file, int (*next)(int)) {
    int done;
    if (is_failed())
        return -1;
    step();
    done = next(file);
    forget(file);
    return done;
}

int fsync(int file) {
    NEXT(fsync);
    return synced(file, next);
}

int fdatasync(int file) {
    NEXT(fdatasync);
    return synced(file, next);
}

ssize_t read(int file, void *bytes, size_t count) {
    ssize_t got;
    NEXT(read);
    if (file != 0)
        return next(file, bytes, count);
    if (is_stream_failed(file))
        return -1;
    got = next(file, bytes, within(count));
    if (by_step && got > 0)
        at_step++;
    return got;
}

ssize_t write(int file, const void *bytes, size_t count) {
    NEXT(write);
    if (file != 1 && file != 2)
        return next(file, bytes, count);
    return is_stream_failed(file) ? -1 : next(file, bytes, within(count));
}

void *malloc(size_t size) {
    NEXT(malloc);
    return is_refused() ? NULL : counted_in(next(size));
}

// To look these two up may take memory itself.
void *__libc_calloc(size_t count, size_t size);
void __libc_free(void *block);

void *calloc(size_t count, size_t size) {
    return counted_in(__libc_calloc(count, size));
}

void free(void *block) {
    count_bytes(-bytes_of(block));
    __libc_free(block);
}

void *realloc(void *block, size_t size) {
    long before = bytes_of(block);
    NEXT(realloc);
    block = is_refused() ? NULL : next(block, size);
    if (block != NULL)
        count_bytes(bytes_of(block) - before);
    return block;
}

void *aligned_alloc(size_t alignment, size_t size) {
    NEXT(aligned_alloc);
    return is_refused() ? NULL : counted_in(next(alignment, size));
}

int posix_memalign(void **block, size_t alignment, size_t size) {
    int refused;
    NEXT(posix_memalign);
    refused = is_refused() ? ENOMEM : next(block, alignment, size);
    if (refused == 0)
        counted_in(*block);
    return refused;
}
