/* Loaded before a program, this library refuses one allocation: the one whose number, from 1 on, is in the variable REFUSE_NTH.
   All others go to the C library. It likewise refuses the thread that REFUSE_THREAD names, and the one that REFUSE_THREADS
   names with all after it. Threads may allocate at the same time: each allocation has its own number. The file that
   COUNT_ALLOCATIONS names has their number as a long, however the program ends.

   A program with the address sanitizer has its own allocator, which no library can precede: its functions are led here. What
   the C library allocates is given then, since the sanitizer ends without it.

   The read that FAIL_READ names fails with EIO, and so does the write that FAIL_WRITE names. The write that SHORT_WRITE names
   takes one byte, and the one that EMPTY_WRITE names takes none. Reads and writes of all files count. */
#define _GNU_SOURCE
#include <dlfcn.h>
#include <errno.h>
#include <fcntl.h>
#include <pthread.h>
#include <stdlib.h>
#include <string.h>
#include <sys/mman.h>
#include <sys/uio.h>
#include <unistd.h>

static long *allocations = NULL; /* in the file, if there is one */

/* Counts down to the one that is refused, and stays there if all after it are. At first the variable was not read. */
static int counts_down(const char *variable, long *left, int stays) {
    const long unread = -1;
    long now = __atomic_load_n(left, __ATOMIC_SEQ_CST);
    if (now == unread) {
        const char *number = getenv(variable);
        long wanted = number ? atol(number) : 0;
        if (__atomic_compare_exchange_n(left, &now, wanted, 0, __ATOMIC_SEQ_CST, __ATOMIC_SEQ_CST)) now = wanted;
    }
    while (now > stays && !__atomic_compare_exchange_n(left, &now, now - 1, 0, __ATOMIC_SEQ_CST, __ATOMIC_SEQ_CST)) {}
    return now == 1;
}

static int refused(void) {
    static long left = -1;
    if (allocations) __atomic_add_fetch(allocations, 1, __ATOMIC_SEQ_CST);
    if (!counts_down("REFUSE_NTH", &left, 0)) return 0;
    errno = ENOMEM;
    return 1;
}

__attribute__((constructor)) static void map_count(void) {
    const char *name = getenv("COUNT_ALLOCATIONS");
    int file = name ? open(name, O_RDWR | O_CREAT, 0600) : -1;
    if (file < 0) return;
    void *place = ftruncate(file, sizeof(long)) ? MAP_FAILED
        : mmap(NULL, sizeof(long), PROT_READ | PROT_WRITE, MAP_SHARED, file, 0);
    if (place != MAP_FAILED) allocations = place;
    close(file);
}

static void *next_of(const char *name) { return dlsym(RTLD_NEXT, name); }

int pthread_create(pthread_t *thread, const pthread_attr_t *attributes, void *(*start)(void *), void *argument) {
    static int (*next)(pthread_t *, const pthread_attr_t *, void *(*)(void *), void *);
    static long left = -1, left_of_all = -1;
    if (!next) next = next_of("pthread_create");
    if (counts_down("REFUSE_THREAD", &left, 0) || counts_down("REFUSE_THREADS", &left_of_all, 1)) return EAGAIN;
    return next(thread, attributes, start, argument);
}

static void *(*next_malloc)(size_t);
static void *(*next_realloc)(void *, size_t);

static void *led_program = NULL; /* where it was loaded */

/* Whether an allocation for this caller is refused. */
static int refused_to(void *caller) {
    Dl_info of;
    return !(led_program && dladdr(caller, &of) && of.dli_fbase != led_program) && refused();
}

static void *some_malloc(size_t size) {
    if (!next_malloc) next_malloc = next_of("malloc");
    return refused_to(__builtin_return_address(0)) ? NULL : next_malloc(size);
}

static void *some_realloc(void *block, size_t size) {
    if (!next_realloc) next_realloc = next_of("realloc");
    return refused_to(__builtin_return_address(0)) ? NULL : next_realloc(block, size);
}

void *malloc(size_t size) { return some_malloc(size); }

void *realloc(void *block, size_t size) { return some_realloc(block, size); }

void *calloc(size_t count, size_t size) {
    static void *(*next)(size_t, size_t);
    if (!next) next = next_of("calloc");
    return refused() ? NULL : next(count, size);
}

void *aligned_alloc(size_t align, size_t size) {
    static void *(*next)(size_t, size_t);
    if (!next) next = next_of("aligned_alloc");
    return refused() ? NULL : next(align, size);
}

int posix_memalign(void **block, size_t align, size_t size) {
    static int (*next)(void **, size_t, size_t);
    if (!next) next = next_of("posix_memalign");
    return refused() ? ENOMEM : next(block, align, size);
}

/* The sanitizer's functions begin with a jump of NEAR bytes to their code. It is changed to lead to a jump of FAR bytes within
   its reach, which leads here. Returns where it led before. */
enum { PAGE = 4096, NEAR = 5, FAR = 14, REACH = 1 << 28 };

static void *led(const char *name, void *here) {
    static const unsigned char far_jump[] = {0xff, 0x25, 0, 0, 0, 0};
    static unsigned char *place;
    unsigned char *own = dlsym(RTLD_DEFAULT, name), *page = (unsigned char *)((size_t)own & -PAGE);
    int all = PROT_READ | PROT_WRITE | PROT_EXEC, away;
    if (!place) place = mmap(page - REACH, PAGE, all, MAP_PRIVATE | MAP_ANONYMOUS, -1, 0);
    if (*own != 0xe9 || place == MAP_FAILED || mprotect(page, 2 * PAGE, all)) abort();
    memcpy(&away, own + 1, sizeof away);
    unsigned char *done = own + NEAR + away;
    memcpy(place, far_jump, sizeof far_jump);
    memcpy(place + sizeof far_jump, &here, sizeof here);
    away = (int)(place - (own + NEAR));
    memcpy(own + 1, &away, sizeof away);
    place += FAR;
    return done;
}

__attribute__((constructor)) static void lead_allocator(void) {
    Dl_info own, here;
    if (!dladdr(dlsym(RTLD_DEFAULT, "malloc"), &own) || !dladdr((void *)some_malloc, &here) || own.dli_fbase == here.dli_fbase) return;
    led_program = own.dli_fbase;
    next_malloc = (void *(*)(size_t))led("malloc", some_malloc);
    next_realloc = (void *(*)(void *, size_t))led("realloc", some_realloc);
}

/* Whether this is the read that fails. */
static int read_fails(void) {
    static long left = -1;
    if (!counts_down("FAIL_READ", &left, 0)) return 0;
    errno = EIO;
    return 1;
}

/* The result of this write: -1 if it fails, 0 or 1 if it takes at most that many bytes, 2 if it takes all. */
static int write_takes(void) {
    static long failing = -1, empty = -1, shorter = -1;
    int fails = counts_down("FAIL_WRITE", &failing, 0);
    int takes_none = counts_down("EMPTY_WRITE", &empty, 0);
    int takes_one = counts_down("SHORT_WRITE", &shorter, 0);
    if (fails) errno = EIO;
    return fails ? -1 : takes_none ? 0 : takes_one ? 1 : 2;
}

ssize_t read(int file, void *into, size_t size) {
    static ssize_t (*next)(int, void *, size_t);
    if (!next) next = next_of("read");
    return read_fails() ? -1 : next(file, into, size);
}

ssize_t readv(int file, const struct iovec *parts, int count) {
    static ssize_t (*next)(int, const struct iovec *, int);
    if (!next) next = next_of("readv");
    return read_fails() ? -1 : next(file, parts, count);
}

static ssize_t write_some(int file, const void *from, size_t size) {
    static ssize_t (*next)(int, const void *, size_t);
    if (!next) next = next_of("write");
    int takes = size ? write_takes() : 2;
    return takes < 0 ? -1 : takes == 0 ? 0 : next(file, from, takes == 1 ? 1 : size);
}

ssize_t write(int file, const void *from, size_t size) { return write_some(file, from, size); }

/* Programs call the C library's write by this name too. */
ssize_t __write(int file, const void *from, size_t size) { return write_some(file, from, size); }

/* One write for each part with bytes; one that is cut short ends them. */
ssize_t writev(int file, const struct iovec *parts, int count) {
    ssize_t written = 0;
    for (int part = 0; part < count; part++) {
        if (!parts[part].iov_len) continue;
        ssize_t taken = write_some(file, parts[part].iov_base, parts[part].iov_len);
        if (taken < 0) return written ? written : -1;
        written += taken;
        if ((size_t)taken < parts[part].iov_len) break;
    }
    return written;
}
