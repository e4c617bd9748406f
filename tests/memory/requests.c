// Loaded into the program by LD_PRELOAD. It notes what the program asks for, in order, a letter for each request and each end of
// one, and refuses one of them. Where REQUESTS names a file, the letters stand there, with zeros after the last one: it is mapped, for
// the program may end without a word to the library.
//
//   m  memory, by the main thread             s  a thread is to be started      j  a thread was waited for
//   t  memory, while a thread is started      e  its start is over
//   w  memory, by another thread
//
// REFUSED is the number from 1 of the request for memory that is refused, and UNSTARTED that of the thread that isn't started; 0
// or none where none is.
#define _GNU_SOURCE
#include <dlfcn.h>
#include <errno.h>
#include <fcntl.h>
#include <pthread.h>
#include <stdatomic.h>
#include <stddef.h>
#include <stdlib.h>
#include <sys/mman.h>
#include <unistd.h>

void *__libc_malloc(size_t size);
void *__libc_calloc(size_t count, size_t size);
void *__libc_realloc(void *old, size_t size);
void *__libc_memalign(size_t alignment, size_t size);

enum { MOST_LETTERS = 1 << 20 };

static char *letters;
static atomic_size_t noted;
static atomic_long requests, threads;
static long refused, unstarted;
static atomic_int is_ready;
static pthread_t main_thread;
static _Thread_local int starts;

static void note(char letter) {
    size_t place = atomic_fetch_add(&noted, 1);
    if (letters != NULL && place < MOST_LETTERS) {
        letters[place] = letter;
    }
}

// Notes a request for memory, and says whether it is the one that is refused.
static int is_refused(void) {
    if (!is_ready) {
        return 0;
    }
    note(!pthread_equal(pthread_self(), main_thread) ? 'w' : starts ? 't' : 'm');
    if (atomic_fetch_add(&requests, 1) + 1 != refused) {
        return 0;
    }
    errno = ENOMEM;
    return 1;
}

void *malloc(size_t size) {
    return is_refused() ? NULL : __libc_malloc(size);
}

void *calloc(size_t count, size_t size) {
    return is_refused() ? NULL : __libc_calloc(count, size);
}

void *realloc(void *old, size_t size) {
    return is_refused() ? NULL : __libc_realloc(old, size);
}

void *memalign(size_t alignment, size_t size) {
    return is_refused() ? NULL : __libc_memalign(alignment, size);
}

void *aligned_alloc(size_t alignment, size_t size) {
    return memalign(alignment, size);
}

int posix_memalign(void **memory, size_t alignment, size_t size) {
    void *taken = memalign(alignment, size);
    if (taken == NULL) {
        return ENOMEM;
    }
    *memory = taken;
    return 0;
}

static int (*next_create)(pthread_t *, const pthread_attr_t *, void *(*)(void *), void *);
static int (*next_join)(pthread_t, void **);

int pthread_create(pthread_t *thread, const pthread_attr_t *how, void *(*body)(void *), void *given) {
    note('s');
    starts++;
    int is_unstarted = atomic_fetch_add(&threads, 1) + 1 == unstarted;
    int failure = is_unstarted ? EAGAIN : next_create(thread, how, body, given);
    starts--;
    note('e');
    return failure;
}

int pthread_join(pthread_t thread, void **result) {
    int failure = next_join(thread, result);
    note('j');
    return failure;
}

static long number_in(const char *name) {
    const char *number = getenv(name);
    return number == NULL ? 0 : atol(number);
}

static char *mapped(const char *path) {
    int file = path == NULL ? -1 : open(path, O_RDWR | O_CREAT | O_TRUNC, 0600);
    if (file < 0 || ftruncate(file, MOST_LETTERS) != 0) {
        return NULL;
    }
    char *start = mmap(NULL, MOST_LETTERS, PROT_READ | PROT_WRITE, MAP_SHARED, file, 0);
    close(file);
    return start == MAP_FAILED ? NULL : start;
}

__attribute__((constructor)) static void begin(void) {
    next_create = (int (*)(pthread_t *, const pthread_attr_t *, void *(*)(void *), void *))dlsym(RTLD_NEXT, "pthread_create");
    next_join = (int (*)(pthread_t, void **))dlsym(RTLD_NEXT, "pthread_join");
    refused = number_in("REFUSED");
    unstarted = number_in("UNSTARTED");
    letters = mapped(getenv("REQUESTS"));
    main_thread = pthread_self();
    is_ready = 1;
}
