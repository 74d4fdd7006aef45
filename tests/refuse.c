/* A library to preload: it refuses the Nth growth (malloc, calloc, realloc, aligned allocation) or the Nth start of
   a thread of the program that it is loaded into, and writes into a file whether it came to that.

   REFUSE_ALLOCATION=N or REFUSE_THREAD=N, counted from 1 and from the program's own start; REFUSE_REPORT=FILE.
   REFUSE_TIMES=K refuses K in a row from the Nth on, 0 for all of them; 1 where it is not given.
   REFUSE_OF_THREAD=T counts the allocations of the Tth thread alone that the program starts, its first one being 1.
   REFUSE_TOTALS=FILE has two longs: how many allocations and how many starts of threads were counted so far.
   The dynamic loader's own allocations, before the program starts, are not counted. */
#define _GNU_SOURCE
#include <dlfcn.h>
#include <errno.h>
#include <fcntl.h>
#include <pthread.h>
#include <stdatomic.h>
#include <stdlib.h>
#include <string.h>
#include <sys/mman.h>
#include <unistd.h>

/* More threads than a test starts. */
#define MOST_STARTED 4096

struct counts {
    atomic_long allocations, threads;
};

static long wanted_allocation, wanted_thread, wanted_times, counted_thread;
static struct counts in_memory, *counts = &in_memory;
static atomic_int is_counting;
static const char *report;

/* Which of the started threads this one is; 0 for the first thread of the program. */
static __thread long own_number __attribute__((tls_model("initial-exec")));

/* What a started thread does. */
static struct {
    void *(*work)(void *);
    void *argument;
} started[MOST_STARTED];

static void *(*next_malloc)(size_t);
static void *(*next_calloc)(size_t, size_t);
static void *(*next_realloc)(void *, size_t);
static void *(*next_aligned_alloc)(size_t, size_t);
static int (*next_posix_memalign)(void **, size_t, size_t);
static int (*next_pthread_create)(pthread_t *, const pthread_attr_t *, void *(*)(void *), void *);

/* dlsym itself may call calloc before the next calloc is known. */
static char early[4096];
static size_t early_used;

static long number(const char *name, long otherwise)
{
    const char *text = getenv(name);
    return text ? atol(text) : otherwise;
}

/* Has the counts stand in a file from now on, so that they outlast the program, however it ends. */
static void count_in(const char *name)
{
    int file = name ? open(name, O_RDWR | O_CREAT | O_TRUNC, 0644) : -1;
    if (file < 0 || ftruncate(file, sizeof in_memory))
        return;
    void *at = mmap(NULL, sizeof in_memory, PROT_READ | PROT_WRITE, MAP_SHARED, file, 0);
    if (at != MAP_FAILED)
        counts = at;
    close(file);
}

__attribute__((constructor)) static void begin(void)
{
    next_malloc = dlsym(RTLD_NEXT, "malloc");
    next_calloc = dlsym(RTLD_NEXT, "calloc");
    next_realloc = dlsym(RTLD_NEXT, "realloc");
    next_aligned_alloc = dlsym(RTLD_NEXT, "aligned_alloc");
    next_posix_memalign = dlsym(RTLD_NEXT, "posix_memalign");
    next_pthread_create = dlsym(RTLD_NEXT, "pthread_create");
    wanted_allocation = number("REFUSE_ALLOCATION", 0);
    wanted_thread = number("REFUSE_THREAD", 0);
    wanted_times = number("REFUSE_TIMES", 1);
    counted_thread = number("REFUSE_OF_THREAD", 0);
    report = getenv("REFUSE_REPORT");
    count_in(getenv("REFUSE_TOTALS"));
    atomic_store(&is_counting, 1);
}

static void tell(void)
{
    if (report) {
        int file = open(report, O_WRONLY | O_CREAT | O_APPEND, 0644);
        if (file >= 0) {
            ssize_t written = write(file, "refused\n", 8);
            (void)written;
            close(file);
        }
    }
}

static int is_refused(atomic_long *count, long wanted)
{
    if (!atomic_load(&is_counting))
        return 0;
    long at = atomic_fetch_add(count, 1) + 1;
    if (!wanted || at < wanted || (wanted_times && at >= wanted + wanted_times))
        return 0;
    tell();
    return 1;
}

static int is_refused_memory(void)
{
    if (counted_thread && own_number != counted_thread)
        return 0;
    return is_refused(&counts->allocations, wanted_allocation);
}

void *malloc(size_t size)
{
    if (is_refused_memory()) {
        errno = ENOMEM;
        return NULL;
    }
    if (!next_malloc)
        next_malloc = dlsym(RTLD_NEXT, "malloc");
    return next_malloc(size);
}

void *calloc(size_t count, size_t size)
{
    if (is_refused_memory()) {
        errno = ENOMEM;
        return NULL;
    }
    if (!next_calloc) {
        void *found = early + early_used;
        early_used += (count * size + 15) & ~(size_t)15;
        return early_used <= sizeof early ? found : NULL;
    }
    return next_calloc(count, size);
}

void *realloc(void *old, size_t size)
{
    if (is_refused_memory()) {
        errno = ENOMEM;
        return NULL;
    }
    if (!next_realloc)
        next_realloc = dlsym(RTLD_NEXT, "realloc");
    return next_realloc(old, size);
}

void *aligned_alloc(size_t alignment, size_t size)
{
    if (is_refused_memory()) {
        errno = ENOMEM;
        return NULL;
    }
    return next_aligned_alloc(alignment, size);
}

int posix_memalign(void **found, size_t alignment, size_t size)
{
    if (is_refused_memory())
        return ENOMEM;
    return next_posix_memalign(found, alignment, size);
}

static void *do_work(void *place)
{
    long number = (long)place;
    own_number = number;
    return started[number].work(started[number].argument);
}

int pthread_create(pthread_t *thread, const pthread_attr_t *how, void *(*work)(void *), void *argument)
{
    static atomic_long count;
    if (is_refused(&counts->threads, wanted_thread))
        return EAGAIN;
    long number = atomic_fetch_add(&count, 1) + 1;
    if (number >= MOST_STARTED)
        return EAGAIN;
    started[number].work = work;
    started[number].argument = argument;
    return next_pthread_create(thread, how, do_work, (void *)number);
}
