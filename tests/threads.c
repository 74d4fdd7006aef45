/* A library to preload: it counts the threads that the program starts, and the most that there are at once beside the one that
   the program began with. THREADS_REPORT=FILE, of 16 bytes, holds both as native integers of 8 bytes, at any moment. */
#define _GNU_SOURCE
#include <dlfcn.h>
#include <errno.h>
#include <fcntl.h>
#include <pthread.h>
#include <stdatomic.h>
#include <stdlib.h>
#include <sys/mman.h>
#include <unistd.h>

struct report {
    atomic_long starts, most;
};

struct start {
    void *(*work)(void *);
    void *argument;
};

static struct report *report;
static atomic_long running;
static int (*next_pthread_create)(pthread_t *, const pthread_attr_t *, void *(*)(void *), void *);

__attribute__((constructor)) static void begin(void)
{
    const char *name = getenv("THREADS_REPORT");
    int file = name ? open(name, O_RDWR) : -1;
    void *at = file < 0 ? MAP_FAILED : mmap(NULL, sizeof *report, PROT_READ | PROT_WRITE, MAP_SHARED, file, 0);
    report = at == MAP_FAILED ? NULL : at;
    next_pthread_create = dlsym(RTLD_NEXT, "pthread_create");
    if (file >= 0)
        close(file);
}

static void count_one_more(void)
{
    long now = atomic_fetch_add(&running, 1) + 1;
    if (!report)
        return;
    atomic_fetch_add(&report->starts, 1);
    long most = atomic_load(&report->most);
    while (most < now && !atomic_compare_exchange_weak(&report->most, &most, now))
        ;
}

static void count_one_less(void *nothing)
{
    (void)nothing;
    atomic_fetch_sub(&running, 1);
}

/* A thread is counted from before its start to the end of its work, also where it ends in the middle. */
static void *counted(void *given)
{
    struct start start = *(struct start *)given;
    void *result;
    free(given);
    pthread_cleanup_push(count_one_less, NULL);
    result = start.work(start.argument);
    pthread_cleanup_pop(1);
    return result;
}

int pthread_create(pthread_t *thread, const pthread_attr_t *how, void *(*work)(void *), void *argument)
{
    struct start *start = malloc(sizeof *start);
    if (!start)
        return EAGAIN;
    start->work = work;
    start->argument = argument;
    count_one_more();
    int status = next_pthread_create(thread, how, counted, start);
    if (status) {
        count_one_less(NULL);
        free(start);
    }
    return status;
}
