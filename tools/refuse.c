/* Refuses one request for memory of a program, for tools/refuse-memory, or one start of a thread, for
   tools/refuse-threads: loaded before the C library, it counts both, answers none to the request whose
   number is in OG_REFUSE nor to the start whose number is in OG_REFUSE_THREAD, and at the end writes
   how many requests there were, how many starts, and how many threads were joined to the file that
   OG_COUNT names. */
#define _GNU_SOURCE
#include <dlfcn.h>
#include <errno.h>
#include <pthread.h>
#include <stdatomic.h>
#include <stddef.h>
#include <stdio.h>
#include <stdlib.h>
#include <sys/syscall.h>
#include <unistd.h>

void *__libc_malloc(size_t);
void *__libc_calloc(size_t, size_t);
void *__libc_realloc(void *, size_t);
void *__libc_memalign(size_t, size_t);

static atomic_long requests, starts, joins;

/* The number that a variable of the environment has, or 0. */
static long number_of(const char *name)
{
    const char *word = getenv(name);
    return word ? atol(word) : 0;
}

static int is_refused(void)
{
    static atomic_long refused = -1;
    if (refused < 0)
        refused = number_of("OG_REFUSE");
    if (++requests != refused)
        return 0;
    errno = ENOMEM;
    return 1;
}

void *malloc(size_t size)
{
    return is_refused() ? NULL : __libc_malloc(size);
}

void *calloc(size_t count, size_t size)
{
    return is_refused() ? NULL : __libc_calloc(count, size);
}

void *realloc(void *old, size_t size)
{
    return is_refused() ? NULL : __libc_realloc(old, size);
}

void *memalign(size_t alignment, size_t size)
{
    return is_refused() ? NULL : __libc_memalign(alignment, size);
}

void *aligned_alloc(size_t alignment, size_t size)
{
    return memalign(alignment, size);
}

int posix_memalign(void **made, size_t alignment, size_t size)
{
    void *memory = memalign(alignment, size);
    if (!memory)
        return ENOMEM;
    *made = memory;
    return 0;
}

int pthread_create(pthread_t *thread, const pthread_attr_t *attributes, void *(*work)(void *), void *with)
{
    int (*create)(pthread_t *, const pthread_attr_t *, void *(*)(void *), void *) = dlsym(RTLD_NEXT, "pthread_create");
    if (++starts == number_of("OG_REFUSE_THREAD"))
        return EAGAIN;
    return create(thread, attributes, work, with);
}

int pthread_join(pthread_t thread, void **gain)
{
    int (*join)(pthread_t, void **) = dlsym(RTLD_NEXT, "pthread_join");
    int failed = join(thread, gain);
    if (!failed)
        ++joins;
    return failed;
}

static void tell(void)
{
    const char *name = getenv("OG_COUNT");
    long counts[] = {requests, starts, joins};
    if (!name)
        return;
    FILE *file = fopen(name, "w");
    if (file) {
        fprintf(file, "%ld %ld %ld\n", counts[0], counts[1], counts[2]);
        fclose(file);
    }
}

void _exit(int status)
{
    tell();
    for (;;)
        syscall(SYS_exit_group, status);
}
