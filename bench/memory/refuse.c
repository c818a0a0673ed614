/* Stands before the C library's malloc and realloc (LD_PRELOAD): refuses the request whose number, from 1, is in REFUSE, and
   counts all of them in the first eight bytes of the file that COUNT names. */
#include <fcntl.h>
#include <stdatomic.h>
#include <stdlib.h>
#include <sys/mman.h>
#include <unistd.h>

extern void *__libc_malloc(size_t);
extern void *__libc_realloc(void *, size_t);

static atomic_long before_start;
static atomic_long *requests = &before_start;
static long refused;

__attribute__((constructor)) static void begin(void)
{
    const char *word = getenv("REFUSE"), *path = getenv("COUNT");
    int file = path ? open(path, O_RDWR | O_CREAT, 0600) : -1;
    if (!word || file < 0 || ftruncate(file, sizeof *requests))
        _exit(127);
    void *shared = mmap(NULL, sizeof *requests, PROT_READ | PROT_WRITE, MAP_SHARED, file, 0);
    if (shared == MAP_FAILED || close(file))
        _exit(127);
    requests = shared;
    refused = atol(word);
}

static int refuses(void)
{
    return atomic_fetch_add(requests, 1) + 1 == refused;
}

void *malloc(size_t size)
{
    return refuses() ? NULL : __libc_malloc(size);
}

void *realloc(void *old, size_t size)
{
    return refuses() ? NULL : __libc_realloc(old, size);
}
