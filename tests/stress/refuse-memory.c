/*
 * Refuses requests for memory, in a program that is run with LD_PRELOAD: the one of number REFUSE_AT, and each from number REFUSE_FROM on,
 * from 1. The file REFUSE_PAGE, of 16 bytes, gets how many there were and how many were refused.
 */
#include <errno.h>
#include <fcntl.h>
#include <stdint.h>
#include <stdlib.h>
#include <sys/mman.h>
#include <unistd.h>

void *__libc_malloc(size_t);
void *__libc_calloc(size_t, size_t);
void *__libc_realloc(void *, size_t);
void *__libc_memalign(size_t, size_t);

static struct { uint64_t asked, refused; } *page;
static uint64_t at, from;

static uint64_t number(const char *name)
{
    const char *word = getenv(name);
    return word ? strtoull(word, NULL, 10) : 0;
}

__attribute__((constructor)) static void begin(void)
{
    const char *path = getenv("REFUSE_PAGE");
    int file = path ? open(path, O_RDWR) : -1;
    void *found = file < 0 ? MAP_FAILED : mmap(NULL, sizeof *page, PROT_READ | PROT_WRITE, MAP_SHARED, file, 0);
    at = number("REFUSE_AT");
    from = number("REFUSE_FROM");
    if (file >= 0)
        close(file);
    if (found == MAP_FAILED)
        abort();
    page = found;
}

static int is_refused(void)
{
    if (!page)
        return 0;
    page->asked++;
    if (page->asked != at && (!from || page->asked < from))
        return 0;
    page->refused++;
    errno = ENOMEM;
    return 1;
}

void *malloc(size_t size)
{
    return is_refused() ? NULL : __libc_malloc(size);
}

void *calloc(size_t count, size_t size)
{
    return is_refused() ? NULL : __libc_calloc(count, size);
}

void *realloc(void *block, size_t size)
{
    return is_refused() ? NULL : __libc_realloc(block, size);
}

void *memalign(size_t alignment, size_t size)
{
    return is_refused() ? NULL : __libc_memalign(alignment, size);
}

void *aligned_alloc(size_t alignment, size_t size)
{
    return memalign(alignment, size);
}

int posix_memalign(void **block, size_t alignment, size_t size)
{
    *block = memalign(alignment, size);
    return *block ? 0 : ENOMEM;
}
