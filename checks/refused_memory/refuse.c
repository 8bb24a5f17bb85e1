/* An allocator in the place of the C library's, to be preloaded: it counts requests for memory and blocks that are given back, and
   refuses some requests.

   A part of a run goes from the line "begin" to the line "end", each of which the program writes to descriptor 2 by one write.
   With REFUSE_AT the whole run is one part. In a part these requests are refused, by the value of REFUSE: "none", "all", from the
   k-th on ("from") or the k-th alone ("alone"), where k is REFUSE_AT, or else the number of the part, from 1 on. After each part
   the descriptor REFUSE_REPORT gets a line "requests N refused M freed F". */
#define _GNU_SOURCE
#include <errno.h>
#include <limits.h>
#include <stddef.h>
#include <stdio.h>
#include <stdlib.h>
#include <string.h>
#include <sys/syscall.h>
#include <unistd.h>

void *__libc_malloc(size_t);
void *__libc_calloc(size_t, size_t);
void *__libc_realloc(void *, size_t);
void *__libc_memalign(size_t, size_t);
void __libc_free(void *);

static int counting, is_whole;
static long part, requests, refused, freed, first, last;

static long number_of(const char *name)
{
    const char *text = getenv(name);
    return text ? atol(text) : 0;
}

static void begin_part(long k)
{
    const char *what = getenv("REFUSE");
    int is_none = !what || !strcmp(what, "none");
    first = is_none ? LONG_MAX : !strcmp(what, "all") ? 1 : k;
    last = is_none ? 0 : !strcmp(what, "alone") ? k : LONG_MAX;
    requests = refused = freed = 0;
    counting = 1;
}

static void end_part(void)
{
    char line[80];
    counting = 0;
    int length = snprintf(line, sizeof line, "requests %ld refused %ld freed %ld\n", requests, refused, freed);
    syscall(SYS_write, (int)number_of("REFUSE_REPORT"), line, length);
}

__attribute__((constructor)) static void begin_run(void)
{
    is_whole = number_of("REFUSE_AT") > 0;
    if (is_whole)
        begin_part(number_of("REFUSE_AT"));
}

__attribute__((destructor)) static void end_run(void)
{
    if (is_whole)
        end_part();
}

static int is_refused(void)
{
    if (!counting)
        return 0;
    requests++;
    if (requests < first || requests > last)
        return 0;
    refused++;
    errno = ENOMEM;
    return 1;
}

void *malloc(size_t size)
{
    return is_refused() ? NULL : __libc_malloc(size);
}

void *calloc(size_t count, size_t size)
{
    return is_refused() ? NULL : __libc_calloc(count, size);
}

void *realloc(void *block, size_t size)
{
    return is_refused() ? NULL : __libc_realloc(block, size);
}

void *reallocarray(void *block, size_t count, size_t size)
{
    if (size && count > (size_t)-1 / size) {
        errno = ENOMEM;
        return NULL;
    }
    return realloc(block, count * size);
}

void *memalign(size_t align, size_t size)
{
    return is_refused() ? NULL : __libc_memalign(align, size);
}

void *aligned_alloc(size_t align, size_t size)
{
    return memalign(align, size);
}

int posix_memalign(void **block, size_t align, size_t size)
{
    void *made = memalign(align, size);
    if (!made)
        return ENOMEM;
    *block = made;
    return 0;
}

void free(void *block)
{
    freed += counting && block;
    __libc_free(block);
}

ssize_t write(int file, const void *bytes, size_t size)
{
    int is_marked = !is_whole && file == 2;
    if (is_marked && counting && size == 4 && !memcmp(bytes, "end\n", 4))
        end_part();
    long written = syscall(SYS_write, file, bytes, size);
    if (is_marked && !counting && size == 6 && !memcmp(bytes, "begin\n", 6))
        begin_part(++part);
    return written;
}
