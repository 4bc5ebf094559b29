/*
 * Counts what the program that it is loaded into (LD_PRELOAD) holds of the heap: what the allocator sets aside for it, with
 * eight octets before each piece, which is what glibc keeps there. At the end it writes the most that was held at once to
 * the file HEAP_NOTE, as a number.
 */
#include <malloc.h>
#include <stdatomic.h>
#include <stdio.h>
#include <stdlib.h>

extern void *__libc_malloc(size_t size);
extern void *__libc_calloc(size_t count, size_t size);
extern void *__libc_realloc(void *old, size_t size);
extern void __libc_free(void *old);

static atomic_long held, most;

static long size_of(void *piece)
{
    return piece ? (long)malloc_usable_size(piece) + 8 : 0;
}

static void *took(void *piece)
{
    long now = atomic_fetch_add(&held, size_of(piece)) + size_of(piece);
    if (now > atomic_load(&most)) {
        atomic_store(&most, now);
    }
    return piece;
}

void *malloc(size_t size)
{
    return took(__libc_malloc(size));
}

void *calloc(size_t count, size_t size)
{
    return took(__libc_calloc(count, size));
}

void *realloc(void *old, size_t size)
{
    long before = size_of(old);
    void *piece = __libc_realloc(old, size);
    if (piece || size == 0) {
        atomic_fetch_sub(&held, before);
    }
    return took(piece);
}

void free(void *old)
{
    atomic_fetch_sub(&held, size_of(old));
    __libc_free(old);
}

__attribute__((destructor)) static void note(void)
{
    const char *name = getenv("HEAP_NOTE");
    long told = atomic_load(&most);
    FILE *file = name ? fopen(name, "w") : NULL;
    if (file) {
        fprintf(file, "%ld\n", told);
        fclose(file);
    }
}
