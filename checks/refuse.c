// Refuses one allocation of a program that it is preloaded into: the one whose number, counted from 1, stands in
// REFUSE. At the program's end the count of all allocations is written to the file that REFUSE_COUNT names.
#include <errno.h>
#include <stddef.h>
#include <stdio.h>
#include <stdlib.h>

extern void *__libc_malloc(size_t);
extern void *__libc_calloc(size_t, size_t);
extern void *__libc_realloc(void *, size_t);
extern void *__libc_memalign(size_t, size_t);

static unsigned long refused_number;
static unsigned long count;

static int is_refused(void) {
    if (count == 0) {
        const char *word = getenv("REFUSE");
        refused_number = word ? strtoul(word, NULL, 10) : 0;
    }
    count += 1;
    if (count == refused_number) {
        errno = ENOMEM;
        return 1;
    }
    return 0;
}

void *malloc(size_t size) { return is_refused() ? NULL : __libc_malloc(size); }

void *calloc(size_t items, size_t size) { return is_refused() ? NULL : __libc_calloc(items, size); }

void *realloc(void *old, size_t size) { return is_refused() ? NULL : __libc_realloc(old, size); }

void *aligned_alloc(size_t align, size_t size) { return is_refused() ? NULL : __libc_memalign(align, size); }

int posix_memalign(void **out, size_t align, size_t size) {
    void *block = is_refused() ? NULL : __libc_memalign(align, size);
    if (block == NULL) {
        return ENOMEM;
    }
    *out = block;
    return 0;
}

__attribute__((destructor)) static void write_count(void) {
    const char *path = getenv("REFUSE_COUNT");
    FILE *file = path ? fopen(path, "w") : NULL;
    if (file) {
        fprintf(file, "%lu\n", count);
        fclose(file);
    }
}
