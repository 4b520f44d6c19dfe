/* Refuses one allocation of a program (tests/memory.py preloads it, with glibc). REFUSED=N is the Nth call of malloc or realloc, from 1.
   Where COUNTED is set, how many calls there were goes to that descriptor at the end. */
#include <stdio.h>
#include <stdlib.h>

void *__libc_malloc(size_t size);
void *__libc_realloc(void *block, size_t size);

static long calls, refused;

static long number_in(const char *name) {
    const char *text = getenv(name);
    return text ? atol(text) : 0;
}

__attribute__((constructor)) static void begin(void) {
    calls = 0;
    refused = number_in("REFUSED");
}

__attribute__((destructor)) static void end(void) {
    int counted = (int)number_in("COUNTED");
    if (counted)
        dprintf(counted, "%ld\n", calls);
}

void *malloc(size_t size) { return ++calls == refused ? NULL : __libc_malloc(size); }

void *realloc(void *block, size_t size) { return ++calls == refused ? NULL : __libc_realloc(block, size); }
