/* Runs a test once for each of its allocations, and refuses that one (tests/growth.py preloads it, with glibc).

   It begins at the first allocation of MARKED bytes, or before the program where MARKED is 0: there the process forks, once for each
   child. Child N, counted from 1, is refused its Nth call of malloc, calloc or realloc after that. The last child makes fewer calls.
   To the descriptor TOLD goes `refused N`, the number of children that were refused a call, or `failed N S`, where child N ended with
   the wait status S that is not 0. Without an allocation of MARKED bytes nothing is written there, and nothing is refused. */
#include <stdio.h>
#include <stdlib.h>
#include <sys/mman.h>
#include <sys/wait.h>
#include <unistd.h>

void *__libc_malloc(size_t size);
void *__libc_calloc(size_t count, size_t size);
void *__libc_realloc(void *block, size_t size);

static long marked, refused, calls;
static volatile long *told_calls;

static long number_in(const char *name) {
    const char *text = getenv(name);
    return text ? atol(text) : 0;
}

/* Returns in each child. */
static void run_each(void) {
    int told = (int)number_in("TOLD");
    marked = 0;
    told_calls = mmap(NULL, sizeof *told_calls, PROT_READ | PROT_WRITE, MAP_SHARED | MAP_ANONYMOUS, -1, 0);
    for (long number = 1;; number++) {
        int status = 0;
        *told_calls = 0;
        pid_t child = fork();
        if (child == 0) {
            refused = number;
            alarm((unsigned)number_in("SECONDS"));
            return;
        }
        if (child < 0 || waitpid(child, &status, 0) != child || status) {
            dprintf(told, "failed %ld %d\n", number, status);
            _exit(1);
        }
        if (*told_calls < number) {
            dprintf(told, "refused %ld\n", number - 1);
            _exit(0);
        }
    }
}

__attribute__((constructor)) static void begin(void) {
    marked = number_in("MARKED");
    if (marked == 0)
        run_each();
}

static int is_refused(size_t size) {
    if (marked && (long)size == marked) {
        run_each();
        return 0;
    }
    if (!refused)
        return 0;
    *told_calls = ++calls;
    return calls == refused;
}

void *malloc(size_t size) { return is_refused(size) ? NULL : __libc_malloc(size); }

void *calloc(size_t count, size_t size) { return is_refused(count * size) ? NULL : __libc_calloc(count, size); }

void *realloc(void *block, size_t size) { return is_refused(size) ? NULL : __libc_realloc(block, size); }
