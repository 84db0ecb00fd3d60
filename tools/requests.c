// Makes a request for memory of each kind, one after another, and writes the name of each that was refused. With
// tools/refuse.c loaded before the C library, the one whose number is in REFUSE_AT is. By it scripts/refusals.sh sees
// that every kind is counted and refused.
#define _GNU_SOURCE
#include <malloc.h>
#include <stdlib.h>
#include <string.h>
#include <unistd.h>

// Blocks come from the C library alone, so that the calls themselves are all that asks.
static void *volatile made;

static void told(const char *name, int was_made) {
    if (!was_made && (write(1, name, strlen(name)) < 0 || write(1, "\n", 1) < 0)) _exit(1);
}

int main(void) {
    void *block = NULL;
    told("malloc", (made = malloc(24)) != NULL);
    told("calloc", (made = calloc(3, 8)) != NULL);
    told("realloc", (made = realloc(NULL, 24)) != NULL);
    told("reallocarray", (made = reallocarray(NULL, 3, 8)) != NULL);
    told("memalign", (made = memalign(64, 64)) != NULL);
    told("aligned_alloc", (made = aligned_alloc(64, 64)) != NULL);
    told("posix_memalign", posix_memalign(&block, 64, 64) == 0);
    told("valloc", (made = valloc(64)) != NULL);
    told("pvalloc", (made = pvalloc(64)) != NULL);
    return 0;
}
