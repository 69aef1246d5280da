// A library that is preloaded to a program. It refuses the allocation whose number, counted from the program's start, is in REFUSED.
// It counts all allocations in the file that COUNTED names, in 8 bytes.
#include <errno.h>
#include <fcntl.h>
#include <stdint.h>
#include <stdlib.h>
#include <sys/mman.h>
#include <unistd.h>

void *__libc_malloc(size_t size);
void *__libc_realloc(void *old, size_t size);

static uint64_t refused;
static uint64_t *counted;

__attribute__((constructor)) static void begin(void) {
    const char *number = getenv("REFUSED");
    const char *path = getenv("COUNTED");
    int file = path ? open(path, O_RDWR) : -1;
    if (!number || file < 0) {
        abort();
    }
    void *bytes = mmap(NULL, sizeof *counted, PROT_READ | PROT_WRITE, MAP_SHARED, file, 0);
    close(file);
    if (bytes == MAP_FAILED) {
        abort();
    }
    refused = strtoull(number, NULL, 10);
    counted = bytes;
}

static int is_refused(void) {
    if (!counted || ++*counted != refused) {
        return 0;
    }
    errno = ENOMEM;
    return 1;
}

void *malloc(size_t size) {
    return is_refused() ? NULL : __libc_malloc(size);
}

void *realloc(void *old, size_t size) {
    return is_refused() ? NULL : __libc_realloc(old, size);
}
