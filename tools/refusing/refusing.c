// Refuses requests for memory: that whose number, from 1, is in the variable REFUSED; and each whose
// number is at least `from` and that asks for more than `above` bytes, unless `from` is 0. The file
// that the variable COUNTED names holds how many were made, and after it these two, eight bytes each.
#include <fcntl.h>
#include <stdatomic.h>
#include <stdlib.h>
#include <sys/mman.h>
#include <unistd.h>

void *__libc_malloc(size_t), *__libc_calloc(size_t, size_t), *__libc_realloc(void *, size_t);
void *__libc_memalign(size_t, size_t);

static struct {
    _Atomic unsigned long made, from, above;
} *shared;
static unsigned long refused;

__attribute__((constructor)) static void begin(void) {
    int file = open(getenv("COUNTED"), O_RDWR);
    refused = strtoul(getenv("REFUSED"), 0, 10);
    shared = mmap(0, sizeof *shared, PROT_READ | PROT_WRITE, MAP_SHARED, file, 0);
    close(file);
}

static int is_refused(size_t size) {
    if (!shared)
        return 0;
    unsigned long number = ++shared->made;
    return number == refused || (shared->from && number >= shared->from && size > shared->above);
}

void *malloc(size_t size) {
    return is_refused(size) ? 0 : __libc_malloc(size);
}

void *calloc(size_t count, size_t size) {
    return is_refused(count * size) ? 0 : __libc_calloc(count, size);
}

void *realloc(void *block, size_t size) {
    return is_refused(size) ? 0 : __libc_realloc(block, size);
}

void *aligned_alloc(size_t to, size_t size) {
    return is_refused(size) ? 0 : __libc_memalign(to, size);
}

void *memalign(size_t to, size_t size) {
    return is_refused(size) ? 0 : __libc_memalign(to, size);
}

int posix_memalign(void **block, size_t to, size_t size) {
    *block = is_refused(size) ? 0 : __libc_memalign(to, size);
    return *block ? 0 : 12;
}
