/* Counts the allocations of a program that is started with this library preloaded, from its start on, and refuses one of
   them: that whose number stands in REFUSED_ALLOCATION, counted from 1. Their number stands in the file that
   COUNTED_ALLOCATIONS names, as eight bytes that change with each, since a program may end at any time and in any way.
   It wants the GNU C library. */
#include <errno.h>
#include <fcntl.h>
#include <stdatomic.h>
#include <stddef.h>
#include <stdint.h>
#include <stdlib.h>
#include <sys/mman.h>
#include <unistd.h>

extern void *__libc_malloc(size_t size);
extern void *__libc_calloc(size_t count, size_t size);
extern void *__libc_realloc(void *block, size_t size);
extern void *__libc_memalign(size_t alignment, size_t size);

static _Atomic uint64_t untold;
static _Atomic uint64_t *made = &untold;
static uint64_t refused;

static int is_refused(void)
{
    if (atomic_fetch_add(made, 1) + 1 != refused)
        return 0;
    errno = ENOMEM;
    return 1;
}

void *malloc(size_t size) { return is_refused() ? NULL : __libc_malloc(size); }

void *calloc(size_t count, size_t size) { return is_refused() ? NULL : __libc_calloc(count, size); }

void *realloc(void *block, size_t size) { return is_refused() ? NULL : __libc_realloc(block, size); }

void *memalign(size_t alignment, size_t size) { return is_refused() ? NULL : __libc_memalign(alignment, size); }

void *aligned_alloc(size_t alignment, size_t size) { return memalign(alignment, size); }

int posix_memalign(void **block, size_t alignment, size_t size)
{
    void *found = memalign(alignment, size);
    if (found == NULL)
        return ENOMEM;
    *block = found;
    return 0;
}

__attribute__((constructor)) static void begin(void)
{
    const char *number = getenv("REFUSED_ALLOCATION");
    const char *path = getenv("COUNTED_ALLOCATIONS");
    int file = path ? open(path, O_RDWR | O_CREAT | O_TRUNC | O_CLOEXEC, 0600) : -1;
    if (file >= 0 && ftruncate(file, sizeof *made) == 0) {
        void *place = mmap(NULL, sizeof *made, PROT_READ | PROT_WRITE, MAP_SHARED, file, 0);
        if (place != MAP_FAILED)
            made = place;
    }
    if (file >= 0)
        close(file);
    refused = number ? strtoull(number, NULL, 10) : 0;
    *made = 0;
}
