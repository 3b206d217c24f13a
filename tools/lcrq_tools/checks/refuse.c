// Refuses memory to a program that it is loaded into before the C library's own calls are found
// (LD_PRELOAD).
//
// It counts the calls of malloc, calloc, realloc, posix_memalign, aligned_alloc and memalign from the
// start of the program on, in all threads, and returns null from the call of number REFUSE_FIRST to
// that of number REFUSE_LAST. A call of realloc that asks for less counts too. The file that
// REFUSE_COUNTS names holds three numbers of 8 bytes, which whoever started the program may read at
// any time, also when it has ended, however it ended: how many calls there were, how many of them
// were refused, and how many bytes were given out since and not given back.

#include <errno.h>
#include <fcntl.h>
#include <malloc.h>
#include <stdatomic.h>
#include <stddef.h>
#include <stdlib.h>
#include <sys/mman.h>
#include <unistd.h>

// The C library's own calls, which it also has under these names.
extern void *__libc_malloc(size_t size);
extern void *__libc_calloc(size_t count, size_t size);
extern void *__libc_realloc(void *old, size_t size);
extern void *__libc_memalign(size_t alignment, size_t size);
extern void __libc_free(void *block);

struct counts {
    atomic_ulong calls;
    atomic_ulong refused;
    atomic_long held;
};

static struct counts *counts; // none before the program starts: what the loader asks for is not counted
static unsigned long first, last;

static unsigned long number_in(const char *name, unsigned long otherwise) {
    const char *text = getenv(name);
    return text ? strtoul(text, NULL, 10) : otherwise;
}

__attribute__((constructor)) static void begin(void) {
    const char *path = getenv("REFUSE_COUNTS");
    int file = path ? open(path, O_RDWR) : -1;
    if (file < 0)
        return;
    first = number_in("REFUSE_FIRST", ~0UL);
    last = number_in("REFUSE_LAST", ~0UL);
    void *shared = mmap(NULL, sizeof(struct counts), PROT_READ | PROT_WRITE, MAP_SHARED, file, 0);
    close(file);
    if (shared != MAP_FAILED)
        counts = shared;
}

// Whether this call is to be refused.
static int is_refused(void) {
    if (!counts)
        return 0;
    unsigned long number = atomic_fetch_add(&counts->calls, 1) + 1;
    if (number < first || number > last)
        return 0;
    atomic_fetch_add(&counts->refused, 1);
    errno = ENOMEM;
    return 1;
}

// A block that was given out, or none, is noted.
static void *noted(void *block) {
    if (counts && block)
        atomic_fetch_add(&counts->held, (long)malloc_usable_size(block));
    return block;
}

// A block that is there, or none, is about to go.
static void note_end(void *block) {
    if (counts && block)
        atomic_fetch_sub(&counts->held, (long)malloc_usable_size(block));
}

void *malloc(size_t size) { return is_refused() ? NULL : noted(__libc_malloc(size)); }

void *calloc(size_t count, size_t size) { return is_refused() ? NULL : noted(__libc_calloc(count, size)); }

void *realloc(void *old, size_t size) {
    if (is_refused())
        return NULL;
    note_end(old);
    void *block = __libc_realloc(old, size);
    noted(block || !size ? block : old);
    return block;
}

void free(void *block) {
    note_end(block);
    __libc_free(block);
}

void *memalign(size_t alignment, size_t size) { return is_refused() ? NULL : noted(__libc_memalign(alignment, size)); }

void *aligned_alloc(size_t alignment, size_t size) { return memalign(alignment, size); }

int posix_memalign(void **given, size_t alignment, size_t size) {
    void *block = memalign(alignment, size);
    if (!block)
        return ENOMEM;
    *given = block;
    return 0;
}
