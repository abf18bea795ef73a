/* Refuses growths of memory to the program that it is loaded into, by LD_PRELOAD.
 *
 * Each malloc, calloc and realloc is a growth, and is counted from the begin of the program. REFUSE_AT
 * is the number of the first one that is refused, from 1; REFUSE_ALL has all behind it refused too.
 * REFUSE_ORDERS names a file that holds a struct orders: whoever writes it sets a mark while the
 * program runs, and reads there how much was asked for and refused.
 */
#include <errno.h>
#include <fcntl.h>
#include <stdint.h>
#include <stdlib.h>
#include <sys/mman.h>

extern void *__libc_malloc(size_t);
extern void *__libc_calloc(size_t, size_t);
extern void *__libc_realloc(void *, size_t);

struct orders {
    uint64_t asked;   /* growths since the begin or the mark */
    uint64_t first;   /* the first that is refused; 0 refuses none */
    uint64_t all;     /* whether all behind it are refused too */
    uint64_t refused; /* growths that were refused since */
};

static struct orders own;
static volatile struct orders *orders = &own;

/* Whether the program has begun: what the loader asks for is not counted. */
static int begun;

__attribute__((constructor)) static void begin(void)
{
    const char *path = getenv("REFUSE_ORDERS"), *at = getenv("REFUSE_AT");
    int file = path ? open(path, O_RDWR | O_CLOEXEC) : -1;
    if (file >= 0) {
        void *shared = mmap(NULL, sizeof own, PROT_READ | PROT_WRITE, MAP_SHARED, file, 0);
        if (shared != MAP_FAILED)
            orders = shared;
    }
    if (at) {
        orders->first = strtoull(at, NULL, 10);
        orders->all = getenv("REFUSE_ALL") != NULL;
    }
    begun = 1;
}

static int is_refused(void)
{
    if (!begun)
        return 0;
    uint64_t number = ++orders->asked;
    if (!orders->first || number < orders->first || (number > orders->first && !orders->all))
        return 0;
    orders->refused++;
    errno = ENOMEM;
    return 1;
}

void *malloc(size_t size)
{
    return is_refused() ? NULL : __libc_malloc(size);
}

void *calloc(size_t count, size_t size)
{
    return is_refused() ? NULL : __libc_calloc(count, size);
}

void *realloc(void *old, size_t size)
{
    return size && is_refused() ? NULL : __libc_realloc(old, size);
}
