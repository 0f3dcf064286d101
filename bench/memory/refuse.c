/* Refuses one request for memory of a program that is begun with this library before it (LD_PRELOAD): the one whose number REFUSED has, counted from the
   first that the program makes. The file COUNTED has how many there were, eight bytes as the machine writes a number; it stands in memory while the
   program runs, since a program may end without a word to its libraries. */
#include <fcntl.h>
#include <stdatomic.h>
#include <stddef.h>
#include <stdlib.h>
#include <sys/mman.h>
#include <unistd.h>

extern void *__libc_malloc(size_t);
extern void *__libc_calloc(size_t, size_t);
extern void *__libc_realloc(void *, size_t);

static atomic_ulong before;
static atomic_ulong *made = &before;
static unsigned long refused;

static int is_refused(void) { return atomic_fetch_add(made, 1) + 1 == refused; }

void *malloc(size_t size) { return is_refused() ? NULL : __libc_malloc(size); }

void *calloc(size_t count, size_t size) { return is_refused() ? NULL : __libc_calloc(count, size); }

void *realloc(void *block, size_t size) { return is_refused() ? NULL : __libc_realloc(block, size); }

/* What the system asks for before the program begins isn't counted. */
__attribute__((constructor)) static void begin(void)
{
    const char *number = getenv("REFUSED");
    const char *name = getenv("COUNTED");
    int file = name ? open(name, O_RDWR | O_CREAT | O_TRUNC, 0600) : -1;
    if (!number || file < 0 || ftruncate(file, sizeof *made) != 0)
        abort();
    made = mmap(NULL, sizeof *made, PROT_READ | PROT_WRITE, MAP_SHARED, file, 0);
    if (made == MAP_FAILED)
        abort();
    close(file);
    refused = strtoul(number, NULL, 10);
}
