/* Preloaded into a program, this refuses its Nth request for memory, N being in REFUSE and counted from 1, and each later one too where
   REFUSE_ON is set. At the Nth it makes the file that REFUSED names: a run that leaves no such file made fewer than N requests. */
#define _GNU_SOURCE
#include <errno.h>
#include <fcntl.h>
#include <stdlib.h>
#include <unistd.h>

extern void *__libc_malloc(size_t), *__libc_calloc(size_t, size_t), *__libc_realloc(void *, size_t);
extern void *__libc_memalign(size_t, size_t);
static unsigned long wanted, met; /* wanted stays 0, so that nothing is refused, until the libraries are loaded */
static int goes_on;

static int refused(void) {
    if (!wanted || ++met < wanted) return 0;
    if (met > wanted) {
        if (goes_on) errno = ENOMEM;
        return goes_on;
    }
    const char *name = getenv("REFUSED");
    int file = name ? open(name, O_CREAT | O_WRONLY, 0600) : -1;
    if (file >= 0) close(file);
    errno = ENOMEM;
    return 1;
}

__attribute__((constructor)) static void begin(void) {
    const char *n = getenv("REFUSE");
    goes_on = getenv("REFUSE_ON") != NULL;
    wanted = n ? strtoul(n, NULL, 10) : 0;
}

void *malloc(size_t n) { return refused() ? NULL : __libc_malloc(n); }
void *calloc(size_t n, size_t m) { return refused() ? NULL : __libc_calloc(n, m); }
void *realloc(void *p, size_t n) { return refused() ? NULL : __libc_realloc(p, n); }
void *memalign(size_t a, size_t n) { return refused() ? NULL : __libc_memalign(a, n); }
void *aligned_alloc(size_t a, size_t n) { return refused() ? NULL : __libc_memalign(a, n); }
int posix_memalign(void **p, size_t a, size_t n) {
    void *made = refused() ? NULL : __libc_memalign(a, n);
    if (made) *p = made;
    return made ? 0 : ENOMEM;
}
