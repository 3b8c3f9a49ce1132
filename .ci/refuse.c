// Stands in for the C library's calls for memory: request number REFUSED is refused, and then the file MARK is made.
#include <fcntl.h>
#include <stdlib.h>
#include <unistd.h>
extern void *__libc_malloc(size_t), *__libc_realloc(void *, size_t);
static unsigned long requests;

static int refused(void) {
    if (++requests != strtoul(getenv("REFUSED"), 0, 10)) return 0;
    char const *mark = getenv("MARK");
    if (mark) close(open(mark, O_CREAT | O_WRONLY, 0600));
    return 1;
}
void *malloc(size_t size) { return refused() ? 0 : __libc_malloc(size); }
void *realloc(void *at, size_t size) { return refused() ? 0 : __libc_realloc(at, size); }
