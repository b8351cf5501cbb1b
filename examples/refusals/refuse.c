/* Refuses one request of the program that it is loaded into, by LD_PRELOAD: a request for memory, a read or a write.
 *
 * REFUSE is the kind, memory, read or write, and REFUSE_NUMBER which of that kind it is, counted from 1 over all threads.
 * The file REFUSE_MARK is made when it is refused, so that one sees whether there was such a request. All else goes on
 * to the C library as it came.
 */
#define _GNU_SOURCE
#include <errno.h>
#include <fcntl.h>
#include <stdlib.h>
#include <string.h>
#include <sys/syscall.h>
#include <unistd.h>

/* The C library's own, which the functions of this file stand in front of. */
extern void *__libc_malloc(size_t size);
extern void *__libc_calloc(size_t count, size_t size);
extern void *__libc_realloc(void *old, size_t size);
extern void *__libc_memalign(size_t align, size_t size);

enum kind { NONE, MEMORY, READ, WRITE };

static enum kind refused = NONE;
static unsigned long wanted = 0;
static unsigned long count = 0;
static const char *mark = 0;

/* Before the program's own first line: what is to be refused. */
__attribute__((constructor)) static void begin(void) {
    const char *kind = getenv("REFUSE");
    const char *number = getenv("REFUSE_NUMBER");
    mark = getenv("REFUSE_MARK");
    if (!kind || !number)
        return;
    wanted = strtoul(number, 0, 10);
    if (!strcmp(kind, "memory"))
        refused = MEMORY;
    else if (!strcmp(kind, "read"))
        refused = READ;
    else if (!strcmp(kind, "write"))
        refused = WRITE;
}

/* Counts a request, and tells whether it is the one to be refused. */
static int refuse(enum kind kind) {
    if (kind != refused || __atomic_add_fetch(&count, 1, __ATOMIC_SEQ_CST) != wanted)
        return 0;
    if (mark) {
        long file = syscall(SYS_openat, AT_FDCWD, mark, O_WRONLY | O_CREAT | O_CLOEXEC, 0600);
        if (file >= 0)
            syscall(SYS_close, file);
    }
    errno = kind == MEMORY ? ENOMEM : EIO;
    return 1;
}

void *malloc(size_t size) {
    return refuse(MEMORY) ? 0 : __libc_malloc(size);
}

void *calloc(size_t count_of, size_t size) {
    return refuse(MEMORY) ? 0 : __libc_calloc(count_of, size);
}

void *realloc(void *old, size_t size) {
    return refuse(MEMORY) ? 0 : __libc_realloc(old, size);
}

void *aligned_alloc(size_t align, size_t size) {
    return refuse(MEMORY) ? 0 : __libc_memalign(align, size);
}

int posix_memalign(void **out, size_t align, size_t size) {
    void *got = refuse(MEMORY) ? 0 : __libc_memalign(align, size);
    if (!got)
        return ENOMEM;
    *out = got;
    return 0;
}

ssize_t read(int file, void *into, size_t len) {
    return refuse(READ) ? -1 : syscall(SYS_read, file, into, len);
}

ssize_t write(int file, const void *from, size_t len) {
    return refuse(WRITE) ? -1 : syscall(SYS_write, file, from, len);
}
