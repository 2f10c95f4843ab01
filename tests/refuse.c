/* A library that tests/faults has loaded in front of the program's own. By numbers in the environment, one read of standard input, one
   write of standard output or one allocation fails, counted from 1 (REFUSE_READ, REFUSE_WRITE, REFUSE_ALLOCATION), which is told by
   `refused` on standard error; and each read and write moves at most so many bytes (PIECE_OF_READ, PIECE_OF_WRITE). It is no part of the
   program. */
#define _GNU_SOURCE
#include <errno.h>
#include <stdlib.h>
#include <sys/syscall.h>
#include <unistd.h>

extern void *__libc_malloc(size_t size);
extern void *__libc_calloc(size_t count, size_t size);
extern void *__libc_realloc(void *old, size_t size);
extern void *__libc_memalign(size_t alignment, size_t size);

/* How many come before the one that fails; less than 0 where none does, as before the program starts. */
static long reads_left = -1, writes_left = -1, allocations_left = -1;
static long piece_of_read, piece_of_write;

static long number_of(const char *name)
{
    const char *word = getenv(name);
    return word ? atol(word) : 0;
}

__attribute__((constructor)) static void start(void)
{
    piece_of_read = number_of("PIECE_OF_READ");
    piece_of_write = number_of("PIECE_OF_WRITE");
    reads_left = number_of("REFUSE_READ") - 1;
    writes_left = number_of("REFUSE_WRITE") - 1;
    allocations_left = number_of("REFUSE_ALLOCATION") - 1;
}

/* Whether this one fails, which is told. */
static int fails(long *left)
{
    if (*left < 0 || (*left)-- > 0)
        return 0;
    syscall(SYS_write, 2, "refused\n", 8);
    return 1;
}

static size_t piece(size_t size, long most)
{
    return most > 0 && size > (size_t)most ? (size_t)most : size;
}

ssize_t read(int file, void *into, size_t size)
{
    if (file == 0 && fails(&reads_left)) {
        errno = EIO;
        return -1;
    }
    return syscall(SYS_read, file, into, file == 0 ? piece(size, piece_of_read) : size);
}

ssize_t write(int file, const void *from, size_t size)
{
    if (file == 1 && fails(&writes_left)) {
        errno = EIO;
        return -1;
    }
    return syscall(SYS_write, file, from, file == 1 ? piece(size, piece_of_write) : size);
}

ssize_t __write(int file, const void *from, size_t size)
{
    return write(file, from, size);
}

static int is_refused(void)
{
    if (!fails(&allocations_left))
        return 0;
    errno = ENOMEM;
    return 1;
}

void *malloc(size_t size)
{
    return is_refused() ? NULL : __libc_malloc(size);
}

void *calloc(size_t count, size_t size)
{
    return is_refused() ? NULL : __libc_calloc(count, size);
}

void *realloc(void *old, size_t size)
{
    return is_refused() ? NULL : __libc_realloc(old, size);
}

void *memalign(size_t alignment, size_t size)
{
    return is_refused() ? NULL : __libc_memalign(alignment, size);
}

void *aligned_alloc(size_t alignment, size_t size)
{
    return memalign(alignment, size);
}

int posix_memalign(void **made, size_t alignment, size_t size)
{
    void *room = memalign(alignment, size);
    if (room == NULL)
        return ENOMEM;
    *made = room;
    return 0;
}
