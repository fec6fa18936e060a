/* Loaded before a program: counts its requests to the system, and refuses some of them.

   FAULTS_COUNTS   a file of five numbers of eight bytes each: the requests for memory, the calls that list and read, the writes to
                   standard output, those of all these that were refused, and the most bytes of memory that were asked for at once
   FAULTS_REFUSE   KIND FIRST LAST ERROR: of this kind (0, 1 or 2, in the order above) those from FIRST to LAST are refused with
                   this number of an error of the system
   FAULTS_SHORT    a write takes at most so many bytes */

#define _GNU_SOURCE
#include <dirent.h>
#include <errno.h>
#include <fcntl.h>
#include <stdarg.h>
#include <stdio.h>
#include <stdlib.h>
#include <string.h>
#include <sys/mman.h>
#include <sys/stat.h>
#include <sys/syscall.h>
#include <unistd.h>

enum { MEMORY, CALL, WRITE, REFUSED, MOST, NUMBERS };

void *__libc_malloc(size_t size);
void *__libc_calloc(size_t count, size_t size);
void *__libc_realloc(void *old, size_t size);

static unsigned long unread[NUMBERS], *numbers = unread;
static unsigned long first, last;
static int kind = -1, error, shortened;

__attribute__((constructor)) static void begin(void)
{
    const char *path = getenv("FAULTS_COUNTS"), *refuse = getenv("FAULTS_REFUSE"), *most = getenv("FAULTS_SHORT");
    if (path) {
        int file = syscall(SYS_openat, AT_FDCWD, path, O_RDWR | O_CLOEXEC);
        void *mapped = mmap(NULL, sizeof unread, PROT_READ | PROT_WRITE, MAP_SHARED, file, 0);
        if (file < 0 || mapped == MAP_FAILED)
            _exit(99);
        close(file);
        numbers = mapped;
        memset(numbers, 0, sizeof unread);
    }
    if (most)
        shortened = atoi(most);
    if (refuse && sscanf(refuse, "%d %lu %lu %d", &kind, &first, &last, &error) != 4)
        _exit(99);
}

/* Counts one more of this kind, and returns whether it is refused. */
static int is_refused(int of)
{
    unsigned long number = ++numbers[of];
    if (of != kind || number < first || number > last)
        return 0;
    ++numbers[REFUSED];
    errno = error;
    return 1;
}

static int is_wanting(size_t size)
{
    if (size > numbers[MOST])
        numbers[MOST] = size;
    return is_refused(MEMORY);
}

void *malloc(size_t size)
{
    return is_wanting(size) ? NULL : __libc_malloc(size);
}

void *calloc(size_t count, size_t size)
{
    return is_wanting(count * size) ? NULL : __libc_calloc(count, size);
}

void *realloc(void *old, size_t size)
{
    return is_wanting(size) ? NULL : __libc_realloc(old, size);
}

static int opened(int at, const char *path, int flags, int mode)
{
    return is_refused(CALL) ? -1 : syscall(SYS_openat, at, path, flags, mode);
}

#define MODE(flags) int mode = 0; if (flags & O_CREAT) { va_list more; va_start(more, flags); mode = va_arg(more, int); va_end(more); }

int open(const char *path, int flags, ...)
{
    MODE(flags)
    return opened(AT_FDCWD, path, flags, mode);
}

int openat(int at, const char *path, int flags, ...)
{
    MODE(flags)
    return opened(at, path, flags, mode);
}

ssize_t read(int file, void *bytes, size_t count)
{
    return is_refused(CALL) ? -1 : syscall(SYS_read, file, bytes, count);
}

ssize_t getdents64(int file, void *bytes, size_t count)
{
    return is_refused(CALL) ? -1 : syscall(SYS_getdents64, file, bytes, count);
}

int statx(int at, const char *restrict path, int flags, unsigned mask, struct statx *restrict told)
{
    return is_refused(CALL) ? -1 : syscall(SYS_statx, at, path, flags, mask, told);
}

ssize_t write(int file, const void *bytes, size_t count)
{
    if (file == STDOUT_FILENO && is_refused(WRITE))
        return -1;
    if (file == STDOUT_FILENO && shortened && count > (size_t)shortened)
        count = shortened;
    return syscall(SYS_write, file, bytes, count);
}

ssize_t __write(int file, const void *bytes, size_t count)
{
    return write(file, bytes, count);
}
