/* A preload library for refused_memory.py: it lets one call of a program fail.

   REFUSE names the call by its kind and its number, counted from 1: "memory 17" is the 17th time that memory is asked for,
   "read 2" the 2nd read of standard input, "write 3" the 3rd write of standard output; by "idle 3" that write takes no byte. A
   read or a write moves at most MOST bytes, which is set where this is built, so that there are several of them. COUNTS names a
   file that gets, at the end, how many calls there were of each kind, in the order memory, read, write. */
#include <errno.h>
#include <fcntl.h>
#include <stdio.h>
#include <stdlib.h>
#include <string.h>
#include <sys/syscall.h>
#include <unistd.h>

/* glibc's own calls, under the names that no preload library takes over */
void *__libc_malloc(size_t size);
void *__libc_calloc(size_t count, size_t size);
void *__libc_realloc(void *old, size_t size);
void *__libc_memalign(size_t alignment, size_t size);

static long asked, reads, writes;

/* Whether REFUSE names the call of this kind and number. */
static int is_refused(const char *kind, long number)
{
    const char *refused = getenv("REFUSE");
    size_t length = strlen(kind);
    return refused && !strncmp(refused, kind, length) && refused[length] == ' ' && atol(refused + length) == number;
}

static int no_memory(void)
{
    if (!is_refused("memory", ++asked))
        return 0;
    errno = ENOMEM;
    return 1;
}

void *malloc(size_t size) { return no_memory() ? NULL : __libc_malloc(size); }
void *calloc(size_t count, size_t size) { return no_memory() ? NULL : __libc_calloc(count, size); }
void *realloc(void *old, size_t size) { return no_memory() ? NULL : __libc_realloc(old, size); }
void *aligned_alloc(size_t alignment, size_t size) { return no_memory() ? NULL : __libc_memalign(alignment, size); }

int posix_memalign(void **place, size_t alignment, size_t size)
{
    void *found = no_memory() ? NULL : __libc_memalign(alignment, size);
    if (!found)
        return ENOMEM;
    *place = found;
    return 0;
}

static size_t at_most(size_t count) { return count < MOST ? count : MOST; }

static ssize_t failed(void)
{
    errno = EIO;
    return -1;
}

ssize_t read(int from, void *bytes, size_t count)
{
    if (from != STDIN_FILENO)
        return syscall(SYS_read, from, bytes, count);
    return is_refused("read", ++reads) ? failed() : syscall(SYS_read, from, bytes, at_most(count));
}

ssize_t write(int to, const void *bytes, size_t count)
{
    if (to != STDOUT_FILENO)
        return syscall(SYS_write, to, bytes, count);
    writes++;
    if (is_refused("idle", writes))
        return 0;
    return is_refused("write", writes) ? failed() : syscall(SYS_write, to, bytes, at_most(count));
}

ssize_t __write(int to, const void *bytes, size_t count) { return write(to, bytes, count); }

__attribute__((destructor)) static void say_counts(void)
{
    char text[100];
    const char *name = getenv("COUNTS");
    int file = name ? open(name, O_WRONLY | O_CREAT | O_TRUNC, 0600) : -1;
    int length = snprintf(text, sizeof text, "%ld %ld %ld\n", asked, reads, writes);
    if (file >= 0 && write(file, text, length) == length)
        close(file);
}
