/* Stands before the C library's malloc, realloc, read and write, and refuses one of their calls. Loaded into the
 * program by LD_PRELOAD, with
 *
 *   REFUSED_CALL    memory, read or write: which calls are counted. Reads are those of descriptor 0, writes those
 *                   of descriptor 1.
 *   REFUSED_NUMBER  the number of the call that is refused, from 1 on; none where it is 0
 *   REFUSED_LATER   all calls after it are refused too, where this is set
 *   REFUSED_AFTER   a number of bytes: after the first request for so many bytes, which is served, and the next
 *                   REFUSED_MORE requests, which are served too, all requests for memory are refused
 *   SHORT           a read or a write moves one byte at most, where this is set
 *
 * A refusal is told by the byte x on descriptor 9, the request of REFUSED_AFTER by the byte r, and each request that is
 * served after it by the byte m.
 */
#include <errno.h>
#include <stdbool.h>
#include <stdlib.h>
#include <string.h>
#include <sys/syscall.h>
#include <unistd.h>

void *__libc_malloc(size_t size);
void *__libc_realloc(void *block, size_t size);

static bool is_set(const char *name)
{
    const char *value = getenv(name);
    return value != NULL && *value != 0;
}

static bool refuses(const char *call)
{
    static long count = 0;
    const char *refused = getenv("REFUSED_CALL");
    const char *number = getenv("REFUSED_NUMBER");
    if (refused == NULL || number == NULL || strcmp(refused, call) != 0)
        return false;
    count++;
    long at = atol(number);
    bool is = at != 0 && (count == at || (count > at && is_set("REFUSED_LATER")));
    if (is)
        syscall(SYS_write, 9, "x", 1);
    return is;
}

/* Whether a request for this many bytes of memory is refused. */
static bool refuses_memory(size_t size)
{
    static bool after = false;
    static long served = 0;
    const char *last = getenv("REFUSED_AFTER");
    const char *more = getenv("REFUSED_MORE");
    if (last == NULL)
        return refuses("memory");
    if (!after) {
        after = size == (size_t)atol(last);
        if (after)
            syscall(SYS_write, 9, "r", 1);
        return false;
    }
    bool is = more == NULL || served == atol(more);
    served += !is;
    syscall(SYS_write, 9, is ? "x" : "m", 1);
    return is;
}

static size_t most(size_t count)
{
    return is_set("SHORT") && count > 1 ? 1 : count;
}

void *malloc(size_t size)
{
    return refuses_memory(size) ? NULL : __libc_malloc(size);
}

void *realloc(void *block, size_t size)
{
    return refuses_memory(size) ? NULL : __libc_realloc(block, size);
}

ssize_t read(int descriptor, void *bytes, size_t count)
{
    if (descriptor == 0 && refuses("read")) {
        errno = EIO;
        return -1;
    }
    return syscall(SYS_read, descriptor, bytes, most(count));
}

ssize_t write(int descriptor, const void *bytes, size_t count)
{
    if (descriptor == 1 && refuses("write")) {
        errno = EIO;
        return -1;
    }
    return syscall(SYS_write, descriptor, bytes, most(count));
}
