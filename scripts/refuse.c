/* Lets requests of a program to the system fail, as variables say. It is loaded before the C library,
 * by LD_PRELOAD.
 *
 * REFUSE_MEMORY=N    the Nth request for memory is refused, and the file REFUSE_TOLD is made then
 * REFUSE_ON=1        so are all requests behind it
 * READ_ROOM=N        reads return N bytes in all, and then fail
 * READ_STEP=N        a read returns at most N bytes
 * WRITE_ROOM=N       writes take N bytes in all, and then fail
 * WRITE_STEP=N       a write takes at most N bytes
 * GROWS=PATH         the file at this path grows by GROWS_BY before each of the first three reads
 */
#include <errno.h>
#include <fcntl.h>
#include <stdint.h>
#include <stdlib.h>
#include <string.h>
#include <sys/syscall.h>
#include <unistd.h>

void *__libc_malloc(size_t size);
void *__libc_calloc(size_t count, size_t size);
void *__libc_realloc(void *old, size_t size);

static uint64_t requests, refused_request, refused_on;
static uint64_t read_room = UINT64_MAX, read_step = UINT64_MAX;
static uint64_t write_room = UINT64_MAX, write_step = UINT64_MAX;
static const char *grows, *grows_by;
static int growths;

static uint64_t number_of(const char *name, uint64_t otherwise) {
    const char *text = getenv(name);
    return text ? strtoull(text, NULL, 10) : otherwise;
}

__attribute__((constructor)) static void begin(void) {
    read_room = number_of("READ_ROOM", UINT64_MAX);
    read_step = number_of("READ_STEP", UINT64_MAX);
    write_room = number_of("WRITE_ROOM", UINT64_MAX);
    write_step = number_of("WRITE_STEP", UINT64_MAX);
    grows = getenv("GROWS");
    grows_by = getenv("GROWS_BY");
    refused_on = number_of("REFUSE_ON", 0);
    refused_request = number_of("REFUSE_MEMORY", 0);
    requests = 0;
}

/* Whether this request is refused. */
static int is_refused(void) {
    requests += 1;
    const char *told = getenv("REFUSE_TOLD");
    if (requests == refused_request && told)
        syscall(SYS_close, syscall(SYS_open, told, O_CREAT | O_WRONLY, 0600));
    if (refused_request == 0 || requests < refused_request)
        return 0;
    if (requests > refused_request && !refused_on)
        return 0;
    errno = ENOMEM;
    return 1;
}

void *malloc(size_t size) { return is_refused() ? NULL : __libc_malloc(size); }

void *calloc(size_t count, size_t size) {
    return is_refused() ? NULL : __libc_calloc(count, size);
}

void *realloc(void *old, size_t size) { return is_refused() ? NULL : __libc_realloc(old, size); }

/* How many of some bytes a call may move, or -1 where it fails. */
static ssize_t allowed(size_t count, uint64_t step, uint64_t room) {
    if (count > 0 && room == 0) {
        errno = EIO;
        return -1;
    }
    uint64_t most = step < room ? step : room;
    return count < most ? count : most;
}

static void grow(void) {
    if (!grows || growths == 3)
        return;
    growths += 1;
    int file = syscall(SYS_open, grows, O_WRONLY | O_APPEND, 0);
    syscall(SYS_write, file, grows_by, strlen(grows_by));
    syscall(SYS_close, file);
}

ssize_t read(int file, void *bytes, size_t count) {
    grow();
    ssize_t most = allowed(count, read_step, read_room);
    ssize_t moved = most < 0 ? -1 : syscall(SYS_read, file, bytes, most);
    if (moved > 0)
        read_room -= moved;
    return moved;
}

ssize_t write(int file, const void *bytes, size_t count) {
    ssize_t most = allowed(count, write_step, write_room);
    ssize_t moved = most < 0 ? -1 : syscall(SYS_write, file, bytes, most);
    if (moved > 0)
        write_room -= moved;
    return moved;
}

ssize_t __write(int file, const void *bytes, size_t count) { return write(file, bytes, count); }
