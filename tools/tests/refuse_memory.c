/* Refuses one request for memory of a program, for tests. Built as a shared library and put before the C library by
   LD_PRELOAD:

       cc -O2 -shared -fPIC -o refuse_memory.so refuse_memory.c
       REFUSE_FILE=FILE LD_PRELOAD=./refuse_memory.so PROGRAM

   FILE has room for five numbers of 64 bits, and is shared with the test that runs the program:

       which request of the next part is refused, counted from 1; 0 refuses none. The test writes it, and a part that
         begins sets it to 0
       how many requests the part had so far
       1 if one of them was refused, and else 0
       how many parts have ended
       1 once the program ends, and 0 before

   A part begins at the program's start, after each read of standard input, and after each connection that is accepted;
   it ends before the next read, where the program waits for sockets while it has no connection, and where it ends. So a
   test that gives a program one line, and waits until its part ended, refuses what is asked for within this line.

   A program that is made for such tests says itself where a part begins and ends, by a request that no memory can meet.
   It is refused with this library and without it. The first of these takes the parts away that are named above:

       2^62 + K bytes       in the call that begins next, refuse the K-th request, and none if K is 0 (K below 2^61)
       2^62 + 2^61 bytes    the call ends, and one more part ended, if one began
       2^62 + 2^61 + 1      pause: neither count nor refuse, since what stands for a device is given its memory; pauses
                            may stand in pauses
       2^62 + 2^61 + 2      go on: count and refuse as before the last pause
       2^62 + 2^61 + 3      a call begins; without a K before it, it is no part

   Each call of malloc, calloc, realloc, aligned_alloc, memalign or posix_memalign for more than no bytes is a request,
   also a realloc to a smaller size; a call of free is none, and is never refused. A program has one thread. */
#define _GNU_SOURCE
#include <errno.h>
#include <fcntl.h>
#include <stddef.h>
#include <stdint.h>
#include <stdlib.h>
#include <sys/epoll.h>
#include <sys/mman.h>
#include <sys/socket.h>
#include <sys/syscall.h>
#include <unistd.h>

extern void *__libc_malloc(size_t size);
extern void *__libc_calloc(size_t count, size_t size);
extern void *__libc_realloc(void *block, size_t size);
extern void *__libc_memalign(size_t alignment, size_t size);

enum { CHOSEN, ASKED, REFUSED, PARTS, ENDED, NUMBERS };

static const size_t ARM = (size_t)1 << 62;
static const size_t STOP = (size_t)3 << 61;
static const size_t PAUSE = ((size_t)3 << 61) + 1;
static const size_t GO_ON = ((size_t)3 << 61) + 2;
static const size_t BEGIN = ((size_t)3 << 61) + 3;

/* Where the numbers stand without a file. */
static volatile uint64_t nowhere[NUMBERS];
static volatile uint64_t *numbers = nowhere;
static int is_ready = 0;
static int counts = 0;
static int says_itself = 0;
static int is_armed = 0;
static int pauses = 0;
static uint64_t refuse_at = 0;

/* Which files are connections that were accepted, and how many are open. */
enum { FILES = 4096 };
static unsigned char is_connection[FILES];
static int connections = 0;

/* A part begins, of which the request of this number is refused. */
static void begin(uint64_t number) {
    refuse_at = number;
    numbers[CHOSEN] = 0;
    numbers[ASKED] = 0;
    numbers[REFUSED] = 0;
    counts = 1;
}

static void end(void) {
    if (counts)
        numbers[PARTS] += 1;
    counts = 0;
}

/* Opens the file at the first request or read, which may come before what the linker calls at the start. */
static void get_ready(void) {
    const char *name = getenv("REFUSE_FILE");
    int file;
    void *found;
    if (is_ready)
        return;
    is_ready = 1;
    if (name == NULL)
        return;
    file = open(name, O_RDWR | O_CLOEXEC);
    if (file < 0)
        abort();
    found = mmap(NULL, NUMBERS * sizeof(uint64_t), PROT_READ | PROT_WRITE, MAP_SHARED, file, 0);
    if (found == MAP_FAILED)
        abort();
    close(file);
    numbers = found;
    begin(numbers[CHOSEN]);
}

/* What a request that no memory can meet says. */
static void hear(size_t size) {
    if (size == STOP) {
        end();
        is_armed = 0;
    } else if (size == PAUSE) {
        pauses += 1;
    } else if (size == GO_ON) {
        pauses -= 1;
    } else if (size == BEGIN) {
        if (is_armed)
            begin(refuse_at);
        is_armed = 0;
        pauses = 0;
    } else if (size < STOP) {
        says_itself = 1;
        is_armed = 1;
        counts = 0;
        refuse_at = size - ARM;
    }
}

/* Whether a request for so many bytes is refused. */
static int is_refused(size_t size) {
    get_ready();
    if (size >= ARM) {
        hear(size);
        return 1;
    }
    if (!counts || pauses || size == 0)
        return 0;
    numbers[ASKED] += 1;
    if (numbers[ASKED] != refuse_at)
        return 0;
    numbers[REFUSED] = 1;
    return 1;
}

void *malloc(size_t size) {
    if (is_refused(size)) {
        errno = ENOMEM;
        return NULL;
    }
    return __libc_malloc(size);
}

void *calloc(size_t count, size_t size) {
    size_t whole;
    if (__builtin_mul_overflow(count, size, &whole) || is_refused(whole)) {
        errno = ENOMEM;
        return NULL;
    }
    return __libc_calloc(count, size);
}

void *realloc(void *block, size_t size) {
    if (is_refused(size)) {
        errno = ENOMEM;
        return NULL;
    }
    return __libc_realloc(block, size);
}

void *memalign(size_t alignment, size_t size) {
    if (is_refused(size)) {
        errno = ENOMEM;
        return NULL;
    }
    return __libc_memalign(alignment, size);
}

void *aligned_alloc(size_t alignment, size_t size) {
    return memalign(alignment, size);
}

int posix_memalign(void **block, size_t alignment, size_t size) {
    void *found = memalign(alignment, size);
    if (found == NULL && size != 0)
        return ENOMEM;
    *block = found;
    return 0;
}

/* The end of a part before a call that waits. */
static void before_waiting(void) {
    get_ready();
    if (!says_itself)
        end();
}

static void after_waiting(void) {
    if (!says_itself)
        begin(numbers[CHOSEN]);
}

ssize_t read(int file, void *room, size_t size) {
    ssize_t got;
    if (file == STDIN_FILENO)
        before_waiting();
    got = syscall(SYS_read, file, room, size);
    if (file == STDIN_FILENO)
        after_waiting();
    return got;
}

int accept4(int file, struct sockaddr *address, socklen_t *length, int flags) {
    int got = (int)syscall(SYS_accept4, file, address, length, flags);
    if (got < 0)
        return got;
    before_waiting();
    after_waiting();
    if (got < FILES) {
        is_connection[got] = 1;
        connections += 1;
    }
    return got;
}

int close(int file) {
    if (file >= 0 && file < FILES && is_connection[file]) {
        is_connection[file] = 0;
        connections -= 1;
    }
    return (int)syscall(SYS_close, file);
}

int epoll_wait(int set, struct epoll_event *events, int most, int pause) {
    if (connections == 0)
        before_waiting();
    return (int)syscall(SYS_epoll_wait, set, events, most, pause);
}

int accept(int file, struct sockaddr *address, socklen_t *length) {
    return accept4(file, address, length, 0);
}

__attribute__((constructor)) static void at_start(void) {
    get_ready();
}

__attribute__((destructor)) static void at_end(void) {
    numbers[ENDED] = 1;
    if (!says_itself)
        end();
}
