// Stands before the C library's calls for memory, and counts them from 1. The one whose number REFUSED tells is refused. With LANES, so
// many children run at once, and each request is refused in a child of its own, which goes on from there to its end; what they write is
// dropped. To the file COUNTED is written how many requests there were, and then a line for each status with which children ended: the
// status, how many, and the number of the first request.
#include <errno.h>
#include <fcntl.h>
#include <stdatomic.h>
#include <stdio.h>
#include <stdlib.h>
#include <sys/wait.h>
#include <unistd.h>

extern void *__libc_malloc(size_t);
extern void *__libc_calloc(size_t, size_t);
extern void *__libc_realloc(void *, size_t);
extern void *__libc_memalign(size_t, size_t);

enum { MOST_LANES = 64, STATUSES = 256, STOPPED = 128, SECONDS = 120 };

static atomic_ulong count;
static unsigned long refused;
static const char *counted;
static int lanes, running, drop;
static struct { pid_t child; unsigned long number; } lane[MOST_LANES];
static unsigned long ended[STATUSES], first[STATUSES];

__attribute__((constructor)) static void begin(void) {
    const char *text = getenv("REFUSED");
    refused = text ? strtoul(text, 0, 10) : 0;
    text = getenv("LANES");
    lanes = text ? atoi(text) : 0;
    lanes = lanes < MOST_LANES ? lanes : MOST_LANES;
    counted = getenv("COUNTED");
    drop = lanes ? open("/dev/null", O_WRONLY) : -1;
    atomic_store(&count, 0);
}

// Waits for one child, and notes how it ended: its status, or 128 and the signal that stopped it.
static void reap(void) {
    int how;
    pid_t child = waitpid(-1, &how, 0);
    for (int place = 0; place < running; place++) {
        if (lane[place].child != child) {
            continue;
        }
        int status = WIFEXITED(how) ? WEXITSTATUS(how) : STOPPED + WTERMSIG(how);
        ended[status]++;
        if (!first[status] || lane[place].number < first[status]) {
            first[status] = lane[place].number;
        }
        lane[place] = lane[--running];
        return;
    }
    abort();
}

// Goes on in a child, in which this request is refused. Tells whether this is the child.
static int is_child(unsigned long number) {
    if (running == lanes) {
        reap();
    }
    pid_t child = fork();
    if (child < 0) {
        abort();
    }
    if (child) {
        lane[running].child = child;
        lane[running++].number = number;
        return 0;
    }
    lanes = 0;
    counted = 0;
    dup2(drop, STDOUT_FILENO);
    alarm(SECONDS);
    return 1;
}

static void put(int file, const char *text, int length) {
    if (write(file, text, length) != length) {
        abort();
    }
}

__attribute__((destructor)) static void end(void) {
    if (!counted) {
        return;
    }
    while (running) {
        reap();
    }
    char text[96];
    int file = open(counted, O_WRONLY | O_CREAT | O_TRUNC, 0600);
    if (file < 0) {
        abort();
    }
    put(file, text, snprintf(text, sizeof text, "%lu\n", atomic_load(&count)));
    for (int status = 0; status < STATUSES; status++) {
        if (ended[status]) {
            put(file, text, snprintf(text, sizeof text, "%d %lu %lu\n", status, ended[status], first[status]));
        }
    }
}

static int is_refused(void) {
    unsigned long number = atomic_fetch_add(&count, 1) + 1;
    if (lanes ? !is_child(number) : number != refused) {
        return 0;
    }
    errno = ENOMEM;
    return 1;
}

void *malloc(size_t size) {
    return is_refused() ? 0 : __libc_malloc(size);
}

void *calloc(size_t number, size_t size) {
    return is_refused() ? 0 : __libc_calloc(number, size);
}

void *realloc(void *old, size_t size) {
    return is_refused() ? 0 : __libc_realloc(old, size);
}

void *memalign(size_t alignment, size_t size) {
    return is_refused() ? 0 : __libc_memalign(alignment, size);
}

void *aligned_alloc(size_t alignment, size_t size) {
    return is_refused() ? 0 : __libc_memalign(alignment, size);
}

int posix_memalign(void **at, size_t alignment, size_t size) {
    if (is_refused()) {
        return ENOMEM;
    }
    *at = __libc_memalign(alignment, size);
    return *at ? 0 : ENOMEM;
}
