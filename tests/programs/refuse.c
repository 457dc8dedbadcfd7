/* Runs a program again and again, from the beginning of its `main`: first with nothing refused, then with its first request refused,
 * then with its second one, and so on, until a run makes no further request. A request is an allocation or the growth of a block, which
 * returns NULL if it is refused, or the creation of a thread, which returns EAGAIN. Each run is a copy of the process, which reads its
 * standard input from the beginning. The results are written to standard output: for each run a line with its status, whether its
 * request was made and refused (0 or 1) and the number of bytes that it printed, and then these bytes. refusing.py loads this before
 * the C library (LD_PRELOAD). */
#define _GNU_SOURCE
#include <dlfcn.h>
#include <errno.h>
#include <fcntl.h>
#include <pthread.h>
#include <stdatomic.h>
#include <stdio.h>
#include <stdlib.h>
#include <sys/mman.h>
#include <sys/sendfile.h>
#include <sys/wait.h>
#include <unistd.h>

/* The most seconds that a run may take. */
enum { SECONDS = 60 };

typedef int make_thread(pthread_t *, const pthread_attr_t *, void *(*)(void *), void *);

/* The C library's functions behind its `malloc` and `realloc`. */
void *__libc_malloc(size_t);
void *__libc_realloc(void *, size_t);

static atomic_ulong made;
/* The number of the request that is refused in this run, or 0. */
static unsigned long refused;
/* Whether that request was refused; shared with the process that began the run. */
static atomic_int *is_done;

/* Counts a request. Returns whether it is refused. */
static int is_refused(void) {
    if (refused == 0 || atomic_fetch_add(&made, 1) + 1 != refused) {
        return 0;
    }
    atomic_store(is_done, 1);
    return 1;
}

void *malloc(size_t size) {
    return is_refused() ? NULL : __libc_malloc(size);
}

void *realloc(void *block, size_t size) {
    return is_refused() ? NULL : __libc_realloc(block, size);
}

int pthread_create(pthread_t *thread, const pthread_attr_t *attributes, void *(*start)(void *), void *argument) {
    if (is_refused()) {
        return EAGAIN;
    }
    make_thread *make = (make_thread *)dlsym(RTLD_NEXT, "pthread_create");
    return make == NULL ? EAGAIN : make(thread, attributes, start, argument);
}

static void must(int holds, const char *what) {
    if (!holds) {
        perror(what);
        _exit(125);
    }
}

/* Writes the result of a run. */
static void tell(int status, int output) {
    off_t at = 0, length = lseek(output, 0, SEEK_END);
    int code = WIFEXITED(status) ? WEXITSTATUS(status) : -WTERMSIG(status);
    must(dprintf(1, "%d %d %lld\n", code, atomic_load(is_done), (long long)length) > 0, "dprintf");
    while (at < length) {
        must(sendfile(1, output, &at, length - at) > 0, "sendfile");
    }
}

/* Begins a run. Returns only in a copy of the process, which then runs `main`. */
static void begin(unsigned long number, int output) {
    refused = number;
    must(lseek(0, 0, SEEK_SET) == 0, "lseek");
    must(dup2(output, 1) == 1 && dup2(open("/dev/null", O_WRONLY), 2) == 2, "dup2");
    alarm(SECONDS);
}

__attribute__((constructor)) static void run_each(void) {
    int output = memfd_create("output", MFD_CLOEXEC);
    is_done = mmap(NULL, sizeof *is_done, PROT_READ | PROT_WRITE, MAP_SHARED | MAP_ANONYMOUS, -1, 0);
    must(output >= 0 && is_done != MAP_FAILED, "memory");
    unsigned long number = 0;
    do {
        atomic_store(is_done, 0);
        must(ftruncate(output, 0) == 0 && lseek(output, 0, SEEK_SET) == 0, "output");
        pid_t run = fork();
        must(run >= 0, "fork");
        if (run == 0) {
            begin(number, output);
            return;
        }
        int status;
        must(waitpid(run, &status, 0) == run, "waitpid");
        tell(status, output);
    } while (number++ == 0 || atomic_load(is_done));
    _exit(0);
}
