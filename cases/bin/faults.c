/* Refuses one call of the program that loads this library, once for each of its calls.

   Before main the library forks for each number k in turn: the child goes on into main with its output and its error in memory, and its
   k-th call is refused or cut short; the parent waits and compares. So each k costs a run, but no loading of the program. Calls count
   where the program itself makes them, from any of its threads, and calls that the C library makes for itself don't.

   FAULT_KIND   memory: malloc and realloc answer nothing
                reads, writes: open, read and write fail with EIO
                short-reads, short-writes: a read or write is given one byte alone
                threads: pthread_create answers EAGAIN
   FAULT_MOST   how many numbers k are tried at most, spread evenly over all calls; FAULT_SECONDS ends it early
   FAULT_LOG    a file for the answers: "calls C", then "k status how out err worker" for each k, where `how` says what came of the
                output beside that of the run without a fault: same, empty, prefix or other; then "end" */
#define _GNU_SOURCE
#include <dlfcn.h>
#include <errno.h>
#include <fcntl.h>
#include <link.h>
#include <pthread.h>
#include <stdarg.h>
#include <stdatomic.h>
#include <stdint.h>
#include <stdio.h>
#include <stdlib.h>
#include <string.h>
#include <sys/mman.h>
#include <sys/resource.h>
#include <sys/wait.h>
#include <time.h>
#include <unistd.h>

enum kind { NOTHING, MEMORY, READS, WRITES, SHORT_READS, SHORT_WRITES, THREADS, KINDS };
static const char *const names[] = {"nothing", "memory", "reads", "writes", "short-reads", "short-writes", "threads"};

static struct shared {
    atomic_long calls;
    atomic_int worker;
} *shared;
static enum kind kind;
static long refused;
static uintptr_t low, high;

static void *(*real_malloc)(size_t);
static void *(*real_realloc)(void *, size_t);
static ssize_t (*real_read)(int, void *, size_t);
static ssize_t (*real_write)(int, const void *, size_t);
static int (*real_open)(const char *, int, ...);
static int (*real_create)(pthread_t *, const pthread_attr_t *, void *(*)(void *), void *);

/* The call is one of the program's own, and the one that is to be refused. */
static int meant(int of_this_kind, void *caller) {
    uintptr_t at = (uintptr_t)caller;
    if (!shared || !of_this_kind || at < low || at >= high)
        return 0;
    if (atomic_fetch_add(&shared->calls, 1) + 1 != refused)
        return 0;
    atomic_store(&shared->worker, gettid() != getpid());
    return 1;
}

void *malloc(size_t size) {
    if (!real_malloc)
        real_malloc = dlsym(RTLD_NEXT, "malloc");
    if (meant(kind == MEMORY, __builtin_return_address(0))) {
        errno = ENOMEM;
        return NULL;
    }
    return real_malloc(size);
}

void *realloc(void *old, size_t size) {
    if (!real_realloc)
        real_realloc = dlsym(RTLD_NEXT, "realloc");
    if (meant(kind == MEMORY, __builtin_return_address(0))) {
        errno = ENOMEM;
        return NULL;
    }
    return real_realloc(old, size);
}

ssize_t read(int file, void *to, size_t size) {
    if (meant(kind == READS || kind == SHORT_READS, __builtin_return_address(0))) {
        if (kind == READS) {
            errno = EIO;
            return -1;
        }
        size = size ? 1 : 0;
    }
    return real_read(file, to, size);
}

static ssize_t written(int file, const void *from, size_t size, void *caller) {
    if (meant(kind == WRITES || kind == SHORT_WRITES, caller)) {
        if (kind == WRITES) {
            errno = EIO;
            return -1;
        }
        size = size ? 1 : 0;
    }
    return real_write(file, from, size);
}

ssize_t write(int file, const void *from, size_t size) {
    return written(file, from, size, __builtin_return_address(0));
}

ssize_t __write(int file, const void *from, size_t size) {
    return written(file, from, size, __builtin_return_address(0));
}

int open(const char *name, int flags, ...) {
    va_list more;
    va_start(more, flags);
    int mode = flags & O_CREAT ? va_arg(more, int) : 0;
    va_end(more);
    if (meant(kind == READS, __builtin_return_address(0))) {
        errno = EIO;
        return -1;
    }
    return real_open(name, flags, mode);
}

int pthread_create(pthread_t *thread, const pthread_attr_t *how, void *(*work)(void *), void *with) {
    if (meant(kind == THREADS, __builtin_return_address(0)))
        return EAGAIN;
    return real_create(thread, how, work, with);
}

/* Where the program itself lies: the first object of the list. */
static int program(struct dl_phdr_info *info, size_t size, void *data) {
    (void)size, (void)data;
    low = UINTPTR_MAX;
    for (int i = 0; i < info->dlpi_phnum; i++) {
        const ElfW(Phdr) *part = &info->dlpi_phdr[i];
        if (part->p_type != PT_LOAD)
            continue;
        uintptr_t from = info->dlpi_addr + part->p_vaddr;
        low = from < low ? from : low;
        high = from + part->p_memsz > high ? from + part->p_memsz : high;
    }
    return 1;
}

static long number(const char *name, long otherwise) {
    const char *text = getenv(name);
    return text ? atol(text) : otherwise;
}

/* Whole of a file in memory. */
static size_t whole(int file, char **bytes) {
    size_t size = (size_t)lseek(file, 0, SEEK_END);
    *bytes = real_malloc(size + 1);
    if (pread(file, *bytes, size, 0) != (ssize_t)size)
        abort();
    (*bytes)[size] = 0;
    return size;
}

static void line_of(char *text) {
    text[strcspn(text, "\n")] = 0;
}

/* A run with the k-th call refused, in a child. True in the child, which goes on into main. */
static int forked(long k, int out, int err, int *status) {
    refused = k;
    atomic_store(&shared->calls, 0);
    atomic_store(&shared->worker, 0);
    if (ftruncate(out, 0) || ftruncate(err, 0))
        abort();
    lseek(out, 0, SEEK_SET);
    lseek(err, 0, SEEK_SET);
    pid_t child = fork();
    if (!child) {
        struct rlimit limit = {20, 20};
        setrlimit(RLIMIT_CPU, &limit);
        dup2(out, 1);
        dup2(err, 2);
        return 1;
    }
    waitpid(child, status, 0);
    return 0;
}

__attribute__((constructor)) static void begin(void) {
    real_malloc = dlsym(RTLD_NEXT, "malloc");
    real_realloc = dlsym(RTLD_NEXT, "realloc");
    real_read = dlsym(RTLD_NEXT, "read");
    real_write = dlsym(RTLD_NEXT, "write");
    real_open = dlsym(RTLD_NEXT, "open");
    real_create = dlsym(RTLD_NEXT, "pthread_create");
    const char *name = getenv("FAULT_KIND"), *log_name = getenv("FAULT_LOG");
    if (!name || !log_name)
        return;
    for (int i = 1; i < KINDS; i++)
        if (!strcmp(name, names[i]))
            kind = (enum kind)i;
    dl_iterate_phdr(program, NULL);
    int out = memfd_create("out", 0), err = memfd_create("err", 0), status;
    FILE *log = fopen(log_name, "w");
    shared = mmap(NULL, sizeof *shared, PROT_READ | PROT_WRITE, MAP_SHARED | MAP_ANONYMOUS, -1, 0);
    if (out < 0 || err < 0 || !log || shared == MAP_FAILED || !kind)
        abort();
    if (forked(0, out, err, &status))
        return;
    char *wanted;
    size_t size = whole(out, &wanted);
    long calls = atomic_load(&shared->calls);
    char *line;
    whole(err, &line);
    line_of(line);
    fprintf(log, "calls %ld\n0 %d same %zu 0 %s\n", calls, WIFEXITED(status) ? WEXITSTATUS(status) : -WTERMSIG(status), size, line);
    long most = number("FAULT_MOST", calls), step = most && most < calls ? calls / most : 1, tried = 0;
    time_t stop = time(NULL) + number("FAULT_SECONDS", 1000000);
    for (long k = 1; k <= calls && tried < most && time(NULL) < stop; k += step, tried++) {
        fflush(log);
        if (forked(k, out, err, &status))
            return;
        char *got;
        free(line);
        size_t length = whole(out, &got);
        whole(err, &line);
        line_of(line);
        const char *how = length == size && !memcmp(got, wanted, size)     ? "same"
                          : length == 0                                    ? "empty"
                          : length < size && !memcmp(got, wanted, length) ? "prefix"
                                                                           : "other";
        fprintf(log, "%ld %d %s %zu %d %s\n", k, WIFEXITED(status) ? WEXITSTATUS(status) : -WTERMSIG(status), how, length,
                atomic_load(&shared->worker), line);
        free(got);
    }
    fprintf(log, "end\n");
    fclose(log);
    _exit(0);
}
