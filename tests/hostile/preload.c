/* Preloaded under a program by program.py: runs the program once for each request, each time in a process of its own, and
 * lets those of its calls fail that the request names.
 *
 * The process that is started never comes to `main`. It reads requests from one pipe and forks for each. The child goes on
 * as the loader would have it, into the program as it was built, with the words of the request; the parent waits for it and
 * writes an answer to the other pipe: how the child ended, and how many calls of each kind it made and how many of these
 * failed. The environment has the numbers of the two pipes, as HOSTILE_PIPES. Standard input, output and error are files, and
 * each run begins with output and error empty and with all three at their start.
 *
 * Calls are counted from 0, from the begin of `main`, over all threads. */
#define _GNU_SOURCE
#include <dlfcn.h>
#include <errno.h>
#include <pthread.h>
#include <sched.h>
#include <signal.h>
#include <stdint.h>
#include <stdio.h>
#include <stdlib.h>
#include <string.h>
#include <sys/mman.h>
#include <sys/resource.h>
#include <sys/syscall.h>
#include <sys/wait.h>
#include <unistd.h>

/* The kinds of calls: for memory, for a thread, a read of standard input, a write on standard output, one on standard error. */
enum kind { MEMORY, THREADS, READS, WRITES, ERRORS, KINDS };

/* The calls of a kind that fail: so many from the first of these on. */
struct failing {
    uint64_t first, count;
};

/* A request; `size` bytes follow it, the words, each ended by a zero. */
struct request {
    uint32_t size, words;
    uint32_t piece;      /* how many bytes a call of a standard stream moves at most, 0 for as many as it is asked to */
    uint32_t seconds;    /* after so many the run is ended by a signal */
    uint64_t space;      /* the limit on its address space in bytes, 0 for none */
    uint64_t cores;      /* the cores that it may use, as bits, 0 for those of this process */
    uint64_t grown;      /* how long standard input is made when it was read once, 0 for as it is */
    struct failing failing[KINDS];
};

struct answer {
    uint64_t status; /* as of waitpid */
    uint64_t calls[KINDS], failed[KINDS];
};

typedef int main_function(int, char **, char **);

static struct request request;
static struct answer *shared; /* which the child counts in and the parent sends */
static int counting;
static main_function *program_main;
static int (*create_thread)(pthread_t *, const pthread_attr_t *, void *(*)(void *), void *);

/* Counts a call and says whether it fails. */
static int fails(enum kind kind) {
    if (!counting) return 0;
    uint64_t call = __atomic_fetch_add(&shared->calls[kind], 1, __ATOMIC_SEQ_CST);
    struct failing failing = request.failing[kind];
    if (call < failing.first || call - failing.first >= failing.count) return 0;
    __atomic_fetch_add(&shared->failed[kind], 1, __ATOMIC_SEQ_CST);
    return 1;
}

/* Memory. */

void *__libc_malloc(size_t);
void *__libc_calloc(size_t, size_t);
void *__libc_realloc(void *, size_t);
void *__libc_memalign(size_t, size_t);

static void *no_memory(void) {
    errno = ENOMEM;
    return NULL;
}

void *malloc(size_t size) {
    return fails(MEMORY) ? no_memory() : __libc_malloc(size);
}

void *calloc(size_t count, size_t size) {
    return fails(MEMORY) ? no_memory() : __libc_calloc(count, size);
}

void *realloc(void *old, size_t size) {
    return fails(MEMORY) ? no_memory() : __libc_realloc(old, size);
}

void *memalign(size_t align, size_t size) {
    return fails(MEMORY) ? no_memory() : __libc_memalign(align, size);
}

void *aligned_alloc(size_t align, size_t size) {
    return memalign(align, size);
}

int posix_memalign(void **to, size_t align, size_t size) {
    void *got = memalign(align, size);
    if (!got) return ENOMEM;
    *to = got;
    return 0;
}

/* Threads. */

int pthread_create(pthread_t *thread, const pthread_attr_t *attr, void *(*start)(void *), void *arg) {
    return fails(THREADS) ? EAGAIN : create_thread(thread, attr, start, arg);
}

/* Streams. */

static size_t piece_of(size_t size) {
    return request.piece && size > request.piece ? request.piece : size;
}

static ssize_t stream_fault(void) {
    errno = EIO;
    return -1;
}

ssize_t read(int fd, void *to, size_t size) {
    if (fd != 0 || !counting) return syscall(SYS_read, fd, to, size);
    if (fails(READS)) return stream_fault();
    ssize_t got = syscall(SYS_read, fd, to, piece_of(size));
    if (request.grown && shared->calls[READS] == 1 && ftruncate(fd, request.grown)) return stream_fault();
    return got;
}

ssize_t write(int fd, const void *from, size_t size) {
    if ((fd != 1 && fd != 2) || !counting) return syscall(SYS_write, fd, from, size);
    if (fails(fd == 1 ? WRITES : ERRORS)) return stream_fault();
    return syscall(SYS_write, fd, from, piece_of(size));
}

/* Requests. */

static void give_up(const char *what) {
    perror(what);
    _exit(99);
}

/* Reads so many bytes, or ends where there are no more. */
static void read_whole(int fd, void *to, size_t size) {
    for (size_t done = 0; done < size;) {
        ssize_t got = read(fd, (char *)to + done, size - done);
        if (got < 0) give_up("preload: read");
        if (got == 0) _exit(0);
        done += got;
    }
}

/* The words of the request, behind the name of the program. */
static char **read_words(int fd, char *name) {
    static char bytes[1 << 20], *words[1 << 10];
    if (request.size > sizeof bytes || request.words + 2 > sizeof words / sizeof *words) give_up("preload: words");
    read_whole(fd, bytes, request.size);
    words[0] = name;
    char *word = bytes;
    for (uint32_t i = 1; i <= request.words; i++) {
        words[i] = word;
        word += strlen(word) + 1;
    }
    words[request.words + 1] = NULL;
    return words;
}

static void rewind_streams(void) {
    for (int fd = 0; fd <= 2; fd++)
        if ((fd && ftruncate(fd, 0)) || lseek(fd, 0, SEEK_SET)) give_up("preload: a standard stream");
}

/* Takes the first pages of the stack, for which no call asks, and which the limit on address space would refuse by a signal. */
static void touch_stack(void) {
    volatile char room[1 << 20];
    for (size_t i = 0; i < sizeof room; i += 4096) room[i] = 0;
}

static int begun(int argc, char **argv, char **env) {
    counting = 1;
    return program_main(argc, argv, env);
}

/* What the request says of the process itself. */
static void limit_process(void) {
    struct rlimit space = {request.space, request.space};
    if (request.space) touch_stack();
    if (request.space && setrlimit(RLIMIT_AS, &space)) give_up("preload: limit");
    if (request.cores && sched_setaffinity(0, sizeof request.cores, (cpu_set_t *)&request.cores)) give_up("preload: cores");
    alarm(request.seconds);
}

/* Serves requests, and comes back in the child of each, with its words. */
static char **serve(int from, int to, char *name) {
    for (;;) {
        read_whole(from, &request, sizeof request);
        char **words = read_words(from, name);
        rewind_streams();
        memset(shared, 0, sizeof *shared);
        pid_t child = fork();
        if (child < 0) give_up("preload: fork");
        if (child == 0) {
            close(from);
            close(to);
            limit_process();
            return words;
        }
        int status;
        if (waitpid(child, &status, 0) != child) give_up("preload: waitpid");
        shared->status = status;
        if (write(to, shared, sizeof *shared) != sizeof *shared) give_up("preload: write");
    }
}

/* The start of every program: begins it in the child of each request. */
int __libc_start_main(main_function *main, int argc, char **argv, void (*init)(void), void (*fini)(void),
                      void (*loader_fini)(void), void *stack_end) {
    int (*start)(main_function *, int, char **, void (*)(void), void (*)(void), void (*)(void), void *) =
        dlsym(RTLD_NEXT, "__libc_start_main");
    create_thread = dlsym(RTLD_NEXT, "pthread_create");
    int from, to;
    const char *pipes = getenv("HOSTILE_PIPES");
    if (!pipes || sscanf(pipes, "%d %d", &from, &to) != 2) give_up("preload: HOSTILE_PIPES");
    struct rlimit none = {0, 0};
    setrlimit(RLIMIT_CORE, &none);
    shared = mmap(NULL, sizeof *shared, PROT_READ | PROT_WRITE, MAP_SHARED | MAP_ANONYMOUS, -1, 0);
    if (shared == MAP_FAILED) give_up("preload: memory");
    char **words = serve(from, to, argv[0]);
    program_main = main;
    (void)argc;
    return start(begun, request.words + 1, words, init, fini, loader_fini, stack_end);
}
