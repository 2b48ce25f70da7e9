// Refuses requests for memory of a program that is started with this preloaded: the one whose number the variable
// REFUSED_REQUEST has, counted from 1 over all threads. Where it is met, the file is made that REFUSED_MET names.
//
// Where REFUSED_EACH has a number, each request is refused in turn: the program goes on with all of them granted, and
// at each request a copy of it (a fork) goes on with this one refused, so many copies at once. The program waits for
// its copies at its end. The file that REFUSED_TOLD names reports how many requests there were, and those whose copies
// failed. A copy has the thread alone that asks, so a program that has threads then ends by 98.
//
// Where REFUSED_PAST has a number, each request is refused by which the program would hold more bytes than that.
//
// Where REFUSED_STEERING names a file of at least 32 bytes, whoever maps that file steers and watches the program
// while it runs, by four numbers of 64 bits in the order of the struct below.
#define _GNU_SOURCE
#include <dlfcn.h>
#include <errno.h>
#include <fcntl.h>
#include <malloc.h>
#include <stdatomic.h>
#include <stdio.h>
#include <stdlib.h>
#include <string.h>
#include <sys/mman.h>
#include <sys/syscall.h>
#include <sys/wait.h>
#include <unistd.h>

struct steering {
    // so many requests came since the start, and so many of them were refused: reported by the program
    atomic_long asked, refused;
    // from the request with this number on, so many more are refused: read by the program, which counts the second down
    atomic_long from, left;
};

// Ends the program at once, without what `_exit` does below.
static _Noreturn void leave(int status) {
    syscall(SYS_exit_group, status);
    __builtin_unreachable();
}

static struct steering own;
static struct steering *_Atomic steering;

// So many bytes the program holds, and may hold at most, or as many as there are where this is zero.
static atomic_long held, most_held;

static struct steering *mapped(const char *name) {
    int file = open(name, O_RDWR | O_CLOEXEC);
    if (file < 0) leave(99);
    void *found = mmap(NULL, sizeof own, PROT_READ | PROT_WRITE, MAP_SHARED, file, 0);
    if (found == MAP_FAILED) leave(99);
    close(file);
    return found;
}

// Where each request is refused in turn: so many copies run at most, and which request is refused to each.
enum { MOST_COPIES = 64 };
static struct copy { pid_t id; long request; } copies[MOST_COPIES];
static int most, running;
static int reported = -1;

// A copy ends by itself in so many seconds.
enum { COPY_SECONDS = 20 };

static void tell(const char *words, long number) {
    char line[64];
    int length = snprintf(line, sizeof line, "%s %ld\n", words, number);
    if (reported >= 0 && write(reported, line, length) < 0) leave(99);
}

// Waits for a copy, and reports where it failed.
static void await_copy(void) {
    int status;
    pid_t ended = waitpid(-1, &status, 0);
    if (ended < 0) leave(99);
    for (int at = 0; at < most; at++) {
        if (copies[at].id != ended) continue;
        if (status) tell("failed", copies[at].request);
        copies[at].id = 0;
        running--;
    }
}

// The number of threads is the twentieth word of this file, the eighteenth after the program's name. No call here asks
// for memory.
static int has_threads(void) {
    char text[512];
    int file = open("/proc/self/stat", O_RDONLY | O_CLOEXEC);
    if (file < 0) leave(99);
    long length = read(file, text, sizeof text - 1);
    close(file);
    if (length <= 0) leave(99);
    text[length] = 0;
    char *word = strrchr(text, ')');
    for (int words = 0; words < 18 && word; words++) word = strchr(word + 1, ' ');
    return !word || atol(word) != 1;
}

// Whether this is a copy, to which the request is refused. The program itself goes on with it granted.
static int is_copy(long request) {
    if (has_threads()) leave(98);
    if (running == most) await_copy();
    pid_t copy = fork();
    if (copy < 0) leave(99);
    if (copy == 0) {
        int nowhere = open("/dev/null", O_WRONLY);
        dup2(nowhere, 1);
        dup2(nowhere, 2);
        most = 0;
        alarm(COPY_SECONDS);
        return 1;
    }
    for (int at = 0; at < most; at++) {
        if (copies[at].id) continue;
        copies[at] = (struct copy){copy, request};
        break;
    }
    running++;
    return 0;
}

__attribute__((destructor)) static void end(void) {
    if (!most) return;
    while (running) await_copy();
    tell("requests", atomic_load(&own.asked));
    most = 0;
}

// A program in which there are threads ends by this, and no destructor runs.
_Noreturn void _exit(int status) {
    end();
    leave(status);
}

// The first request comes before the program has threads.
static struct steering *begin(void) {
    const char *name = getenv("REFUSED_STEERING"), *which = getenv("REFUSED_REQUEST");
    const char *each = getenv("REFUSED_EACH"), *to = getenv("REFUSED_TOLD");
    struct steering *it = name ? mapped(name) : &own;
    if (which) {
        atomic_store(&it->from, atol(which));
        atomic_store(&it->left, 1);
    }
    const char *past = getenv("REFUSED_PAST");
    if (past) atomic_store(&most_held, atol(past));
    if (each && to) {
        reported = open(to, O_CREAT | O_WRONLY | O_CLOEXEC, 0600);
        most = atoi(each) < MOST_COPIES ? atoi(each) : MOST_COPIES;
    }
    atomic_store(&steering, it);
    return it;
}

// Whether a request for so many bytes is refused, where so many are given back for it.
static int is_refused(size_t size, size_t back) {
    struct steering *it = atomic_load(&steering);
    if (!it) it = begin();
    long number = atomic_fetch_add(&it->asked, 1) + 1;
    long limit = atomic_load(&most_held);
    if (limit && atomic_load(&held) + (long)size - (long)back > limit) return 1;
    if (most) return is_copy(number);
    if (atomic_load(&it->left) <= 0 || number < atomic_load(&it->from)) return 0;
    if (atomic_fetch_sub(&it->left, 1) <= 0) return 0;
    atomic_fetch_add(&it->refused, 1);
    const char *met = getenv("REFUSED_MET");
    if (met) close(open(met, O_CREAT | O_WRONLY, 0600));
    return 1;
}

// Counts a block that is held in the place of so many bytes.
static void *counted(void *block, size_t back) {
    if (block) atomic_fetch_add(&held, (long)malloc_usable_size(block) - (long)back);
    return block;
}

void *malloc(size_t size) {
    static void *(*_Atomic real)(size_t);
    if (!real) real = (void *(*)(size_t))dlsym(RTLD_NEXT, "malloc");
    if (is_refused(size, 0)) { errno = ENOMEM; return NULL; }
    return counted(real(size), 0);
}

void *realloc(void *old, size_t size) {
    static void *(*_Atomic real)(void *, size_t);
    if (!real) real = (void *(*)(void *, size_t))dlsym(RTLD_NEXT, "realloc");
    size_t back = malloc_usable_size(old);
    if (is_refused(size, back)) { errno = ENOMEM; return NULL; }
    return counted(real(old, size), back);
}

void free(void *block) {
    static void (*_Atomic real)(void *);
    if (!real) real = (void (*)(void *))dlsym(RTLD_NEXT, "free");
    atomic_fetch_sub(&held, (long)malloc_usable_size(block));
    real(block);
}
