// Runs a program on many cases, and compares each answer with the expected one. tests/tools/bulk.py builds and feeds it.
//
// Use: LD_PRELOAD=bulk_runner.so PROGRAM < CASES > DIFFERING. It starts before the program's main and its initialisation.
// For each case it forks a process that continues as the program, with the arguments of that case, on its input. So no
// case waits until the program is loaded. Input, output and error are files in memory.
//
// A case is: the number of its arguments, and the arguments; the input; the expected status; the expected output; the
// expected error. Each text follows its size, in four bytes of this machine. The count 0xffffffff follows the last case.
// A case with another answer is written in the same form, and then the program's answer: status, output, error. The
// status of a program that a signal ended is 256 more than the signal. A run may take two minutes. At the end two numbers
// go to standard error: the number of cases, and the number of those that differ.
#define _GNU_SOURCE
#include <dlfcn.h>
#include <fcntl.h>
#include <signal.h>
#include <stdint.h>
#include <stdio.h>
#include <stdlib.h>
#include <string.h>
#include <sys/mman.h>
#include <sys/wait.h>
#include <unistd.h>

#define LONGEST_RUN 120
#define MOST_WORDS 64
#define END 0xffffffffu

struct Octets {
    uint32_t size;
    char *at;
    size_t room;
};

struct Answer {
    uint32_t status;
    struct Octets written[2];
};

// The words of a case, with the program's name in front.
struct Called {
    int count;
    char *words[MOST_WORDS + 2];
};

static FILE *cases, *differing;
static pid_t running;

static void stop(const char *why) {
    perror(why);
    _exit(3);
}

static void give_up(int signal) {
    (void)signal;
    if (running > 0) kill(running, SIGKILL);
}

static uint32_t read_number(void) {
    uint32_t number;
    if (fread(&number, sizeof number, 1, cases) != 1) stop("many: a case is cut off");
    return number;
}

static void write_number(uint32_t number) { fwrite(&number, sizeof number, 1, differing); }

static void make_room(struct Octets *octets, size_t size) {
    if (octets->room < size + 1) {
        octets->room = 2 * size + 64;
        octets->at = realloc(octets->at, octets->room);
        if (!octets->at) stop("many: memory");
    }
}

// Reads octets, and lays a zero behind them.
static void read_octets(struct Octets *octets) {
    octets->size = read_number();
    make_room(octets, octets->size);
    if (fread(octets->at, 1, octets->size, cases) != octets->size) stop("many: a case is cut off");
    octets->at[octets->size] = 0;
}

static void write_octets(const struct Octets *octets) {
    write_number(octets->size);
    fwrite(octets->at, 1, octets->size, differing);
}

static void write_answer(const struct Answer *answer) {
    write_number(answer->status);
    for (int at = 0; at < 2; at++) write_octets(&answer->written[at]);
}

static int same(const struct Answer *one, const struct Answer *other) {
    int is_same = one->status == other->status;
    for (int at = 0; at < 2; at++) {
        const struct Octets *these = &one->written[at], *those = &other->written[at];
        is_same = is_same && these->size == those->size && !memcmp(these->at, those->at, these->size);
    }
    return is_same;
}

// Files in memory.

static int file_in_memory(const char *name) {
    int file = memfd_create(name, MFD_CLOEXEC);
    if (file < 0) stop("many: memfd_create");
    return file;
}

static void empty(int file) {
    if (ftruncate(file, 0) || lseek(file, 0, SEEK_SET)) stop("many: a file in memory");
}

static void fill(int file, const struct Octets *octets) {
    empty(file);
    if (pwrite(file, octets->at, octets->size, 0) != (ssize_t)octets->size) stop("many: the input");
}

static void take(int file, struct Octets *octets) {
    off_t size = lseek(file, 0, SEEK_END);
    if (size < 0) stop("many: an output");
    octets->size = size;
    make_room(octets, size);
    if (pread(file, octets->at, size, 0) != size) stop("many: an output");
}

// Forks, and waits in the one process for the other. True in the other, which has the files as its own.
static int begins(const int *files, uint32_t *status) {
    int ended;
    running = fork();
    if (running < 0) stop("many: fork");
    if (running == 0) {
        for (int at = 0; at < 3; at++)
            if (dup2(files[at], at) < 0) stop("many: dup2");
        // (as it ends, the C library would go back in the file of cases to where they were read to)
        close(fileno(cases));
        close(fileno(differing));
        signal(SIGALRM, SIG_DFL);
        return 1;
    }
    alarm(LONGEST_RUN);
    while (waitpid(running, &ended, 0) < 0) {}
    alarm(0);
    running = 0;
    *status = WIFSIGNALED(ended) ? 256 + WTERMSIG(ended) : WEXITSTATUS(ended);
    return 0;
}

// Goes through the cases. Returns in each process that is to go on as the program.
static void go_through(struct Called *called) {
    static struct Octets words[MOST_WORDS], input;
    static struct Answer wanted, told;
    int files[3] = {file_in_memory("input"), file_in_memory("output"), file_in_memory("error")};
    unsigned long many = 0, differ = 0;
    uint32_t number;
    while ((number = read_number()) != END) {
        if (number > MOST_WORDS) stop("many: too many words");
        for (uint32_t at = 0; at < number; at++) {
            read_octets(&words[at]);
            called->words[at + 1] = words[at].at;
        }
        called->words[number + 1] = NULL;
        called->count = number + 1;
        read_octets(&input);
        wanted.status = read_number();
        for (int at = 0; at < 2; at++) {
            read_octets(&wanted.written[at]);
            empty(files[at + 1]);
        }
        fill(files[0], &input);
        if (begins(files, &told.status)) return;
        for (int at = 0; at < 2; at++) take(files[at + 1], &told.written[at]);
        many++;
        if (same(&wanted, &told)) continue;
        differ++;
        write_number(number);
        for (uint32_t at = 0; at < number; at++) write_octets(&words[at]);
        write_octets(&input);
        write_answer(&wanted);
        write_answer(&told);
        fflush(differing);
    }
    fprintf(stderr, "%lu %lu\n", many, differ);
    _exit(0);
}

typedef int (*Main)(int, char **, char **);
typedef int (*Start)(Main, int, char **, void (*)(void), void (*)(void), void (*)(void), void *);

// What the C library calls a program's main from. It is called once, and returns in none of the processes.
int __libc_start_main(Main main, int count, char **given, void (*init)(void), void (*fini)(void), void (*end)(void),
                      void *stack) {
    static struct Called called;
    struct sigaction action = {.sa_handler = give_up};
    Start start = (Start)dlsym(RTLD_NEXT, "__libc_start_main");
    if (!start || count < 1) stop("many: no program");
    unsetenv("LD_PRELOAD");
    sigaction(SIGALRM, &action, NULL);
    cases = fdopen(fcntl(0, F_DUPFD_CLOEXEC, 10), "rb");
    differing = fdopen(fcntl(1, F_DUPFD_CLOEXEC, 10), "wb");
    if (!cases || !differing) stop("many: the cases");
    called.words[0] = given[0];
    go_through(&called);
    return start(main, called.count, called.words, init, fini, end, stack);
}
