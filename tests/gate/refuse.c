/* Runs the program before which it is loaded (LD_PRELOAD) again and again, and refuses allocations of it.

   An allocation is a call of malloc, calloc or realloc by the program or by the C library for it. They are numbered from 1.
   Before `main` begins the process makes a copy of itself (fork) for each run, tells it what it refuses, and waits for it.
   So a run costs neither a new process image nor a shell, and thousands of them take seconds.

   SWEEP="FIRST LAST STEP ONWARDS"  the runs: in each one number is refused, from FIRST to LAST by STEP, and with ONWARDS 1
                                    all that follow it too. The runs end early after the first that asks for fewer
                                    allocations than its number. A number 0 refuses none.
   SWEPT=FILE                       gets what became of the runs: for each a line of decimal numbers and its outputs,

       NUMBER ASKED STATUS OUT ERROR\n  and then OUT bytes of standard output and ERROR of standard error

   ASKED is how many allocations it asked for, STATUS as waitpid has it. A run may take SECONDS seconds, then a signal ends
   it. Without SWEEP the program runs as it would. */
#define _GNU_SOURCE
#include <errno.h>
#include <fcntl.h>
#include <stdio.h>
#include <stdlib.h>
#include <sys/mman.h>
#include <sys/syscall.h>
#include <sys/wait.h>
#include <unistd.h>

#define SECONDS 60

void *__libc_malloc(size_t size);
void *__libc_calloc(size_t count, size_t size);
void *__libc_realloc(void *old, size_t size);

/* What is refused of the run at hand; and in memory that a run shares with the process that waits for it, how many
   allocations it asked for, also where a signal ends it. */
static unsigned long refused, onwards;
static unsigned long none, *asked = &none;

static int is_refused(void)
{
    unsigned long number = __atomic_add_fetch(asked, 1, __ATOMIC_RELAXED);

    if (!refused || number < refused || (number > refused && !onwards))
        return 0;
    errno = ENOMEM;
    return 1;
}

void *malloc(size_t size)
{
    return is_refused() ? NULL : __libc_malloc(size);
}

void *calloc(size_t count, size_t size)
{
    return is_refused() ? NULL : __libc_calloc(count, size);
}

void *realloc(void *old, size_t size)
{
    return is_refused() ? NULL : __libc_realloc(old, size);
}

static void fail(const char *what)
{
    perror(what);
    syscall(SYS_exit_group, 3);
}

static void write_all(int file, const char *bytes, size_t length)
{
    while (length > 0) {
        ssize_t done = write(file, bytes, length);

        if (done <= 0)
            fail("write");
        bytes += done;
        length -= done;
    }
}

/* A file without a name, for an output of a run. */
static int output(const char *name)
{
    int file = memfd_create(name, 0);

    if (file < 0)
        fail("memfd_create");
    return file;
}

static void append(int file, int to)
{
    static char buffer[1 << 16];
    off_t at = 0;
    ssize_t length;

    while ((length = pread(file, buffer, sizeof buffer, at)) > 0) {
        write_all(to, buffer, length);
        at += length;
    }
}

/* Makes one run; answers only in the process that waits for it. */
static int run(unsigned long number, int out, int error)
{
    int status;
    pid_t child;

    *asked = 0;
    if (ftruncate(out, 0) || ftruncate(error, 0) || lseek(out, 0, SEEK_SET) || lseek(error, 0, SEEK_SET))
        fail("ftruncate");
    child = fork();
    if (child < 0)
        fail("fork");
    if (child == 0) {
        dup2(out, 1);
        dup2(error, 2);
        alarm(SECONDS);
        *asked = 0;
        refused = number;
        return -1;
    }
    while (waitpid(child, &status, 0) < 0)
        if (errno != EINTR)
            fail("waitpid");
    return status;
}

__attribute__((constructor)) static void begin(void)
{
    const char *sweep = getenv("SWEEP"), *name = getenv("SWEPT");
    unsigned long first, last, step, number;
    int swept, out, error;

    if (!sweep)
        return;
    if (!name || sscanf(sweep, "%lu %lu %lu %lu", &first, &last, &step, &onwards) != 4)
        fail("SWEEP");
    asked = mmap(NULL, sizeof *asked, PROT_READ | PROT_WRITE, MAP_SHARED | MAP_ANONYMOUS, -1, 0);
    if (asked == MAP_FAILED)
        fail("mmap");
    swept = open(name, O_WRONLY | O_CREAT | O_TRUNC | O_CLOEXEC, 0600);
    if (swept < 0)
        fail(name);
    out = output("out");
    error = output("error");
    for (number = first; number <= last; number += step) {
        char line[160];
        int status = run(number, out, error);

        if (status == -1)
            return;
        write_all(swept, line, snprintf(line, sizeof line, "%lu %lu %d %lld %lld\n", number, *asked, status,
                                        (long long)lseek(out, 0, SEEK_END), (long long)lseek(error, 0, SEEK_END)));
        append(out, swept);
        append(error, swept);
        if (number > 0 && *asked < number)
            break;
    }
    syscall(SYS_exit_group, 0);
}
