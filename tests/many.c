/* Runs programs one after the other, as quickly as it can: a request on standard input, its answer on standard output.

   A request is a count of words, each word as its length and its bytes, and standard input for the program in the same
   way; an answer is the status (below 0 for a signal), the greatest memory in KiB, and what the program wrote on
   standard output and on standard error, each as its length and its bytes. Numbers have 32 bits. A program gets
   20 seconds of CPU, 60 of the clock and 8 GiB of addresses, of which 64 threads set some aside that they never use:
   8 MiB each for a stack, 128 for a heap. It is a small program of its own since the memory of a child counts from its
   parent's. */
#define _GNU_SOURCE
#include <signal.h>
#include <stdint.h>
#include <stdio.h>
#include <stdlib.h>
#include <sys/mman.h>
#include <sys/resource.h>
#include <sys/wait.h>
#include <unistd.h>

static volatile sig_atomic_t child;

static void stop(int number)
{
    (void)number;
    if (child > 0)
        kill(child, SIGKILL);
}

static void fail(const char *what)
{
    perror(what);
    exit(1);
}

static uint32_t read_number(void)
{
    uint32_t number;
    if (fread(&number, sizeof number, 1, stdin) != 1)
        exit(0);
    return number;
}

/* The next bytes of the request, with a zero after them. */
static char *read_bytes(uint32_t *length)
{
    *length = read_number();
    char *bytes = malloc((size_t)*length + 1);
    if (!bytes || fread(bytes, 1, *length, stdin) != *length)
        fail("request");
    bytes[*length] = 0;
    return bytes;
}

static void write_number(uint32_t number)
{
    if (fwrite(&number, sizeof number, 1, stdout) != 1)
        fail("answer");
}

/* Empties a file in memory and goes to its start. */
static void empty(int file)
{
    if (ftruncate(file, 0) || lseek(file, 0, SEEK_SET))
        fail("file in memory");
}

/* Writes the bytes of a file in memory into the answer. */
static void write_file(int file)
{
    off_t length = lseek(file, 0, SEEK_END);
    write_number((uint32_t)length);
    for (off_t at = 0; at < length;) {
        char piece[65536];
        ssize_t found = pread(file, piece, sizeof piece, at);
        if (found <= 0 || fwrite(piece, 1, (size_t)found, stdout) != (size_t)found)
            fail("answer");
        at += found;
    }
}

static void limit(int what, rlim_t most)
{
    struct rlimit both = {most, most};
    setrlimit(what, &both);
}

static void run(char **words, int input, int output, int faults)
{
    pid_t started = vfork();
    if (started < 0)
        fail("vfork");
    if (started == 0) {
        dup2(input, 0);
        dup2(output, 1);
        dup2(faults, 2);
        limit(RLIMIT_CPU, 20);
        limit(RLIMIT_AS, (rlim_t)8 << 30);
        execv(words[0], words);
        _exit(127);
    }
    int status;
    struct rusage used;
    child = started;
    alarm(60);
    while (wait4(started, &status, 0, &used) < 0)
        ;
    alarm(0);
    child = 0;
    write_number((uint32_t)(WIFEXITED(status) ? WEXITSTATUS(status) : -WTERMSIG(status)));
    write_number((uint32_t)used.ru_maxrss);
    write_file(output);
    write_file(faults);
    if (fflush(stdout))
        fail("answer");
}

int main(void)
{
    int files[3];
    for (int i = 0; i < 3; i++)
        if ((files[i] = memfd_create("stream", MFD_CLOEXEC)) < 0)
            fail("memfd_create");
    signal(SIGALRM, stop);
    for (;;) {
        uint32_t count = read_number(), length;
        char **words = calloc((size_t)count + 1, sizeof *words);
        if (!words)
            fail("words");
        for (uint32_t i = 0; i < count; i++)
            words[i] = read_bytes(&length);
        char *input = read_bytes(&length);
        for (int i = 0; i < 3; i++)
            empty(files[i]);
        if (write(files[0], input, length) != (ssize_t)length || lseek(files[0], 0, SEEK_SET))
            fail("standard input");
        run(words, files[0], files[1], files[2]);
        for (uint32_t i = 0; i < count; i++)
            free(words[i]);
        free(words);
        free(input);
    }
}
