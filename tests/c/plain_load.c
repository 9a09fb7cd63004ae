/* The crate `text` has the class of each of the 256 bytes in one table, of which the compiler makes one load. It could make
 * comparisons of it, or lay it on the stack for each byte: the answers would be the same, and slower. So instructions are counted,
 * in the archive as it is: by how much a longer key makes the check of a file dearer. The check runs in a child that is stepped by
 * ptrace. It is compiled as C11, prints what a byte of a key takes, and exits with 1 where that is too much. Where ptrace is not
 * allowed nothing is counted, and it says so. */
#define _GNU_SOURCE
#include "qewaris.h"

#include <errno.h>
#include <signal.h>
#include <stdio.h>
#include <stdlib.h>
#include <string.h>
#include <sys/ptrace.h>
#include <sys/wait.h>
#include <unistd.h>

/* With the plain load a byte takes 6, and the search for the end of its line half of one more; with comparisons 12 to 15. */
#define AT_MOST 8

enum { SHORT_KEY = 1024, LONG_KEY = 2048 };

/* How a child ends. */
enum { ANSWERED, WRONG_ANSWER, NOT_TRACED };

/* ---- The file */

static const char header[] = "[service_a]\n";
static const char key_bytes[] = "abcdefghijklmnopqrstuvwxyz0123456789_-.";
static const char value[] = " = x\n";

typedef struct text {
    size_t length;
    uint8_t bytes[LONG_KEY + sizeof header + sizeof value];
} text;

static void add(text *file, const char *bytes, size_t length) {
    memcpy(file->bytes + file->length, bytes, length);
    file->length += length;
}

/* A service with one setting, whose key has so many bytes and is unknown. */
static text with_key(size_t length) {
    text file = {0, {0}};
    add(&file, header, sizeof header - 1);
    for (size_t i = 0; i < length; i++) add(&file, key_bytes + i % (sizeof key_bytes - 1), 1);
    add(&file, value, sizeof value - 1);
    return file;
}

static int is_refused(const text *file) {
    static const uint8_t name[] = "a.config";
    qewaris_reading reading = qewaris_check_connman(name, sizeof name - 1, file->bytes, file->length);
    return reading.number == QEWARIS_UNKNOWN_KEY && reading.line == 2;
}

/* ---- The counting */

_Noreturn static void give_up(const char *why) {
    printf("plain_load: instructions were not counted: %s\n", why);
    exit(1);
}

/* Asks once, so that the linker has nothing left to do, stops until it is stepped, and asks again. */
_Noreturn static void be_stepped(const text *file) {
    int first = is_refused(file);
    if (ptrace(PTRACE_TRACEME, 0, NULL, NULL) != 0) _exit(NOT_TRACED);
    raise(SIGSTOP);
    _exit(first && is_refused(file) ? ANSWERED : WRONG_ANSWER);
}

/* The signal with which a stopped child goes on: none where the stepping has stopped it. */
static long signal_on(int status) {
    int stop = WSTOPSIG(status);
    return stop == SIGTRAP || stop == SIGSTOP ? 0 : stop;
}

/* How many instructions a child takes for a file, with some for stopping and ending, as many for each file. */
static long steps(const text *file) {
    int status;
    long count = 0;
    fflush(stdout);
    pid_t child = fork();
    if (child == 0) be_stepped(file);
    if (child < 0 || waitpid(child, &status, 0) != child) give_up(strerror(errno));
    while (WIFSTOPPED(status)) {
        if (ptrace(PTRACE_SINGLESTEP, child, NULL, signal_on(status)) != 0) give_up(strerror(errno));
        if (waitpid(child, &status, 0) != child) give_up(strerror(errno));
        count++;
    }
    if (!WIFEXITED(status)) give_up("the child ended by a signal");
    if (WEXITSTATUS(status) == NOT_TRACED) {
        printf("plain_load: NOT COUNTED, since ptrace is not allowed here\n");
        exit(0);
    }
    if (WEXITSTATUS(status) != ANSWERED) give_up("the answer is not refusal 9 at line 2");
    return count;
}

int main(void) {
    text short_key = with_key(SHORT_KEY), long_key = with_key(LONG_KEY);
    double each = (double)(steps(&long_key) - steps(&short_key)) / (LONG_KEY - SHORT_KEY);
    if (each < 1) give_up("a longer key takes no more of them");
    if (each > AT_MOST) {
        printf("plain_load: a byte of a key takes %.2f instructions, more than %d: the table of bytes is no longer a plain load\n",
               each, AT_MOST);
        return 1;
    }
    printf("plain_load: a byte of a key takes %.2f instructions, and may take %d\n", each, AT_MOST);
    return 0;
}
