/* How much stack an entry point uses: `stack FILE FUNCTION` prints it in bytes. Arguments that are passed on the stack and
 * the return address count; the place of the result is the caller's.
 *
 * The call runs on a stack of its own that was painted before, and the lowest byte that it left changed tells how deep it
 * went. Two paints, so that a byte which happens to be written with the colour of one of them is seen with the other. */
#include "entries.h"

#include <qewaris.h>
#include <stdio.h>
#include <string.h>
#include <ucontext.h>

enum { STACK = 1 << 20 };

static uint8_t stack[STACK] __attribute__((aligned(64)));
static ucontext_t outside, inside;
static const struct entry *entry;
static struct call call;
static int answered;

static void ask(void)
{
    answered = entry->ask(&call);
}

/* How far below its caller's stack the entry point changed a stack of this colour. */
static size_t depth(uint8_t colour)
{
    memset(stack, colour, STACK);
    getcontext(&inside);
    inside.uc_stack.ss_sp = stack;
    inside.uc_stack.ss_size = STACK;
    inside.uc_link = &outside;
    makecontext(&inside, ask, 0);
    swapcontext(&outside, &inside);
    size_t low = 0;
    while (low < STACK && stack[low] == colour)
        low++;
    return (size_t)(caller_stack - (uintptr_t)(stack + low));
}

int main(int argc, char **argv)
{
    if (argc != 3) {
        fprintf(stderr, "usage: %s FILE FUNCTION\n", argv[0]);
        return 2;
    }
    struct input in = read_input(argv[1]);
    entry = entry_named(argv[2]);
    if (!entry)
        stop("no such function", argv[2]);
    const uint8_t *name = (const uint8_t *)in.name;
    size_t last = qewaris_check_connman(name, in.name_len, in.bytes, in.len).services;
    qewaris_record record = qewaris_service_record(name, in.name_len, in.bytes, in.len, last).record;
    call = (struct call){&in, last, &record};
    size_t one = depth(0xa5);
    size_t other = depth(0x5a);
    if (!answered)
        stop("refused by the function", argv[2]);
    printf("%zu\n", one > other ? one : other);
    return 0;
}
