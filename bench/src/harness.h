/* What the measured programs share: the input file, and the two functions that each of them gives. */
#ifndef HARNESS_H
#define HARNESS_H

#include <stddef.h>
#include <stdint.h>

/* A file under its name without the folder. A zero byte stands behind the bytes, for parsers that need one. */
struct input {
    const char *name;
    size_t name_len;
    const uint8_t *bytes;
    size_t len;
    int is_iwd;
};

/* The kinds of value for which a parser has a getter of its own. */
enum kind { STRING, YES_NO, LIST, HEX };

/* Ends the program with 1 and a message about a file or a function. */
_Noreturn void stop(const char *what, const char *name);

/* Reads the file at a path, or ends the program. */
struct input read_input(const char *path);

/* The kind of a key of either dialect, by its name. */
enum kind kind_of(const char *key);

/* ---- What a program gives */

/* Once, before anything is measured; `task` may be null. 0 where the program knows no such task, or refuses the file. */
int prepare(const struct input *in, const char *task);

/* The measured work on one file: how many values it gave, 0 where the file is refused. */
size_t work(const struct input *in);

#endif
