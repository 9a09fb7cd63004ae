/* inih, a small parser that calls back for each setting: parses a file and keeps a copy of each value. It has no getters and
 * judges nothing, so this is the least that a program on top of it does. */
#include "harness.h"

#include <ini.h>
#include <stdlib.h>
#include <string.h>

enum { MOST = 256 };

struct values {
    char *text[MOST];
    size_t count;
};

static int keep(void *user, const char *section, const char *key, const char *value)
{
    (void)section;
    (void)key;
    struct values *values = user;
    if (values->count == MOST)
        return 0;
    values->text[values->count++] = strdup(value);
    return 1;
}

int prepare(const struct input *in, const char *task)
{
    return !task && work(in) != 0;
}

size_t work(const struct input *in)
{
    struct values values;
    values.count = 0;
    int broken = ini_parse_string((const char *)in->bytes, keep, &values);
    for (size_t i = 0; i < values.count; i++)
        free(values.text[i]);
    return broken ? 0 : values.count;
}
