/* The input file, and the kinds of its keys. */
#include "harness.h"

#include <stdio.h>
#include <stdlib.h>
#include <string.h>

void stop(const char *what, const char *name)
{
    fprintf(stderr, "bench: %s: %s\n", what, name);
    exit(1);
}

struct input read_input(const char *path)
{
    FILE *from = fopen(path, "rb");
    if (!from)
        stop("cannot be opened", path);
    static uint8_t bytes[1 << 16];
    size_t len = fread(bytes, 1, sizeof bytes - 1, from);
    fclose(from);
    bytes[len] = 0;
    const char *slash = strrchr(path, '/');
    const char *name = slash ? slash + 1 : path;
    const char *dot = strrchr(name, '.');
    return (struct input){name, strlen(name), bytes, len, !dot || strcmp(dot, ".config") != 0};
}

enum kind kind_of(const char *key)
{
    static const char *const yes_no[] = {"AutoConnect", "Hidden", "AlwaysRandomizeAddress", "SendHostname", "Enabled"};
    static const char *const lists[] = {"DNS", "Nameservers", "SearchDomains", "Timeservers"};
    for (size_t i = 0; i < sizeof yes_no / sizeof *yes_no; i++)
        if (strcmp(key, yes_no[i]) == 0)
            return YES_NO;
    for (size_t i = 0; i < sizeof lists / sizeof *lists; i++)
        if (strcmp(key, lists[i]) == 0)
            return LIST;
    return strcmp(key, "PreSharedKey") == 0 ? HEX : STRING;
}
