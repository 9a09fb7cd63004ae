/* Every entry point of qewaris.h behind one shape, so that it can be asked for by its name. */
#ifndef ENTRIES_H
#define ENTRIES_H

#include "harness.h"

struct qewaris_record;

/* What an entry point is called with: the file, a service number, and a record for the writer. */
struct call {
    const struct input *in;
    size_t service;
    const struct qewaris_record *record;
};

/* An entry point: its name, and a call of it that says whether it answered QEWARIS_OK. */
struct entry {
    const char *name;
    int (*ask)(const struct call *call);
};

enum { ENTRIES = 15 };

extern const struct entry entries[ENTRIES];

/* The entry point of this name, or null. */
const struct entry *entry_named(const char *name);

/* Where the stack of the caller ended when an entry point was called last. */
extern uintptr_t caller_stack;

#endif
