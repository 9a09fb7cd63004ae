/* Qewaris: reads a file and gives its join record. The task is one of
 *
 *   check      the reading alone: accepted, or the first fault
 *   record     the reading, and the join record of the file, or of the last service of a ConnMan file
 *   records    the reading, and the join record of every service
 *   refusal    the reading alone, of a file that is refused: the number of its refusal
 *   FUNCTION   one entry point by its name, on the last service or, as FUNCTION:3, on another; the writer gets the record of
 *              that service
 *
 * `record` is the default. What is held to the other parsers is qewaris_iwd_record and qewaris_service_record alone. */
#include "entries.h"

#include <qewaris.h>
#include <stdio.h>
#include <stdlib.h>
#include <string.h>

static enum { CHECK, RECORD, RECORDS, REFUSAL, ENTRY_POINT } task;
static const struct entry *entry;
static struct call call;
static qewaris_record written;

static qewaris_reading check(const struct input *in)
{
    const uint8_t *name = (const uint8_t *)in->name;
    if (in->is_iwd)
        return qewaris_check_iwd(name, in->name_len, in->bytes, in->len);
    return qewaris_check_connman(name, in->name_len, in->bytes, in->len);
}

static qewaris_record_answer record(const struct input *in, size_t service)
{
    const uint8_t *name = (const uint8_t *)in->name;
    if (in->is_iwd)
        return qewaris_iwd_record(name, in->name_len, in->bytes, in->len);
    return qewaris_service_record(name, in->name_len, in->bytes, in->len, service);
}

static int choose(const char *word)
{
    static const char *const words[ENTRY_POINT] = {"check", "record", "records", "refusal"};
    for (int i = 0; i < ENTRY_POINT; i++)
        if (strcmp(word, words[i]) == 0)
            return task = i, 1;
    char name[64];
    snprintf(name, sizeof name, "%.*s", (int)strcspn(word, ":"), word);
    task = ENTRY_POINT;
    entry = entry_named(name);
    return entry != NULL;
}

/* The service that a task names, or the last. */
static size_t service_of(const char *word, const struct input *in)
{
    const char *colon = strchr(word, ':');
    return colon ? strtoul(colon + 1, NULL, 10) : check(in).services;
}

int prepare(const struct input *in, const char *word)
{
    if (!word)
        word = "record";
    if (!choose(word))
        return 0;
    size_t service = service_of(word, in);
    written = record(in, service).record;
    call = (struct call){in, service, &written};
    return 1;
}

size_t work(const struct input *in)
{
    if (task == ENTRY_POINT)
        return entry->ask(&call) ? 1 : 0;
    qewaris_reading reading = check(in);
    if (reading.number != QEWARIS_OK)
        return task == REFUSAL ? reading.number : 0;
    size_t first = reading.services;
    if (task == RECORDS)
        first = in->is_iwd ? 0 : 1;
    for (size_t service = first; task != CHECK && service <= reading.services; service++)
        if (record(in, service).number != QEWARIS_OK)
            return 0;
    return reading.settings;
}
