/* Every entry point of qewaris.h behind one shape. */
#include "entries.h"

#include <qewaris.h>
#include <string.h>

uintptr_t caller_stack;

/* Keeps the stack pointer just before a call; the result has its place above it, the arguments and all else below. */
#define MARK_STACK() __asm__ volatile("mov %%rsp, %0" : "=m"(caller_stack))

/* The four arguments that most of them begin with. */
#define FILE_OF(call) (const uint8_t *)(call)->in->name, (call)->in->name_len, (call)->in->bytes, (call)->in->len

#define ENTRY_OF_FILE(function)                               \
    static int ask_##function(const struct call *call)        \
    {                                                         \
        MARK_STACK();                                         \
        return function(FILE_OF(call)).number == QEWARIS_OK;  \
    }

#define ENTRY_OF_SERVICE(function)                                           \
    static int ask_##function(const struct call *call)                       \
    {                                                                        \
        MARK_STACK();                                                        \
        return function(FILE_OF(call), call->service).number == QEWARIS_OK;  \
    }

ENTRY_OF_FILE(qewaris_check_iwd)
ENTRY_OF_FILE(qewaris_check_connman)
ENTRY_OF_FILE(qewaris_iwd_settings_of)
ENTRY_OF_FILE(qewaris_iwd_passphrase)
ENTRY_OF_FILE(qewaris_iwd_domain_name)
ENTRY_OF_FILE(qewaris_global_name)
ENTRY_OF_FILE(qewaris_global_description)
ENTRY_OF_FILE(qewaris_iwd_record)
ENTRY_OF_SERVICE(qewaris_service_settings_of)
ENTRY_OF_SERVICE(qewaris_service_name)
ENTRY_OF_SERVICE(qewaris_service_passphrase)
ENTRY_OF_SERVICE(qewaris_service_domain)
ENTRY_OF_SERVICE(qewaris_service_record)

static uint8_t name_out[QEWARIS_NAME_MAX];
static uint8_t file_out[QEWARIS_FILE_MAX];

static int ask_qewaris_write_iwd(const struct call *call)
{
    MARK_STACK();
    return qewaris_write_iwd(*call->record, name_out, sizeof name_out, file_out, sizeof file_out).number == QEWARIS_OK;
}

static int ask_qewaris_move_service(const struct call *call)
{
    MARK_STACK();
    return qewaris_move_service(FILE_OF(call), call->service, name_out, sizeof name_out, file_out, sizeof file_out).number ==
           QEWARIS_OK;
}

#define ENTRY(function) {#function, ask_##function}

const struct entry entries[ENTRIES] = {
    ENTRY(qewaris_check_iwd),
    ENTRY(qewaris_check_connman),
    ENTRY(qewaris_iwd_settings_of),
    ENTRY(qewaris_service_settings_of),
    ENTRY(qewaris_iwd_passphrase),
    ENTRY(qewaris_iwd_domain_name),
    ENTRY(qewaris_global_name),
    ENTRY(qewaris_global_description),
    ENTRY(qewaris_service_name),
    ENTRY(qewaris_service_passphrase),
    ENTRY(qewaris_service_domain),
    ENTRY(qewaris_iwd_record),
    ENTRY(qewaris_service_record),
    ENTRY(qewaris_write_iwd),
    ENTRY(qewaris_move_service),
};

const struct entry *entry_named(const char *name)
{
    for (int i = 0; i < ENTRIES; i++)
        if (strcmp(name, entries[i].name) == 0)
            return &entries[i];
    return NULL;
}
