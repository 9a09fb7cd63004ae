/* How much room a written file can take: the record with the largest file and the one with the largest name, and services that
 * have these records, are written into buffers of exactly QEWARIS_NAME_MAX and QEWARIS_FILE_MAX bytes, and refused where a buffer
 * is one byte too short. It is compiled as C11 and as C++17, prints what fails, and exits with 1 then. */
#define TEST "room"
#include "expect.h"
#include "largest.h"
#include "qewaris.h"

#include <stdio.h>
#include <string.h>

/* How many bytes a name and a file have, or a buffer for each. */
typedef struct room {
    size_t name_len;
    size_t file_len;
} room;

/* A network by its record, and by the ConnMan file whose only service has that record; and the room that it needs. */
typedef struct network {
    qewaris_record record;
    char service[16384];          /* as long as a file may be */
    room needed;
} network;

static network with_largest_file, with_largest_name;

/* ---- The two networks */

/* The longest name of a network with a key: `=`, 64 hex digits and `.psk`. */
#define PSK_NAME_MAX 69
#define ALL_255 "255.255.255.255"
#define ALL_FFFF "ffff:ffff:ffff:ffff:ffff:ffff:ffff:ffff"
#define SERVICE "[service_till]\nType = wifi\nSSID = %s\n"

/* Fills a text with a pair of bytes again and again, but for the zero at its end. */
static void fill(char *text, size_t size, const char *pair) {
    for (size_t i = 0; i < size - 1; i++) text[i] = pair[i % 2];
    text[size - 1] = 0;
}

static void make_networks(void) {
    char ssid[2 * sizeof with_largest_file.record.name + 1];
    char passphrase[2 * sizeof with_largest_file.record.passphrase + 1];
    char domain[2 * sizeof with_largest_file.record.domain + 1];
    fill(ssid, sizeof ssid, "ff");
    fill(passphrase, sizeof passphrase, "\\\\");
    fill(domain, sizeof domain, "\\n");

    with_largest_file.record = largest_file();
    with_largest_file.needed.name_len = PSK_NAME_MAX;
    with_largest_file.needed.file_len = QEWARIS_FILE_MAX;
    snprintf(with_largest_file.service, sizeof with_largest_file.service,
             SERVICE "Hidden = true\nPassphrase = %s\nIPv4 = " ALL_255 "/32/" ALL_255 "\nDomain = %s\n"
                     "IPv6 = " ALL_FFFF "/128/" ALL_FFFF "\n"
                     "Nameservers = " ALL_255 "," ALL_255 "," ALL_255 "," ALL_255 "\n",
             ssid, passphrase, domain);

    with_largest_name.record = largest_name();
    with_largest_name.needed.name_len = QEWARIS_NAME_MAX;
    with_largest_name.needed.file_len = 0;
    snprintf(with_largest_name.service, sizeof with_largest_name.service, SERVICE, ssid);
}

/* ---- The rows: a network, the buffers that are lent, and the number of the answer */

typedef struct row {
    const char *what;
    const network *asked;
    room lent;
    uint8_t number;
} row;

static const row rows[] = {
    {"the largest file", &with_largest_file, {QEWARIS_NAME_MAX, QEWARIS_FILE_MAX}, QEWARIS_OK},
    {"the largest file, and its name with no byte to spare", &with_largest_file, {PSK_NAME_MAX, QEWARIS_FILE_MAX}, QEWARIS_OK},
    {"the largest file with a byte too few", &with_largest_file, {QEWARIS_NAME_MAX, QEWARIS_FILE_MAX - 1}, QEWARIS_SHORT_BUFFER},
    {"its name with a byte too few", &with_largest_file, {PSK_NAME_MAX - 1, QEWARIS_FILE_MAX}, QEWARIS_SHORT_BUFFER},
    {"the largest name", &with_largest_name, {QEWARIS_NAME_MAX, QEWARIS_FILE_MAX}, QEWARIS_OK},
    {"the largest name, and its file with no byte", &with_largest_name, {QEWARIS_NAME_MAX, 0}, QEWARIS_OK},
    {"the largest name with a byte too few", &with_largest_name, {QEWARIS_NAME_MAX - 1, QEWARIS_FILE_MAX}, QEWARIS_SHORT_BUFFER},
};

/* ---- What is asked */

#define OLD_BYTE 0xa5
static uint8_t name[QEWARIS_NAME_MAX], file[QEWARIS_FILE_MAX];

static qewaris_written written(const network *n, room lent) {
    return qewaris_write_iwd(n->record, name, lent.name_len, file, lent.file_len);
}

#define SERVICE_OF(n) BYTES("till.config"), (const uint8_t *)(n)->service, strlen((n)->service), 1

static qewaris_written moved(const network *n, room lent) {
    return qewaris_move_service(SERVICE_OF(n), name, lent.name_len, file, lent.file_len);
}

/* Whether a buffer is as it was from a place on. */
static int is_old(const uint8_t *buffer, size_t size, size_t from) {
    while (from < size && buffer[from] == OLD_BYTE) from++;
    return from == size;
}

/* Whether the name and the file in the buffers are read as the network's record. */
static int reads_back(const network *n) {
    qewaris_record_answer read = qewaris_iwd_record(name, n->needed.name_len, file, n->needed.file_len);
    return read.number == QEWARIS_OK && memcmp(&read.record, &n->record, sizeof read.record) == 0;
}

/* Whether a row is answered as it says: with the lengths that the network needs, or with zeros; behind them the buffers are as
 * they were. */
static int is_answered(const row *r, qewaris_written (*ask)(const network *, room)) {
    const room nothing = {0, 0};
    room made = r->number == QEWARIS_OK ? r->asked->needed : nothing;
    memset(name, OLD_BYTE, sizeof name);
    memset(file, OLD_BYTE, sizeof file);
    qewaris_written answer = ask(r->asked, r->lent);
    return answer.number == r->number && answer.line == 0 && answer.name_len == made.name_len && answer.file_len == made.file_len &&
           is_old(name, sizeof name, made.name_len) && is_old(file, sizeof file, made.file_len) &&
           (r->number != QEWARIS_OK || reads_back(r->asked));
}

static void expect_same_record(const network *n, const char *what) {
    qewaris_record_answer found = qewaris_service_record(SERVICE_OF(n));
    expect(found.number == QEWARIS_OK && memcmp(&found.record, &n->record, sizeof found.record) == 0, what);
}

int main(void) {
    make_networks();
    expect_same_record(&with_largest_file, "the service with the largest file has its record");
    expect_same_record(&with_largest_name, "the service with the largest name has its record");
    for (size_t i = 0; i < sizeof rows / sizeof *rows; i++) {
        char moving[100];
        snprintf(moving, sizeof moving, "%s, moved", rows[i].what);
        expect(is_answered(&rows[i], written), rows[i].what);
        expect(is_answered(&rows[i], moved), moving);
    }
    if (failures == 0) {
        printf("room: %d bytes for a name and %d for a file are reached, and are enough\n", QEWARIS_NAME_MAX, QEWARIS_FILE_MAX);
    }
    return failures != 0;
}
