/* Each enumerator of the header, met through the library: a table of files and records, each with the value that the paper gives
 * it. The numbers are written out, so that a code that is changed in the library and in the header alike is told too. It is
 * compiled as C11 and as C++17, prints what fails, and exits with 1 then. */
#include "largest.h"
#include "qewaris.h"

#include <stdio.h>
#include <string.h>

typedef struct row {
    const char *enumerator;
    size_t enumerated;
    size_t value;
    size_t (*ask)(const struct row *);
    const char *name;
    const char *file;
} row;

#define FILE_OF(row) (const uint8_t *)(row)->name, strlen((row)->name), (const uint8_t *)(row)->file, strlen((row)->file)

static uint8_t name_out[QEWARIS_NAME_MAX], file_out[QEWARIS_FILE_MAX];

/* ---- What is asked */

static size_t check_iwd(const row *r) { return qewaris_check_iwd(FILE_OF(r)).number; }
static size_t check_connman(const row *r) { return qewaris_check_connman(FILE_OF(r)).number; }

static size_t check_over_long(const row *r) {
    static uint8_t file[16385];
    memset(file, '\n', sizeof file);
    return qewaris_check_iwd((const uint8_t *)r->name, strlen(r->name), file, sizeof file).number;
}

static size_t move_first(const row *r) {
    return qewaris_move_service(FILE_OF(r), 1, name_out, sizeof name_out, file_out, sizeof file_out).number;
}

static size_t move_without_room(const row *r) { return qewaris_move_service(FILE_OF(r), 1, name_out, 9, file_out, 0).number; }
static size_t record_of_second(const row *r) { return qewaris_service_record(FILE_OF(r), 2).number; }

static size_t write_zeros(const row *r) {
    qewaris_record record;
    (void)r;
    memset(&record, 0, sizeof record);
    return qewaris_write_iwd(record, name_out, sizeof name_out, file_out, sizeof file_out).number;
}

static size_t iwd_hidden(const row *r) { return qewaris_iwd_settings_of(FILE_OF(r)).general.hidden; }

static qewaris_service_settings settings(const row *r) { return qewaris_service_settings_of(FILE_OF(r), 1); }
static size_t type(const row *r) { return settings(r).network.service_type; }
static size_t security(const row *r) { return settings(r).network.security; }
static size_t setting_ipv4(const row *r) { return settings(r).addresses.ipv4; }
static size_t setting_ipv6(const row *r) { return settings(r).addresses.ipv6; }
static size_t privacy(const row *r) { return settings(r).addresses.privacy; }

static qewaris_record record(const row *r) { return qewaris_service_record(FILE_OF(r), 1).record; }
static size_t iwd_credential(const row *r) { return qewaris_iwd_record(FILE_OF(r)).record.credential; }
static size_t credential(const row *r) { return record(r).credential; }
static size_t ipv4(const row *r) { return record(r).ipv4; }
static size_t ipv6(const row *r) { return record(r).ipv6; }

static size_t name_of_largest(const row *r) {
    (void)r;
    return qewaris_write_iwd(largest_name(), name_out, sizeof name_out, file_out, sizeof file_out).name_len;
}

static size_t file_of_largest(const row *r) {
    (void)r;
    return qewaris_write_iwd(largest_file(), name_out, sizeof name_out, file_out, sizeof file_out).file_len;
}

/* ---- The rows, in the order of the header */

#define ROW(enumerator, value, ask, name, file) {#enumerator, enumerator, value, ask, name, file}
#define WIFI "[service_a]\nType = wifi\nName = Desk\n"

static const row rows[] = {
    ROW(QEWARIS_OK, 0, check_iwd, "Desk.open", ""),
    ROW(QEWARIS_SIZE, 1, check_over_long, "Desk.open", ""),
    ROW(QEWARIS_FILE_NAME, 2, check_iwd, "=4465736b.psk", ""),
    ROW(QEWARIS_UNRECOGNIZED, 3, check_iwd, "Desk.open", "Hidden\n"),
    ROW(QEWARIS_EXTENSION, 4, check_iwd, "Desk.open", "[@pem@a]\n"),
    ROW(QEWARIS_BAD_HEADER, 5, check_connman, "shop.config", "[global\n"),
    ROW(QEWARIS_UNKNOWN_GROUP, 6, check_iwd, "Desk.open", "[global]\n"),
    ROW(QEWARIS_REPEATED_GROUP, 7, check_iwd, "Desk.open", "[IPv6]\n[IPv6]\n"),
    ROW(QEWARIS_NO_GROUP, 8, check_iwd, "Desk.open", "Hidden=true\n"),
    ROW(QEWARIS_UNKNOWN_KEY, 9, check_iwd, "Desk.open", "[IPv6]\nHidden=true\n"),
    ROW(QEWARIS_REPEATED_KEY, 10, check_iwd, "Desk.open", "[IPv6]\nEnabled=true\nEnabled=true\n"),
    ROW(QEWARIS_VALUE_TEXT, 11, check_iwd, "Desk.psk", "[Security]\nPassphrase=low tide\\\n"),
    ROW(QEWARIS_VALUE_KIND, 12, check_iwd, "Desk.psk", "[Security]\nPassphrase=lowtide\n"),
    ROW(QEWARIS_MANY_SERVICES, 13, check_connman, "shop.config",
        "[service_a]\n[service_b]\n[service_c]\n[service_d]\n[service_e]\n[service_f]\n[service_g]\n[service_h]\n[service_i]\n"),
    ROW(QEWARIS_MISSING, 14, check_iwd, "Desk.psk", ""),
    ROW(QEWARIS_CONTRADICTION, 15, check_iwd, "Desk.open", "[Security]\nPassphrase=low tide\n"),
    ROW(QEWARIS_NO_PLACE, 16, move_first, "shop.config", WIFI "IPv4 = off\n"),
    ROW(QEWARIS_SHORT_BUFFER, 17, move_without_room, "shop.config", WIFI "Hidden = true\n"),
    ROW(QEWARIS_NO_SERVICE, 18, record_of_second, "shop.config", WIFI),
    ROW(QEWARIS_MALFORMED, 19, write_zeros, "", ""),

    ROW(QEWARIS_ABSENT, 0, iwd_hidden, "Desk.open", "[Settings]\n"),
    ROW(QEWARIS_NO, 1, iwd_hidden, "Desk.open", "[Settings]\nHidden=false\n"),
    ROW(QEWARIS_YES, 2, iwd_hidden, "Desk.open", "[Settings]\nHidden=true\n"),

    ROW(QEWARIS_TYPE_WIFI, 1, type, "shop.config", WIFI),
    ROW(QEWARIS_TYPE_ETHERNET, 2, type, "shop.config", "[service_a]\nType = ethernet\n"),
    ROW(QEWARIS_SECURITY_PSK, 1, security, "shop.config", WIFI "Security = psk\nPassphrase = low tide\n"),
    ROW(QEWARIS_SECURITY_IEEE8021X, 2, security, "shop.config", WIFI "Security = ieee8021x\n"),
    ROW(QEWARIS_SECURITY_NONE, 3, security, "shop.config", WIFI "Security = none\n"),
    ROW(QEWARIS_SECURITY_WEP, 4, security, "shop.config", WIFI "Security = wep\n"),
    ROW(QEWARIS_SETTING_IPV4_DHCP, 1, setting_ipv4, "shop.config", WIFI "IPv4 = dhcp\n"),
    ROW(QEWARIS_SETTING_IPV4_OFF, 2, setting_ipv4, "shop.config", WIFI "IPv4 = off\n"),
    ROW(QEWARIS_SETTING_IPV4_STATIC, 3, setting_ipv4, "shop.config", WIFI "IPv4 = 10.0.0.2/24\n"),
    ROW(QEWARIS_SETTING_IPV6_AUTO, 1, setting_ipv6, "shop.config", WIFI "IPv6 = auto\n"),
    ROW(QEWARIS_SETTING_IPV6_OFF, 2, setting_ipv6, "shop.config", WIFI "IPv6 = off\n"),
    ROW(QEWARIS_SETTING_IPV6_STATIC, 3, setting_ipv6, "shop.config", WIFI "IPv6 = 2001:db8::2/64\n"),
    ROW(QEWARIS_PRIVACY_DISABLED, 1, privacy, "shop.config", WIFI "IPv6.Privacy = disabled\n"),
    ROW(QEWARIS_PRIVACY_ENABLED, 2, privacy, "shop.config", WIFI "IPv6.Privacy = enabled\n"),
    ROW(QEWARIS_PRIVACY_PREFERRED, 3, privacy, "shop.config", WIFI "IPv6.Privacy = prefered\n"),

    ROW(QEWARIS_CREDENTIAL_NONE, 0, credential, "shop.config", WIFI),
    ROW(QEWARIS_CREDENTIAL_PASSPHRASE, 1, credential, "shop.config", WIFI "Passphrase = low tide\n"),
    ROW(QEWARIS_CREDENTIAL_KEY, 2, iwd_credential, "Desk.psk",
        "[Security]\nPreSharedKey=00112233445566778899aabbccddeeff00112233445566778899aabbccddeeff\n"),
    ROW(QEWARIS_IPV4_DHCP, 0, ipv4, "shop.config", WIFI "IPv4 = dhcp\n"),
    ROW(QEWARIS_IPV4_OFF, 1, ipv4, "shop.config", WIFI "IPv4 = off\n"),
    ROW(QEWARIS_IPV4_STATIC, 2, ipv4, "shop.config", WIFI "IPv4 = 10.0.0.2/24\n"),
    ROW(QEWARIS_IPV6_AUTO, 0, ipv6, "shop.config", WIFI "IPv6 = auto\n"),
    ROW(QEWARIS_IPV6_OFF, 1, ipv6, "shop.config", WIFI "IPv6 = off\n"),
    ROW(QEWARIS_IPV6_STATIC, 2, ipv6, "shop.config", WIFI "IPv6 = 2001:db8::2/64\n"),

    ROW(QEWARIS_NAME_MAX, 70, name_of_largest, "", ""),
    ROW(QEWARIS_FILE_MAX, 944, file_of_largest, "", ""),
};

int main(void) {
    int failures = 0;
    for (size_t i = 0; i < sizeof rows / sizeof *rows; i++) {
        size_t answered = rows[i].ask(&rows[i]);
        if (answered != rows[i].value || rows[i].enumerated != rows[i].value) {
            printf("enumerators: %s is %zu and must be %zu; the library answers %zu\n", rows[i].enumerator, rows[i].enumerated,
                   rows[i].value, answered);
            failures++;
        }
    }
    if (failures == 0) {
        printf("enumerators: %zu are met\n", sizeof rows / sizeof *rows);
    }
    return failures != 0;
}
