/* Qewaris: the wireless files of shop tills, for programs in C and C++ on x86-64.
 *
 * Reads iwd's and ConnMan's network files, answers each broken one with a number and a line, gives typed settings and a join
 * record, writes iwd files, and moves ConnMan services to iwd. Link with libqewaris.a, which `packaging/archive` makes; it
 * needs no library but C's own, keeps no state and allocates nothing, so every function may be called from any thread.
 *
 * Answers. Every answer has a `number`: QEWARIS_OK, or the refusal. With a refusal comes the `line` that is to blame, counted
 * from 1, or 0 where no line is; every other member is then 0, and no byte of any lent buffer has changed. The answer to any
 * bytes, any service number, any record and any buffers is one of these numbers, and the functions are proved to give the one
 * that the rules give. No struct has padding, and `reserved` is always 0: an answer may be compared and kept as bytes.
 *
 * Bytes in and out. A file, its name and a buffer are each a pointer and a length; a null pointer with length 0 is an empty
 * one. Beyond that the caller owes what C asks of any such call: a pointer with a length above 0 points to that many bytes,
 * which may be read or, in a buffer, written; nothing else changes them during the call; and a buffer overlaps neither
 * another buffer nor the file nor its name. A file is given whole, under its name without a folder, as "Desk 4.psk".
 *
 * Strings have lengths and no zero byte behind them. An IPv4 address is four bytes and an IPv6 address sixteen, the first written
 * first.
 */
#ifndef QEWARIS_H
#define QEWARIS_H

#include <stddef.h>
#include <stdint.h>

#ifdef __cplusplus
extern "C" {
#endif

/* ---- Version */

/* The version of this header, 0.2.0: two digits for each of the last two parts. The function answers that of the library, which
 * may be another one as long as the layout is the same. */
#define QEWARIS_VERSION 200
uint32_t qewaris_version(void);

/* The layout of the structs. The library has a function whose name ends in its number, and every file that includes this header
 * refers to it, so that a program does not link with a library of another layout. The function answers the number. */
uint32_t qewaris_layout_2(void);
#if defined(__has_attribute) && __has_attribute(retain)
__attribute__((used, retain))
#else
__attribute__((used))
#endif
static uint32_t (*const qewaris_layout)(void) = qewaris_layout_2;

/* ---- Answers */

/* The numbers of the answers. */
enum {
    QEWARIS_OK = 0,
    QEWARIS_SIZE = 1,             /* file over 16,384 bytes */
    QEWARIS_FILE_NAME = 2,        /* file name breaks its rule */
    QEWARIS_UNRECOGNIZED = 3,     /* line is not blank, comment, header or setting */
    QEWARIS_EXTENSION = 4,        /* iwd: line starts with [@ */
    QEWARIS_BAD_HEADER = 5,       /* line starts with [ but is no header */
    QEWARIS_UNKNOWN_GROUP = 6,    /* unknown group */
    QEWARIS_REPEATED_GROUP = 7,   /* group named a second time */
    QEWARIS_NO_GROUP = 8,         /* setting before any group */
    QEWARIS_UNKNOWN_KEY = 9,      /* key not listed for its group */
    QEWARIS_REPEATED_KEY = 10,    /* key a second time in its group */
    QEWARIS_VALUE_TEXT = 11,      /* value is not UTF-8, holds byte 0 or 13, or is a string with a bad escape */
    QEWARIS_VALUE_KIND = 12,      /* value breaks its kind */
    QEWARIS_MANY_SERVICES = 13,   /* ninth service group */
    QEWARIS_MISSING = 14,         /* something needed is missing */
    QEWARIS_CONTRADICTION = 15,   /* settings contradict */
    QEWARIS_NO_PLACE = 16,        /* iwd has no place for it */
    QEWARIS_SHORT_BUFFER = 17,    /* a buffer is shorter than what must be written */
    QEWARIS_NO_SERVICE = 18,      /* service number is 0 or above the count */
    QEWARIS_MALFORMED = 19        /* record handed to the writer is malformed */
};

/* ---- Reading */

typedef struct qewaris_reading {
    size_t line;                  /* of the refusal */
    size_t settings;              /* how many setting lines an accepted file has */
    size_t services;              /* how many services; 0 for iwd */
    uint8_t number;
    uint8_t reserved[7];
} qewaris_reading;

/* Reads an iwd file under its name: accepted, or the first fault. */
qewaris_reading qewaris_check_iwd(const uint8_t *name, size_t name_len, const uint8_t *file, size_t file_len);

/* Reads a ConnMan file under its name: accepted, or the first fault. */
qewaris_reading qewaris_check_connman(const uint8_t *name, size_t name_len, const uint8_t *file, size_t file_len);

/* ---- Typed settings */

/* A yes/no that may be absent. */
enum { QEWARIS_ABSENT = 0, QEWARIS_NO = 1, QEWARIS_YES = 2 };

/* The words of a ConnMan service; 0 is absent. */
enum { QEWARIS_TYPE_WIFI = 1, QEWARIS_TYPE_ETHERNET = 2 };
enum { QEWARIS_SECURITY_PSK = 1, QEWARIS_SECURITY_IEEE8021X = 2, QEWARIS_SECURITY_NONE = 3, QEWARIS_SECURITY_WEP = 4 };
enum { QEWARIS_SETTING_IPV4_DHCP = 1, QEWARIS_SETTING_IPV4_OFF = 2, QEWARIS_SETTING_IPV4_STATIC = 3 };
enum { QEWARIS_SETTING_IPV6_AUTO = 1, QEWARIS_SETTING_IPV6_OFF = 2, QEWARIS_SETTING_IPV6_STATIC = 3 };
enum { QEWARIS_PRIVACY_DISABLED = 1, QEWARIS_PRIVACY_ENABLED = 2, QEWARIS_PRIVACY_PREFERRED = 3 };

/* iwd's group Settings. A yes/no is QEWARIS_ABSENT, _NO or _YES. */
typedef struct qewaris_iwd_general {
    uint8_t auto_connect;
    uint8_t hidden;
    uint8_t always_randomize_address;
    uint8_t has_address_override;
    uint8_t address_override[6];
} qewaris_iwd_general;

/* iwd's group Security. */
typedef struct qewaris_iwd_security {
    size_t passphrase_line;
    uint8_t has_pre_shared_key;
    uint8_t pre_shared_key[32];
    uint8_t reserved[7];
} qewaris_iwd_security;

/* iwd's group IPv4. */
typedef struct qewaris_iwd_ipv4 {
    size_t domain_name_line;
    size_t dns_count;             /* 1 to 4 */
    uint8_t dns[16];              /* four bytes for each server, in order */
    uint8_t has_address;
    uint8_t address[4];
    uint8_t has_gateway;
    uint8_t gateway[4];
    uint8_t has_broadcast;
    uint8_t broadcast[4];
    uint8_t netmask_length;       /* 1 to 32 */
    uint8_t send_hostname;
    uint8_t reserved[7];
} qewaris_iwd_ipv4;

/* iwd's group IPv6. */
typedef struct qewaris_iwd_ipv6 {
    uint8_t enabled;
    uint8_t has_address;
    uint8_t address[16];
    uint8_t prefix_length;        /* of Address, 1 to 128: 128 where it is left off */
    uint8_t has_gateway;
    uint8_t gateway[16];
} qewaris_iwd_ipv6;

/* The settings of an iwd file, by its groups. What is absent is 0; of an address, a MAC or a key `has_..` says whether it is
 * there. A string gives its line, and its bytes are looked up. */
typedef struct qewaris_iwd_settings {
    size_t line;                  /* of the refusal */
    uint8_t number;
    qewaris_iwd_general general;
    qewaris_iwd_ipv6 ipv6;
    uint8_t reserved[1];
    qewaris_iwd_security security;
    qewaris_iwd_ipv4 ipv4;
} qewaris_iwd_settings;

qewaris_iwd_settings qewaris_iwd_settings_of(const uint8_t *name, size_t name_len, const uint8_t *file, size_t file_len);

/* A list of 1 to 4 entries, each by its place in the file. */
typedef struct qewaris_entries {
    size_t count;
    size_t start[4];
    size_t length[4];
} qewaris_entries;

/* Which network a ConnMan service joins, and how. */
typedef struct qewaris_service_network {
    size_t name_line;
    size_t passphrase_line;
    size_t ssid_len;              /* 1 to 32 */
    uint8_t ssid[32];
    uint8_t service_type;         /* QEWARIS_TYPE_.. */
    uint8_t security;             /* QEWARIS_SECURITY_.. */
    uint8_t hidden;
    uint8_t reserved[5];
} qewaris_service_network;

/* The addresses of a ConnMan service. */
typedef struct qewaris_service_addresses {
    size_t domain_line;
    qewaris_entries search_domains;
    qewaris_entries timeservers;
    size_t nameserver_count;      /* 1 to 4 */
    uint8_t nameservers[16];      /* four bytes for each server, in order */
    uint8_t ipv4;                 /* QEWARIS_SETTING_IPV4_.. */
    uint8_t address[4];           /* where it is static, as are the next three */
    uint8_t prefix_length;        /* 1 to 32 */
    uint8_t has_gateway;
    uint8_t gateway[4];
    uint8_t ipv6;                 /* QEWARIS_SETTING_IPV6_.. */
    uint8_t ipv6_address[16];     /* where it is static, as are the next three */
    uint8_t ipv6_prefix_length;   /* 1 to 128 */
    uint8_t has_ipv6_gateway;
    uint8_t ipv6_gateway[16];
    uint8_t privacy;              /* QEWARIS_PRIVACY_.. */
    uint8_t has_mac;
    uint8_t mac[6];
    uint8_t reserved[2];
} qewaris_service_addresses;

/* The settings of a ConnMan service; what is absent is as in iwd's. */
typedef struct qewaris_service_settings {
    size_t line;                  /* of the refusal */
    uint8_t number;
    uint8_t reserved[7];
    qewaris_service_network network;
    qewaris_service_addresses addresses;
} qewaris_service_settings;

/* The settings of service number `service`, counted from 1. */
qewaris_service_settings qewaris_service_settings_of(const uint8_t *name, size_t name_len, const uint8_t *file, size_t file_len, size_t service);

/* ---- String lookups */

/* Where the value of a string setting stands in the file, in both formats still escaped: \s, \t, \r, \n and \\ mean a space,
 * a tab, byte 13, byte 10 and a backslash, and an accepted string has no other backslash. A record has the bytes that are meant.
 * `line` is that of the refusal or of the setting; a setting that is absent has number, line, start and length 0. */
typedef struct qewaris_text {
    size_t line;
    size_t start;
    size_t length;
    uint8_t number;
    uint8_t reserved[7];
} qewaris_text;

/* Of an iwd file. */
qewaris_text qewaris_iwd_passphrase(const uint8_t *name, size_t name_len, const uint8_t *file, size_t file_len);
qewaris_text qewaris_iwd_domain_name(const uint8_t *name, size_t name_len, const uint8_t *file, size_t file_len);

/* Of the group `global` of a ConnMan file. */
qewaris_text qewaris_global_name(const uint8_t *name, size_t name_len, const uint8_t *file, size_t file_len);
qewaris_text qewaris_global_description(const uint8_t *name, size_t name_len, const uint8_t *file, size_t file_len);

/* Of service number `service` of a ConnMan file, counted from 1. */
qewaris_text qewaris_service_name(const uint8_t *name, size_t name_len, const uint8_t *file, size_t file_len, size_t service);
qewaris_text qewaris_service_passphrase(const uint8_t *name, size_t name_len, const uint8_t *file, size_t file_len, size_t service);
qewaris_text qewaris_service_domain(const uint8_t *name, size_t name_len, const uint8_t *file, size_t file_len, size_t service);

/* ---- Join records */

enum { QEWARIS_CREDENTIAL_NONE = 0, QEWARIS_CREDENTIAL_PASSPHRASE = 1, QEWARIS_CREDENTIAL_KEY = 2 };
enum { QEWARIS_IPV4_DHCP = 0, QEWARIS_IPV4_OFF = 1, QEWARIS_IPV4_STATIC = 2 };
enum { QEWARIS_IPV6_AUTO = 0, QEWARIS_IPV6_OFF = 1, QEWARIS_IPV6_STATIC = 2 };

/* What a till needs to join a network. Places not in use are 0: the bytes behind a length, the servers behind the count, the
 * places of another credential, and address, prefix length and gateway where they are not in use. The struct is bytes only,
 * so two records are equal exactly when memcmp finds no difference. */
typedef struct qewaris_record {
    uint8_t name_len;             /* 1 to 32 */
    uint8_t name[32];             /* the network name (SSID) */
    uint8_t credential;           /* QEWARIS_CREDENTIAL_.. */
    uint8_t passphrase_len;       /* 8 to 63 */
    uint8_t passphrase[63];
    uint8_t key[32];
    uint8_t hidden;               /* 0 or 1 */
    uint8_t ipv4;                 /* QEWARIS_IPV4_.. */
    uint8_t address[4];
    uint8_t prefix_length;        /* 1 to 32 */
    uint8_t has_gateway;          /* 0 or 1 */
    uint8_t gateway[4];
    uint8_t server_count;         /* 0 to 4 */
    uint8_t servers[16];          /* four bytes for each name server, in order */
    uint8_t domain_len;           /* 0 to 253; 0: absent */
    uint8_t domain[253];
    uint8_t ipv6;                 /* QEWARIS_IPV6_.. */
    uint8_t ipv6_address[16];
    uint8_t ipv6_prefix_length;   /* 1 to 128 */
    uint8_t has_ipv6_gateway;     /* 0 or 1 */
    uint8_t ipv6_gateway[16];
} qewaris_record;

typedef struct qewaris_record_answer {
    size_t line;                  /* of the refusal */
    uint8_t number;
    qewaris_record record;        /* all 0 with a refusal */
    uint8_t reserved[7];
} qewaris_record_answer;

/* The join record of an iwd file. */
qewaris_record_answer qewaris_iwd_record(const uint8_t *name, size_t name_len, const uint8_t *file, size_t file_len);

/* The join record of service number `service`, counted from 1. QEWARIS_NO_PLACE for an ethernet, wep or ieee8021x service. */
qewaris_record_answer qewaris_service_record(const uint8_t *name, size_t name_len, const uint8_t *file, size_t file_len, size_t service);

/* ---- Writing and moving */

/* No name and no file that is written is longer, so that buffers of these sizes never meet QEWARIS_SHORT_BUFFER; some record
 * reaches each. */
enum { QEWARIS_NAME_MAX = 70, QEWARIS_FILE_MAX = 944 };

/* How many bytes are new at the front of each buffer; what stood behind them is still there. */
typedef struct qewaris_written {
    size_t line;                  /* of the refusal */
    size_t name_len;
    size_t file_len;
    uint8_t number;
    uint8_t reserved[7];
} qewaris_written;

/* Writes the iwd file of a record, and its name. Refuses a malformed record, a code out of range among its members included
 * (QEWARIS_MALFORMED), one that iwd has no place for, which is IPv4 off or a static address without a gateway (QEWARIS_NO_PLACE), and
 * a short buffer (QEWARIS_SHORT_BUFFER). */
qewaris_written qewaris_write_iwd(qewaris_record record, uint8_t *name_out, size_t name_out_len, uint8_t *file_out, size_t file_out_len);

/* Writes the iwd file, and its name, of service number `service` of a ConnMan file, counted from 1. Refuses what the reading
 * refuses, then QEWARIS_NO_SERVICE, then QEWARIS_NO_PLACE at the earliest line that iwd has no place for, then
 * QEWARIS_SHORT_BUFFER. */
qewaris_written qewaris_move_service(const uint8_t *name, size_t name_len, const uint8_t *file, size_t file_len, size_t service, uint8_t *name_out, size_t name_out_len, uint8_t *file_out, size_t file_out_len);

/* ---- The layout that the archive has: the size of each struct, and the place of each member in it */

#ifdef __cplusplus
#define QEWARIS_ASSERT(test) static_assert(test, #test)
#else
#define QEWARIS_ASSERT(test) _Static_assert(test, #test)
#endif
#define QEWARIS_SIZE_IS(type, size) QEWARIS_ASSERT(sizeof(type) == (size))
#define QEWARIS_PLACE_IS(type, member, place) QEWARIS_ASSERT(offsetof(type, member) == (place))

QEWARIS_SIZE_IS(qewaris_reading, 32);
QEWARIS_PLACE_IS(qewaris_reading, line, 0); QEWARIS_PLACE_IS(qewaris_reading, settings, 8);
QEWARIS_PLACE_IS(qewaris_reading, services, 16); QEWARIS_PLACE_IS(qewaris_reading, number, 24);
QEWARIS_PLACE_IS(qewaris_reading, reserved, 25);
QEWARIS_SIZE_IS(qewaris_iwd_general, 10);
QEWARIS_PLACE_IS(qewaris_iwd_general, auto_connect, 0); QEWARIS_PLACE_IS(qewaris_iwd_general, hidden, 1);
QEWARIS_PLACE_IS(qewaris_iwd_general, always_randomize_address, 2);
QEWARIS_PLACE_IS(qewaris_iwd_general, has_address_override, 3); QEWARIS_PLACE_IS(qewaris_iwd_general, address_override, 4);
QEWARIS_SIZE_IS(qewaris_iwd_security, 48);
QEWARIS_PLACE_IS(qewaris_iwd_security, passphrase_line, 0); QEWARIS_PLACE_IS(qewaris_iwd_security, has_pre_shared_key, 8);
QEWARIS_PLACE_IS(qewaris_iwd_security, pre_shared_key, 9); QEWARIS_PLACE_IS(qewaris_iwd_security, reserved, 41);
QEWARIS_SIZE_IS(qewaris_iwd_ipv4, 56);
QEWARIS_PLACE_IS(qewaris_iwd_ipv4, domain_name_line, 0); QEWARIS_PLACE_IS(qewaris_iwd_ipv4, dns_count, 8);
QEWARIS_PLACE_IS(qewaris_iwd_ipv4, dns, 16); QEWARIS_PLACE_IS(qewaris_iwd_ipv4, has_address, 32);
QEWARIS_PLACE_IS(qewaris_iwd_ipv4, address, 33); QEWARIS_PLACE_IS(qewaris_iwd_ipv4, has_gateway, 37);
QEWARIS_PLACE_IS(qewaris_iwd_ipv4, gateway, 38); QEWARIS_PLACE_IS(qewaris_iwd_ipv4, has_broadcast, 42);
QEWARIS_PLACE_IS(qewaris_iwd_ipv4, broadcast, 43); QEWARIS_PLACE_IS(qewaris_iwd_ipv4, netmask_length, 47);
QEWARIS_PLACE_IS(qewaris_iwd_ipv4, send_hostname, 48); QEWARIS_PLACE_IS(qewaris_iwd_ipv4, reserved, 49);
QEWARIS_SIZE_IS(qewaris_iwd_ipv6, 36);
QEWARIS_PLACE_IS(qewaris_iwd_ipv6, enabled, 0); QEWARIS_PLACE_IS(qewaris_iwd_ipv6, has_address, 1);
QEWARIS_PLACE_IS(qewaris_iwd_ipv6, address, 2); QEWARIS_PLACE_IS(qewaris_iwd_ipv6, prefix_length, 18);
QEWARIS_PLACE_IS(qewaris_iwd_ipv6, has_gateway, 19); QEWARIS_PLACE_IS(qewaris_iwd_ipv6, gateway, 20);
QEWARIS_SIZE_IS(qewaris_iwd_settings, 160);
QEWARIS_PLACE_IS(qewaris_iwd_settings, line, 0); QEWARIS_PLACE_IS(qewaris_iwd_settings, number, 8);
QEWARIS_PLACE_IS(qewaris_iwd_settings, general, 9); QEWARIS_PLACE_IS(qewaris_iwd_settings, ipv6, 19);
QEWARIS_PLACE_IS(qewaris_iwd_settings, reserved, 55); QEWARIS_PLACE_IS(qewaris_iwd_settings, security, 56);
QEWARIS_PLACE_IS(qewaris_iwd_settings, ipv4, 104);
QEWARIS_SIZE_IS(qewaris_entries, 72);
QEWARIS_PLACE_IS(qewaris_entries, count, 0); QEWARIS_PLACE_IS(qewaris_entries, start, 8);
QEWARIS_PLACE_IS(qewaris_entries, length, 40);
QEWARIS_SIZE_IS(qewaris_service_network, 64);
QEWARIS_PLACE_IS(qewaris_service_network, name_line, 0); QEWARIS_PLACE_IS(qewaris_service_network, passphrase_line, 8);
QEWARIS_PLACE_IS(qewaris_service_network, ssid_len, 16); QEWARIS_PLACE_IS(qewaris_service_network, ssid, 24);
QEWARIS_PLACE_IS(qewaris_service_network, service_type, 56); QEWARIS_PLACE_IS(qewaris_service_network, security, 57);
QEWARIS_PLACE_IS(qewaris_service_network, hidden, 58); QEWARIS_PLACE_IS(qewaris_service_network, reserved, 59);
QEWARIS_SIZE_IS(qewaris_service_addresses, 232);
QEWARIS_PLACE_IS(qewaris_service_addresses, domain_line, 0); QEWARIS_PLACE_IS(qewaris_service_addresses, search_domains, 8);
QEWARIS_PLACE_IS(qewaris_service_addresses, timeservers, 80);
QEWARIS_PLACE_IS(qewaris_service_addresses, nameserver_count, 152);
QEWARIS_PLACE_IS(qewaris_service_addresses, nameservers, 160); QEWARIS_PLACE_IS(qewaris_service_addresses, ipv4, 176);
QEWARIS_PLACE_IS(qewaris_service_addresses, address, 177); QEWARIS_PLACE_IS(qewaris_service_addresses, prefix_length, 181);
QEWARIS_PLACE_IS(qewaris_service_addresses, has_gateway, 182); QEWARIS_PLACE_IS(qewaris_service_addresses, gateway, 183);
QEWARIS_PLACE_IS(qewaris_service_addresses, ipv6, 187); QEWARIS_PLACE_IS(qewaris_service_addresses, ipv6_address, 188);
QEWARIS_PLACE_IS(qewaris_service_addresses, ipv6_prefix_length, 204);
QEWARIS_PLACE_IS(qewaris_service_addresses, has_ipv6_gateway, 205);
QEWARIS_PLACE_IS(qewaris_service_addresses, ipv6_gateway, 206); QEWARIS_PLACE_IS(qewaris_service_addresses, privacy, 222);
QEWARIS_PLACE_IS(qewaris_service_addresses, has_mac, 223); QEWARIS_PLACE_IS(qewaris_service_addresses, mac, 224);
QEWARIS_PLACE_IS(qewaris_service_addresses, reserved, 230);
QEWARIS_SIZE_IS(qewaris_service_settings, 312);
QEWARIS_PLACE_IS(qewaris_service_settings, line, 0); QEWARIS_PLACE_IS(qewaris_service_settings, number, 8);
QEWARIS_PLACE_IS(qewaris_service_settings, reserved, 9); QEWARIS_PLACE_IS(qewaris_service_settings, network, 16);
QEWARIS_PLACE_IS(qewaris_service_settings, addresses, 80);
QEWARIS_SIZE_IS(qewaris_text, 32);
QEWARIS_PLACE_IS(qewaris_text, line, 0); QEWARIS_PLACE_IS(qewaris_text, start, 8); QEWARIS_PLACE_IS(qewaris_text, length, 16);
QEWARIS_PLACE_IS(qewaris_text, number, 24); QEWARIS_PLACE_IS(qewaris_text, reserved, 25);
QEWARIS_SIZE_IS(qewaris_record, 448);
QEWARIS_PLACE_IS(qewaris_record, name_len, 0); QEWARIS_PLACE_IS(qewaris_record, name, 1);
QEWARIS_PLACE_IS(qewaris_record, credential, 33); QEWARIS_PLACE_IS(qewaris_record, passphrase_len, 34);
QEWARIS_PLACE_IS(qewaris_record, passphrase, 35); QEWARIS_PLACE_IS(qewaris_record, key, 98);
QEWARIS_PLACE_IS(qewaris_record, hidden, 130); QEWARIS_PLACE_IS(qewaris_record, ipv4, 131);
QEWARIS_PLACE_IS(qewaris_record, address, 132); QEWARIS_PLACE_IS(qewaris_record, prefix_length, 136);
QEWARIS_PLACE_IS(qewaris_record, has_gateway, 137); QEWARIS_PLACE_IS(qewaris_record, gateway, 138);
QEWARIS_PLACE_IS(qewaris_record, server_count, 142); QEWARIS_PLACE_IS(qewaris_record, servers, 143);
QEWARIS_PLACE_IS(qewaris_record, domain_len, 159); QEWARIS_PLACE_IS(qewaris_record, domain, 160);
QEWARIS_PLACE_IS(qewaris_record, ipv6, 413); QEWARIS_PLACE_IS(qewaris_record, ipv6_address, 414);
QEWARIS_PLACE_IS(qewaris_record, ipv6_prefix_length, 430); QEWARIS_PLACE_IS(qewaris_record, has_ipv6_gateway, 431);
QEWARIS_PLACE_IS(qewaris_record, ipv6_gateway, 432);
QEWARIS_SIZE_IS(qewaris_record_answer, 464);
QEWARIS_PLACE_IS(qewaris_record_answer, line, 0); QEWARIS_PLACE_IS(qewaris_record_answer, number, 8);
QEWARIS_PLACE_IS(qewaris_record_answer, record, 9); QEWARIS_PLACE_IS(qewaris_record_answer, reserved, 457);
QEWARIS_SIZE_IS(qewaris_written, 32);
QEWARIS_PLACE_IS(qewaris_written, line, 0); QEWARIS_PLACE_IS(qewaris_written, name_len, 8);
QEWARIS_PLACE_IS(qewaris_written, file_len, 16); QEWARIS_PLACE_IS(qewaris_written, number, 24);
QEWARIS_PLACE_IS(qewaris_written, reserved, 25);

#undef QEWARIS_ASSERT
#undef QEWARIS_SIZE_IS
#undef QEWARIS_PLACE_IS

#ifdef __cplusplus
}
#endif

#endif
