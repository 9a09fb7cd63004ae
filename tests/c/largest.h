/* The record whose written file is the largest, and the one whose written name is. None is both: a file of that size has a key,
 * and `.psk` is shorter than `.open`. */
#ifndef LARGEST_H
#define LARGEST_H

#include "qewaris.h"

#include <string.h>

/* A byte that is no letter, digit, space, `_` or `-`, so that a network name of it is written as hex. */
#define NOT_PLAIN 0xff

/* An open network whose name has 32 bytes, with every other part at its default: its file has no bytes. */
static qewaris_record largest_name(void) {
    qewaris_record record;
    memset(&record, 0, sizeof record);
    record.name_len = sizeof record.name;
    memset(record.name, NOT_PLAIN, sizeof record.name);
    return record;
}

/* A network of the same name with everything that has a line: IPv4 addresses of 15 characters and IPv6 addresses of 39, four name
 * servers, and a passphrase of as many backslashes and a domain of as many bytes 10 as they may have, each of which is escaped and so
 * written as two. */
static qewaris_record largest_file(void) {
    qewaris_record record = largest_name();
    record.credential = QEWARIS_CREDENTIAL_PASSPHRASE;
    record.passphrase_len = sizeof record.passphrase;
    memset(record.passphrase, '\\', sizeof record.passphrase);
    record.hidden = 1;
    record.ipv4 = QEWARIS_IPV4_STATIC;
    memset(record.address, 255, sizeof record.address);
    record.prefix_length = 32;
    record.has_gateway = 1;
    memset(record.gateway, 255, sizeof record.gateway);
    record.server_count = sizeof record.servers / sizeof record.address;
    memset(record.servers, 255, sizeof record.servers);
    record.domain_len = sizeof record.domain;
    memset(record.domain, '\n', sizeof record.domain);
    record.ipv6 = QEWARIS_IPV6_STATIC;
    memset(record.ipv6_address, 255, sizeof record.ipv6_address);
    record.ipv6_prefix_length = 128;
    record.has_ipv6_gateway = 1;
    memset(record.ipv6_gateway, 255, sizeof record.ipv6_gateway);
    return record;
}

#endif
