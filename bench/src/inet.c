/* glibc's inet_pton and inet_ntop: reads, or writes, the IPv6 address behind `Gateway=` of a file. The task is one of
 *
 *   inet_pton   the text as sixteen bytes
 *   inet_ntop   the sixteen bytes as text
 *
 * What is counted is the function itself, with all that it calls. */
#include "harness.h"

#include <arpa/inet.h>
#include <stdio.h>
#include <string.h>

static char text[INET6_ADDRSTRLEN], written[INET6_ADDRSTRLEN];
static unsigned char bytes[16];
static int writes;

int prepare(const struct input *in, const char *word)
{
    const char *gateway = strstr((const char *)in->bytes, "Gateway=");
    if (!word || !gateway || sscanf(gateway, "Gateway=%45s", text) != 1)
        return 0;
    writes = strcmp(word, "inet_ntop") == 0;
    return inet_pton(AF_INET6, text, bytes) == 1 && (writes || strcmp(word, "inet_pton") == 0);
}

size_t work(const struct input *in)
{
    (void)in;
    if (writes)
        return inet_ntop(AF_INET6, bytes, written, sizeof written) != NULL;
    return inet_pton(AF_INET6, text, bytes) == 1;
}
