/* What the C programs of tests/c have in common: buffers that no refusal meets, a file read whole, and bytes carried between both handles. */
#ifndef EXCHANGE_H
#define EXCHANGE_H

#include "vulandrai.h"
#include <stdio.h>
#include <stdlib.h>
#include <string.h>

enum { SESSION = 7 };

/* Whether an allocation is the program's own; refused.c counts those of the library alone. A compiler takes malloc for a
 * function that reads no variable, so this one is volatile. */
static volatile int ours;

static uint8_t *room(size_t len)
{
    ours = 1;
    uint8_t *bytes = malloc(len + 1);
    ours = 0;
    if (bytes == NULL)
        abort();
    return bytes;
}

static void gone(void *bytes)
{
    ours = 1;
    free(bytes);
    ours = 0;
}

/* The bytes of a file, with their count. */
static uint8_t *read_file(const char *name, size_t *len)
{
    ours = 1;
    FILE *file = fopen(name, "rb");
    if (file == NULL || fseek(file, 0, SEEK_END) != 0)
        abort();
    *len = (size_t)ftell(file);
    rewind(file);
    ours = 0;
    uint8_t *bytes = room(*len);
    ours = 1;
    if (fread(bytes, 1, *len, file) != *len)
        abort();
    fclose(file);
    ours = 0;
    return bytes;
}

/* Carries bytes to and fro, at most `most` in a piece, until the client has an event or a call answers a code. */
static uint32_t exchange(vul_server *server, vul_client *client, size_t most, vul_event *event)
{
    for (;;) {
        uint32_t code = vul_client_event(client, event);
        if (code != VUL_OK || event->kind != VUL_NO_EVENT)
            return code;
        size_t len = vul_client_waiting(client);
        if (len == 0)
            return 1000; /* nothing waits on either side, and no event came */
        uint8_t *sent = room(len);
        code = vul_client_take(client, sent, len);
        for (size_t at = 0; code == VUL_OK && at < len;) {
            size_t piece = len - at < most ? len - at : most;
            code = vul_server_feed(server, SESSION, sent + at, piece);
            at += piece;
            if (code == VUL_UNTAKEN)
                abort();
        }
        gone(sent);
        if (code != VUL_OK)
            return code;
        size_t count = vul_server_waiting(server);
        uint8_t *replies = room(count);
        code = vul_server_take(server, replies, count);
        if (code == VUL_OK)
            code = vul_client_feed(client, replies, count);
        gone(replies);
        if (code != VUL_OK)
            return code;
    }
}

#endif
