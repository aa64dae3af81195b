/*
 * usage: refused FILE RECORD0 RECORD1
 *
 * A whole session of a server and a client over the snapshot file FILE, of two records of one byte, given as hex digits, with
 * each growth of the library's memory refused in turn, until a run meets no refusal. After each run both handles are closed and all memory is
 * back; a record that was retrieved is the right one. It is linked with --wrap for malloc, realloc and free, which the
 * library's allocator calls.
 */
#include "exchange.h"

static long calls, fail_at, live;

void *__real_malloc(size_t);
void *__real_realloc(void *, size_t);
void __real_free(void *);
void *__wrap_malloc(size_t);
void *__wrap_realloc(void *, size_t);
void __wrap_free(void *);

void *__wrap_malloc(size_t len)
{
    if (ours)
        return __real_malloc(len);
    if (++calls == fail_at)
        return NULL;
    live++;
    return __real_malloc(len);
}

void *__wrap_realloc(void *at, size_t len)
{
    if (!ours && ++calls == fail_at)
        return NULL;
    return __real_realloc(at, len);
}

void __wrap_free(void *at)
{
    if (!ours && at != NULL)
        live--;
    __real_free(at);
}

static uint8_t records[2];

/* Ends the outstanding call as it should; a refusal for memory, of either side, ends the session. */
static int ended(vul_server *server, vul_client *client, uint32_t kind, vul_event *event, uint8_t *byte)
{
    uint32_t open = 1;
    uint32_t code = exchange(server, client, 100000, event);
    if (code != VUL_OK) {
        vul_server_session_is_open(server, SESSION, &open);
        if (code != VUL_MEMORY && open != 0) {
            printf("FAIL refused growth %ld: an exchange answered %u\n", fail_at, (unsigned)code);
            exit(1);
        }
        return 0;
    }
    if (event->kind != kind) {
        if (event->kind == VUL_REFUSED && event->detail == 12)
            return 0;
        printf("FAIL refused growth %ld: event %u, refusal %u\n", fail_at, (unsigned)event->kind, (unsigned)event->detail);
        exit(1);
    }
    return vul_client_next(client, byte, (size_t)event->record_len) == VUL_OK;
}

/* Whether a call was done; there may only be no memory for it. */
static int done(uint32_t code)
{
    if (code == VUL_OK || code == VUL_MEMORY)
        return code == VUL_OK;
    printf("FAIL refused growth %ld: a call answered %u\n", fail_at, (unsigned)code);
    exit(1);
}

/* Gets both records in a scheme. */
static int gets(vul_server *server, vul_client *client, uint32_t scheme)
{
    vul_event event;
    uint8_t byte;
    if (!done(vul_client_sync(client, scheme)) || !ended(server, client, VUL_SYNCED, &event, NULL))
        return 0;
    for (uint32_t i = 0; i < 2; i++) {
        if (!done(vul_client_ask(client, i)) || !ended(server, client, VUL_RETRIEVED, &event, &byte))
            return 0;
        if (event.index != i || event.record_len != 1 || byte != records[i]) {
            printf("FAIL refused growth %ld: a wrong record\n", fail_at);
            exit(1);
        }
    }
    return 1;
}

/* A publication of an edit and an append between two syncs, and the snapshot of it. */
static int publishes(vul_server *server)
{
    static const uint8_t byte[1] = {0x77};
    if (!done(vul_server_edit(server, 0, byte, 1)) || !done(vul_server_append(server, byte, 1)) || !done(vul_server_publish(server)))
        return 0;
    records[0] = byte[0];
    size_t len = vul_server_snapshot_len(server);
    uint8_t *bytes = room(len);
    int is_copied = done(vul_server_snapshot(server, bytes, len));
    gone(bytes);
    return is_copied;
}

static int session(const uint8_t *file, size_t size)
{
    vul_server server = VUL_SERVER_INIT;
    vul_client client = VUL_CLIENT_INIT;
    vul_event event;
    uint8_t seed[32] = {3}, reader[32] = {0};
    int whole = done(vul_server_open(&server, file, size)) && done(vul_server_session_open(&server, SESSION)) &&
                done(vul_client_open(&client, seed, 0)) && done(vul_client_hello(&client, reader)) &&
                ended(&server, &client, VUL_WELCOMED, &event, NULL) && gets(&server, &client, VUL_SIMPLE) &&
                publishes(&server) && gets(&server, &client, VUL_SIMPLE) && gets(&server, &client, VUL_DOUBLE);
    vul_client_close(&client);
    vul_server_close(&server);
    return whole;
}

int main(int count, char **words)
{
    if (count != 4)
        return 2;
    size_t size;
    uint8_t *file = read_file(words[1], &size);
    uint8_t zeroth = (uint8_t)strtoul(words[2], NULL, 16);
    for (fail_at = 1; fail_at < 5000; fail_at++) {
        calls = 0;
        live = 0;
        records[0] = zeroth;
        records[1] = (uint8_t)strtoul(words[3], NULL, 16);
        int whole = session(file, size);
        if (live != 0) {
            printf("FAIL refused growth %ld: %ld blocks are left\n", fail_at, live);
            return 1;
        }
        if (whole && calls < fail_at)
            break;
        if (whole) {
            /* what was refused wasn't needed */
            continue;
        }
    }
    gone(file);
    printf("%ld growths refused\n", fail_at - 1);
    return fail_at == 5000 || fail_at < 20;
}
