/*
 * usage: hostile FILE STREAMS
 *
 * Feeds so many random streams to a server's handle and to a client's: noise, and frames in which some bytes are others. Each
 * answer has to be a code that include/vulandrai.h gives the call, and after each stream a right session has to get record 1
 * of the two that the snapshot file FILE holds. It is built with AddressSanitizer where the compiler has it.
 */
#include "exchange.h"

static uint64_t state = 0x9e3779b97f4a7c15u;

/* The next word of a xorshift generator. */
static uint64_t drawn(void)
{
    state ^= state << 13;
    state ^= state >> 7;
    state ^= state << 17;
    return state;
}

static size_t below(size_t bound) { return (size_t)(drawn() % bound); }

static void is_one_of(const char *what, uint32_t code, const uint32_t *codes, size_t count)
{
    for (size_t i = 0; i < count; i++)
        if (codes[i] == code)
            return;
    printf("FAIL %s answered %u\n", what, (unsigned)code);
    exit(1);
}

#define IS_ONE_OF(call, ...) \
    is_one_of(#call, (call), (const uint32_t[]){__VA_ARGS__}, sizeof((uint32_t[]){__VA_ARGS__}) / sizeof(uint32_t))

/* Makes a byte or two others, one time in eight. */
static void spoil(uint8_t *bytes, size_t len)
{
    for (size_t count = below(8) == 0 ? 1 + below(2) : 0; len > 0 && count > 0; count--)
        bytes[below(len)] = (uint8_t)drawn();
}

/* A piece of a stream: noise, or what waits with some bytes others. */
static uint8_t *piece_of(const uint8_t *waiting, size_t len, size_t *count)
{
    int is_noise = len == 0 ? below(4) == 0 : below(24) == 0;
    *count = is_noise ? below(300) : len;
    uint8_t *piece = room(*count);
    for (size_t i = 0; i < *count; i++)
        piece[i] = is_noise ? (uint8_t)drawn() : waiting[i];
    if (is_noise && *count > 4 && below(2) == 0) {
        /* a length that is small, and a kind that there is */
        piece[0] = (uint8_t)below(64);
        piece[1] = piece[2] = piece[3] = 0;
        piece[4] = (uint8_t)below(24);
    } else {
        spoil(piece, *count);
    }
    return piece;
}

static uint8_t *taken_from_client(vul_client *client, size_t *len)
{
    *len = vul_client_waiting(client);
    uint8_t *bytes = room(*len);
    IS_ONE_OF(vul_client_take(client, bytes, *len), VUL_OK);
    return bytes;
}

static uint8_t *taken_from_server(vul_server *server, size_t *len)
{
    *len = vul_server_waiting(server);
    uint8_t *bytes = room(*len);
    IS_ONE_OF(vul_server_take(server, bytes, *len), VUL_OK);
    return bytes;
}

/* Any call of a client; a greeting is a reader's, the publisher's, or of no key that there is. */
static void calls(vul_client *client)
{
    uint8_t bytes[32];
    memset(bytes, below(2) == 0 ? 0 : 1, sizeof bytes);
    if (below(16) == 0)
        bytes[below(sizeof bytes)] = (uint8_t)drawn();
    switch (below(9)) {
    case 0:
    case 1:
        IS_ONE_OF(vul_client_hello(client, bytes), VUL_OK, VUL_BUSY, VUL_FAILED, VUL_ALREADY_WELCOME);
        break;
    case 2:
    case 3:
        IS_ONE_OF(vul_client_sync(client, (uint32_t)below(3)), VUL_OK, VUL_NOT_READY, VUL_BUSY, VUL_FAILED, VUL_BAD_SCHEME);
        break;
    case 4:
    case 5:
        IS_ONE_OF(vul_client_ask(client, (uint32_t)below(3)), VUL_OK, VUL_NOT_READY, VUL_BUSY, VUL_BAD_INDEX, VUL_FAILED);
        break;
    case 6:
        IS_ONE_OF(vul_client_edit(client, (uint32_t)below(3), bytes, below(3)), VUL_OK, VUL_NOT_READY, VUL_BUSY, VUL_FAILED);
        break;
    case 7:
        IS_ONE_OF(vul_client_append(client, bytes, below(3)), VUL_OK, VUL_NOT_READY, VUL_BUSY, VUL_FAILED);
        break;
    default:
        IS_ONE_OF(vul_client_publish(client), VUL_OK, VUL_NOT_READY, VUL_BUSY, VUL_FAILED);
    }
}

/* Takes all events. */
static void listens(vul_client *client)
{
    vul_event event;
    for (;;) {
        IS_ONE_OF(vul_client_event(client, &event), VUL_OK);
        if (event.kind == VUL_NO_EVENT)
            return;
        uint8_t *record = room((size_t)event.record_len);
        IS_ONE_OF(vul_client_next(client, record, (size_t)event.record_len), VUL_OK);
        gone(record);
    }
}

/* Feeds a piece frame by frame, and gives all replies. */
static uint8_t *fed_by_frames(vul_server *server, uint64_t id, const uint8_t *piece, size_t count, size_t *len)
{
    uint8_t *replies = room(0);
    *len = 0;
    for (size_t at = 0, taken; at < count; at += taken) {
        IS_ONE_OF(vul_server_feed_frame(server, id, piece + at, count - at, &taken), VUL_OK);
        if (taken == 0 || taken > count - at)
            exit(1);
        size_t more = vul_server_waiting(server);
        uint8_t *all = room(*len + more);
        memcpy(all, replies, *len);
        IS_ONE_OF(vul_server_take(server, all + *len, more), VUL_OK);
        gone(replies);
        replies = all;
        *len += more;
    }
    return replies;
}

/* One stream to each side: calls, and what comes of them spoilt on both ways. */
static void stream(vul_server *server, vul_client *client, uint64_t id)
{
    IS_ONE_OF(vul_server_session_open(server, id), VUL_OK);
    for (size_t turns = 1 + below(100); turns > 0; turns--) {
        size_t len, count;
        if (vul_client_waiting(client) == 0)
            calls(client);
        uint8_t *bytes = taken_from_client(client, &len);
        uint8_t *piece = piece_of(bytes, len, &count);
        gone(bytes);
        if (below(2) == 0) {
            bytes = fed_by_frames(server, id, piece, count, &len);
        } else {
            IS_ONE_OF(vul_server_feed(server, id, piece, count), VUL_OK);
            bytes = taken_from_server(server, &len);
        }
        gone(piece);
        piece = piece_of(bytes, len, &count);
        IS_ONE_OF(vul_client_feed(client, piece, count), VUL_OK, VUL_BAD_WELCOME, VUL_BAD_REPLY, VUL_FAILED);
        gone(bytes);
        gone(piece);
        listens(client);
    }
    IS_ONE_OF(vul_server_session_close(server, id), VUL_OK);
}

static uint32_t ends(vul_server *server, vul_client *client)
{
    vul_event event = {0};
    IS_ONE_OF(exchange(server, client, 100000, &event), VUL_OK);
    uint8_t record[1];
    IS_ONE_OF(vul_client_next(client, record, (size_t)event.record_len), VUL_OK);
    return event.kind;
}

/* A right session after all that. */
static void is_served(vul_server *server)
{
    vul_client client = VUL_CLIENT_INIT;
    uint8_t seed[32] = {1}, reader[32] = {0};
    IS_ONE_OF(vul_server_session_open(server, SESSION), VUL_OK);
    IS_ONE_OF(vul_client_open(&client, seed, 0), VUL_OK);
    IS_ONE_OF(vul_client_hello(&client, reader), VUL_OK);
    IS_ONE_OF(ends(server, &client), VUL_WELCOMED);
    IS_ONE_OF(vul_client_sync(&client, VUL_SIMPLE), VUL_OK);
    IS_ONE_OF(ends(server, &client), VUL_SYNCED);
    IS_ONE_OF(vul_client_ask(&client, 1), VUL_OK);
    IS_ONE_OF(ends(server, &client), VUL_RETRIEVED);
    vul_client_close(&client);
    IS_ONE_OF(vul_server_session_close(server, SESSION), VUL_OK);
}

int main(int count, char **words)
{
    if (count != 3)
        return 2;
    size_t size;
    uint8_t *file = read_file(words[1], &size);
    vul_server server = VUL_SERVER_INIT;
    IS_ONE_OF(vul_server_open(&server, file, size), VUL_OK);
    long streams = atol(words[2]);
    for (long i = 0; i < streams; i++) {
        vul_client client = VUL_CLIENT_INIT;
        uint8_t seed[32] = {2};
        IS_ONE_OF(vul_client_open(&client, seed, (uint64_t)i * 100), VUL_OK);
        stream(&server, &client, 1000 + (uint64_t)i);
        vul_client_close(&client);
        is_served(&server);
    }
    vul_server_close(&server);
    gone(file);
    printf("%ld streams\n", streams);
    return 0;
}
