/*
 * usage: get HOST PORT SEED NUMBER simple|double INDEX ..
 *
 * Gets records of an ordinary store from `pir_server` without the server learning which, and prints a line
 * 'INDEX VERSION RECORD' for each, the record in hex digits. SEED is 64 hex digits, the client's secret; NUMBER is the
 * first retrieval number to spend, and no number is ever spent twice under one seed: the last line, 'next NUMBER', says
 * where to go on.
 *
 * Build it once the library is installed (scripts/install), or with PKG_CONFIG_PATH=out/c, scripts/build_c's folder:
 *
 *     cc examples/c/get.c $(pkg-config --cflags --libs vulandrai) -o get
 */
#define _POSIX_C_SOURCE 200112L
#include "vulandrai.h"
#include <netdb.h>
#include <stdio.h>
#include <stdlib.h>
#include <string.h>
#include <sys/socket.h>
#include <unistd.h>

/* The dimension at which a query hides its index as the schemes' authors count it. */
enum { HIDING_DIMENSION = 1024 };

/* How often a hint or an answer may be stale before the server is given up: it may publish again and again, or lie. */
enum { STALE_ANSWERS = 3 };

static void stop(const char *what, uint32_t code)
{
    fprintf(stderr, "fault: %s %u\n", what, (unsigned)code);
    exit(1);
}

static void wanted(const char *what, uint32_t code)
{
    if (code == VUL_OK)
        return;
    fprintf(stderr, "fault: %s: %s\n", what, vul_strerror(code));
    exit(1);
}

static int connected(const char *host, const char *port)
{
    struct addrinfo hints = {.ai_family = AF_UNSPEC, .ai_socktype = SOCK_STREAM}, *found;
    if (getaddrinfo(host, port, &hints, &found) != 0)
        stop("no such host", 0);
    for (struct addrinfo *at = found; at != NULL; at = at->ai_next) {
        int fd = socket(at->ai_family, at->ai_socktype, at->ai_protocol);
        if (fd >= 0 && connect(fd, at->ai_addr, at->ai_addrlen) == 0) {
            freeaddrinfo(found);
            return fd;
        }
        if (fd >= 0)
            close(fd);
    }
    stop("no connection", 0);
    return -1;
}

/* Sends the bytes that wait. */
static void send_waiting(vul_client *client, int fd)
{
    size_t len = vul_client_waiting(client);
    uint8_t *bytes = malloc(len + 1);
    if (bytes == NULL)
        stop("no memory", VUL_MEMORY);
    wanted("take", vul_client_take(client, bytes, len));
    for (size_t sent = 0; sent < len;) {
        ssize_t count = send(fd, bytes + sent, len - sent, MSG_NOSIGNAL);
        if (count <= 0)
            stop("no write", 0);
        sent += (size_t)count;
    }
    free(bytes);
}

/* Carries bytes to and fro until the outstanding call ends, and returns its event. */
static vul_event ended(vul_client *client, int fd)
{
    static uint8_t piece[65536];
    vul_event event;
    for (;;) {
        send_waiting(client, fd);
        wanted("event", vul_client_event(client, &event));
        if (event.kind != VUL_NO_EVENT)
            return event;
        ssize_t count = recv(fd, piece, sizeof piece, 0);
        if (count <= 0)
            stop("the server ended", 0);
        wanted("feed", vul_client_feed(client, piece, (size_t)count));
    }
}

/* Ends a call whose event has no record, and asks for its kind. */
static void ends_as(vul_client *client, int fd, uint32_t kind, const char *what)
{
    vul_event event = ended(client, fd);
    if (event.kind == VUL_REFUSED)
        stop(what, event.detail);
    if (event.kind != kind)
        stop(what, event.kind);
    wanted("next", vul_client_next(client, NULL, 0));
}

/* Gets the hint of the current version: if the one asked for is no longer that, of the one that the server names. */
static void sync_with(vul_client *client, int fd, uint32_t scheme)
{
    for (int stale = 0; stale < STALE_ANSWERS; stale++) {
        wanted("sync", vul_client_sync(client, scheme));
        vul_event event = ended(client, fd);
        wanted("next", vul_client_next(client, NULL, 0));
        if (event.kind == VUL_SYNCED)
            return;
        if (event.kind != VUL_STALE)
            stop("no hint", event.detail);
    }
    stop("the hint is stale again and again", 0);
}

/* Asks for a record, and if the hint is stale syncs and asks again. */
static vul_event asked(vul_client *client, int fd, uint32_t scheme, uint32_t index)
{
    wanted("ask", vul_client_ask(client, index));
    vul_event event = ended(client, fd);
    for (int stale = 0; stale < STALE_ANSWERS && event.kind == VUL_STALE; stale++) {
        wanted("next", vul_client_next(client, NULL, 0));
        sync_with(client, fd, scheme);
        wanted("ask", vul_client_ask(client, index));
        event = ended(client, fd);
    }
    return event;
}

/* Gets a record, and prints it. */
static void get(vul_client *client, int fd, uint32_t scheme, uint32_t index)
{
    vul_event event = asked(client, fd, scheme, index);
    if (event.kind != VUL_RETRIEVED)
        stop("no record", event.kind);
    size_t len = (size_t)event.record_len;
    uint8_t *record = malloc(len + 1);
    if (record == NULL)
        stop("no memory", VUL_MEMORY);
    wanted("next", vul_client_next(client, record, len));
    printf("%lu %llu ", (unsigned long)event.index, (unsigned long long)event.version);
    for (size_t i = 0; i < len; i++)
        printf("%02x", record[i]);
    printf("\n");
    fflush(stdout);
    free(record);
}

static void read_seed(const char *digits, uint8_t seed[32])
{
    if (strlen(digits) != 64 || strspn(digits, "0123456789abcdef") != 64)
        stop("SEED is 64 hex digits", 0);
    for (int i = 0; i < 32; i++) {
        unsigned byte;
        sscanf(digits + 2 * i, "%2x", &byte);
        seed[i] = (uint8_t)byte;
    }
}

int main(int count, char **words)
{
    if (count < 7) {
        fprintf(stderr, "usage: get HOST PORT SEED NUMBER simple|double INDEX ..\n");
        return 2;
    }
    uint8_t seed[32];
    static const uint8_t reader[32];
    read_seed(words[3], seed);
    uint32_t scheme = strcmp(words[5], "double") == 0 ? VUL_DOUBLE : VUL_SIMPLE;
    int fd = connected(words[1], words[2]);

    vul_client client = VUL_CLIENT_INIT;
    wanted("open", vul_client_open(&client, seed, strtoull(words[4], NULL, 10)));
    wanted("hello", vul_client_hello(&client, reader));
    ends_as(&client, fd, VUL_WELCOMED, "hello");
    vul_known known;
    wanted("known", vul_client_known(&client, &known));
    if (known.dimension < HIDING_DIMENSION)
        stop("the server's dimension hides less", known.dimension);
    sync_with(&client, fd, scheme);
    for (int i = 6; i < count; i++)
        get(&client, fd, scheme, (uint32_t)strtoul(words[i], NULL, 10));

    uint64_t next;
    wanted("number", vul_client_number(&client, &next));
    printf("next %llu\n", (unsigned long long)next);
    vul_client_close(&client);
    close(fd);
    return 0;
}
