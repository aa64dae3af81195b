/*
 * usage: session FILE RECORD0 RECORD1 KEY FULL
 *
 * A server and a client in one process over the snapshot file FILE, whose two records are given in hex digits, with the
 * publisher's KEY, and over the snapshot file FULL of a store that has no room for a further record. It prints a line
 * for what differs from what include/vulandrai.h says, and ends with 'N passed, M failed'.
 */
#include "exchange.h"

static int passed, failed;

static void same(const char *what, uint64_t got, uint64_t wanted)
{
    if (got == wanted) {
        passed++;
        return;
    }
    failed++;
    printf("FAIL %s: got %llu, wanted %llu\n", what, (unsigned long long)got, (unsigned long long)wanted);
}

#define SAME(call, wanted) same(#call, (call), (wanted))

static size_t from_hex(const char *digits, uint8_t *bytes)
{
    size_t len = strlen(digits) / 2;
    for (size_t i = 0; i < len; i++) {
        unsigned byte = 0;
        sscanf(digits + 2 * i, "%2x", &byte);
        bytes[i] = (uint8_t)byte;
    }
    return len;
}

/* The event with which the outstanding call ends, and that no other comes. */
static vul_event ended(vul_server *server, vul_client *client, size_t most, uint32_t kind)
{
    vul_event event = {0};
    SAME(exchange(server, client, most, &event), VUL_OK);
    same("the kind of an event", event.kind, kind);
    return event;
}

static void forget(vul_client *client)
{
    vul_event event;
    SAME(vul_client_next(client, NULL, 0), VUL_OK);
    SAME(vul_client_event(client, &event), VUL_OK);
    same("no further event", event.kind, VUL_NO_EVENT);
}

/* Gets a record, and compares its bytes. */
static void gets(vul_server *server, vul_client *client, size_t most, uint32_t index, uint64_t version, const uint8_t *wanted, size_t len)
{
    uint8_t record[70000];
    SAME(vul_client_ask(client, index), VUL_OK);
    vul_event event = ended(server, client, most, VUL_RETRIEVED);
    same("index", event.index, index);
    same("version", event.version, version);
    same("record_len", event.record_len, len);
    SAME(vul_client_next(client, record, len + 1), VUL_BAD_LENGTH);
    SAME(vul_client_feed(client, (const uint8_t *)"", 0), VUL_UNTAKEN);
    SAME(vul_client_next(client, record, (size_t)event.record_len), VUL_OK);
    same("the record's bytes", (uint64_t)memcmp(record, wanted, len), 0);
    SAME(vul_client_event(client, &event), VUL_OK);
    same("an event is reported once", event.kind, VUL_NO_EVENT);
}

/* What every call says to a closed handle. */
static void is_closed(void)
{
    vul_client client = VUL_CLIENT_INIT;
    vul_server server = VUL_SERVER_INIT;
    uint8_t key[32] = {0}, byte[1] = {0};
    vul_event event;
    vul_known known;
    uint64_t number;
    uint32_t open;
    SAME(vul_client_hello(&client, key), VUL_CLOSED);
    SAME(vul_client_sync(&client, VUL_SIMPLE), VUL_CLOSED);
    SAME(vul_client_sync(&client, 2), VUL_BAD_SCHEME);
    SAME(vul_client_ask(&client, 0), VUL_CLOSED);
    SAME(vul_client_edit(&client, 0, byte, 1), VUL_CLOSED);
    SAME(vul_client_append(&client, byte, 1), VUL_CLOSED);
    SAME(vul_client_publish(&client), VUL_CLOSED);
    SAME(vul_client_feed(&client, byte, 1), VUL_CLOSED);
    SAME(vul_client_waiting(&client), 0);
    SAME(vul_client_take(&client, byte, 1), VUL_CLOSED);
    SAME(vul_client_event(&client, &event), VUL_CLOSED);
    SAME(vul_client_next(&client, byte, 1), VUL_CLOSED);
    SAME(vul_client_number(&client, &number), VUL_CLOSED);
    SAME(vul_client_known(&client, &known), VUL_CLOSED);
    SAME(vul_client_plan(&client, byte, 1), VUL_CLOSED);
    SAME(vul_client_hint_len(&client), 0);
    SAME(vul_client_save(&client, byte, 1), VUL_CLOSED);
    SAME(vul_client_resume(&client, byte, 1), VUL_CLOSED);
    vul_client_close(&client);
    SAME(vul_server_session_open(&server, 1), VUL_CLOSED);
    SAME(vul_server_session_close(&server, 1), VUL_CLOSED);
    SAME(vul_server_session_is_open(&server, 1, &open), VUL_CLOSED);
    size_t taken = 9;
    SAME(vul_server_feed(&server, 1, byte, 1), VUL_CLOSED);
    SAME(vul_server_feed_frame(&server, 1, byte, 1, &taken), VUL_CLOSED);
    same("a closed server takes nothing", taken, 0);
    SAME(vul_server_waiting(&server), 0);
    SAME(vul_server_take(&server, byte, 1), VUL_CLOSED);
    SAME(vul_server_edit(&server, 0, byte, 1), VUL_CLOSED);
    SAME(vul_server_append(&server, byte, 1), VUL_CLOSED);
    SAME(vul_server_publish(&server), VUL_CLOSED);
    SAME(vul_server_version(&server, &number), VUL_CLOSED);
    SAME(vul_server_snapshot_len(&server), 0);
    SAME(vul_server_snapshot(&server, byte, 1), VUL_CLOSED);
    vul_server_close(&server);
    same("a closed client's handle is all zero", client.full, 0);
    same("a closed server's handle is all zero", server.full, 0);
}

/* A greeting's bytes are to be taken before the next call. */
static void greets(void)
{
    vul_client client = VUL_CLIENT_INIT;
    uint8_t seed[32], key[32] = {0}, bytes[39];
    memset(seed, 17, sizeof seed);
    SAME(vul_client_open(&client, seed, 0), VUL_OK);
    SAME(vul_client_hello(&client, key), VUL_OK);
    SAME(vul_client_hello(&client, key), VUL_UNTAKEN);
    SAME(vul_client_waiting(&client), sizeof bytes);
    SAME(vul_client_take(&client, bytes, sizeof bytes), VUL_OK);
    same("a Hello's length", bytes[0], 34);
    same("a Hello's kind", bytes[4], 2);
    vul_client_close(&client);
    SAME(vul_client_hello(&client, key), VUL_CLOSED);
}

/* What a null pointer with a length is answered, and that one without is an empty slice. */
static void is_null(vul_server *server, vul_client *client)
{
    SAME(vul_client_edit(client, 0, NULL, 1), VUL_NULL);
    SAME(vul_client_append(client, NULL, 1), VUL_NULL);
    SAME(vul_client_feed(client, NULL, 1), VUL_NULL);
    SAME(vul_client_take(client, NULL, 1), VUL_NULL);
    SAME(vul_client_next(client, NULL, 1), VUL_NULL);
    SAME(vul_client_plan(client, NULL, 1), VUL_NULL);
    SAME(vul_client_plan(client, NULL, 0), VUL_NOT_READY);
    SAME(vul_client_save(client, NULL, 1), VUL_NULL);
    SAME(vul_client_resume(client, NULL, 1), VUL_NULL);
    SAME(vul_server_open(server, NULL, 1), VUL_NULL);
    size_t taken = 9;
    SAME(vul_server_feed(server, SESSION, NULL, 1), VUL_NULL);
    SAME(vul_server_feed_frame(server, SESSION, NULL, 1, &taken), VUL_NULL);
    same("of a null pointer nothing is taken", taken, 0);
    SAME(vul_server_take(server, NULL, 1), VUL_NULL);
    SAME(vul_server_edit(server, 0, NULL, 1), VUL_NULL);
    SAME(vul_server_append(server, NULL, 1), VUL_NULL);
    SAME(vul_server_snapshot(server, NULL, 1), VUL_NULL);
    SAME(vul_client_take(client, NULL, 0), VUL_OK);
    SAME(vul_client_feed(client, NULL, 0), VUL_OK);
    SAME(vul_server_take(server, NULL, 0), VUL_OK);
    SAME(vul_server_feed(server, SESSION, NULL, 0), VUL_OK);
    SAME(vul_server_feed_frame(server, SESSION, NULL, 0, &taken), VUL_OK);
}

/* What bytes that are no snapshot file are answered; the handle stays as it was. */
static void is_no_snapshot(vul_server *server, const uint8_t *file, size_t len)
{
    uint8_t *bad = room(len + 1);
    memcpy(bad, file, len);
    SAME(vul_server_open(server, bad, 0), VUL_SHORT);
    SAME(vul_server_open(server, bad, len - 1), VUL_SHORT);
    bad[len] = 0;
    SAME(vul_server_open(server, bad, len + 1), VUL_TRAILING_BYTES);
    bad[len - 1] ^= 1;
    SAME(vul_server_open(server, bad, len), VUL_BAD_DIGEST);
    bad[8] = 0;
    SAME(vul_server_open(server, bad, len), VUL_BAD_LAYOUT);
    bad[0] = 'Q';
    SAME(vul_server_open(server, bad, len), VUL_NOT_SNAPSHOT);
    gone(bad);
}

/* Both schemes, with a publication between: the old hint is stale, and the next sync brings the new version. */
static void retrieves(vul_server *server, vul_client *client, const uint8_t *zeroth, const uint8_t *first, size_t len)
{
    uint8_t *edited = room(len);
    uint64_t version;
    memset(edited, 0x2a, len);
    for (uint32_t scheme = VUL_SIMPLE; scheme <= VUL_DOUBLE; scheme++) {
        size_t most = scheme == VUL_SIMPLE ? 1 : 100000;
        SAME(vul_server_version(server, &version), VUL_OK);
        const uint8_t *is = version == 1 ? first : edited;
        SAME(vul_client_sync(client, scheme), VUL_OK);
        SAME(vul_client_ask(client, 0), VUL_UNTAKEN);
        vul_event event = ended(server, client, most, VUL_SYNCED);
        same("the scheme of a sync", event.detail, scheme);
        same("the version of a sync", event.version, version);
        forget(client);
        gets(server, client, most, 0, version, zeroth, len);
        gets(server, client, most, 1, version, is, len);
        SAME(vul_client_ask(client, 99999), VUL_BAD_INDEX);

        /* another version: by the server's own calls */
        edited[0] = (uint8_t)(version + 7);
        SAME(vul_server_publish(server), VUL_NOTHING_TO_PUBLISH);
        SAME(vul_server_edit(server, 99999, edited, len), VUL_NO_SUCH_RECORD);
        SAME(vul_server_edit(server, 1, edited, len + 1), VUL_BAD_RECORD_LENGTH);
        SAME(vul_server_edit(server, 1, edited, len), VUL_OK);
        SAME(vul_server_publish(server), VUL_OK);
        SAME(vul_client_ask(client, 1), VUL_OK);
        event = ended(server, client, most, VUL_STALE);
        same("the current version", event.version, version + 1);
        forget(client);
        SAME(vul_client_sync(client, scheme), VUL_OK);
        ended(server, client, most, VUL_SYNCED);
        forget(client);
        gets(server, client, most, 1, version + 1, edited, len);
    }
    gone(edited);
}

/* The publisher's session, by a client of its own. */
static void publishes(vul_server *server, const uint8_t key[32], size_t len)
{
    vul_client client = VUL_CLIENT_INIT;
    vul_event event;
    uint64_t version;
    uint8_t seed[32], *bytes = room(70000);
    memset(seed, 0x33, sizeof seed);
    memset(bytes, 0x55, 70000);
    SAME(vul_server_session_close(server, SESSION), VUL_OK);
    SAME(vul_server_session_close(server, SESSION), VUL_NO_SESSION);
    SAME(vul_server_session_open(server, SESSION), VUL_OK);
    SAME(vul_client_open(&client, seed, (uint64_t)1 << 62), VUL_OK);
    SAME(vul_client_hello(&client, key), VUL_OK);
    ended(server, &client, 13, VUL_WELCOMED);
    forget(&client);
    SAME(vul_server_version(server, &version), VUL_OK);
    SAME(vul_client_edit(&client, 0, bytes, 65536), VUL_BAD_LENGTH);
    SAME(vul_client_edit(&client, 0, bytes, 65535), VUL_OK);
    event = ended(server, &client, 1000, VUL_REFUSED);
    forget(&client);
    SAME(vul_client_edit(&client, 0, bytes, len), VUL_OK);
    event = ended(server, &client, 1000, VUL_DONE);
    same("an edit is no version", event.version, version);
    forget(&client);
    SAME(vul_client_publish(&client), VUL_OK);
    event = ended(server, &client, 1000, VUL_DONE);
    same("a publication is one", event.version, version + 1);
    forget(&client);
    /* the version that the greeting told is no longer the current one */
    SAME(vul_client_sync(&client, VUL_SIMPLE), VUL_OK);
    ended(server, &client, 1000, VUL_STALE);
    forget(&client);
    SAME(vul_client_sync(&client, VUL_SIMPLE), VUL_OK);
    ended(server, &client, 1000, VUL_SYNCED);
    forget(&client);
    SAME(vul_client_ask(&client, 0), VUL_SEED_USED_UP);
    vul_client_close(&client);
    gone(bytes);
}

/* A server of a snapshot file, and a client of it that speaks for the publisher. */
static void greeted(vul_server *server, vul_client *client, const uint8_t *file, size_t size, const uint8_t key[32])
{
    uint8_t seed[32];
    memset(seed, 0x44, sizeof seed);
    SAME(vul_server_open(server, file, size), VUL_OK);
    SAME(vul_server_session_open(server, SESSION), VUL_OK);
    SAME(vul_client_open(client, seed, 0), VUL_OK);
    SAME(vul_client_hello(client, key), VUL_OK);
    ended(server, client, 1000, VUL_WELCOMED);
    forget(client);
}

/* Asks the server for an append that it refuses. */
static void appends_none(vul_server *server, vul_client *client, const uint8_t *record, size_t len, uint32_t refusal)
{
    SAME(vul_client_append(client, record, len), VUL_OK);
    SAME(vul_client_append(client, record, len), VUL_UNTAKEN);
    vul_event event = ended(server, client, 1000, VUL_REFUSED);
    same("the refusal of an append", event.detail, refusal);
    forget(client);
}

/* A store of two records to which the client and the server append one each: no reader sees them before the publication,
 * and then both are got in a scheme. */
static void grows(const uint8_t *file, size_t size, const uint8_t key[32], size_t len, uint32_t scheme)
{
    vul_server server = VUL_SERVER_INIT;
    vul_client client = VUL_CLIENT_INIT;
    vul_event event;
    vul_known known;
    uint8_t *third = room(70000), *fourth = room(len);
    memset(third, 5, 70000);
    memset(fourth, 6, len);
    greeted(&server, &client, file, size, key);
    SAME(vul_client_sync(&client, scheme), VUL_OK);
    ended(&server, &client, 1000, VUL_SYNCED);
    forget(&client);

    SAME(vul_client_append(&client, third, 65536), VUL_BAD_LENGTH);
    SAME(vul_server_append(&server, third, len + 1), VUL_BAD_RECORD_LENGTH);
    appends_none(&server, &client, third, len + 1, 7);
    appends_none(&server, &client, third, 65535, 7);
    SAME(vul_server_publish(&server), VUL_NOTHING_TO_PUBLISH);
    SAME(vul_client_append(&client, third, len), VUL_OK);
    event = ended(&server, &client, 1000, VUL_DONE);
    same("an append is no version", event.version, 1);
    forget(&client);
    SAME(vul_server_append(&server, fourth, len), VUL_OK);
    SAME(vul_client_ask(&client, 2), VUL_BAD_INDEX);
    SAME(vul_server_publish(&server), VUL_OK);

    SAME(vul_client_ask(&client, 2), VUL_BAD_INDEX);
    SAME(vul_client_ask(&client, 1), VUL_OK);
    event = ended(&server, &client, 1000, VUL_STALE);
    same("the version that has grown", event.version, 2);
    forget(&client);
    SAME(vul_client_known(&client, &known), VUL_OK);
    same("how many records it has", known.count, 4);
    SAME(vul_client_sync(&client, scheme), VUL_OK);
    ended(&server, &client, 1000, VUL_SYNCED);
    forget(&client);
    gets(&server, &client, 1000, 2, 2, third, len);
    gets(&server, &client, 1000, 3, 2, fourth, len);
    SAME(vul_client_ask(&client, 4), VUL_BAD_INDEX);
    vul_client_close(&client);
    vul_server_close(&server);
    gone(third);
    gone(fourth);
}

/* Takes the replies that wait, puts them at `at`, and says how many they are. */
static size_t taken_to(vul_server *server, uint8_t *at)
{
    size_t len = vul_server_waiting(server);
    SAME(vul_server_take(server, at, len), VUL_OK);
    return len;
}

enum { HELLO = 39, PART = 18, PARTS = 3, HALF = 7, LONG = HELLO + PARTS * PART };

/* A greeting of a reader and so many times the ask for the first part of version 1's SimplePIR hint. */
static void asks_parts(uint8_t stream[LONG])
{
    static const uint8_t ask[PART] = {13, 0, 0, 0, 3, VUL_SIMPLE, 1};
    memset(stream, 0, LONG);
    stream[0] = HELLO - 5;
    stream[4] = 2;
    stream[5] = 2;
    for (size_t i = 0; i < PARTS; i++)
        memcpy(stream + HELLO + i * PART, ask, PART);
}

/* A stream fed frame by frame: each call takes the bytes of one frame, and makes one reply wait. All replies are those of the
 * stream fed whole. */
static void is_fed_by_frames(const uint8_t *file, size_t size)
{
    vul_server server = VUL_SERVER_INIT;
    uint8_t stream[LONG], *whole = room(1 << 20), *parts = room(1 << 20);
    size_t taken = 9, at, len, got;
    asks_parts(stream);
    SAME(vul_server_open(&server, file, size), VUL_OK);
    SAME(vul_server_feed_frame(&server, SESSION, stream, LONG, &taken), VUL_NO_SESSION);
    same("without a session nothing is taken", taken, 0);
    SAME(vul_server_session_open(&server, SESSION), VUL_OK);
    SAME(vul_server_feed(&server, SESSION, stream, LONG), VUL_OK);
    len = taken_to(&server, whole);

    SAME(vul_server_session_open(&server, SESSION + 1), VUL_OK);
    SAME(vul_server_feed_frame(&server, SESSION + 1, stream, HALF, &taken), VUL_OK);
    same("less than a frame is taken whole", taken, HALF);
    same("and has no reply", vul_server_waiting(&server), 0);
    SAME(vul_server_feed_frame(&server, SESSION + 1, stream + HALF, LONG - HALF, &taken), VUL_OK);
    same("the rest of the greeting is taken", taken, HELLO - HALF);
    SAME(vul_server_feed_frame(&server, SESSION + 1, stream + HELLO, PART, &taken), VUL_UNTAKEN);
    same("while a reply waits nothing is taken", taken, 0);
    got = taken_to(&server, parts);
    for (at = HELLO; at < LONG; at += taken) {
        SAME(vul_server_feed_frame(&server, SESSION + 1, stream + at, LONG - at, &taken), VUL_OK);
        same("one frame is taken", taken, PART);
        got += taken_to(&server, parts + got);
    }
    same("how many bytes the replies have", got, len);
    same("the bytes of the replies", (uint64_t)memcmp(parts, whole, len), 0);

    /* a frame of a kind that there is none of is refused, and a closed session takes what comes */
    SAME(vul_server_feed_frame(&server, SESSION + 1, (const uint8_t *)"\0\0\0\0\x7f\0\0", 7, &taken), VUL_OK);
    same("after a fault all is taken", taken, 7);
    same("the refusal of a bad frame", taken_to(&server, parts), 6);
    SAME(vul_server_feed_frame(&server, SESSION + 1, stream, LONG, &taken), VUL_OK);
    same("a closed session takes all", taken, LONG);
    same("and says nothing", vul_server_waiting(&server), 0);
    vul_server_close(&server);
    gone(whole);
    gone(parts);
}

/* Before the server let the client in there is no plan. */
static void has_no_plan(vul_client *client)
{
    uint8_t plan[VUL_PLAN_LEN];
    memset(plan, 9, sizeof plan);
    SAME(vul_client_plan(client, plan, VUL_PLAN_LEN), VUL_NOT_READY);
    SAME(vul_client_plan(client, plan, VUL_PLAN_LEN - 1), VUL_NOT_READY);
    for (size_t i = 0; i < sizeof plan; i++)
        same("no byte of a plan is written", plan[i], 9);
}

/* The plan of a store in form 1 whose records have so many bytes, with digits of 8 bits, one record in a group and a public seed of zeros. A
 * hint's file has it after its first 8 bytes. */
static void has_plan(vul_client *client, size_t len, const uint8_t *saved)
{
    const uint8_t wanted[VUL_PLAN_LEN] = {1, 0, 8, (uint8_t)len, (uint8_t)(len >> 8), 1, 0, 1024 & 255, 1024 >> 8};
    uint8_t plan[VUL_PLAN_LEN + 1];
    memset(plan, 9, sizeof plan);
    SAME(vul_client_plan(client, NULL, 0), VUL_BAD_LENGTH);
    SAME(vul_client_plan(client, plan, VUL_PLAN_LEN - 1), VUL_BAD_LENGTH);
    SAME(vul_client_plan(client, plan, VUL_PLAN_LEN + 1), VUL_BAD_LENGTH);
    for (size_t i = 0; i < sizeof plan; i++)
        same("no byte of a plan is written", plan[i], 9);
    SAME(vul_client_plan(client, plan, VUL_PLAN_LEN), VUL_OK);
    same("the bytes of the plan", (uint64_t)memcmp(plan, wanted, VUL_PLAN_LEN), 0);
    same("the plan in a hint's file", (uint64_t)memcmp(saved + 8, wanted, VUL_PLAN_LEN), 0);
    same("no byte after the plan is written", plan[VUL_PLAN_LEN], 9);
}

/* A client of another seed goes on with the hint that one has saved, and gets a record without a sync. */
static void goes_on(const uint8_t *file, size_t size, const uint8_t key[32], const uint8_t *zeroth, size_t len, uint32_t scheme)
{
    vul_server server = VUL_SERVER_INIT;
    vul_client first = {0}, other = {0};
    uint8_t seed[32];
    memset(seed, 0x55, sizeof seed);
    greeted(&server, &first, file, size, key);
    same("no hint is held", vul_client_hint_len(&first), 0);
    SAME(vul_client_save(&first, NULL, 0), VUL_OK);
    SAME(vul_client_sync(&first, scheme), VUL_OK);
    ended(&server, &first, 1000, VUL_SYNCED);
    forget(&first);
    size_t have = vul_client_hint_len(&first);
    uint8_t *saved = room(have);
    SAME(vul_client_save(&first, saved, have - 1), VUL_BAD_LENGTH);
    SAME(vul_client_save(&first, saved, have), VUL_OK);
    vul_client_close(&first);

    SAME(vul_server_session_close(&server, SESSION), VUL_OK);
    SAME(vul_server_session_open(&server, SESSION), VUL_OK);
    SAME(vul_client_open(&other, seed, 0), VUL_OK);
    SAME(vul_client_resume(&other, saved, have), VUL_NOT_READY);
    has_no_plan(&other);
    SAME(vul_client_hello(&other, key), VUL_OK);
    SAME(vul_client_resume(&other, saved, have), VUL_NOT_READY);
    ended(&server, &other, 1000, VUL_WELCOMED);
    forget(&other);
    has_plan(&other, len, saved);
    SAME(vul_client_resume(&other, saved, have - 1), VUL_DAMAGED_HINT);
    saved[have - 1] ^= 1;
    SAME(vul_client_resume(&other, saved, have), VUL_DAMAGED_HINT);
    saved[have - 1] ^= 1;
    SAME(vul_client_ask(&other, 0), VUL_NOT_READY);
    SAME(vul_client_resume(&other, saved, have), VUL_OK);
    same("the file is that of the hint held", vul_client_hint_len(&other), have);
    gets(&server, &other, 1000, 0, 1, zeroth, len);
    vul_client_close(&other);
    vul_server_close(&server);
    gone(saved);
}

/* A hint of a later version than the server's is none to go on with. */
static void is_another(const uint8_t *file, size_t size, const uint8_t key[32], size_t len)
{
    vul_server server = VUL_SERVER_INIT;
    vul_client client = VUL_CLIENT_INIT;
    uint8_t *edited = room(len);
    memset(edited, 9, len);
    greeted(&server, &client, file, size, key);
    SAME(vul_server_edit(&server, 0, edited, len), VUL_OK);
    SAME(vul_server_publish(&server), VUL_OK);
    SAME(vul_client_sync(&client, VUL_SIMPLE), VUL_OK);
    ended(&server, &client, 1000, VUL_STALE);
    forget(&client);
    SAME(vul_client_sync(&client, VUL_SIMPLE), VUL_OK);
    ended(&server, &client, 1000, VUL_SYNCED);
    forget(&client);
    size_t have = vul_client_hint_len(&client);
    uint8_t *saved = room(have);
    SAME(vul_client_save(&client, saved, have), VUL_OK);
    greeted(&server, &client, file, size, key);
    SAME(vul_client_resume(&client, saved, have), VUL_OTHER_HINT);
    same("no hint is held then", vul_client_hint_len(&client), 0);
    vul_client_close(&client);
    vul_server_close(&server);
    gone(saved);
    gone(edited);
}

/* A store with no room for a further record, whose records have one byte. */
static void is_full(const uint8_t *file, size_t size, const uint8_t key[32])
{
    static const uint8_t bytes[2] = {5, 5};
    vul_server server = VUL_SERVER_INIT;
    vul_client client = VUL_CLIENT_INIT;
    greeted(&server, &client, file, size, key);
    SAME(vul_server_append(&server, bytes, 1), VUL_FULL);
    SAME(vul_server_append(&server, bytes, 2), VUL_BAD_RECORD_LENGTH);
    appends_none(&server, &client, bytes, 1, 14);
    appends_none(&server, &client, bytes, 2, 7);
    SAME(vul_server_publish(&server), VUL_NOTHING_TO_PUBLISH);
    vul_client_close(&client);
    vul_server_close(&server);
}

int main(int count, char **words)
{
    if (count != 6)
        return 2;
    uint8_t zeroth[70000], first[70000], key[32], reader[32] = {0}, seed[32];
    size_t len = from_hex(words[2], zeroth), size;
    from_hex(words[3], first);
    from_hex(words[4], key);
    memset(seed, 0x11, sizeof seed);
    uint8_t *file = read_file(words[1], &size);

    is_closed();
    greets();
    vul_server server = {0}, again = {0};
    vul_client client = VUL_CLIENT_INIT;
    uint32_t open = 9;
    uint64_t number, version;
    vul_known known;
    is_no_snapshot(&server, file, size);
    SAME(vul_server_open(&server, file, size), VUL_OK);
    is_no_snapshot(&server, file, size);
    SAME(vul_server_version(&server, &version), VUL_OK);
    same("the first version", version, 1);
    SAME(vul_server_feed(&server, SESSION, reader, 1), VUL_NO_SESSION);
    SAME(vul_server_session_open(&server, SESSION), VUL_OK);
    SAME(vul_server_session_open(&server, SESSION), VUL_ID_IN_USE);
    SAME(vul_server_session_is_open(&server, SESSION, &open), VUL_OK);
    same("the session is open", open, 1);
    SAME(vul_server_session_is_open(&server, SESSION + 1, &open), VUL_OK);
    same("no other is", open, 0);

    SAME(vul_client_open(&client, seed, ((uint64_t)1 << 62) + 1), VUL_BAD_NUMBER);
    SAME(vul_client_open(&client, seed, 5), VUL_OK);
    is_null(&server, &client);
    SAME(vul_client_known(&client, &known), VUL_OK);
    same("nothing is known yet", known.version + known.count + known.form + known.record_len + known.dimension, 0);
    SAME(vul_client_ask(&client, 0), VUL_NOT_READY);
    SAME(vul_client_hello(&client, reader), VUL_OK);
    SAME(vul_client_hello(&client, reader), VUL_UNTAKEN);
    SAME(vul_client_feed(&client, reader, 1), VUL_UNTAKEN);
    ended(&server, &client, 5, VUL_WELCOMED);
    forget(&client);
    SAME(vul_client_hello(&client, reader), VUL_ALREADY_WELCOME);
    SAME(vul_client_known(&client, &known), VUL_OK);
    same("the version known", known.version, 1);
    same("records in form 1 have one length", known.form == 1 ? known.record_len : len, len);
    retrieves(&server, &client, zeroth, first, len);
    SAME(vul_client_number(&client, &number), VUL_OK);
    same("numbers are spent one by one", number, 5 + 2 * 4);
    publishes(&server, key, len);
    is_fed_by_frames(file, size);
    goes_on(file, size, key, zeroth, len, VUL_SIMPLE);
    goes_on(file, size, key, zeroth, len, VUL_DOUBLE);
    is_another(file, size, key, len);
    grows(file, size, key, len, VUL_SIMPLE);
    grows(file, size, key, len, VUL_DOUBLE);
    size_t full_size;
    uint8_t *full = read_file(words[5], &full_size);
    is_full(full, full_size, key);
    gone(full);

    /* a snapshot is that of the current version, and opens another server of it */
    size_t have = vul_server_snapshot_len(&server);
    uint8_t *bytes = room(have);
    SAME(vul_server_snapshot(&server, bytes, have - 1), VUL_BAD_LENGTH);
    SAME(vul_server_snapshot(&server, bytes, have), VUL_OK);
    SAME(vul_server_open(&again, bytes, have), VUL_OK);
    SAME(vul_server_version(&again, &version), VUL_OK);
    same("the version of the snapshot", version, 4);
    gone(bytes);

    /* bytes that are no reply end the client */
    SAME(vul_client_feed(&client, (const uint8_t *)"\xff\xff\xff\xff\xff", 5), VUL_BAD_REPLY);
    SAME(vul_client_ask(&client, 0), VUL_FAILED);
    vul_client_close(&client);
    vul_client_close(&client);
    vul_server_close(&server);
    vul_server_close(&again);
    gone(file);
    printf("%d passed, %d failed\n", passed, failed);
    return failed != 0;
}
