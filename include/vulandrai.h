/*
 * Vulandrai: private information retrieval. A client asks a server for a record without the server learning which.
 *
 * Neither side knows a connection: bytes go in by `feed`, in any pieces, and the bytes to send are taken out. Every call
 * ends, and each answers what its contract in crates/vulandrai_c says.
 *
 * Handles. A vul_client and a vul_server are memory of the caller's, all zero before `open` and after `close`: begin with
 * `vul_client client = VUL_CLIENT_INIT;`. A handle is not copied. `open` frees what the handle held.
 *
 * Threads. One thread at a time uses a handle, and it may move from thread to thread. Who shares one puts a lock round each
 * call, and round a length that is asked for with the bytes that are then taken. Different handles share nothing.
 *
 * Fork. A fork copies handles. A client's copy would spend the same numbers under the same seed, and show what is asked: the
 * child neither calls nor closes it. A server's copy may go on in the child if the process had one thread at the fork. No call
 * is made from a signal's handler.
 *
 * Codes. 0 is done. Whatever other code a call answers, the handle is as it was before, unless the code's line below says
 * otherwise. The first that applies is answered: VUL_NULL, what is wrong with an argument by itself (VUL_BAD_NUMBER,
 * VUL_BAD_SCHEME, a record too long for any frame), VUL_CLOSED, VUL_UNTAKEN, and then what the client or the server says.
 *
 * Pointers. A null pointer with a length that is not 0 is VUL_NULL, and with length 0 it is no bytes. All other pointers
 * point to what their types say, and lengths are those of the memory: nothing can check that. No other thread writes there
 * during the call.
 *
 * Bytes. Sizes are in bytes; keys, seeds and digests have 32. What is copied out has exactly the length that the call
 * before it gave, else it is VUL_BAD_LENGTH and nothing is taken. A record has at most 256 bytes, a frame 16 MiB and 5,
 * a hint's file 129 MiB, a snapshot 21 MiB, or 1.2 GB if the store is wide.
 *
 * Time. No call waits for anything or takes a lock, but some compute for long. With the largest ordinary store, 262,144 records of 80
 * bytes, at most about this on a core of 2.5 GHz (docs/MEASUREMENTS.md): `vul_server_open` 8 s; `vul_server_snapshot` 0.4 s;
 * `vul_server_publish`, or a frame that publishes, 1 ms for each row of digits that changed; a frame that asks, 4 ms by
 * SimplePIR and 0.3 s by DoublePIR; `vul_client_ask` 30 ms and 0.12 s, `vul_client_feed` of an answer 0.1 ms and 70 ms;
 * `vul_client_save` and `vul_client_resume` 0.3 s for a hint of 16 MiB. All others take less than 3 ms, besides copying what
 * is taken. Whether a call takes as long for each index is not said.
 *
 * Secrets. `vul_client_close` gives memory back, and does not overwrite it.
 */
#ifndef VULANDRAI_H
#define VULANDRAI_H

#include <stddef.h>
#include <stdint.h>

/* The version of this header; `vul_version` has the library's. The shared library is libvulandrai.so.1 as long as programs
 * that were compiled with an earlier header run with it. */
#define VUL_VERSION "0.2.0"

/* A handle that is closed. */
#define VUL_CLIENT_INIT {0, NULL}
#define VUL_SERVER_INIT {0, NULL}

#ifdef __cplusplus
extern "C" {
#endif

enum {
    VUL_OK = 0,
    /* A client's refusals of a call. */
    VUL_NOT_READY = 1,       /* no greeting was accepted yet, or no hint is held */
    VUL_BUSY = 2,            /* a call is outstanding: feed until its event comes */
    VUL_BAD_INDEX = 3,       /* there is no such record */
    VUL_SEED_USED_UP = 4,    /* the numbers of this seed are used up */
    VUL_MEMORY = 5,          /* no memory. An ask has spent its number; after a client's feed the client has failed: close;
                              * after a server's feed the session is closed, and the replies to the frames before wait */
    VUL_FAILED = 6,          /* an earlier feed ended the client: close. Its events may still be taken */
    VUL_ALREADY_WELCOME = 7, /* a greeting was accepted before */
    /* What ends a client: a feed answers it, and every later call VUL_FAILED. */
    VUL_BAD_WELCOME = 16, /* the server's greeting is none that this client accepts */
    VUL_BAD_REPLY = 17,   /* a reply that doesn't fit what was asked */
    /* Misuse of a handle. */
    VUL_CLOSED = 32,     /* the handle is closed */
    VUL_BAD_NUMBER = 33, /* a first number above 2^62 */
    VUL_BAD_SCHEME = 34, /* neither VUL_SIMPLE nor VUL_DOUBLE */
    VUL_BAD_LENGTH = 35, /* another length than there are bytes to take, or a record's bytes that fit no frame */
    VUL_UNTAKEN = 36,    /* bytes or events wait that this call would overwrite: take them first */
    VUL_NULL = 37,       /* a null pointer with a length that is not 0 */
    /* A server's. */
    VUL_NO_SESSION = 48,         /* no session has this number */
    VUL_ID_IN_USE = 49,          /* a session has this number */
    VUL_NO_SUCH_RECORD = 50,     /* an edit of a record that there is none of */
    VUL_BAD_RECORD_LENGTH = 51,  /* an edit to or an append of bytes that the store takes for no record */
    VUL_NOTHING_TO_PUBLISH = 52, /* the draft is the current version */
    VUL_VERSIONS_USED_UP = 53,   /* the version is the last that there is */
    VUL_FULL = 54,               /* an append where the store has no room for one record more */
    /* A snapshot's, when a server is opened, in the order in which their causes are looked for. */
    VUL_NOT_SNAPSHOT = 64,
    VUL_BAD_LAYOUT = 65,
    VUL_SHORT = 66,
    VUL_BAD_DIGEST = 67,
    VUL_TRAILING_BYTES = 68,
    VUL_BAD_SLOT = 69,
    VUL_NOT_READ = 70, /* kept for a read that fails: bytes in memory are always read */
    /* A hint's file, when a client is resumed. */
    VUL_DAMAGED_HINT = 80, /* the bytes are no file of a hint */
    VUL_OTHER_HINT = 81    /* its hint is of another store or of a later version than the server's: sync instead */
};

/* The library's version, as "0.2.0". Never freed. */
const char *vul_version(void);

/* What a code means, in a few words of English. Never null, never freed, and the same for each thread. */
const char *vul_strerror(uint32_t code);

/* Schemes. */
enum { VUL_SIMPLE = 0, VUL_DOUBLE = 1 };

/* How many bytes say which store a server's is. */
enum { VUL_PLAN_LEN = 41 };

/* Kinds of events. */
enum {
    VUL_NO_EVENT = 0,
    VUL_WELCOMED = 1,   /* version: the current one */
    VUL_SYNCED = 2,     /* detail: the scheme; version: that of the hint held */
    VUL_RETRIEVED = 3,  /* index, version, record_len: the record is there to be taken */
    VUL_UNREADABLE = 4, /* index, version: the answer gives no record */
    VUL_STALE = 5,      /* version: the current one; sync and ask again */
    VUL_DONE = 6,       /* version: after an edit or an append the current one, after a publication the new one */
    VUL_REFUSED = 7     /* detail: the server's refusal code */
};

/* ---- a client */

typedef struct {
    uint64_t full;
    void *at;
} vul_client;

typedef struct {
    uint32_t kind, detail, index, reserved;
    uint64_t version, record_len;
} vul_event;

/* What a client knows of its server; all 0 before it was welcomed. */
typedef struct {
    uint64_t version;
    uint32_t count;      /* how many records */
    uint32_t form;       /* 1, 129: all of record_len bytes; 2, 130: each of at most record_len - 2 */
    uint32_t record_len; /* bytes of a record, in forms 2 and 130 of its slot */
    uint32_t dimension;  /* words of a secret: fewer than 1024 hide the index less */
} vul_known;

/* A client with a secret seed of 32 bytes. No number is ever to be used twice under one seed, also by another client or another
 * run. Give each client fresh bytes of the system's random source (getrandom) and the number 0, and keep neither: then
 * nothing is left to be used twice. Whoever gives one seed to several clients keeps its numbers, and begins where
 * `vul_client_number` left off. VUL_BAD_NUMBER, VUL_MEMORY. */
uint32_t vul_client_open(vul_client *client, const uint8_t seed[32], uint64_t first_number);

/* The same, for a client of wide stores (forms 129 and 130). A store of the other kind refuses a client's hello with
 * code 3; then open the handle anew with the other call, with the same seed and number. */
uint32_t vul_client_open_wide(vul_client *client, const uint8_t seed[32], uint64_t first_number);

/* Frees the client, if the handle holds one. */
void vul_client_close(vul_client *client);

/* Each of these six makes one frame that waits to be sent, and is VUL_UNTAKEN where bytes wait already. */

/* Greets, as a reader with a key of 32 zero bytes or as the publisher with its key. */
uint32_t vul_client_hello(vul_client *client, const uint8_t key[32]);

/* Asks for the hint of the last version known. */
uint32_t vul_client_sync(vul_client *client, uint32_t scheme);

/* Asks for a record by a query that hides which. It spends a number. */
uint32_t vul_client_ask(vul_client *client, uint32_t index);

/* Replaces a record of the draft. A record of more than 65,535 bytes is VUL_BAD_LENGTH. */
uint32_t vul_client_edit(vul_client *client, uint32_t index, const uint8_t *record, size_t len);

/* Puts a record after those of the draft. A record of more than 65,535 bytes is VUL_BAD_LENGTH. */
uint32_t vul_client_append(vul_client *client, const uint8_t *record, size_t len);

/* Publishes the draft. */
uint32_t vul_client_publish(vul_client *client);

/* Takes a piece of the server's stream. What it makes waits to be sent, and its events wait to be taken. VUL_UNTAKEN where
 * bytes or events of an earlier call wait. VUL_BAD_WELCOME, VUL_BAD_REPLY, VUL_MEMORY and VUL_FAILED end the client. */
uint32_t vul_client_feed(vul_client *client, const uint8_t *piece, size_t len);

/* How many bytes wait to be sent, 0 where the handle is closed. */
size_t vul_client_waiting(vul_client *client);

/* Copies the bytes that wait to be sent, all of them, and forgets them. */
uint32_t vul_client_take(vul_client *client, uint8_t *out, size_t len);

/* The first event that waits, of kind VUL_NO_EVENT where there is none. */
uint32_t vul_client_event(vul_client *client, vul_event *event);

/* Copies the record of the first event, as many bytes as the event's record_len says, and forgets the event. */
uint32_t vul_client_next(vul_client *client, uint8_t *record, size_t len);

/* The number of the next retrieval. */
uint32_t vul_client_number(vul_client *client, uint64_t *number);

/* How many bytes the file of the hint held has, 0 where there is no hint or the handle is closed. */
size_t vul_client_hint_len(vul_client *client);

/* Writes the file of the hint held, which holds no secret: the same bytes as pir_client's folder keeps. VUL_MEMORY. */
uint32_t vul_client_save(vul_client *client, uint8_t *out, size_t len);

/* Goes on with the hint of such a file, once a greeting was accepted: a sync then goes by what has changed since, and is needed only
 * where the version is another. VUL_DAMAGED_HINT, VUL_MEMORY, then VUL_FAILED, VUL_NOT_READY, VUL_BUSY, VUL_OTHER_HINT. With each
 * of them the client is as it was. */
uint32_t vul_client_resume(vul_client *client, const uint8_t *file, size_t len);

/* Writes the VUL_PLAN_LEN bytes that say which store the server's is. A hint's file has those of its store after its first 8
 * bytes, so who keeps several files finds the server's. VUL_NOT_READY before a greeting was accepted, then VUL_BAD_LENGTH. */
uint32_t vul_client_plan(vul_client *client, uint8_t *plan, size_t len);

/* What the client knows of its server. */
uint32_t vul_client_known(vul_client *client, vul_known *known);

/* ---- a server */

typedef struct {
    uint64_t full;
    void *at;
} vul_server;

/* A server of the records of a snapshot file's bytes, with no session. The snapshot's codes, VUL_MEMORY. */
uint32_t vul_server_open(vul_server *server, const uint8_t *snapshot, size_t len);

/* Frees the server, if the handle holds one. */
void vul_server_close(vul_server *server);

/* Begins a session under a number of the caller's: one for each connection. VUL_ID_IN_USE, VUL_MEMORY. */
uint32_t vul_server_session_open(vul_server *server, uint64_t id);

/* Ends a session. VUL_NO_SESSION where there is none. */
uint32_t vul_server_session_close(vul_server *server, uint64_t id);

/* Whether a session is there and takes more bytes: *open is 1 or 0. */
uint32_t vul_server_session_is_open(vul_server *server, uint64_t id, uint32_t *open);

/* Takes a piece of a session's stream. The replies wait to be sent to it. VUL_NO_SESSION, VUL_MEMORY, VUL_UNTAKEN where
 * replies to an earlier piece wait. */
uint32_t vul_server_feed(vul_server *server, uint64_t id, const uint8_t *piece, size_t len);

/* Takes a piece of a session's stream up to the end of the first frame that becomes whole, or all of it where none does: *taken is
 * how many bytes, at least 1 of a piece that has some. The reply waits; take it, and feed the rest then. A few bytes may
 * ask for a reply of 256 KiB, so a piece fed whole may make a thousand times its size, and one frame at a time no more than
 * one reply. The codes of `vul_server_feed`; with each but VUL_OK *taken is 0. */
uint32_t vul_server_feed_frame(vul_server *server, uint64_t id, const uint8_t *piece, size_t len, size_t *taken);

/* How many bytes of replies wait, 0 where the handle is closed. */
size_t vul_server_waiting(vul_server *server);

/* Copies the replies that wait, all of them, and forgets them. */
uint32_t vul_server_take(vul_server *server, uint8_t *out, size_t len);

/* Replaces a record of the draft, with no session. */
uint32_t vul_server_edit(vul_server *server, uint32_t index, const uint8_t *record, size_t len);

/* Puts a record after those of the draft, with no session. */
uint32_t vul_server_append(vul_server *server, const uint8_t *record, size_t len);

/* Publishes the draft. */
uint32_t vul_server_publish(vul_server *server);

/* The current version. */
uint32_t vul_server_version(vul_server *server, uint64_t *version);

/* How many bytes the snapshot of the current version has, 0 where the handle is closed. */
size_t vul_server_snapshot_len(vul_server *server);

/* Writes the snapshot of the current version. VUL_MEMORY. */
uint32_t vul_server_snapshot(vul_server *server, uint8_t *out, size_t len);

#ifdef __cplusplus
}
#endif

#endif
