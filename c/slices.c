/*
 * The calls of include/vulandrai.h that take bytes. The proved library takes them as slices, whose address is never null: here
 * a null pointer with a length that is not 0 is answered, and one with length 0 becomes another address. Nothing else is C.
 */
#include "vulandrai.h"

uint32_t vul_client_edit_bytes(vul_client *client, uint32_t index, const uint8_t *record, size_t len);
uint32_t vul_client_append_bytes(vul_client *client, const uint8_t *record, size_t len);
uint32_t vul_client_feed_bytes(vul_client *client, const uint8_t *piece, size_t len);
uint32_t vul_client_take_bytes(vul_client *client, uint8_t *out, size_t len);
uint32_t vul_client_next_bytes(vul_client *client, uint8_t *record, size_t len);
uint32_t vul_client_plan_bytes(vul_client *client, uint8_t *plan, size_t len);
uint32_t vul_client_save_bytes(vul_client *client, uint8_t *out, size_t len);
uint32_t vul_client_resume_bytes(vul_client *client, const uint8_t *file, size_t len);
uint32_t vul_server_open_bytes(vul_server *server, const uint8_t *snapshot, size_t len);
uint32_t vul_server_feed_bytes(vul_server *server, uint64_t id, const uint8_t *piece, size_t len);
uint32_t vul_server_feed_frame_bytes(vul_server *server, uint64_t id, const uint8_t *piece, size_t len, size_t *taken);
uint32_t vul_server_take_bytes(vul_server *server, uint8_t *out, size_t len);
uint32_t vul_server_edit_bytes(vul_server *server, uint32_t index, const uint8_t *record, size_t len);
uint32_t vul_server_append_bytes(vul_server *server, const uint8_t *record, size_t len);
uint32_t vul_server_snapshot_bytes(vul_server *server, uint8_t *out, size_t len);

/* Where an empty slice stands that came as a null pointer. It has no byte, so it is never read or written. */
static uint8_t empty[1];

#define IS_BAD(at, len) ((at) == NULL && (len) != 0)
#define PLACE(at) ((at) == NULL ? empty : (at))

uint32_t vul_client_edit(vul_client *client, uint32_t index, const uint8_t *record, size_t len)
{
    return IS_BAD(record, len) ? VUL_NULL : vul_client_edit_bytes(client, index, PLACE(record), len);
}

uint32_t vul_client_append(vul_client *client, const uint8_t *record, size_t len)
{
    return IS_BAD(record, len) ? VUL_NULL : vul_client_append_bytes(client, PLACE(record), len);
}

uint32_t vul_client_feed(vul_client *client, const uint8_t *piece, size_t len)
{
    return IS_BAD(piece, len) ? VUL_NULL : vul_client_feed_bytes(client, PLACE(piece), len);
}

uint32_t vul_client_take(vul_client *client, uint8_t *out, size_t len)
{
    return IS_BAD(out, len) ? VUL_NULL : vul_client_take_bytes(client, PLACE(out), len);
}

uint32_t vul_client_next(vul_client *client, uint8_t *record, size_t len)
{
    return IS_BAD(record, len) ? VUL_NULL : vul_client_next_bytes(client, PLACE(record), len);
}

uint32_t vul_client_plan(vul_client *client, uint8_t *plan, size_t len)
{
    return IS_BAD(plan, len) ? VUL_NULL : vul_client_plan_bytes(client, PLACE(plan), len);
}

uint32_t vul_client_save(vul_client *client, uint8_t *out, size_t len)
{
    return IS_BAD(out, len) ? VUL_NULL : vul_client_save_bytes(client, PLACE(out), len);
}

uint32_t vul_client_resume(vul_client *client, const uint8_t *file, size_t len)
{
    return IS_BAD(file, len) ? VUL_NULL : vul_client_resume_bytes(client, PLACE(file), len);
}

uint32_t vul_server_open(vul_server *server, const uint8_t *snapshot, size_t len)
{
    return IS_BAD(snapshot, len) ? VUL_NULL : vul_server_open_bytes(server, PLACE(snapshot), len);
}

uint32_t vul_server_feed(vul_server *server, uint64_t id, const uint8_t *piece, size_t len)
{
    return IS_BAD(piece, len) ? VUL_NULL : vul_server_feed_bytes(server, id, PLACE(piece), len);
}

uint32_t vul_server_feed_frame(vul_server *server, uint64_t id, const uint8_t *piece, size_t len, size_t *taken)
{
    *taken = 0;
    return IS_BAD(piece, len) ? VUL_NULL : vul_server_feed_frame_bytes(server, id, PLACE(piece), len, taken);
}

uint32_t vul_server_take(vul_server *server, uint8_t *out, size_t len)
{
    return IS_BAD(out, len) ? VUL_NULL : vul_server_take_bytes(server, PLACE(out), len);
}

uint32_t vul_server_edit(vul_server *server, uint32_t index, const uint8_t *record, size_t len)
{
    return IS_BAD(record, len) ? VUL_NULL : vul_server_edit_bytes(server, index, PLACE(record), len);
}

uint32_t vul_server_append(vul_server *server, const uint8_t *record, size_t len)
{
    return IS_BAD(record, len) ? VUL_NULL : vul_server_append_bytes(server, PLACE(record), len);
}

uint32_t vul_server_snapshot(vul_server *server, uint8_t *out, size_t len)
{
    return IS_BAD(out, len) ? VUL_NULL : vul_server_snapshot_bytes(server, PLACE(out), len);
}
