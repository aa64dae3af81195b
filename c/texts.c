/*
 * The calls of include/vulandrai.h that return text. The proved library has none, since its exports return no pointers.
 */
#include "vulandrai.h"

const char *vul_version(void)
{
    return VUL_VERSION;
}

/* A client's codes. */
static const char *client_text(uint32_t code)
{
    switch (code) {
    case VUL_NOT_READY: return "no greeting was accepted yet, or no hint is held";
    case VUL_BUSY: return "a call is outstanding: feed until its event comes";
    case VUL_BAD_INDEX: return "there is no such record";
    case VUL_SEED_USED_UP: return "the numbers of this seed are used up";
    case VUL_MEMORY: return "no memory";
    case VUL_FAILED: return "an earlier feed ended the client: close it";
    case VUL_ALREADY_WELCOME: return "a greeting was accepted before";
    case VUL_BAD_WELCOME: return "the server's greeting is none that this client accepts";
    case VUL_BAD_REPLY: return "a reply doesn't fit what was asked";
    case VUL_DAMAGED_HINT: return "the bytes are no file of a hint";
    case VUL_OTHER_HINT: return "the hint is of another store or of a later version than the server's: sync instead";
    default: return NULL;
    }
}

/* The codes of a handle that is misused. */
static const char *handle_text(uint32_t code)
{
    switch (code) {
    case VUL_CLOSED: return "the handle is closed";
    case VUL_BAD_NUMBER: return "the first number is above 2^62";
    case VUL_BAD_SCHEME: return "there is no such scheme";
    case VUL_BAD_LENGTH: return "another length than there are bytes to take, or a record that fits no frame";
    case VUL_UNTAKEN: return "bytes or events wait that the call would overwrite: take them first";
    case VUL_NULL: return "a null pointer has a length that is not 0";
    default: return NULL;
    }
}

/* A server's codes, and those of the snapshot that it is opened with. */
static const char *server_text(uint32_t code)
{
    switch (code) {
    case VUL_NO_SESSION: return "no session has this number";
    case VUL_ID_IN_USE: return "a session has this number";
    case VUL_NO_SUCH_RECORD: return "there is no such record to edit";
    case VUL_BAD_RECORD_LENGTH: return "the store takes these bytes for no record";
    case VUL_NOTHING_TO_PUBLISH: return "the draft is the current version";
    case VUL_VERSIONS_USED_UP: return "the version is the last that there is";
    case VUL_FULL: return "the store has no room for one record more";
    case VUL_NOT_SNAPSHOT: return "the bytes don't begin as a snapshot";
    case VUL_BAD_LAYOUT: return "no store has the snapshot's sizes";
    case VUL_SHORT: return "the snapshot is cut short";
    case VUL_BAD_DIGEST: return "the snapshot's digest is wrong";
    case VUL_TRAILING_BYTES: return "bytes follow the snapshot";
    case VUL_BAD_SLOT: return "a record of the snapshot is no slot";
    case VUL_NOT_READ: return "the snapshot can't be read";
    default: return NULL;
    }
}

const char *vul_strerror(uint32_t code)
{
    const char *text = code == VUL_OK ? "done" : client_text(code);
    if (text == NULL)
        text = handle_text(code);
    if (text == NULL)
        text = server_text(code);
    return text == NULL ? "no code of this library" : text;
}
