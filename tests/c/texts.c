/*
 * usage: texts
 *
 * What the library says of itself and of its codes, and handles that begin with the header's macros. It ends with 'N passed, M
 * failed', with status 0 only if M is 0.
 */
#include "vulandrai.h"
#include <stdio.h>
#include <string.h>

enum { CODES = 300, UNKNOWN = 299 };

static int passed, failed;

static void holds(const char *name, int is_so)
{
    if (is_so) {
        passed++;
    } else {
        failed++;
        printf("FAIL %s\n", name);
    }
}

/* Codes with a text of their own: those of the header, none like another. */
static void texts(void)
{
    static const uint32_t known[] = {
        VUL_OK, VUL_NOT_READY, VUL_BUSY, VUL_BAD_INDEX, VUL_SEED_USED_UP, VUL_MEMORY, VUL_FAILED, VUL_ALREADY_WELCOME, VUL_BAD_WELCOME,
        VUL_BAD_REPLY, VUL_CLOSED, VUL_BAD_NUMBER, VUL_BAD_SCHEME, VUL_BAD_LENGTH, VUL_UNTAKEN, VUL_NULL, VUL_NO_SESSION, VUL_ID_IN_USE,
        VUL_NO_SUCH_RECORD, VUL_BAD_RECORD_LENGTH, VUL_NOTHING_TO_PUBLISH, VUL_VERSIONS_USED_UP, VUL_FULL, VUL_NOT_SNAPSHOT, VUL_BAD_LAYOUT,
        VUL_SHORT, VUL_BAD_DIGEST, VUL_TRAILING_BYTES, VUL_BAD_SLOT, VUL_NOT_READ, VUL_DAMAGED_HINT, VUL_OTHER_HINT};
    enum { KNOWN = sizeof known / sizeof *known };
    const char *none = vul_strerror(UNKNOWN);
    int with_text = 0;
    for (uint32_t code = 0; code < CODES; code++)
        with_text += strcmp(vul_strerror(code), none) != 0;
    holds("as many texts as codes", with_text == KNOWN);
    for (int i = 0; i < KNOWN; i++) {
        holds("a code has a text", strcmp(vul_strerror(known[i]), none) != 0 && vul_strerror(known[i])[0] != '\0');
        for (int j = 0; j < i; j++)
            holds("no two texts are alike", strcmp(vul_strerror(known[i]), vul_strerror(known[j])) != 0);
    }
    holds("the largest number has a text", strcmp(vul_strerror(UINT32_MAX), none) == 0);
}

int main(void)
{
    vul_client client = VUL_CLIENT_INIT;
    vul_server server = VUL_SERVER_INIT;
    uint64_t number;
    holds("the version", strcmp(vul_version(), VUL_VERSION) == 0);
    texts();
    holds("a client that begins closed", vul_client_number(&client, &number) == VUL_CLOSED);
    holds("a server that begins closed", vul_server_version(&server, &number) == VUL_CLOSED);
    vul_client_close(&client);
    vul_server_close(&server);
    holds("closed once more", client.at == NULL && server.at == NULL);
    printf("%d passed, %d failed\n", passed, failed);
    return failed != 0;
}
