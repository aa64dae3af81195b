/*
 * usage: opens FILE
 *
 * Opens a server of the snapshot file FILE by the shared library, and prints the code, the server's version, the library's version and the
 * library's file, as the loader found it.
 */
#define _GNU_SOURCE
#include <vulandrai.h>
#include <dlfcn.h>
#include <stdio.h>
#include <stdlib.h>

static uint8_t snapshot[1 << 20];

int main(int count, char **words)
{
    char place[4096];
    Dl_info found;
    FILE *file = count == 2 ? fopen(words[1], "rb") : NULL;
    if (file == NULL)
        return 2;
    size_t len = fread(snapshot, 1, sizeof snapshot, file);
    fclose(file);
    vul_server server = VUL_SERVER_INIT;
    uint64_t version = 0;
    uint32_t code = vul_server_open(&server, snapshot, len);
    vul_server_version(&server, &version);
    vul_server_close(&server);
    if (dladdr((void *)vul_version, &found) == 0 || realpath(found.dli_fname, place) == NULL)
        return 2;
    printf("%u %llu %s %s\n", (unsigned)code, (unsigned long long)version, vul_version(), place);
    return 0;
}
