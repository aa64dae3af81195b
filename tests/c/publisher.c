/*
 * usage: publisher PORT KEY simple|double
 *
 * One session over loopback that speaks for the publisher: a record is got, replaced and published with one that is
 * appended, and asked for by the old hint, which is stale; so it syncs again and gets the new one, and the one appended. Each record is printed as examples/c/get.c does.
 */
#define main get_main
#include "../../examples/c/get.c"
#undef main

int main(int count, char **words)
{
    if (count != 4)
        return 2;
    uint8_t key[32], seed[32] = {9};
    const uint8_t edited[1] = {0x64}, appended[1] = {0x05};
    read_seed(words[2], key);
    uint32_t scheme = strcmp(words[3], "double") == 0 ? VUL_DOUBLE : VUL_SIMPLE;
    int fd = connected("127.0.0.1", words[1]);
    vul_client client = VUL_CLIENT_INIT;
    wanted("open", vul_client_open(&client, seed, 0));
    wanted("hello", vul_client_hello(&client, key));
    ends_as(&client, fd, VUL_WELCOMED, "hello");
    sync_with(&client, fd, scheme);
    get(&client, fd, scheme, 1);
    wanted("edit", vul_client_edit(&client, 1, edited, sizeof edited));
    ends_as(&client, fd, VUL_DONE, "edit");
    wanted("append", vul_client_append(&client, appended, sizeof appended));
    ends_as(&client, fd, VUL_DONE, "append");
    get(&client, fd, scheme, 1);
    wanted("publish", vul_client_publish(&client));
    ends_as(&client, fd, VUL_DONE, "publish");
    get(&client, fd, scheme, 1);
    get(&client, fd, scheme, 0);
    get(&client, fd, scheme, 2);
    vul_client_close(&client);
    close(fd);
    return 0;
}
