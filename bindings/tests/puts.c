/* Puts values on a node whose journal is a file, and says of each its number once it is kept; then how many records there are.
 * usage: puts ROSTER SEED HEIGHT NUMBER FOLDER COUNT (the seed in hex). The values are those of tests/stopping.py. */
#define _POSIX_C_SOURCE 200809L
#define _DEFAULT_SOURCE
#include "../journal_file.h"
#include <stdio.h>

static int refused(void *node, const char *what)
{
    char why[100] = "";
    size_t n = depot_copy(node, 0, why, sizeof why - 1);
    printf("%s %.*s\n", what, (int)n, why);
    return 2;
}

int main(int argc, char **argv)
{
    FILE *f = argc == 7 ? fopen(argv[1], "rb") : NULL;
    static uint8_t roster[16384];
    if (!f)
        return 1;
    size_t length = fread(roster, 1, sizeof roster, f), size;
    fclose(f);
    uint8_t seed[32], *bytes;
    for (int i = 0; i < 32; i++)
        if (sscanf(argv[2] + 2 * i, "%2hhx", &seed[i]) != 1)
            return 1;
    struct journal j;
    void *node = depot_new();
    if (!node || depot_roster(node, roster, length) || depot_key(node, seed, (unsigned)atoi(argv[3])))
        return 2;
    if (journal_open(&j, argv[5]) || journal_read(&j, &bytes, &size))
        return puts("disk"), 4;
    if (depot_start(node, (unsigned)atoi(argv[4]), bytes, size))
        return refused(node, "start");
    free(bytes);
    if (journal_keep(&j, node))
        return puts("disk"), 4;
    int count = atoi(argv[6]);
    for (int i = 0; i < count; i++) {
        char key[16], value[16];
        uint8_t change[40];
        int key_length = sprintf(key, "k%d", i % 7), length = sprintf(value, "v%d", i);
        uint8_t *end = depot_change(change, key, (size_t)key_length, value, (size_t)length);
        if (depot_put(node, 1, change, (size_t)(end - change)))
            return refused(node, "put");
        if (journal_keep(&j, node))
            return puts("disk"), 4;
        if (depot_field(node, 0, 1) != 1)
            return puts("not done"), 8;
        printf("%u/%u\n", (unsigned)depot_field(node, 33, 4), (unsigned)depot_field(node, 37, 8));
        fflush(stdout);
    }
    printf("records %llu\n", (unsigned long long)j.kept);
    depot_free(node);
    close(j.file);
    return 0;
}
