/* Measures: puts in memory and on a file, one and 100 at a time, bundles of them, their taking, a start. usage: measure SEED1 SEED2 FOLDER COUNT ROSTER HEIGHT */
#define _POSIX_C_SOURCE 200809L
#define _DEFAULT_SOURCE
#include "journal_file.h"
#include <stdio.h>
#include <sys/resource.h>
#include <time.h>

static double now(void)
{
    struct timespec t;
    clock_gettime(CLOCK_MONOTONIC, &t);
    return (double)t.tv_sec + 1e-9 * (double)t.tv_nsec;
}

static long memory(void)
{
    struct rusage used;
    getrusage(RUSAGE_SELF, &used);
    return used.ru_maxrss;
}

static void must(uint64_t status)
{
    if (status)
        exit((int)status);
}

static void *handle(const uint8_t *roster, size_t length, const char *hex, unsigned height)
{
    uint8_t seed[32];
    for (int i = 0; i < 32; i++)
        if (sscanf(hex + 2 * i, "%2hhx", &seed[i]) != 1)
            exit(1);
    void *node = depot_new();
    if (!node)
        exit(6);
    must(depot_roster(node, roster, length));
    must(depot_key(node, seed, height));
    return node;
}

/* Puts values of 10 bytes under 100 keys; with a journal, as many as `together` are kept before the next. */
static double puts_of(void *node, int count, struct journal *j, int together)
{
    double begun = now();
    for (int i = 0; i < count; i++) {
        char key[16], value[32];
        uint8_t change[64];
        int key_length = sprintf(key, "key%02d", i % 100), length = sprintf(value, "%010d", i);
        must(depot_put(node, 1, change, (size_t)(depot_change(change, key, (size_t)key_length, value, (size_t)length) - change)));
        if (depot_field(node, 0, 1) != 1)
            exit(8);
        if (j && ((i + 1) % together == 0 || i + 1 == count) && journal_keep(j, node))
            exit(4);
    }
    return now() - begun;
}

static uint8_t *answer(void *node, size_t *size)
{
    *size = depot_length(node);
    uint8_t *bytes = malloc(*size + 1);
    if (!bytes || depot_copy(node, 0, bytes, *size) != *size)
        exit(6);
    return bytes;
}

int main(int argc, char **argv)
{
    FILE *f = argc == 7 ? fopen(argv[5], "rb") : NULL;
    static uint8_t roster[16384];
    if (!f)
        return 1;
    size_t length = fread(roster, 1, sizeof roster, f), size, hello_size;
    fclose(f);
    int count = atoi(argv[4]);
    unsigned height = (unsigned)atoi(argv[6]);
    double begun = now();
    void *one = handle(roster, length, argv[1], height);
    printf("a key of height %u: %.2f s\n", height, now() - begun);
    void *two = handle(roster, length, argv[2], height);
    must(depot_start(one, 1, NULL, 0));
    must(depot_start(two, 2, NULL, 0));
    long before = memory();
    double took = puts_of(one, count, NULL, 1);
    printf("%d puts in memory: %.3f s, %.0f a second, %.0f bytes of memory each\n", count, took, count / took, 1024.0 * (double)(memory() - before) / count);
    double sent = 0, read = 0;
    size_t bytes_sent = 0;
    for (int more = 1; more;) {
        must(depot_hello(two));
        uint8_t *hello = answer(two, &hello_size);
        begun = now();
        must(depot_bundle(one, 1 << 20, UINT32_MAX, 0, hello + 5, hello_size - 5));
        sent += now() - begun;
        uint8_t *bundle = answer(one, &size);
        more = (int)depot_field(one, 17, 1);
        begun = now();
        must(depot_take(two, bundle + 22, size - 22));
        read += now() - begun;
        bytes_sent += size - 22;
        free(hello), free(bundle);
    }
    printf("bundles of %d updates, of 1 MiB at most, %zu bytes: %.3f s\n", count, bytes_sent, sent);
    printf("their taking: %.3f s\n", read);
    struct journal j;
    uint8_t *bytes;
    must(depot_end(one));
    if (journal_open(&j, argv[3]) || journal_read(&j, &bytes, &size))
        return 4;
    must(depot_start(one, 1, bytes, size));
    free(bytes);
    if (journal_keep(&j, one))
        return 4;
    for (int together = 1; together <= 100; together += 99) {
        took = puts_of(one, count, &j, together);
        printf("%d puts on a file, %d kept by one pair of syncs: %.3f s, %.0f a second\n", count, together, took, count / took);
    }
    close(j.file);
    must(depot_end(one));
    if (journal_open(&j, argv[3]) || journal_read(&j, &bytes, &size))
        return 4;
    begun = now();
    must(depot_start(one, 1, bytes, size));
    printf("a start from them, %zu bytes: %.3f s\n", size, now() - begun);
    close(j.file);
    free(bytes);
    /* the reader's own journal: foreign records, whose signatures are verified again */
    must(depot_records(two, 0));
    size = depot_records_length(two);
    uint8_t *file = malloc(size + 1);
    if (!file || depot_records_copy(two, 0, file, size) != size)
        return 6;
    file[size++] = 0;
    must(depot_end(two));
    begun = now();
    must(depot_start(two, 2, file, size));
    printf("a start of the reader from %zu bytes: %.3f s\n", size, now() - begun);
    free(file);
    depot_free(one);
    depot_free(two);
    return 0;
}
