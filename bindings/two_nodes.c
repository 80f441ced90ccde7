/* Two nodes in one process: they put, exchange, give a receipt, sign a checkpoint, meet a fork and judge it. One keeps its
 * journal in a file, the other in memory.
 * usage: two_nodes ROSTER SEED1 SEED2 HEIGHT FOLDER (seeds in hex; the folder has no journal yet) */
#define _POSIX_C_SOURCE 200809L
#define _DEFAULT_SOURCE
#include "journal_file.h"
#include <stdio.h>

struct bytes {
    uint8_t *at;
    size_t size;
};

/* What the last call answered, with a 0 behind it. The caller frees it. */
static struct bytes answer(void *node)
{
    struct bytes b = {NULL, depot_length(node)};
    b.at = malloc(b.size + 1);
    if (!b.at || depot_copy(node, 0, b.at, b.size) != b.size)
        exit(6);
    b.at[b.size] = 0;
    return b;
}

static void must(void *node, uint64_t status)
{
    if (status == DEPOT_DONE)
        return;
    struct bytes why = answer(node);
    fprintf(stderr, "status %d %s\n", (int)status, (char *)why.at);
    exit((int)status);
}

/* What was asked of a node was done, and its answer is of this kind. */
static void does(void *node, uint64_t status, unsigned kind)
{
    must(node, status);
    if (depot_field(node, 0, 1) == kind)
        return;
    fprintf(stderr, "kind %d\n", (int)depot_field(node, 0, 1));
    exit(8);
}

static void *handle(struct bytes roster, const char *hex, unsigned height)
{
    uint8_t seed[32];
    for (int i = 0; i < 32; i++)
        if (sscanf(hex + 2 * i, "%2hhx", &seed[i]) != 1)
            exit(1);
    void *node = depot_new();
    if (!node)
        exit(6);
    must(node, depot_roster(node, roster.at, roster.size));
    must(node, depot_key(node, seed, height));
    return node;
}

/* Starts the node from its file. */
static void start(void *node, unsigned number, struct journal *j, const char *folder)
{
    uint8_t *bytes;
    size_t size;
    if (journal_open(j, folder) || journal_read(j, &bytes, &size))
        exit(4);
    must(node, depot_start(node, number, bytes, size));
    free(bytes);
    if (journal_keep(j, node))
        exit(4);
}

/* Keeps what a call added, and only then says what it answered. A node without a file lets its records go. */
static void told_put(const char *who, void *node, struct journal *j, uint64_t status)
{
    must(node, status);
    if (j && journal_keep(j, node))
        exit(4);
    printf("%s put %u/%u\n", who, (unsigned)depot_field(node, 33, 4), (unsigned)depot_field(node, 37, 8));
}

/* A check as the program prints it, of those that this one meets. Its fields begin at `at`. */
static void show_check(void *node, size_t at)
{
    unsigned check = (unsigned)depot_field(node, at, 1), kind = (unsigned)depot_field(node, at + 65, 1);
    if (check == 11 && kind == 1)
        printf("11 Forked SameNumber\n");
    else if (check == 14)
        printf("14 Unwanted\n");
    else
        printf("%u\n", check);
}

/* `to` asks `from` once, and says what became of it. */
static void exchange(void *from, struct journal *sent, void *to, struct journal *read)
{
    does(to, depot_hello(to), 3);
    struct bytes hello = answer(to);
    does(from, depot_bundle(from, 1 << 20, UINT32_MAX, 0, hello.at + 5, hello.size - 5), 4);
    if (sent && journal_keep(sent, from))
        exit(4);
    struct bytes bundle = answer(from);
    does(to, depot_take(to, bundle.at + 22, bundle.size - 22), 5);
    if (read && journal_keep(read, to))
        exit(4);
    unsigned refused = (unsigned)depot_field(to, 10, 4);
    printf("accepted %u known %u refused %u %s\n", (unsigned)depot_field(to, 1, 4), (unsigned)depot_field(to, 5, 4), refused,
           depot_field(to, 9, 1) == 2 ? "whole" : "otherwise");
    for (size_t at = 14; refused--; at += 4 + (depot_field(to, at + 4, 1) == 11 ? 66 : 33)) {
        printf(" refused %u ", (unsigned)depot_field(to, at, 4));
        show_check(to, at + 4);
    }
    free(hello.at);
    free(bundle.at);
}

/* The latest writes of a key, in the words of the program's lines: writer, number and clock, and the value, if there is one that is held. */
static void show(void *node, const char *key)
{
    does(node, depot_latest(node, key, strlen(key)), 0x13);
    struct bytes told = answer(node);
    printf("%s", key);
    size_t at = 5, count = (size_t)depot_field(node, 1, 4);
    while (count--) {
        unsigned mark = (unsigned)depot_field(node, at + 46, 1);
        printf(" %u/%u/%u%s", (unsigned)depot_field(node, at + 32, 2), (unsigned)depot_field(node, at + 34, 4), (unsigned)depot_field(node, at + 38, 8),
               mark == 0 ? "!" : mark == 2 ? "=?" : "=");
        size_t length = mark == 1 ? (size_t)depot_field(node, at + 47, 4) : 0;
        for (size_t i = 0; i < length; i++)
            printf("%02x", told.at[4 + at + 51 + i]);
        at += 47 + (mark == 2 ? 36 : mark ? 4 + length : 0);
    }
    printf("\n");
    free(told.at);
}

/* The records of a node in one run: 01, the length in four bytes and the text of each. The caller frees it. */
static struct bytes records(void *node)
{
    must(node, depot_records(node, 0));
    struct bytes run = {NULL, depot_records_length(node)};
    run.at = malloc(run.size + 1);
    if (!run.at || depot_records_copy(node, 0, run.at, run.size) != run.size)
        exit(6);
    run.at[run.size] = 0; /* the closed gate of a file */
    return run;
}

/* Judges each proof among the node's records. */
static void judge(void *node, struct bytes roster)
{
    struct bytes run = records(node);
    for (size_t at = 0, next; at < run.size; at = next) {
        next = at + 5 + ((size_t)run.at[at + 1] << 24 | (size_t)run.at[at + 2] << 16 | (size_t)run.at[at + 3] << 8 | run.at[at + 4]);
        if (run.at[at + 5] != 5) /* behind the tag of a conviction stands the proof */
            continue;
        struct depot_judged told = depot_c_judge(roster.at, roster.size, run.at + at + 6, next - at - 6);
        if (told.status == DEPOT_MEMORY)
            exit(6);
        printf("judged %u: node %u, kind %u\n", told.status, told.node, told.kind);
    }
    free(run.at);
}

int main(int argc, char **argv)
{
    FILE *f = argc == 6 ? fopen(argv[1], "rb") : NULL;
    if (!f)
        return 1;
    static uint8_t text[16384];
    struct bytes roster = {text, fread(text, 1, sizeof text, f)};
    fclose(f);
    unsigned height = (unsigned)atoi(argv[4]);
    void *one = handle(roster, argv[2], height), *two = handle(roster, argv[3], height), *old = handle(roster, argv[2], height);
    struct journal j;
    start(one, 1, &j, argv[5]);
    must(two, depot_start(two, 2, NULL, 0));
    uint8_t changes[32], *end = depot_change(changes, "color", 5, "blue", 4);
    told_put("one", one, &j, depot_put(one, 1, changes, (size_t)(end - changes)));
    end = depot_change(changes, "color", 5, "green", 5);
    told_put("two", two, NULL, depot_put(two, 1, changes, (size_t)(end - changes)));
    struct bytes green = answer(two); /* the id of that update, behind the length and the kind */
    struct bytes copy = records(one); /* an old copy of the journal */
    end = depot_change(depot_change(changes, "a", 1, "1", 1), "b", 1, "2", 1);
    told_put("one", one, &j, depot_put(one, 2, changes, (size_t)(end - changes))); /* a and b, at once */
    exchange(one, &j, two, NULL);
    exchange(two, NULL, one, &j);
    show(one, "color"); /* two: neither had seen the other */
    end = depot_change(changes, "color", 5, "red", 3);
    told_put("two", two, NULL, depot_put(two, 1, changes, (size_t)(end - changes)));
    end = depot_change(changes, "a", 1, NULL, 0);
    told_put("two", two, NULL, depot_put(two, 1, changes, (size_t)(end - changes))); /* a is deleted */
    exchange(two, NULL, one, &j);
    told_put("one", one, &j, depot_receipt(one, 1, green.at + 5)); /* it holds what two put first */
    does(one, depot_settled(one, green.at + 5, 1), 6);
    printf("settled %s\n", depot_field(one, 1, 1) ? "yes" : "no");
    told_put("one", one, &j, depot_checkpoint(one));
    struct bytes checkpoint = answer(one);
    exchange(one, &j, two, NULL);
    told_put("two", two, NULL, depot_sign(two, checkpoint.at + 49, checkpoint.size - 49));
    must(one, depot_end(one));
    close(j.file);
    start(one, 1, &j, argv[5]); /* again, from its file: the roster and the key are kept */
    show(one, "color");
    show(one, "a");
    must(old, depot_start(old, 1, copy.at, copy.size + 1)); /* node one from an old copy of its journal: a fork */
    end = depot_change(changes, "color", 5, "black", 5);
    told_put("old", old, NULL, depot_put(old, 1, changes, (size_t)(end - changes)));
    exchange(old, NULL, two, NULL);
    judge(two, roster);
    free(copy.at);
    free(green.at);
    free(checkpoint.at);
    depot_free(one);
    depot_free(two);
    depot_free(old);
    close(j.file);
    return 0;
}
