/* A journal that nobody read isn't written, whatever the node has. A node stands here for the library: it has two records, aa and bb.
 * usage: unread FOLDER. It prints what journal_keep gave before journal_read, what that read, and what journal_keep gave then. */
#define _POSIX_C_SOURCE 200809L
#define _DEFAULT_SOURCE
#include "../journal_file.h"
#include <stdio.h>

static const uint8_t records[] = {1, 0, 0, 0, 2, 'a', 'a', 1, 0, 0, 0, 2, 'b', 'b'};
static size_t from; /* where those that are lent begin */

size_t depot_c_size(void) { return 16; }
size_t depot_c_align(void) { return 16; }
void depot_c_init(void *room) { (void)room; }

uint64_t depot_c_call(void *handle, uint32_t operation, uint64_t number, const uint8_t *in, size_t in_length, uint8_t *out, size_t out_length)
{
    (void)handle, (void)in, (void)in_length;
    switch (operation) {
    case DEPOT_RECORDS:
        from = number < 2 ? 7 * (size_t)number : sizeof records;
        return DEPOT_DONE;
    case DEPOT_RECORDS_LENGTH:
        return sizeof records - from;
    case DEPOT_RECORDS_COPY:
        memcpy(out, records + from, out_length);
        return out_length;
    }
    return DEPOT_DONE;
}

int main(int argc, char **argv)
{
    struct journal j;
    uint8_t *bytes;
    size_t size;
    void *node = depot_new();
    if (argc != 2 || !node || journal_open(&j, argv[1]))
        return 1;
    int before = journal_keep(&j, node), why = errno;
    int read = journal_read(&j, &bytes, &size);
    unsigned kept = (unsigned)j.kept;
    printf("%d %d, %d %zu, %u, %d\n", before, why == EINVAL, read, size, kept, journal_keep(&j, node));
    free(bytes), free(node);
    close(j.file);
    return 0;
}
