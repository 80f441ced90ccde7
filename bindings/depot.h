/* Depot inside a process: what the static library exports, and the same by names. docs/EMBEDDING.md has examples.
 *
 * What a caller has to uphold. The library is proved, and no proof reaches its caller: nothing checks these.
 *
 *  1. depot_c_init gets room of depot_c_size() bytes on a multiple of depot_c_align(), which nothing else uses. Each
 *     other call gets a pointer that depot_c_init was called on. It isn't null, and the room is neither changed nor moved
 *     by copying its bytes, until DEPOT_CLEAR was asked and the room is freed.
 *  2. One call at a time on a handle, on the thread that made it.
 *  3. `in` and `out` are whole, readable and writable, overlap neither each other nor the handle, and aren't null even
 *     where they have no bytes. No other thread writes to them during the call.
 *  4. malloc, realloc and free are one allocator, with the usual alignment. No call comes from a signal handler, or from
 *     the forked child of a process with threads.
 *  5. DEPOT_CLEAR before the room is freed: else the node's memory is lost. Nothing worse happens.
 *  6. A node is in memory. After a start and after each message, be it refused or not, the caller has the new records lent
 *     (DEPOT_RECORDS) and keeps them for good, in their order, before it uses what was answered: shows it, sends it, or
 *     acts by it. Lending them leaves the answer as it is. Several messages may be asked, and their records kept together.
 *  7. Where they can't be kept, those answers are used for nothing, the node is ended, and it is started again from those
 *     that were kept. A journal's file is kept as bindings/journal_file.h keeps it.
 *  8. One node has one key, in one process, at one time, and is started from all the records that were kept, in their
 *     order. A node that is started from fewer signs other statements with leaves that it used, and may be convicted.
 *  9. The seed is a secret. The library keeps it in memory as long as it keeps the key.
 * 10. The declarations here are written by hand; nothing compares them with the crate.
 */
#ifndef DEPOT_H
#define DEPOT_H
#include <stdint.h>
#include <stdlib.h>

#ifdef __cplusplus
extern "C" {
#endif

/* ---- what the library exports ---- */

/* What a judgement comes to. Status 0: the node is convicted in the kind (1 same number, 2 same prev, 3 backward, 4 a
 * voucher for no update). 2: no roster. 6: no memory. 7: a point of the proof fails. Node and kind are 0 but at status 0. */
struct depot_judged {
    uint32_t status, node, kind;
};
struct depot_judged depot_c_judge(const uint8_t *roster, size_t roster_length, const uint8_t *proof, size_t proof_length);

/* The ABI: which operations there are, their numbers, and the forms of their bytes. */
#define DEPOT_ABI 1
uint32_t depot_c_abi(void);     /* that of the library, for a caller that is linked to it later */

size_t depot_c_size(void);      /* the bytes of a handle */
size_t depot_c_align(void);     /* on what multiple it has to stand */
void depot_c_init(void *room);  /* makes a handle of nothing there */

/* One call on a handle: an operation, its number and its input. `out` is used by the two copies alone. */
uint64_t depot_c_call(void *handle, uint32_t operation, uint64_t number, const uint8_t *in, size_t in_length, uint8_t *out,
                      size_t out_length);

enum depot_operation {
    /* reading the last answer, and the records that were lent last: these give what they read, and no status */
    DEPOT_LENGTH = 0,         /* how many bytes the answer has */
    DEPOT_COPY = 1,           /* copies bytes of it from `number` on, and gives how many */
    DEPOT_RECORDS_LENGTH = 2, /* how many bytes the lent records have */
    DEPOT_RECORDS_COPY = 3,   /* copies bytes of them from `number` on, and gives how many */
    /* the handle; these have no bytes in their answer, but where they are refused */
    DEPOT_ROSTER = 4,         /* keeps a roster: in = its text */
    DEPOT_KEY = 5,            /* makes a key and keeps it: number = height, in = seed of 32 bytes */
    DEPOT_START = 6,          /* starts a node: number = its number, in = the journal's file, no bytes at the first start */
    DEPOT_END = 7,            /* ends it; roster and key stay for the next start */
    DEPOT_CLEAR = 8,          /* lets go of all */
    /* the node */
    DEPOT_MESSAGE = 9,        /* whatever may be asked of `depot serve` (docs/FORMATS.md, "Requests"): in = the body of a
                               * message; bytes: the message that answers, its length in front. What isn't done is told by
                               * such an answer, too, with status 0; DEPOT_INPUT comes with the offset of a fault */
    DEPOT_RECORDS = 10        /* lends the node's records from the place `number` on, the first is 0: each as 01, its length
                               * in four bytes, highest first, and its text, as they stand in a journal's file. No bytes
                               * where there are none, and where it is refused. The answer stays as it was */
};

/* The status of a call. Where it isn't 0 the bytes of the answer say why, in the words of the program's lines
 * (docs/TROUBLESHOOTING.md), or are none where the status says it all or no memory was found for them. Up to 10 the
 * numbers are the program's; 11 and 12 are this library's. */
enum depot_status {
    DEPOT_DONE = 0,
    DEPOT_INPUT = 2,      /* the input isn't in its form: `at 12` of a roster, `IllFormed 7` of a message */
    DEPOT_DISK = 4,       /* never: a node is in memory */
    DEPOT_MEMORY = 6,     /* no memory was found; of a message, what it asks may be done: its records are lent as ever */
    DEPOT_NOT_LAWFUL = 9, /* `damaged 120`, `not lawful 3 5 Missing` */
    DEPOT_IDENTITY = 10,  /* `identity OtherKey`, `identity OtherRoster` */
    DEPOT_ORDER = 11,     /* no node, a node already, or no roster or key */
    DEPOT_STOPPED = 12    /* never, as 4 */
};

/* ---- the same by names ---- */

static uint8_t depot_no_bytes[1];

static inline uint64_t depot_ask(void *handle, uint32_t operation, uint64_t number, const void *in, size_t length)
{
    return depot_c_call(handle, operation, number, length ? (const uint8_t *)in : depot_no_bytes, length, depot_no_bytes, 0);
}

/* A handle of nothing, in room that malloc finds; NULL where it finds none. */
static inline void *depot_new(void)
{
    size_t align = depot_c_align(), size = (depot_c_size() + align - 1) / align * align;
    void *room = aligned_alloc(align < sizeof(void *) ? sizeof(void *) : align, size);
    if (room)
        depot_c_init(room);
    return room;
}

static inline void depot_free(void *handle)
{
    depot_ask(handle, DEPOT_CLEAR, 0, NULL, 0);
    free(handle);
}

static inline size_t depot_length(void *handle) { return (size_t)depot_ask(handle, DEPOT_LENGTH, 0, NULL, 0); }

static inline size_t depot_copy(void *handle, size_t from, void *out, size_t room)
{
    return room ? (size_t)depot_c_call(handle, DEPOT_COPY, from, depot_no_bytes, 0, (uint8_t *)out, room) : 0;
}

static inline size_t depot_records_length(void *handle) { return (size_t)depot_ask(handle, DEPOT_RECORDS_LENGTH, 0, NULL, 0); }

static inline size_t depot_records_copy(void *handle, size_t from, void *out, size_t room)
{
    return room ? (size_t)depot_c_call(handle, DEPOT_RECORDS_COPY, from, depot_no_bytes, 0, (uint8_t *)out, room) : 0;
}

static inline uint64_t depot_roster(void *h, const void *text, size_t length) { return depot_ask(h, DEPOT_ROSTER, 0, text, length); }
static inline uint64_t depot_key(void *h, const void *seed, unsigned height) { return depot_ask(h, DEPOT_KEY, height, seed, 32); }
static inline uint64_t depot_start(void *h, unsigned node, const void *file, size_t length) { return depot_ask(h, DEPOT_START, node, file, length); }
static inline uint64_t depot_end(void *h) { return depot_ask(h, DEPOT_END, 0, NULL, 0); }
static inline uint64_t depot_message(void *h, const void *body, size_t length) { return depot_ask(h, DEPOT_MESSAGE, 0, body, length); }
static inline uint64_t depot_records(void *h, uint64_t place) { return depot_ask(h, DEPOT_RECORDS, place, NULL, 0); }

/* ---- messages: their bodies are docs/FORMATS.md's, and these put some of them together ---- */

static inline uint8_t *depot_bytes(uint8_t *at, const void *bytes, size_t length)
{
    for (size_t i = 0; i < length; i++)
        at[i] = ((const uint8_t *)bytes)[i];
    return at + length;
}

/* Writes a number of so many bytes, the highest first, and gives where the next field goes. */
static inline uint8_t *depot_number(uint8_t *at, uint64_t number, unsigned size)
{
    while (size--)
        *at++ = (uint8_t)(number >> 8 * size);
    return at;
}

/* Asks for the message of a head of at most 64 bytes, and the rest behind it; DEPOT_MEMORY where there is no room to put them together. */
static inline uint64_t depot_asks(void *h, const void *head, size_t size, const void *rest, size_t length)
{
    uint8_t *body = (uint8_t *)malloc(size + length);
    if (!body)
        return DEPOT_MEMORY;
    depot_bytes(depot_bytes(body, head, size), rest, length);
    uint64_t status = depot_message(h, body, size + length);
    free(body);
    return status;
}

/* The same of a kind and what follows it. */
static inline uint64_t depot_ask_kind(void *h, unsigned kind, const void *rest, size_t length)
{
    uint8_t head = (uint8_t)kind;
    return depot_asks(h, &head, 1, rest, length);
}

/* Writes a change for depot_put, of 6 bytes at most and those of the key and of the value, and gives where the next one goes. A key has
 * 1 to 255 bytes. With NULL as its value the key is deleted. */
static inline uint8_t *depot_change(uint8_t *at, const void *key, size_t key_length, const void *value, size_t length)
{
    at = depot_bytes(depot_number(at, key_length, 1), key, key_length);
    *at++ = value != NULL;
    return value ? depot_bytes(depot_number(at, length, 4), value, length) : at;
}

/* One update of 1 to 16 changes, whose keys rise. */
static inline uint64_t depot_put(void *h, unsigned count, const void *changes, size_t length)
{
    uint8_t head[2] = {1, (uint8_t)count};
    return depot_asks(h, head, 2, changes, length);
}

/* A bundle for a hello: of at most so many bytes, with at most so many new vouchers (UINT32_MAX: any number), or of own updates alone. */
static inline uint64_t depot_bundle(void *h, uint32_t most_bytes, uint32_t most_vouchers, int own, const void *hello, size_t length)
{
    uint8_t head[10];
    uint8_t *end = depot_number(depot_number(depot_number(head, 0x21, 1), most_bytes, 4), most_vouchers, 4);
    return depot_asks(h, head, (size_t)(depot_number(end, own != 0, 1) - head), hello, length);
}

/* Receipts for 1 to 16 ids, which rise, of 32 bytes each. */
static inline uint64_t depot_receipt(void *h, unsigned count, const void *ids)
{
    uint8_t head[2] = {6, (uint8_t)count};
    return depot_asks(h, head, 2, ids, 32 * (size_t)count);
}

/* Whether at least so many nodes gave a receipt for an id. */
static inline uint64_t depot_settled(void *h, const void *id, uint32_t nodes)
{
    uint8_t rest[36];
    depot_number(depot_bytes(rest, id, 32), nodes, 4);
    return depot_ask_kind(h, 7, rest, sizeof rest);
}

/* The latest writes of a key. */
static inline uint64_t depot_latest(void *h, const void *key, size_t length)
{
    uint8_t head[2] = {0x13, (uint8_t)length};
    return depot_asks(h, head, 2, key, length);
}

static inline uint64_t depot_hello(void *h) { return depot_ask_kind(h, 3, NULL, 0); }
static inline uint64_t depot_take(void *h, const void *stream, size_t length) { return depot_ask_kind(h, 5, stream, length); }
static inline uint64_t depot_checkpoint(void *h) { return depot_ask_kind(h, 8, NULL, 0); }
static inline uint64_t depot_sign(void *h, const void *text, size_t length) { return depot_ask_kind(h, 9, text, length); }

/* Of the message that answers, the number of so many bytes, at most 8, from `at` on, which counts from its kind; 0 where it has fewer.
 * Its kind is depot_field(h, 0, 1): 8 where what was asked isn't done. */
static inline uint64_t depot_field(void *h, size_t at, unsigned size)
{
    uint8_t bytes[8];
    uint64_t number = 0;
    if (depot_copy(h, 4 + at, bytes, size) != size)
        return 0;
    for (unsigned i = 0; i < size; i++)
        number = number << 8 | bytes[i];
    return number;
}

#ifdef __cplusplus
}
#endif
#endif
