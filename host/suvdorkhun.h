/* Suvdorkhun for C and C++: what crosses to the proved library, which `rt lib` in crates/suvdorkhun_c writes
 * as out/libsuvdorkhun_c.a. "01" is the scope paper.
 *
 * The caller lends the state, the two lists of links and the store, and the monitor keeps nothing of its own
 * between calls. Every field is a number, so any bytes are a state: tables that break a rule are refused 9,
 * lists of other than 256 places and a store of other than 16896 bytes among them. So no value that is passed
 * can do harm; but each pointer must point to as many elements as its length says, must not be null, not even
 * where the length is 0, and what is lent to one call must not overlap. Calls on different states may run at
 * the same time; two calls on one state may not.
 *
 * The library is for x86-64 Linux. */

#ifndef SUVDORKHUN_H
#define SUVDORKHUN_H

#include <stddef.h>
#include <stdint.h>

#ifdef __cplusplus
extern "C" {
#endif

enum {
    SUVDORKHUN_LINKS = 256,   /* places of each list of links */
    SUVDORKHUN_STORE = 16896, /* bytes of the store: 64 objects, 8 messages each, a length byte and 32 bytes */
    SUVDORKHUN_ANSWER = 34,   /* bytes of the longest answer */
    SUVDORKHUN_MEMORY = 64    /* the largest memory size */
};

/* The kinds of request. A frame is thread byte, kind byte, operands: P, Q, T and O are a byte each, a message
 * is a length byte and that many bytes, a label 8 bytes (SUVDORKHUN_LABEL). */
enum {
    SUVDORKHUN_NEW_PRINCIPAL = 0x01,
    SUVDORKHUN_DELEGATE = 0x02,         /* P Q */
    SUVDORKHUN_REVOKE = 0x03,           /* P Q */
    SUVDORKHUN_ACTS_FOR = 0x04,         /* P Q */
    SUVDORKHUN_NEW_TAG = 0x05,
    SUVDORKHUN_NEW_SUBTAG = 0x06,       /* T, a supertag */
    SUVDORKHUN_GRANT = 0x07,            /* T P Q */
    SUVDORKHUN_UNGRANT = 0x08,          /* T P Q */
    SUVDORKHUN_AUTHORITATIVE = 0x09,    /* T */
    SUVDORKHUN_INTO_SECRECY = 0x0A,     /* T */
    SUVDORKHUN_OUT_OF_SECRECY = 0x0B,   /* T */
    SUVDORKHUN_INTO_INTEGRITY = 0x0C,   /* T */
    SUVDORKHUN_OUT_OF_INTEGRITY = 0x0D, /* T */
    SUVDORKHUN_FORK = 0x0E,             /* P */
    SUVDORKHUN_END = 0x0F,
    SUVDORKHUN_CALL = 0x10,             /* P */
    SUVDORKHUN_RETURN = 0x11,
    SUVDORKHUN_NEW_OBJECT = 0x12,       /* kind, s, i */
    SUVDORKHUN_DELETE = 0x13,           /* O */
    SUVDORKHUN_READ_CELL = 0x14,        /* O */
    SUVDORKHUN_WRITE_CELL = 0x15,       /* O, message */
    SUVDORKHUN_PUT = 0x16,              /* O queue, message */
    SUVDORKHUN_GET = 0x17,              /* O queue */
    SUVDORKHUN_LOCK = 0x18,             /* O lock */
    SUVDORKHUN_UNLOCK = 0x19,           /* O lock */
    SUVDORKHUN_SEND_OUT = 0x1A,         /* message */
    SUVDORKHUN_BRING_IN = 0x1B          /* message */
};

/* "of kind 0 cell, 1 queue, 2 lock" */
enum { SUVDORKHUN_OBJECT_CELL = 0, SUVDORKHUN_OBJECT_QUEUE = 1, SUVDORKHUN_OBJECT_LOCK = 2 };

/* The refusals. 0 is done. */
enum {
    SUVDORKHUN_MALFORMED = 1,
    SUVDORKHUN_NOT_LIVE = 2,
    SUVDORKHUN_NAMES_NOTHING = 3,
    SUVDORKHUN_FLOW = 4,
    SUVDORKHUN_AUTHORITY = 5,
    SUVDORKHUN_CYCLE = 6,
    SUVDORKHUN_FULL = 7,
    SUVDORKHUN_EMPTY_OR_HELD = 8,
    SUVDORKHUN_BROKEN_TABLES = 9,
    SUVDORKHUN_SHORT_BUFFER = 10,
    SUVDORKHUN_MEMORY_SIZE = 11
};

/* A label as 8 bytes of a frame, most significant first. Tag t has weight (uint64_t)1 << t. */
#define SUVDORKHUN_LABEL(label)                                                                              \
    (uint8_t)((uint64_t)(label) >> 56), (uint8_t)((uint64_t)(label) >> 48),                                  \
        (uint8_t)((uint64_t)(label) >> 40), (uint8_t)((uint64_t)(label) >> 32),                              \
        (uint8_t)((uint64_t)(label) >> 24), (uint8_t)((uint64_t)(label) >> 16),                              \
        (uint8_t)((uint64_t)(label) >> 8), (uint8_t)(label)

/* The two labels of a thread or an object: each a set of tags, one number a label. */
typedef struct {
    uint64_t secrecy;
    uint64_t integrity;
} suvdorkhun_label_pair;

/* A thread: live is 1 or 0, and the first `calls` of `aside` are put aside. */
typedef struct {
    uint8_t live;
    uint8_t principal;
    suvdorkhun_label_pair labels;
    size_t calls;
    uint8_t aside[8];
} suvdorkhun_thread_row;

/* A tag: its maker, and 1 with its supertag where it is a subtag. */
typedef struct {
    uint8_t root;
    uint8_t subtag;
    uint8_t supertag;
} suvdorkhun_tag_row;

/* An object: live is 1 or 0; how many messages a queue holds; 1 where a lock is held. */
typedef struct {
    uint8_t live;
    uint8_t kind;
    size_t held;
    uint8_t locked;
    suvdorkhun_label_pair labels;
} suvdorkhun_object_row;

/* All tables but the two lists and the store. The counts say how many of each are made or stand; `kinds` has a
 * row for each tag. */
typedef struct {
    uint32_t principals;
    size_t links;
    uint32_t tags;
    size_t grants;
    suvdorkhun_thread_row threads[16];
    suvdorkhun_tag_row kinds[64];
    suvdorkhun_object_row objects[64];
} suvdorkhun_tables;

/* The remembered answers: the first `held` of `pairs`, each principal * 256 + tag, latest first. */
typedef struct {
    size_t size;
    size_t held;
    uint32_t pairs[64];
    uint32_t questions;
    uint32_t hits;
} suvdorkhun_memory;

typedef struct {
    suvdorkhun_tables tables;
    suvdorkhun_memory memory;
} suvdorkhun_state;

/* A link of principals: `to` acts for `from`. */
typedef struct {
    uint8_t from;
    uint8_t to;
} suvdorkhun_principal_link;

/* A link of a tag: `from` has granted it to `to`. */
typedef struct {
    uint8_t tag;
    uint8_t from;
    uint8_t to;
} suvdorkhun_tag_link;

/* What a request gives back: 0 or its refusal, and how many bytes of the answer buffer were written. */
typedef struct {
    uint8_t status;
    size_t written;
} suvdorkhun_reply;

/* What a list of lines gives back: 0, or 11 where the memory size was over 64; 1 where all of it was answered;
 * how much was read and written. */
typedef struct {
    uint8_t status;
    uint8_t complete;
    size_t read;
    size_t written;
} suvdorkhun_ran;

/* The sizes that the library has. A compiler that lays a struct out otherwise stops here. */
#define SUVDORKHUN_SIZE(type, bytes) typedef char type##_has_##bytes##_bytes[sizeof(type) == bytes ? 1 : -1]
SUVDORKHUN_SIZE(suvdorkhun_label_pair, 16);
SUVDORKHUN_SIZE(suvdorkhun_thread_row, 40);
SUVDORKHUN_SIZE(suvdorkhun_tag_row, 3);
SUVDORKHUN_SIZE(suvdorkhun_object_row, 40);
SUVDORKHUN_SIZE(suvdorkhun_tables, 3424);
SUVDORKHUN_SIZE(suvdorkhun_memory, 280);
SUVDORKHUN_SIZE(suvdorkhun_state, 3704);
SUVDORKHUN_SIZE(suvdorkhun_principal_link, 2);
SUVDORKHUN_SIZE(suvdorkhun_tag_link, 3);
SUVDORKHUN_SIZE(suvdorkhun_reply, 16);
SUVDORKHUN_SIZE(suvdorkhun_ran, 24);

/* The fresh state with this memory size; the lent lists and store become zero. Gives 0, or 11 where the size is
 * over 64, and then the fresh state has size 0. */
uint8_t suvdorkhun_start(suvdorkhun_state *state, suvdorkhun_principal_link *links, size_t links_len,
                         suvdorkhun_tag_link *grants, size_t grants_len, uint8_t *store, size_t store_len,
                         size_t size);

/* One request. The answer is put at the front of the buffer: a status byte, 0 or the refusal; then on done the
 * value byte, or for a message its length and bytes. The rest of the buffer stays. */
suvdorkhun_reply suvdorkhun_request(suvdorkhun_state *state, suvdorkhun_principal_link *links, size_t links_len,
                                    suvdorkhun_tag_link *grants, size_t grants_len, uint8_t *store,
                                    size_t store_len, const uint8_t *frame, size_t frame_len, uint8_t *answer,
                                    size_t answer_len);

/* Forgets the remembered answers; the two counters stay. It changes no answer to come. */
void suvdorkhun_clear(suvdorkhun_state *state);

/* Answers a list of lines from the fresh state: one answer a line, and last FF, questions, hits. Where `out` has
 * no room for all of it, `complete` is 0: lend more, and run again. Room for 69 bytes a line and 88 more is
 * always enough. */
suvdorkhun_ran suvdorkhun_run(size_t size, uint8_t *store, size_t store_len, const uint8_t *input,
                              size_t input_len, uint8_t *out, size_t out_len);

/* How many bytes the library's state has: sizeof(suvdorkhun_state). */
size_t suvdorkhun_state_size(void);

/* A status in words. */
static inline const char *suvdorkhun_words(uint8_t status)
{
    switch (status) {
    case 0:
        return "done";
    case SUVDORKHUN_MALFORMED:
        return "malformed: the frame is under 2 bytes, of unknown kind or of wrong length, or has a message over 32 or an object kind over 2";
    case SUVDORKHUN_NOT_LIVE:
        return "not live: the thread is not live";
    case SUVDORKHUN_NAMES_NOTHING:
        return "names nothing: an operand names no principal, tag or object, an object of another kind, a subtag in 06, or a label with an unmade tag";
    case SUVDORKHUN_FLOW:
        return "flow: the flow need is not met";
    case SUVDORKHUN_AUTHORITY:
        return "authority: the caller has no authority for it";
    case SUVDORKHUN_CYCLE:
        return "cycle: P = Q, or a path leads from Q to P";
    case SUVDORKHUN_FULL:
        return "full: a table, a queue or what is put aside by calls is full";
    case SUVDORKHUN_EMPTY_OR_HELD:
        return "empty or held: the queue is empty, the lock is held, or none is put aside";
    case SUVDORKHUN_BROKEN_TABLES:
        return "broken tables: the tables break a rule";
    case SUVDORKHUN_SHORT_BUFFER:
        return "short buffer: the answer buffer has fewer than 34 bytes";
    case SUVDORKHUN_MEMORY_SIZE:
        return "memory size: the memory size is over 64";
    default:
        return "no status";
    }
}

#ifdef __cplusplus
}
#endif

#endif
