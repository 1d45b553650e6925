/*
 * Ernuvald: the machine of the publish-on-ping rule (HazardPtrPOP), one atomic step at a time.
 *
 * The machine has no state of its own. All of it is in the image: 32-bit words in a buffer that the caller lends for
 * the time of a call. An image is moved, saved or copied as its words.
 *
 * Every function answers every call: an image of any length and any content, any operands. A refusal has a number
 * that says why, and changes no word. All of this is proved; `crates/rules/specs` has the rules.
 *
 * What a caller owes: `image` points to `words` words, aligned as uint32_t is, which may be read, and written where
 * the pointer is not const, and which no other thread changes before the call returns. With 0 words nothing is read or
 * written through `image`, which then may be a null pointer; such an image is damaged.
 *
 * Nothing is kept between calls and nothing is allocated, so any number of images may be used at once, by any threads.
 * Link with libernuvald.a (x86-64 Linux, on a processor of level x86-64-v2 or above); of other libraries it needs memset alone, which the C library has.
 */
#ifndef ERNUVALD_H
#define ERNUVALD_H

#include <stddef.h>
#include <stdint.h>

#ifdef __cplusplus
extern "C" {
#endif

/* The number of a reply. Where several would fit, the lowest is given. */
enum ernuvald_number {
    ERNUVALD_DONE = 0,              /* done */
    ERNUVALD_DAMAGED = 1,           /* the image is damaged */
    ERNUVALD_NO_SUCH_OPERATION = 2, /* the operation is above 10 */
    ERNUVALD_NO_SUCH_THREAD = 3,    /* the thread is not below the number of threads */
    ERNUVALD_OPERAND_BEYOND = 4,    /* a slot, cell or record is beyond its limit, a retire of record 0, or an operand
                                       that the operation does not have is not 0 */
    ERNUVALD_HANDLER_RUNNING = 5,   /* the thread's handler runs: only ERNUVALD_HANDLE is taken */
    ERNUVALD_PHASE_FORBIDS = 6,     /* the thread's phase does not allow the operation; a deliver with no ping pending;
                                       a handle with no handler running */
    ERNUVALD_NONE_FREE = 7,         /* allocate: no record is free */
    ERNUVALD_NOT_LIVE = 8,          /* swap: the new record is neither 0 nor live; retire: the record is not live */
    ERNUVALD_CELL_NAMES = 9,        /* retire: a cell names the record */
    ERNUVALD_LIST_FULL = 10,        /* retire: the list is full, which no image reaches by steps from a set-up */
    ERNUVALD_NOT_HELD = 11,         /* use: the slot's record is not held */
    ERNUVALD_SETTING_BEYOND = 12,   /* set-up: a setting is beyond its limit */
    ERNUVALD_WRONG_LENGTH = 13      /* set-up: the buffer is not exactly as long as these settings need */
};

/* The operations of a step, with their operands a, b, c (one that is not named is 0) and the value when done. */
enum ernuvald_operation {
    ERNUVALD_ALLOCATE = 0, /* the lowest free record becomes live; the value is the record */
    ERNUVALD_SWAP = 1,     /* cell, expected, new: if the cell equals expected it takes new; 1 stored, 0 not */
    ERNUVALD_LOAD = 2,     /* slot, cell: begins to protect what the cell names; the record */
    ERNUVALD_RESERVE = 3,  /* the slot takes the loaded record; the record */
    ERNUVALD_CHECK = 4,    /* compares the cell with the record: 1 equal, and then it is held unless it is 0; 0 not */
    ERNUVALD_USE = 5,      /* slot: the record that it holds */
    ERNUVALD_CLEAR = 6,    /* slot: empties it; 0 */
    ERNUVALD_RETIRE = 7,   /* record: appends it to the thread's list and starts a reclaim if that has as many as the
                              threshold; the list's length */
    ERNUVALD_ADVANCE = 8,  /* one item of the thread's reclaim: 1 done, 0 waits for another thread, 2 a record is kept,
                              3 a record is freed */
    ERNUVALD_DELIVER = 9,  /* the pending ping starts the thread's handler; 1 */
    ERNUVALD_HANDLE = 10   /* one item of the handler: 1 a slot is published, 2 the publish count is raised, the last */
};

/* What a step answers. A refusal has value 0. */
typedef struct {
    uint32_t number; /* one of ernuvald_number, 0 to 11 */
    uint32_t value;
} ernuvald_reply;

/* What the list question answers: the part of the image that is image[from] to image[from + length - 1]. */
typedef struct {
    uint32_t number; /* ERNUVALD_DONE, ERNUVALD_DAMAGED or ERNUVALD_NO_SUCH_THREAD */
    uint32_t from;   /* where the part begins, in words from the image's first; 0 if refused */
    uint32_t length; /* how many words it has; 0 if refused */
} ernuvald_part;

/*
 * How many words an image of these settings has: at most 8,209; 0 if a setting is beyond its limit. The limits:
 * threads 1 to 16, slots of a thread 1 to 8, cells 1 to 256, records 1 to 1,024, threshold 1 to 256; start, the number
 * that every publish count starts with, is any.
 */
uint32_t ernuvald_words(uint32_t threads, uint32_t slots, uint32_t cells, uint32_t records, uint32_t threshold,
                        uint32_t start);

/*
 * Sets an image up, whatever stood there: no record allocated, cells and slots empty, no thread in a reclaim. `words`
 * must be exactly ernuvald_words of the same settings. The answer is ERNUVALD_DONE, ERNUVALD_SETTING_BEYOND or
 * ERNUVALD_WRONG_LENGTH; if it is one of the last two no word is changed.
 */
uint32_t ernuvald_set_up(uint32_t *image, size_t words, uint32_t threads, uint32_t slots, uint32_t cells,
                         uint32_t records, uint32_t threshold, uint32_t start);

/*
 * One step of a thread. The numbers are 0 to 11; any but 0 changes no word and has value 0. `op` is one of
 * ernuvald_operation.
 */
ernuvald_reply ernuvald_step(uint32_t *image, size_t words, uint32_t thread, uint32_t op, uint32_t a, uint32_t b,
                             uint32_t c);

/*
 * The retire list of a thread: the part of the image that holds its entries, as many as its length. Nothing is copied;
 * the next step may change the part. While the thread frees, entries already looked at and not kept read 0.
 */
ernuvald_part ernuvald_retired(const uint32_t *image, size_t words, uint32_t thread);

/* 1 if the image is damaged, and then every step and every list question is refused; 0 if it is not. */
uint32_t ernuvald_damaged(const uint32_t *image, size_t words);

#ifdef __cplusplus
}
#endif

#endif
