/* Lichenbrooch for C: a verified index for presale codes over arrays that the caller lends. Link with libexports.a,
   which `scripts/archive` writes for x86-64 Linux.

   Slots are numbered from 1, at most LICHENBROOCH_CAPACITY of them; slot k is element k - 1 of the arrays left, right,
   parent_color and key, and a root number goes with them. 0 is no slot. Arrays of zeros with root 0 are an empty tree.
   Any numbers get an answer; a refusal says why in its code, has probes and slot 0, and changes nothing. The caller
   owes one thing: each pointer is aligned, not null and valid for its length, and what a call may write overlaps
   nothing else that it is given. */
#ifndef LICHENBROOCH_H
#define LICHENBROOCH_H

#include <stddef.h>
#include <stdint.h>

#ifdef __cplusplus
extern "C" {
#endif

/* The most slots, the most bytes of a batch, and the bytes of a command and of an answer in it. */
#define LICHENBROOCH_CAPACITY 2048
#define LICHENBROOCH_BATCH_LIMIT 16384
#define LICHENBROOCH_COMMAND_SIZE 16
#define LICHENBROOCH_ANSWER_SIZE 6

/* What a call says: done, or why not. */
enum lichenbrooch_code {
    LICHENBROOCH_DONE = 0,
    LICHENBROOCH_DAMAGED = 1,        /* the arrays are not well formed */
    LICHENBROOCH_BAD_SLOT = 2,       /* a position or new slot that is not there */
    LICHENBROOCH_ALREADY_LINKED = 3, /* the new slot is in the tree */
    LICHENBROOCH_NOT_LINKED = 4,     /* the position is not in the tree */
    LICHENBROOCH_OUT_OF_ORDER = 5,   /* the key does not fit at its place */
    LICHENBROOCH_NULL_CURSOR = 6,    /* remove or replace at position 0 */
    LICHENBROOCH_STALE = 7,          /* the entry is not what it was */
    LICHENBROOCH_BAD_RECORD = 8,     /* no such command, or no such kind of bound */
    LICHENBROOCH_BAD_LENGTH = 9,     /* a batch of no whole records, or of too many bytes */
    LICHENBROOCH_SHORT = 10,         /* too little room for the answers of a batch */
    LICHENBROOCH_BAD_CODE = 11       /* the line spells no code */
};

/* The kinds of a bound. */
enum lichenbrooch_kind { LICHENBROOCH_UNBOUNDED = 0, LICHENBROOCH_INCLUDED = 1, LICHENBROOCH_EXCLUDED = 2 };

/* The answer of an operation: probes are the nodes that its descent met. */
typedef struct {
    uint32_t code;
    uint32_t probes;
    uint32_t slot;
} lichenbrooch_answer;

/* Occupied: `slot` holds the key. Not occupied: the empty place under the parent `slot`, 0 in an empty tree, on its
   left side where on_left is set. The library says 1 and 0, and reads any number but 0 as a yes. */
typedef struct {
    uint32_t code;
    uint32_t occupied;
    uint32_t slot;
    uint32_t on_left;
} lichenbrooch_entry;

/* The code of a whole batch, and how many answers were written. */
typedef struct {
    uint32_t code;
    uint32_t count;
} lichenbrooch_batched;

/* The key of a line's code; 0 beside LICHENBROOCH_BAD_CODE. */
typedef struct {
    uint32_t code;
    uint64_t key;
} lichenbrooch_coded;

/* The code is the bytes of the line from start on, length of them; none beside LICHENBROOCH_BAD_CODE. */
typedef struct {
    size_t start;
    size_t length;
} lichenbrooch_part;

/* Whether the arrays are well formed (W1 to W6): LICHENBROOCH_DONE or LICHENBROOCH_DAMAGED. */
uint32_t lichenbrooch_check(
    const uint32_t *left, size_t left_length, const uint32_t *right, size_t right_length,
    const uint32_t *parent_color, size_t parent_color_length, const uint64_t *key, size_t key_length,
    uint32_t root);

/* The first slot with the key k that a descent from the root meets, or 0. */
lichenbrooch_answer lichenbrooch_find(
    const uint32_t *left, size_t left_length, const uint32_t *right, size_t right_length,
    const uint32_t *parent_color, size_t parent_color_length, const uint64_t *key, size_t key_length,
    uint32_t root, uint64_t k);

/* The first slot with a key from k on, past k, or of all, by the kind (enum lichenbrooch_kind). */
lichenbrooch_answer lichenbrooch_lower_bound(
    const uint32_t *left, size_t left_length, const uint32_t *right, size_t right_length,
    const uint32_t *parent_color, size_t parent_color_length, const uint64_t *key, size_t key_length,
    uint32_t root, uint32_t kind, uint64_t k);

/* The last slot with a key up to k, before k, or of all, by the kind. */
lichenbrooch_answer lichenbrooch_upper_bound(
    const uint32_t *left, size_t left_length, const uint32_t *right, size_t right_length,
    const uint32_t *parent_color, size_t parent_color_length, const uint64_t *key, size_t key_length,
    uint32_t root, uint32_t kind, uint64_t k);

/* The slot after a position; from 0 the first, after the last 0. */
lichenbrooch_answer lichenbrooch_next(
    const uint32_t *left, size_t left_length, const uint32_t *right, size_t right_length,
    const uint32_t *parent_color, size_t parent_color_length, const uint64_t *key, size_t key_length,
    uint32_t root, uint32_t position);

/* The slot before a position; from 0 the last, before the first 0. */
lichenbrooch_answer lichenbrooch_prev(
    const uint32_t *left, size_t left_length, const uint32_t *right, size_t right_length,
    const uint32_t *parent_color, size_t parent_color_length, const uint64_t *key, size_t key_length,
    uint32_t root, uint32_t position);

/* What there is for the key k: the slot that holds it, or the empty place where it would hang. */
lichenbrooch_entry lichenbrooch_entry_for(
    const uint32_t *left, size_t left_length, const uint32_t *right, size_t right_length,
    const uint32_t *parent_color, size_t parent_color_length, const uint64_t *key, size_t key_length,
    uint32_t root, uint64_t k);

/* Hangs a slot with the key k, behind all keys that are not greater, and answers it. */
lichenbrooch_answer lichenbrooch_insert(
    uint32_t *left, size_t left_length, uint32_t *right, size_t right_length,
    uint32_t *parent_color, size_t parent_color_length, uint64_t *key, size_t key_length,
    uint32_t *root, uint32_t slot, uint64_t k);

/* Answers the slot that holds the key k, or hangs the new one with it. */
lichenbrooch_answer lichenbrooch_find_or_insert(
    uint32_t *left, size_t left_length, uint32_t *right, size_t right_length,
    uint32_t *parent_color, size_t parent_color_length, uint64_t *key, size_t key_length,
    uint32_t *root, uint32_t slot, uint64_t k);

/* The same with an entry at hand; LICHENBROOCH_STALE where lichenbrooch_entry_for would give another now. */
lichenbrooch_answer lichenbrooch_or_insert(
    uint32_t *left, size_t left_length, uint32_t *right, size_t right_length,
    uint32_t *parent_color, size_t parent_color_length, uint64_t *key, size_t key_length,
    uint32_t *root, lichenbrooch_entry entry, uint32_t slot, uint64_t k);

/* Takes the slot at a position out and answers the one after it, or 0; its key stays. */
lichenbrooch_answer lichenbrooch_remove(
    uint32_t *left, size_t left_length, uint32_t *right, size_t right_length,
    uint32_t *parent_color, size_t parent_color_length, const uint64_t *key, size_t key_length,
    uint32_t *root, uint32_t position);

/* Hangs a slot with the key k right behind a position; from 0 at the front. */
lichenbrooch_answer lichenbrooch_insert_after(
    uint32_t *left, size_t left_length, uint32_t *right, size_t right_length,
    uint32_t *parent_color, size_t parent_color_length, uint64_t *key, size_t key_length,
    uint32_t *root, uint32_t position, uint32_t slot, uint64_t k);

/* Hangs a slot with the key k right before a position; from 0 at the back. */
lichenbrooch_answer lichenbrooch_insert_before(
    uint32_t *left, size_t left_length, uint32_t *right, size_t right_length,
    uint32_t *parent_color, size_t parent_color_length, uint64_t *key, size_t key_length,
    uint32_t *root, uint32_t position, uint32_t slot, uint64_t k);

/* Puts a slot with the key k in the place of the one at a position, which is released. */
lichenbrooch_answer lichenbrooch_replace_with(
    uint32_t *left, size_t left_length, uint32_t *right, size_t right_length,
    uint32_t *parent_color, size_t parent_color_length, uint64_t *key, size_t key_length,
    uint32_t *root, uint32_t position, uint32_t slot, uint64_t k);

/* Unlinks all slots; the keys stay. */
lichenbrooch_answer lichenbrooch_clear(
    uint32_t *left, size_t left_length, uint32_t *right, size_t right_length,
    uint32_t *parent_color, size_t parent_color_length, const uint64_t *key, size_t key_length,
    uint32_t *root);

/* Works command records of 16 bytes one after another and writes an answer record of 6 bytes for each. */
lichenbrooch_batched lichenbrooch_batch(
    uint32_t *left, size_t left_length, uint32_t *right, size_t right_length,
    uint32_t *parent_color, size_t parent_color_length, uint64_t *key, size_t key_length,
    uint32_t *root, const uint8_t *commands, size_t commands_length, uint8_t *answers, size_t answers_length);

/* The key of a line's code: spaces at both ends are cut, 1 to 12 digits and letters of either case are left. */
lichenbrooch_coded lichenbrooch_code_key(const uint8_t *line, size_t line_length);

/* Which part of the line is its code; it starts behind the spaces at the start of the line. */
lichenbrooch_part lichenbrooch_code_part(const uint8_t *line, size_t line_length);

#ifdef __cplusplus
}
#endif

#endif
