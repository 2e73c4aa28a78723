/* Serves the calls of the library over standard input and output, one after another, and keeps nothing between them.
   A request is a `struct request` and its six pieces; the answer is a `struct reply` and the pieces as the call left
   them. All numbers are little endian. It ends where its input ends, with 1 if that is inside a request. */
#include <stddef.h>
#include <stdint.h>

#include "../bindings/c/lichenbrooch.h"

/* the C library's own headers are not at hand where this is compiled for another processor */
long read(int file, void *bytes, size_t count);
long write(int file, const void *bytes, size_t count);

/* The lent memory: four arrays, the commands of a batch or a line, the answers of a batch. */
enum { LEFT, RIGHT, PARENT_COLOR, KEY, INPUT, ANSWERS, PIECES };
static const size_t WIDTH[PIECES] = {4, 4, 4, 8, 1, 1};

struct request {
    uint64_t function, kind, position, slot, key, occupied, entry_slot, on_left, root;
    uint64_t length[PIECES];
};

/* Every field that some result has, those of the others being 0; `spilt` counts the bytes beside the pieces that the
   call has changed. */
struct reply {
    uint64_t code, probes, slot, occupied, on_left, count, key, start, length, root, spilt;
};

/* What 01 numbers as operations are the functions 1 to 12. */
enum { CHECK = 13, ENTRY, OR_INSERT, CODE, BATCH };

/* Each piece lies between two margins, which hold a pattern. */
enum { MEMORY = 1 << 20, MARGIN = 64, PATTERN = 0xA5 };
static _Alignas(8) uint8_t memory[MEMORY];
static uint8_t *piece[PIECES];
static size_t used;

static int read_all(void *bytes, size_t count) {
    for (size_t done = 0; done < count;) {
        long more = read(0, (uint8_t *)bytes + done, count - done);
        if (more <= 0) return 0;
        done += (size_t)more;
    }
    return 1;
}

static int write_all(const void *bytes, size_t count) {
    for (size_t done = 0; done < count;) {
        long more = write(1, (const uint8_t *)bytes + done, count - done);
        if (more <= 0) return 0;
        done += (size_t)more;
    }
    return 1;
}

/* The margin after a piece goes on to the next multiple of 8. */
static size_t margin_after(size_t bytes) { return MARGIN + (8 - bytes % 8) % 8; }

/* Gives each piece its place, between margins. */
static int lay(const uint64_t *length) {
    used = MARGIN;
    for (int which = 0; which < PIECES; which++) {
        if (length[which] > MEMORY) return 0;
        size_t bytes = length[which] * WIDTH[which];
        if (used + bytes + 2 * MARGIN > MEMORY) return 0;
        piece[which] = memory + used;
        used += bytes + margin_after(bytes);
    }
    return 1;
}

/* Fills the margins, or counts the bytes in them that are no longer as they were filled. */
static uint64_t margins(const uint64_t *length, int fill) {
    uint64_t changed = 0;
    uint8_t *at = memory;
    for (int which = 0; which <= PIECES; which++) {
        uint8_t *end = which < PIECES ? piece[which] : memory + used;
        for (; at < end; at++) {
            changed += *at != PATTERN;
            if (fill) *at = PATTERN;
        }
        if (which < PIECES) at += length[which] * WIDTH[which];
    }
    return changed;
}

static int read_pieces(const uint64_t *length) {
    for (int which = 0; which < PIECES; which++)
        if (!read_all(piece[which], length[which] * WIDTH[which])) return 0;
    return 1;
}

static int write_pieces(const uint64_t *length) {
    for (int which = 0; which < PIECES; which++)
        if (!write_all(piece[which], length[which] * WIDTH[which])) return 0;
    return 1;
}

#define ARRAYS                                                                                                    \
    (uint32_t *)piece[LEFT], asked->length[LEFT], (uint32_t *)piece[RIGHT], asked->length[RIGHT],                  \
        (uint32_t *)piece[PARENT_COLOR], asked->length[PARENT_COLOR], (uint64_t *)piece[KEY], asked->length[KEY]
#define LENT ARRAYS, (uint32_t)asked->root
#define LENT_MUT ARRAYS, root

/* The twelve operations of 01; none of them changes what another argument than `root` and the pieces name. */
static lichenbrooch_answer operate(const struct request *asked, uint32_t *root) {
    uint32_t kind = (uint32_t)asked->kind, position = (uint32_t)asked->position, slot = (uint32_t)asked->slot;
    uint64_t key = asked->key;
    switch (asked->function) {
    case 1: return lichenbrooch_insert(LENT_MUT, slot, key);
    case 2: return lichenbrooch_find_or_insert(LENT_MUT, slot, key);
    case 3: return lichenbrooch_find(LENT, key);
    case 4: return lichenbrooch_lower_bound(LENT, kind, key);
    case 5: return lichenbrooch_upper_bound(LENT, kind, key);
    case 6: return lichenbrooch_remove(LENT_MUT, position);
    case 7: return lichenbrooch_next(LENT, position);
    case 8: return lichenbrooch_prev(LENT, position);
    case 9: return lichenbrooch_insert_after(LENT_MUT, position, slot, key);
    case 10: return lichenbrooch_insert_before(LENT_MUT, position, slot, key);
    case 11: return lichenbrooch_replace_with(LENT_MUT, position, slot, key);
    default: return lichenbrooch_clear(LENT_MUT);
    }
}

static struct reply answered(lichenbrooch_answer answer) {
    return (struct reply){.code = answer.code, .probes = answer.probes, .slot = answer.slot};
}

static struct reply find_entry(const struct request *asked) {
    lichenbrooch_entry entry = lichenbrooch_entry_for(LENT, asked->key);
    return (struct reply){
        .code = entry.code, .occupied = entry.occupied, .slot = entry.slot, .on_left = entry.on_left};
}

/* The entry's own code is no part of it: it is given as a number that no call answers. */
static struct reply insert_at_entry(const struct request *asked, uint32_t *root) {
    lichenbrooch_entry entry = {
        .code = 99,
        .occupied = (uint32_t)asked->occupied,
        .slot = (uint32_t)asked->entry_slot,
        .on_left = (uint32_t)asked->on_left};
    return answered(lichenbrooch_or_insert(LENT_MUT, entry, (uint32_t)asked->slot, asked->key));
}

static struct reply read_code(const struct request *asked) {
    lichenbrooch_coded coded = lichenbrooch_code_key(piece[INPUT], asked->length[INPUT]);
    lichenbrooch_part part = lichenbrooch_code_part(piece[INPUT], asked->length[INPUT]);
    return (struct reply){.code = coded.code, .key = coded.key, .start = part.start, .length = part.length};
}

static struct reply run_batch(const struct request *asked, uint32_t *root) {
    lichenbrooch_batched batched = lichenbrooch_batch(
        LENT_MUT, piece[INPUT], asked->length[INPUT], piece[ANSWERS], asked->length[ANSWERS]);
    return (struct reply){.code = batched.code, .count = batched.count};
}

static struct reply call(const struct request *asked) {
    uint32_t root = (uint32_t)asked->root;
    struct reply reply;
    switch (asked->function) {
    case CHECK: reply = (struct reply){.code = lichenbrooch_check(LENT)}; break;
    case ENTRY: reply = find_entry(asked); break;
    case OR_INSERT: reply = insert_at_entry(asked, &root); break;
    case CODE: reply = read_code(asked); break;
    case BATCH: reply = run_batch(asked, &root); break;
    default: reply = answered(operate(asked, &root));
    }
    reply.root = root;
    return reply;
}

int main(void) {
    struct request asked;
    long first;
    while ((first = read(0, &asked, sizeof asked)) > 0) {
        if (!read_all((uint8_t *)&asked + first, sizeof asked - (size_t)first)) return 1;
        if (!lay(asked.length)) return 1;
        margins(asked.length, 1);
        if (!read_pieces(asked.length)) return 1;
        struct reply reply = call(&asked);
        reply.spilt = margins(asked.length, 0);
        if (!write_all(&reply, sizeof reply) || !write_pieces(asked.length)) return 1;
    }
    return 0;
}
