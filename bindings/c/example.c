/* A door's list of codes: lines are typed, each code is kept once, the codes are read in order, one is taken out, and
   one more comes in a batch. It prints what it does and ends with status 1 where an answer is not the expected one. */
#include "lichenbrooch.h"

/* Declared here, as the kit's compiler brings no headers of the C library. */
long write(int file, const void *bytes, size_t count);

#define SLOTS 8

/* The arrays that the library works on, all zeros: an empty tree. */
static struct {
    uint32_t left[SLOTS];
    uint32_t right[SLOTS];
    uint32_t parent_color[SLOTS];
    uint64_t key[SLOTS];
    uint32_t root;
} desk;

/* The desk as the library's first parameters, to look at and to change. */
#define LENT desk.left, SLOTS, desk.right, SLOTS, desk.parent_color, SLOTS, desk.key, SLOTS, desk.root
#define LENT_MUT desk.left, SLOTS, desk.right, SLOTS, desk.parent_color, SLOTS, desk.key, SLOTS, &desk.root

static int failures = 0;

static size_t length_of(const char *text) {
    size_t length = 0;
    while (text[length] != 0) {
        length++;
    }
    return length;
}

static void say(const char *text) {
    write(1, text, length_of(text));
}

static void say_number(uint32_t number) {
    char digits[10];
    size_t first = sizeof digits;
    do {
        first--;
        digits[first] = (char)('0' + number % 10);
        number /= 10;
    } while (number != 0);
    write(1, digits + first, sizeof digits - first);
}

/* Says what happened and remembers whether it is the expected number. */
static void expect(const char *what, uint32_t number, uint32_t expected) {
    say(what);
    say_number(number);
    if (number != expected) {
        failures++;
        say(", expected ");
        say_number(expected);
    }
    say("\n");
}

static uint64_t key_of(const char *line) {
    return lichenbrooch_code_key((const uint8_t *)line, length_of(line)).key;
}

/* Keeps the code of a line in a free slot, unless it is there; answers the slot that has it, or 0 for no code. */
static uint32_t enter(const char *line, uint32_t free_slot) {
    const uint8_t *bytes = (const uint8_t *)line;
    lichenbrooch_coded coded = lichenbrooch_code_key(bytes, length_of(line));
    lichenbrooch_part part = lichenbrooch_code_part(bytes, length_of(line));
    if (coded.code != LICHENBROOCH_DONE) {
        say("no code in this line");
        return 0;
    }
    write(1, bytes + part.start, part.length);
    return lichenbrooch_find_or_insert(LENT_MUT, free_slot, coded.key).slot;
}

static void enter_lines(void) {
    expect(" in slot ", enter("  Rose7 ", 1), 1);
    expect(" in slot ", enter("IVY42", 2), 2);
    expect(" in slot ", enter("rOSE7", 3), 1);
    expect(": ", enter("moss 12", 3), 0);
    expect("a code that is there is refused by insert: ", lichenbrooch_insert(LENT_MUT, 1, 5).code,
           LICHENBROOCH_ALREADY_LINKED);
    expect("fern1 in slot ", lichenbrooch_insert(LENT_MUT, 3, key_of("fern1")).slot, 3);
}

/* FERN1, IVY42, ROSE7: the order of the keys is that of the letters. */
static void read_in_order(void) {
    uint32_t first = lichenbrooch_next(LENT, 0).slot;
    uint32_t second = lichenbrooch_next(LENT, first).slot;
    uint32_t third = lichenbrooch_next(LENT, second).slot;
    expect("the first code is in slot ", first, 3);
    expect("then comes slot ", second, 2);
    expect("then comes slot ", third, 1);
    expect("and then ", lichenbrooch_next(LENT, third).slot, 0);
}

static void take_out(void) {
    lichenbrooch_answer found = lichenbrooch_find(LENT, key_of("Ivy42"));
    expect("Ivy42 is found in slot ", found.slot, 2);
    expect("taken out; after it comes slot ", lichenbrooch_remove(LENT_MUT, found.slot).slot, 1);
    expect("Ivy42 is found no more: ", lichenbrooch_find(LENT, key_of("Ivy42")).slot, 0);
}

/* Writes a command record: the operation, the slot and the key; kind and position stay 0. */
static void put_command(uint8_t *record, uint8_t operation, uint16_t slot, uint64_t key) {
    for (size_t i = 0; i < LICHENBROOCH_COMMAND_SIZE; i++) {
        record[i] = 0;
    }
    record[0] = 0x43;
    record[1] = 0x4E;
    record[2] = operation;
    record[6] = (uint8_t)slot;
    record[7] = (uint8_t)(slot >> 8);
    for (size_t i = 0; i < 8; i++) {
        record[8 + i] = (uint8_t)(key >> (8 * i));
    }
}

/* Operation 1 is insert and 3 is find; of an answer's six bytes the third is the code, the fifth and sixth the slot. */
static void work_batch(void) {
    uint8_t commands[2 * LICHENBROOCH_COMMAND_SIZE];
    uint8_t answers[2 * LICHENBROOCH_ANSWER_SIZE];
    put_command(commands, 1, 4, key_of("Moss12"));
    put_command(commands + LICHENBROOCH_COMMAND_SIZE, 3, 0, key_of("MOSS12"));
    lichenbrooch_batched batched =
        lichenbrooch_batch(LENT_MUT, commands, sizeof commands, answers, sizeof answers);
    expect("a batch of two commands: ", batched.code, LICHENBROOCH_DONE);
    expect("answers: ", batched.count, 2);
    expect("Moss12 is inserted in slot ", answers[4], 4);
    expect("MOSS12 is found in slot ", answers[LICHENBROOCH_ANSWER_SIZE + 4], 4);
}

int main(void) {
    enter_lines();
    read_in_order();
    take_out();
    work_batch();
    expect("the arrays are well formed: ", lichenbrooch_check(LENT), LICHENBROOCH_DONE);
    expect("all as expected but ", (uint32_t)failures, 0);
    return failures != 0;
}
