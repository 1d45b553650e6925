/*
 * The example that document 01 prints, from C: a record that thread 1 holds is retired by thread 0, and the reclaim
 * keeps it. Standard output is the same as the schedule program's for it, examples/printed.replies. Exit status 1,
 * and a line on standard error, if anything is not as expected.
 */
#include <inttypes.h>
#include <stdio.h>
#include <stdlib.h>

#include "ernuvald.h"

/* threads, slots, cells, records, threshold, start */
#define SETTINGS 2, 1, 1, 2, 1, UINT32_MAX

#define ADVANCE(thread) {thread, ERNUVALD_ADVANCE, 0, 0, 0}
#define HANDLE(thread) {thread, ERNUVALD_HANDLE, 0, 0, 0}

struct step {
    uint32_t thread, op, a, b, c;
};

static const struct step steps[] = {
    {0, ERNUVALD_ALLOCATE, 0, 0, 0}, /* record 1 */
    {0, ERNUVALD_SWAP, 0, 0, 1},     /* cell 0: from 0 to 1 */
    {1, ERNUVALD_LOAD, 0, 0, 0},     /* slot 0, cell 0 */
    {1, ERNUVALD_RESERVE, 0, 0, 0},
    {1, ERNUVALD_CHECK, 0, 0, 0},
    {0, ERNUVALD_SWAP, 0, 1, 0}, /* cell 0: from 1 to 0 */
    {0, ERNUVALD_RETIRE, 1, 0, 0},
    ADVANCE(0), ADVANCE(0), ADVANCE(0), ADVANCE(0), ADVANCE(0),
    ADVANCE(0), /* waits for thread 1 */
    {1, ERNUVALD_DELIVER, 0, 0, 0},
    HANDLE(1), HANDLE(1),
    ADVANCE(0), ADVANCE(0), ADVANCE(0),
    ADVANCE(0), /* keeps record 1 */
    {1, ERNUVALD_USE, 0, 0, 0},
    {1, ERNUVALD_CLEAR, 0, 0, 0},
    {1, ERNUVALD_USE, 0, 0, 0}, /* refused: nothing is held */
};

static void expect(int holds, const char *what) {
    if (!holds) {
        fprintf(stderr, "unexpected: %s\n", what);
        exit(1);
    }
}

static int is_part(ernuvald_part part, uint32_t number, uint32_t from, uint32_t length) {
    return part.number == number && part.from == from && part.length == length;
}

static void run(uint32_t *image, size_t words) {
    unsigned accepted = 0, refused = 0, freed = 0;
    printf("step op code value\n");
    for (size_t i = 0; i < sizeof steps / sizeof steps[0]; i++) {
        struct step s = steps[i];
        ernuvald_reply reply = ernuvald_step(image, words, s.thread, s.op, s.a, s.b, s.c);
        printf("%zu %" PRIu32 " %" PRIu32 " %" PRIu32 "\n", i, s.op, reply.number, reply.value);
        if (reply.number == ERNUVALD_DONE)
            accepted++;
        else
            refused++;
        if (reply.number == ERNUVALD_DONE && s.op == ERNUVALD_ADVANCE && reply.value == 3) freed++;
    }
    printf("accepted %u refused %u freed %u\n", accepted, refused, freed);
}

/* Record 1 is still in the list of thread 0; thread 1 has an empty list, and there is no thread 2. */
static void ask(const uint32_t *image, size_t words) {
    ernuvald_part part = ernuvald_retired(image, words, 0);
    expect(is_part(part, ERNUVALD_DONE, part.from, 1) && image[part.from] == 1, "the list of thread 0");
    part = ernuvald_retired(image, words, 1);
    expect(is_part(part, ERNUVALD_DONE, part.from, 0), "the list of thread 1");
    expect(is_part(ernuvald_retired(image, words, 2), ERNUVALD_NO_SUCH_THREAD, 0, 0), "the list of thread 2");
}

/* No words at all: answered, and nothing is read. */
static void without_words(void) {
    ernuvald_reply reply = ernuvald_step(NULL, 0, 0, ERNUVALD_ALLOCATE, 0, 0, 0);
    expect(reply.number == ERNUVALD_DAMAGED && reply.value == 0, "a step without words");
    expect(is_part(ernuvald_retired(NULL, 0, 0), ERNUVALD_DAMAGED, 0, 0), "a list without words");
    expect(ernuvald_damaged(NULL, 0) == 1, "whether no words are damaged");
    expect(ernuvald_set_up(NULL, 0, SETTINGS) == ERNUVALD_WRONG_LENGTH, "a set-up without words");
}

int main(void) {
    size_t words = ernuvald_words(SETTINGS);
    expect(words != 0, "the words needed");
    uint32_t *image = (uint32_t *)malloc(words * sizeof *image);
    expect(image != NULL, "no memory");
    expect(ernuvald_set_up(image, words, SETTINGS) == ERNUVALD_DONE, "the set-up");
    run(image, words);
    expect(ernuvald_damaged(image, words) == 0, "whether the image is damaged");
    ask(image, words);
    without_words();
    free(image);
    return 0;
}
