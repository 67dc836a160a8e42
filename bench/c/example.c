/* Compiles program A of the paper, resets a state and runs cycles, printing the words after each; then joins it with a second part and
 * does the same. */
#include <inttypes.h>
#include <stdio.h>
#include <string.h>
#include "larderlate.h"

static const uint8_t program[] = {
    0x10, 0x01, 0x00, 0x00, 0x00, 0x00,                                     /* signal 0: an input in every cycle */
    0x11, 0x02, 0x05, 0x00, 0x00, 0x00, 0x03, 0x00, 0x23, 0x00, 0x01, 0x02, /* signal 1: WHEN 0 1 2, every other cycle */
    0x11, 0x01, 0x00, 0x00, 0x00, 0x00, 0x01, 0x00,                         /* signal 2: ADD of */
    0x30, 0x25, 0x01, 0xFF, 0x02, 0x22, 0x02,                               /*   CURRENT 1, index open, 2 and LAST 2 */
    0x00,
};

static const uint8_t schedule[] = {0x40, 0x00, 0x00, 0x40, 0x01, 0x01, 0x40, 0x02, 0x00, 0x00};

/* A second part. Linked, its input reads signal 2 of program A. */
static const uint8_t second[] = {
    0x10, 0x01, 0x00, 0x00, 0x00, 0x00,                                           /* signal 0: an input in every cycle */
    0x11, 0x01, 0x00, 0x00, 0x00, 0x00, 0x01, 0x00, 0x30, 0x21, 0x00, 0x21, 0x00, /* signal 1: ADD of NOW 0 and NOW 0 */
    0x00,
};

static const uint8_t second_schedule[] = {0x40, 0x00, 0x00, 0x40, 0x01, 0x00, 0x00};

static int refused(const char *call, uint64_t answer)
{
    if (larderlate_number(answer) == LARDERLATE_DONE)
        return 0;
    printf("%s: refused %" PRIu32 ", place %" PRIu32 "\n", call, larderlate_number(answer), larderlate_value(answer));
    return 1;
}

static void print_state(const int32_t *state)
{
    printf("position %" PRId32 ": signals %" PRId32 " %" PRId32 " %" PRId32 "\n", state[0], state[1], state[2], state[3]);
}

/* Copies a text behind those in the buffer, and yields where it starts. */
static size_t add_text(uint8_t *texts, size_t *used, const uint8_t *text, size_t length)
{
    size_t start = *used;
    memcpy(texts + start, text, length);
    *used += length;
    return start;
}

/* Joins program A and the second part by one link and runs four cycles. Joined, the second part's signals are 3 and 4. */
static int join_two_parts(void)
{
    static uint8_t texts[sizeof program + sizeof schedule + sizeof second + sizeof second_schedule];
    static const uint8_t links[] = {1, 0, 0, 2}; /* IN 0 of part 1, signal 2 of part 0 */
    static uint8_t image[LARDERLATE_IMAGE_BYTES];
    static int32_t state[LARDERLATE_STATE_WORDS];
    struct larderlate_part parts[2] = {{0, sizeof program, 0, sizeof schedule}, {0, sizeof second, 0, sizeof second_schedule}};
    size_t used = 0, part = LARDERLATE_PARTS;
    parts[0].program = add_text(texts, &used, program, sizeof program);
    parts[0].schedule = add_text(texts, &used, schedule, sizeof schedule);
    parts[1].program = add_text(texts, &used, second, sizeof second);
    parts[1].schedule = add_text(texts, &used, second_schedule, sizeof second_schedule);
    uint64_t answer = larderlate_join(texts, used, parts, 2, links, sizeof links, image, sizeof image, &part);
    if (refused("join", answer))
        return 1;
    size_t length = larderlate_value(answer);
    printf("joined image and tail of %zu bytes\n", length);
    if (refused("reset", larderlate_reset(image, length, state, LARDERLATE_STATE_WORDS)))
        return 1;
    for (int32_t input = 10; input <= 13; input++) {
        const int32_t samples[5] = {input, 0, 0, 0, 0};
        if (refused("cycle", larderlate_cycle(image, length, state, LARDERLATE_STATE_WORDS, samples, 5)))
            return 1;
        printf("joined signals 2 to 4: %" PRId32 " %" PRId32 " %" PRId32 "\n", state[3], state[4], state[5]);
    }
    parts[1].schedule_length--; /* without its END the second schedule ends early */
    answer = larderlate_join(texts, used, parts, 2, links, sizeof links, image, sizeof image, &part);
    printf("cut schedule: refused %" PRIu32 ", place %" PRIu32 ", part %zu\n", larderlate_number(answer),
           larderlate_value(answer), part);
    return larderlate_number(answer) != LARDERLATE_SCHEDULE_TEXT || part != 1;
}

int main(void)
{
    static uint8_t image[LARDERLATE_IMAGE_BYTES];
    static int32_t state[LARDERLATE_STATE_WORDS];
    static uint32_t counts[LARDERLATE_COUNTS];
    static uint32_t commands[8];
    size_t start = 0, written = 0, stack = 0;
    uint64_t answer = larderlate_compile(program, sizeof program, schedule, sizeof schedule, image, sizeof image);
    if (refused("compile", answer))
        return 1;
    size_t length = larderlate_value(answer);
    printf("image and tail of %zu bytes, hypercycle %u\n", length, image[0]);
    answer = larderlate_tail(image, length, &start);
    if (refused("tail", answer))
        return 1;
    for (size_t at = start; at < start + larderlate_value(answer); at += 4)
        printf("label %u, period %u, phase %u\n", image[at] + 256u * image[at + 1], image[at + 2], image[at + 3]);
    if (refused("reset", larderlate_reset(image, length, state, LARDERLATE_STATE_WORDS)))
        return 1;
    print_state(state);
    for (int32_t input = 10; input <= 17; input++) {
        const int32_t samples[3] = {input, 0, 0};
        answer = larderlate_cycle(image, length, state, LARDERLATE_STATE_WORDS, samples, 3);
        if (refused("cycle", answer))
            return 1;
        commands[input - 10] = larderlate_value(answer);
        print_state(state);
    }
    answer = larderlate_report(program, sizeof program, schedule, sizeof schedule, counts, &written, &stack);
    if (refused("report", answer))
        return 1;
    printf("report: %" PRIu32 " bytes, %zu with the tail, stack %zu, commands %" PRIu32 " %" PRIu32 " %" PRIu32 " and so on\n",
           larderlate_value(answer), written, stack, counts[0], counts[1], counts[2]);
    for (int i = 0; i < 8; i++)
        if (commands[i] != counts[i % 2])
            return 1;
    return join_two_parts();
}
