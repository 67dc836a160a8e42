/* Prints the stack that each call takes, on a program of 64 signals, 16 chains and expressions 16 deep, with 32 rows or without.
 * A thread paints the free part of its stack, makes the call and looks for the lowest byte that changed. For x86-64 and GCC. */
#include <inttypes.h>
#include <pthread.h>
#include <stdio.h>
#include <stdlib.h>
#include <string.h>
#include "larderlate.h"

enum { STACK_BYTES = 1 << 20, EQUATIONS = 63, DEPTH = 16, ROWS = 32, CHAINS = 16, LINKS = 16 };

static uint8_t program[LARDERLATE_PROGRAM_BYTES], schedule[LARDERLATE_SCHEDULE_BYTES], result[LARDERLATE_PROGRAM_BYTES];
static uint8_t image[LARDERLATE_IMAGE_BYTES], list[LARDERLATE_MOVES_BYTES], marks[LARDERLATE_SIGNALS];
static uint8_t texts[LARDERLATE_PROGRAM_BYTES + LARDERLATE_SCHEDULE_BYTES + 1];
static struct larderlate_part parts[LARDERLATE_PARTS];
static size_t program_length, schedule_length, image_length;
static int32_t state[LARDERLATE_BOARD_STATE_WORDS], samples[LARDERLATE_BOARD_SAMPLES];
static uint32_t counts[LARDERLATE_COUNTS], outcome[3];
static size_t record[LARDERLATE_BOARD_RECORD], written, stack_words, start, part;
static uint64_t answer;

static void put(uint8_t byte)
{
    program[program_length++] = byte;
}

static void put_word(uint32_t word)
{
    for (int shift = 0; shift < 32; shift += 8)
        put((uint8_t)(word >> shift));
}

/* A word of a row is given without its sign: 0 is the lowest. */
static void put_row(uint32_t low, uint32_t high)
{
    put(0x16);
    put_word(low ^ 0x80000000u);
    put_word(high ^ 0x80000000u);
    put_word(low);
}

/* LAST of the signal itself, or in a text of the earlier rule LASTWHEN by 1. */
static void put_last(uint8_t own, int earlier)
{
    put(earlier ? 0x24 : 0x22);
    put(own);
    if (earlier) {
        put(0);
        put(1);
    }
}

/* IFs down to a read of the signal before, the last operator a TABLE if there are rows. */
static void put_equation(uint8_t own, int rows, int earlier)
{
    put(0x11);
    put(1);
    put_word(own);
    put(1);
    put(0);
    for (int depth = 1; depth < DEPTH - 1; depth++) {
        put(0x3A);
        put_last(own, earlier && depth == 1);
        put_last(own, 0);
    }
    put(rows ? 0x3B : 0x38);
    put(own > 0 ? 0x21 : 0x22);
    put(own > 0 ? own - 1 : own);
}

static void put_chain(uint8_t first)
{
    put(0x12);
    put(1);
    put(0xFF);
    put(0xFF);
    for (uint8_t link = 0; link < LINKS; link++) {
        put(0x13);
        put(first + link);
    }
}

static void write_program(int rows, int earlier)
{
    program_length = 0;
    for (uint32_t row = 0; rows && row < ROWS; row++)
        put_row(row << 27, (row << 27) + (1u << 27) - 1);
    for (uint8_t own = 0; own < EQUATIONS; own++)
        put_equation(own, rows, earlier);
    /* An input of the longest period. */
    put(0x10);
    put(240);
    put_word(0);
    for (uint8_t chain = 0; chain < CHAINS; chain++)
        put_chain(3 * chain);
    put(0x14);
    put_word(EQUATIONS);
    put(0);
}

static void write_schedule(void)
{
    schedule_length = 0;
    for (uint8_t signal = 0; signal <= EQUATIONS; signal++) {
        schedule[schedule_length++] = 0x40;
        schedule[schedule_length++] = signal;
        schedule[schedule_length++] = 0;
    }
    schedule[schedule_length++] = 0;
}

static void compile(void)
{
    answer = larderlate_compile(program, program_length, schedule, schedule_length, image, sizeof image);
}

/* The program with its schedule is the last part; the others are of END alone. */
static void write_parts(void)
{
    memcpy(texts, program, program_length);
    memcpy(texts + program_length, schedule, schedule_length);
    for (int number = 0; number < LARDERLATE_PARTS - 1; number++)
        parts[number] = (struct larderlate_part){program_length - 1, 1, program_length - 1, 1};
    parts[LARDERLATE_PARTS - 1] = (struct larderlate_part){0, program_length, program_length, schedule_length};
}

static void join(void)
{
    answer = larderlate_join(texts, sizeof texts, parts, LARDERLATE_PARTS, texts, 0, image, sizeof image, &part);
}

static void moves(void)
{
    answer = larderlate_moves(program, program_length, schedule, schedule_length, list, sizeof list);
}

/* The input stands after the equations. */
static void dependents(void)
{
    answer = larderlate_dependents(program, program_length, schedule, schedule_length, EQUATIONS, marks);
}

static void report(void)
{
    answer = larderlate_report(program, program_length, schedule, schedule_length, counts, &written, &stack_words);
}

static void convert(void)
{
    answer = larderlate_convert(program, program_length, result, sizeof result);
}

static void reset(void)
{
    answer = larderlate_reset(image, image_length, state, LARDERLATE_STATE_WORDS);
}

static void cycle(void)
{
    answer = larderlate_cycle(image, image_length, state, LARDERLATE_STATE_WORDS, samples, LARDERLATE_SIGNALS);
}

static void tail(void)
{
    answer = larderlate_tail(image, image_length, &start);
}

static void board_new(void)
{
    larderlate_board_new(record);
    answer = 0;
}

static void board_load(void)
{
    answer = larderlate_board_load(record, image, sizeof image, state, LARDERLATE_BOARD_STATE_WORDS, 0, 0, image_length);
}

static void board_mark(void)
{
    answer = larderlate_board_mark(record, 0);
}

static void board_turn(void)
{
    answer = larderlate_board_turn(record, image, sizeof image, state, LARDERLATE_BOARD_STATE_WORDS, samples,
                                   LARDERLATE_BOARD_SAMPLES, outcome);
}

static unsigned char stack[STACK_BYTES] __attribute__((aligned(4096)));
static unsigned char paint;
static void (*call)(void);
static size_t used;

/* Calls nothing but the call, so that between painting and looking nothing else is written below its own frame. */
static void *measure(void *unused)
{
    volatile unsigned char *top, *at;
    __asm__ volatile("mov %%rsp, %0" : "=r"(top));
    for (at = stack; at < top; at++)
        *at = paint;
    call();
    for (at = stack; at < top && *at == paint; at++)
        ;
    used = (size_t)(top - at);
    return unused;
}

/* With two colours, since a byte may be written in one of them. */
static void print_use(const char *name, void (*of)(void))
{
    size_t most = 0;
    for (int colour = 0; colour < 2; colour++) {
        pthread_attr_t attributes;
        pthread_t thread;
        call = of;
        paint = colour ? 0x5A : 0xA5;
        pthread_attr_init(&attributes);
        pthread_attr_setstack(&attributes, stack, sizeof stack);
        if (pthread_create(&thread, &attributes, measure, NULL) != 0 || pthread_join(thread, NULL) != 0)
            exit(1);
        pthread_attr_destroy(&attributes);
        most = used > most ? used : most;
    }
    printf("%-12s %6zu bytes\n", name, most);
    if (larderlate_number(answer) != LARDERLATE_DONE) {
        printf("%s: refused %" PRIu32 ", place %" PRIu32 "\n", name, larderlate_number(answer), larderlate_value(answer));
        exit(1);
    }
}

int main(int count, char **arguments)
{
    int rows = count < 2 || strcmp(arguments[1], "without") != 0;
    write_program(rows, 0);
    write_schedule();
    printf("%zu bytes of program, %d rows\n", program_length, rows ? ROWS : 0);
    print_use("compile", compile);
    image_length = larderlate_value(answer);
    write_parts();
    print_use("join", join);
    print_use("report", report);
    print_use("moves", moves);
    print_use("dependents", dependents);
    print_use("reset", reset);
    print_use("cycle", cycle);
    print_use("tail", tail);
    print_use("board_new", board_new);
    print_use("board_load", board_load);
    print_use("board_mark", board_mark);
    print_use("board_turn", board_turn);
    write_program(rows, 1);
    print_use("convert", convert);
    return 0;
}
