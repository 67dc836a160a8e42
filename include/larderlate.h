/* The calls of Larderlate's static library for C and C++.
 *
 *     larderlate_compile   reads a program and a schedule, checks both, writes a step image
 *     larderlate_join      the same of up to 8 parts, each a program with its schedule, and links between them
 *     larderlate_report    checks both and tells what they need, with no image
 *     larderlate_moves     lists where one signal of an accepted pair may go
 *     larderlate_dependents
 *                          marks the signals of an accepted pair that an input reaches
 *     larderlate_reset     puts a state to its start
 *     larderlate_cycle     runs one cycle on a state
 *     larderlate_tail      finds the labels, periods and phases that stand after an image
 *     larderlate_convert   rewrites a program text that has sampling factors of 1
 *     larderlate_assemble, larderlate_list
 *                          words to read for the bytes of a program, a schedule or a script, and back
 *     larderlate_board_new, larderlate_board_load, larderlate_board_mark, larderlate_board_turn
 *                          four programs on one board, run by turns
 *
 * Every call takes any bytes and words, ends, and does its job or refuses. A refused call changes nothing that was lent to it.
 * The calls keep nothing between them and need no memory but their stack, so any number may run at once on different state. Of the
 * stack, measured on x86-64 with 64 signals, 16 chains, 32 rows and expressions 16 deep (bench/stack), a join takes 22 KB, a list of
 * moves 19 KB, a compile 15 KB, a report 14 KB, marks 13 KB, a conversion 12 KB, each other call less than 1 KB.
 *
 * AN IMAGE has L bytes, and bytes 2-3 hold L, low byte first. After them stands its tail, four bytes for each of its N signals: label
 * (2 bytes, low byte first), period, phase. Compile and join always write both. Reset, cycle and tail take an image at exactly L
 * bytes, without its tail, or at exactly L + 4N, with a tail of any bytes, and run both alike.
 *
 * THE ANSWER is one number of 64 bits: number x 2^32 + value. Number 0 says done; the value is then L + 4N for a compile or a join, L
 * for a report, the count of all entries for a list of moves, 0 for marks or a reset, the number of commands run for a cycle, the
 * tail's length for a tail, the new text's for a conversion, and the result's for assemble and list. Any other number is that of the
 * refusal, and the value is its place. The board's calls yield 0, or a refusal with place 0.
 *
 * WHAT IS LENT is a pointer and a length: bytes for uint8_t, words (not bytes) for int32_t, parts for larderlate_part. The caller
 * keeps these rules, which no call can test:
 *   - the pointer is to that many bytes, words or parts, all of them set, and is not null, also where the length is 0;
 *   - int32_t and uint32_t pointers are aligned to 4 bytes, those to size_t and larderlate_part to 8; uint8_t pointers need no
 *     alignment;
 *   - what a call may change (the image of a compile, the image and the part of a join, the counts and sizes of a report, the list
 *     of moves, the marks, the state of a reset or cycle, the start of a tail, the result of a conversion, the record, the state and
 *     the outcome of the board's calls) overlaps nothing else that is lent to the same call; what it only reads may overlap;
 *   - until the call returns nobody else writes what is lent, nor reads what the call may change;
 *   - nothing lent spans more than PTRDIFF_MAX bytes.
 */
#ifndef LARDERLATE_H
#define LARDERLATE_H

#include <stddef.h>
#include <stdint.h>

#ifdef __cplusplus
extern "C" {
#endif

/* Sizes that are enough for every legal input. */
enum {
    LARDERLATE_PROGRAM_BYTES = 8192,
    LARDERLATE_SCHEDULE_BYTES = 193,
    LARDERLATE_SIGNALS = 64,
    LARDERLATE_STATE_WORDS = 65,
    LARDERLATE_COUNTS = 240,
    LARDERLATE_MOVES_BYTES = 30720, /* of a list: 64 x 240 entries of two bytes (`moves-few`) */
    LARDERLATE_PLACES = 4,
    LARDERLATE_BOARD_STATE_WORDS = 260,
    LARDERLATE_BOARD_SAMPLES = 256,
    LARDERLATE_BOARD_RECORD = 17,
    LARDERLATE_PARTS = 8,
    LARDERLATE_LINK_BYTES = 4,
    /* Of a compile as of a join: 4 + 64 x 6 + 241 x 2 + 240 x 64 + 1 bytes beside rows and code, which are no longer than the programs,
     * and 64 x 4 of tail: proved (`image-bytes`, `join-bytes`). */
    LARDERLATE_IMAGE_BYTES = 24679
};

/* The numbers of an answer, with the place of each in parentheses, in the order in which a call judges (29 and 30 between 10 and 11):
 * 1; then 2 to 6 together, command after command; then the others, of each the lowest, 7 and 8 together in order of offset, and so
 * 12 and 13. A join judges each part alone as a compile does; larderlate_join says what it judges before and after that. */
enum {
    LARDERLATE_DONE = 0,

    /* Compile: the length of either text. */
    LARDERLATE_TEXT_TOO_LONG = 1, /* over 8,192 bytes of program or 193 of schedule (0) */

    /* Compile: the program text. */
    LARDERLATE_PROGRAM_ENDS_EARLY = 2,  /* also right after a TAG (the program's length) */
    LARDERLATE_NO_SUCH_COMMAND = 3,     /* also a TAG that is not directly before IN or EQ (its offset) */
    LARDERLATE_OVER_A_BOUND = 4,        /* over 64 signals, 16 chains, 16 links, 32 rows or depth 16 (the command or operator) */
    LARDERLATE_OPERAND_OUT_OF_RANGE = 5, /* also a factor of 1, a row's low above its high, a second CAP or a chain under 2 links (the
                                          * command or read; LAT for a chain) */
    LARDERLATE_BYTES_AFTER_END = 6,     /* (the first of them) */
    LARDERLATE_UNDECLARED_SIGNAL = 7,   /* (the read or LINK) */
    LARDERLATE_PERIOD_RULE_BROKEN = 8,  /* (the read) */
    LARDERLATE_HYPERCYCLE_TOO_LONG = 9, /* over 240 (0) */
    LARDERLATE_LINK_NOT_READ_ONCE = 10, /* a link without exactly one read of the link before (the LAT) */

    /* Compile: the rows, where the program has a ROW or a TABLE. */
    LARDERLATE_WORD_IN_TWO_ROWS = 29, /* (the first ROW that meets an earlier one) */
    LARDERLATE_WORD_IN_NO_ROW = 30,   /* (0) */

    /* Compile: the schedule text. */
    LARDERLATE_SCHEDULE_TEXT = 11,   /* ends early (its length), unknown command (its offset), bytes after END (the first) */
    LARDERLATE_SIGNAL_NOT_ONCE = 12, /* undeclared (the PUT), put twice (the second PUT) or missing (END) */
    LARDERLATE_PHASE = 13,           /* phase not below the period (the PUT) */

    /* Compile: program and schedule together. */
    LARDERLATE_READ_UNMET = 14, /* (the read's offset in the program) */
    LARDERLATE_OVER_CAP = 15,   /* (the cycle) */
    LARDERLATE_LATENCY = 16,    /* a chain that does not keep its bound (the LAT) */

    /* Compile, join: all else is accepted, but the image buffer is shorter than L + 4N. Convert: than the result. */
    LARDERLATE_IMAGE_BUFFER_SHORT = 17, /* (L + 4N; the result's length) */

    /* Tail gives 20, reset 20 and 21, cycle all four. */
    LARDERLATE_IMAGE_NOT_WELL_FORMED = 20, /* also neither L nor L + 4N bytes long, or without a table, as earlier
                                            * libraries wrote it (0) */
    LARDERLATE_STATE_SHORT = 21,           /* fewer than N + 1 words (0) */
    LARDERLATE_POSITION = 22,              /* word 0 of the state not from 0 to H - 1 (0) */
    LARDERLATE_SAMPLES_SHORT = 23,         /* fewer than N words (0) */

    /* The board. A load gives 26, 21, 27 and 20 in this order, a mark 26 and 28, a turn 21 and 23. */
    LARDERLATE_NO_SUCH_PLACE = 26,    /* a place above 3 (0) */
    LARDERLATE_STRETCH_OUTSIDE = 27,  /* the image stretch, or a text of a join, lies outside its buffer (0) */
    LARDERLATE_NEVER_LOADED = 28,     /* a mark of a place that was never loaded (0) */

    /* Join: a link that is cut, names no IN or no signal of another part, has the IN of an earlier link, or names two signals of
     * unequal periods (the lowest such link's number); then rows in two parts (0). */
    LARDERLATE_WRONG_LINK = 31,

    /* The text form. Assemble gives 47, 40 to 43 and 44 in this order, list 47, 45, 46 and 44. */
    LARDERLATE_UNKNOWN_WORD = 40,      /* a word that is no command, where one is to follow (the word) */
    LARDERLATE_OPERAND_MISSING = 41,   /* the text ends where an operand is to follow (its length) */
    LARDERLATE_NO_NUMBER = 42,         /* a word that is no number and no name of its operand (the word) */
    LARDERLATE_NUMBER_OUTSIDE = 43,    /* a number outside its operand's range (the word) */
    LARDERLATE_TEXT_BUFFER_SHORT = 44, /* all else is accepted, but the buffer is shorter than the result (the result's length) */
    LARDERLATE_UNKNOWN_BYTE = 45,      /* a byte that is no command, where one is to follow (the byte) */
    LARDERLATE_OPERAND_CUT = 46,       /* the bytes end within an operand (the operand) */
    LARDERLATE_FORM_TOO_LONG = 47,     /* more than 16,777,216 bytes are lent to be read (0) */

    /* Dependents: the pair is accepted, but the number given is not that of an input. */
    LARDERLATE_NO_INPUT = 48 /* an equation's, or not below N (0) */
};

/* What a turn that is not refused has done: the first number of its outcome. */
enum {
    LARDERLATE_IDLE = 0,   /* nothing was due; the other two are 0 */
    LARDERLATE_RAN = 1,    /* then the place, and the commands that it ran */
    LARDERLATE_FAILED = 2  /* then the place, and the number of its run's refusal: 27, 20 or 22 */
};

static inline uint32_t larderlate_number(uint64_t answer)
{
    return (uint32_t)(answer >> 32);
}

static inline uint32_t larderlate_value(uint64_t answer)
{
    return (uint32_t)answer;
}

/* Checks the program and the schedule and writes their image and its tail to the start of the buffer `image`. The answer's value is
 * how many bytes these are, L + 4N; bytes of the buffer past that stay. Gives 1 to 17, 29 and 30. A buffer of length 0
 * (its pointer not null) is a way to ask for L + 4N: 17 has it as its place. */
uint64_t larderlate_compile(const uint8_t *program, size_t program_length,
                            const uint8_t *schedule, size_t schedule_length,
                            uint8_t *image, size_t image_length);

/* A part: where its program and its schedule stand in the buffer of all texts, each by start and length. */
struct larderlate_part {
    size_t program;
    size_t program_length;
    size_t schedule;
    size_t schedule_length;
};

/* What larderlate_join calls, with the parts as numbers, four a part in the order of larderlate_part; one to three numbers after the
 * last whole part are not looked at. */
uint64_t larderlate_join_numbers(const uint8_t *texts, size_t texts_length,
                                 const size_t *numbers, size_t numbers_count,
                                 const uint8_t *links, size_t links_length,
                                 uint8_t *image, size_t image_length, size_t *part);

/* Joins up to 8 parts whose texts lie in the buffer `texts`, and writes the joined image and its tail to the start of the buffer
 * `image`. The answer's value is how many bytes these are, L + 4N; bytes of the buffer past that stay. Texts may share bytes. A link is
 * four bytes: part, IN, part, signal. Parts are numbered from 0 as lent, the IN and the signal as in their own part. The IN then reads
 * the signal by NOW. Joined, signals are numbered part after part, PUTs follow in part order, and the smallest CAP stands for all.
 *
 * Gives, in this order: 1 (all programs together over 8,192 bytes), 4 (a ninth part) and 27 (a text that leaves its buffer), with
 * place 0; then of each part, in order, what a compile of it alone gives, 1 to 16, 29 and 30, and its number in `part`; then 31; then
 * of all parts joined 4 (over 64 signals or 16 chains: 0), 9 (0), 14 (the number of the lowest link whose read is not met), 15 (the
 * cycle) and 17. `part` stays where the answer is no refusal inside a part. A buffer `image` of length 0 is a way to ask for L + 4N, as
 * with larderlate_compile. */
static inline uint64_t larderlate_join(const uint8_t *texts, size_t texts_length,
                                       const struct larderlate_part *parts, size_t parts_count,
                                       const uint8_t *links, size_t links_length,
                                       uint8_t *image, size_t image_length, size_t *part)
{
    return larderlate_join_numbers(texts, texts_length, (const size_t *)parts, 4 * parts_count, links, links_length,
                                   image, image_length, part);
}

/* Checks the program and the schedule and tells what they need, without an image. The answer's value is the image's length L;
 * `counts` gets the commands of each cycle of the hypercycle H, those from H on being 0, `written` the length with the tail, L + 4N,
 * and `stack` the most words that the code of any signal has on the working stack. Gives 1 to 16, 29 and 30, and then leaves
 * all three as they were. */
uint64_t larderlate_report(const uint8_t *program, size_t program_length,
                           const uint8_t *schedule, size_t schedule_length,
                           uint32_t counts[LARDERLATE_COUNTS], size_t *written, size_t *stack);

/* Lists where one signal may go: each signal and phase, from 0 to its period - 1 and the present one included, such that the pair
 * with only that phase changed and the same PUT order is accepted and settles each open read as before. An entry is two bytes, signal
 * and phase; they stand by signal, then by rising phase, each once. As many whole entries as the list has space for are written, the
 * rest of it stays, an odd last byte included, and the answer's value is how many there are in all: LARDERLATE_MOVES_BYTES is space for
 * every list, and a list of length 0 (its pointer not null) is a way to ask for the count. From the same input elements every
 * listed pair yields the streams of the first. Gives 1 to 16, 29 and 30 as a report, and then leaves the list as it was. */
uint64_t larderlate_moves(const uint8_t *program, size_t program_length,
                          const uint8_t *schedule, size_t schedule_length,
                          uint8_t *list, size_t list_length);

/* Marks the signals that input `input` reaches: byte s is 1 where signal s reads it, by itself or through other signals, in a read of
 * any kind and under any operator, and 0 at every other of the 64. An input reads nothing, so its own byte is 0. Two runs whose samples
 * differ for this input alone hold the same words of every other signal that is not marked (`only-readers`). The answer's value is 0.
 * Gives 1 to 16, 29 and 30 as a report, then 48, and then leaves the marks as they were. */
uint64_t larderlate_dependents(const uint8_t *program, size_t program_length,
                               const uint8_t *schedule, size_t schedule_length,
                               size_t input, uint8_t marks[LARDERLATE_SIGNALS]);

/* Puts 0 into word 0 of the state, the position, and each signal's initial word into word 1 + its number. Words beyond the signals
 * stay. Gives 20 and 21. */
uint64_t larderlate_reset(const uint8_t *image, size_t image_length,
                          int32_t *state, size_t state_words);

/* Runs the signals due at the state's position, in order, and moves the position on by one, from H - 1 to 0. Word s of the samples
 * is the sample of input s; the other words are not used, but there are at least as many as signals. The answer's value is
 * the number of commands that it ran; for the image of a pair, the count of the pair's report for the position. Gives 20 to 23. */
uint64_t larderlate_cycle(const uint8_t *image, size_t image_length,
                          int32_t *state, size_t state_words,
                          const int32_t *samples, size_t samples_words);

/* Tells where the tail of an image stands: `start` gets its offset, which is L, and the answer's value is its length, 0 for an image
 * without one. Signal s has the four bytes from start + 4 x s on. Gives 20, and then leaves `start` as it was. */
uint64_t larderlate_tail(const uint8_t *image, size_t image_length, size_t *start);

/* Rewrites a program text in which a sampling factor of 1 was allowed: each WHEN and CURRENT by 1 as NOW, each LASTWHEN by 1 as LAST,
 * of the same signal; every other byte is kept. The new text goes to the start of the buffer `result`, the answer's value is its
 * length, which is no more than the program's; bytes of the buffer past it stay. Gives 1 to 6 as a compile that allows 1 would, and
 * 17. Every schedule that the old text was accepted with is accepted with the new one, which has the same streams and image. */
uint64_t larderlate_convert(const uint8_t *program, size_t program_length,
                            uint8_t *result, size_t result_length);

/* Assembles a text in words to the bytes of a program, a schedule or a script. Words are separated by blanks, a comment goes from ; to the
 * end of its line; the words are those of the papers, their operands decimal and in the order of the bytes, `open` for index 255,
 * `exists` and `backward` for the modes. The bytes go to the start of the buffer, the answer's value is how many they are; bytes of
 * the buffer past them stay. Whether they are legal is for compile to say. Gives 40 to 44 and 47. */
uint64_t larderlate_assemble(const uint8_t *text, size_t text_length,
                             uint8_t *bytes, size_t bytes_length);

/* Lists a program, a schedule or a script in that form, and what is listed is assembled to the same bytes. Every text that compile
 * accepts is listed. The listing goes to the start of the buffer, the answer's value is its length. Gives 44 to 47. */
uint64_t larderlate_list(const uint8_t *bytes, size_t bytes_length,
                         uint8_t *text, size_t text_length);

/* Four programs on one board. The caller keeps the record of LARDERLATE_BOARD_RECORD numbers and lends it to each call as the last one
 * left it: for each place its flags (1 loaded, 2 due), start and length of its stretch of the images, and the count of the turns that
 * took it since its load, held at 2^32 - 1, in place order; then the place last taken. Any numbers are a record. A refused call
 * and an idle turn leave it as it was; any other call sets numbers of its own place alone, and a turn the place last taken.
 *
 * `images` is the buffer that the places' images lie in. The state has 260 words, 65 for each place in place order, the samples of a
 * turn are 256 words, 64 for each; more may be lent, and those beyond stay. */

/* A new record: nothing loaded or due, the counts 0, the place last taken 3. */
void larderlate_board_new(size_t record[LARDERLATE_BOARD_RECORD]);

/* Loads a place with the image in a stretch of the images: its words are reset (those beyond its signals stay), its due mark
 * is cleared, its count 0. Gives 26, 21 (fewer than 260 words), 27 and 20. */
uint64_t larderlate_board_load(size_t record[LARDERLATE_BOARD_RECORD],
                               const uint8_t *images, size_t images_length,
                               int32_t *state, size_t state_words,
                               size_t place, size_t start, size_t length);

/* Marks a loaded place due; marked twice it is due once. Gives 26 and 28. */
uint64_t larderlate_board_mark(size_t record[LARDERLATE_BOARD_RECORD], size_t place);

/* Runs one cycle of the next due place in cyclic order after the one last taken, clears its mark and counts the turn for it. A run that
 * would be refused, since the images or the state changed since the load, does the same and leaves the state. The outcome says
 * which it was. Gives 21 (fewer than 260 words) and 23 (fewer than 256 samples), and then takes no place and leaves the outcome. */
uint64_t larderlate_board_turn(size_t record[LARDERLATE_BOARD_RECORD],
                               const uint8_t *images, size_t images_length,
                               int32_t *state, size_t state_words,
                               const int32_t *samples, size_t samples_words,
                               uint32_t outcome[3]);

#ifdef __cplusplus
}
#endif

#endif
