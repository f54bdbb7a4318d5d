/*
 * A call whose events come through a serial line: standard input is read in pieces of changing
 * sizes, some of no bytes, the library's reader puts the records together again, and each is an
 * event for the call. Prints a line for each record, as the program calltrace does.
 *
 * The host keeps the bytes of the call, the 2 bytes of the reader and its carry.
 *
 *     gcc -std=c11 -Wall -Wextra -Werror -Iinclude examples/c/serial_line.c \
 *         target/staticlib/libhost.a -o target/serial_line
 *     target/serial_line 7 < crates/calltrace/stdin
 *
 * The number chooses the sizes; what is printed is the same for each.
 */
#include "callcontrol.h"

#include <stdio.h>
#include <stdlib.h>

/* The largest piece; longer than a record, so that a piece can hold several. */
#define PIECE_MAX 100u

static const char *const states[] = {
    "IDLE", "MO-CALL-SETUP", "MT-CALL-SETUP", "CALL-ACTIVE", "WAIT", "CALL-DISCONNECT",
};

struct line {
    uint8_t call[CALLCONTROL_RECORD_SIZE];
    uint8_t reader[CALLCONTROL_READER_SIZE];
    uint8_t carry[CALLCONTROL_CARRY_SIZE];
};

static void print_line(unsigned int answer, const uint8_t *call, size_t bytes, unsigned int place)
{
    printf("%u %s %u %zu %u\n", answer, states[call[CALLCONTROL_AT_STATE]],
           (unsigned int)call[CALLCONTROL_AT_PLANE], bytes, place);
}

/* One record: an event for the call. A real host would carry out the messages in out here. */
static void take(uint8_t *call, const uint8_t *record, size_t len)
{
    uint8_t out[CALLCONTROL_RUN_MAX];
    uint32_t result = callcontrol_step(call, CALLCONTROL_RECORD_SIZE, record, len, out, sizeof out);
    print_line(callcontrol_answer_of(result), call, callcontrol_count_of(result),
               callcontrol_place_of(result));
}

/*
 * Every record of a piece: what is left of the piece is handed over until nothing is found. Gives
 * the last answer, which is 0 unless the reader stopped.
 */
static unsigned int take_piece(struct line *line, const uint8_t *piece, size_t len)
{
    for (;;) {
        uint32_t result = callcontrol_pieces_next(line->reader, sizeof line->reader,
                                                  line->carry, sizeof line->carry, piece, len);
        if (callcontrol_where_of(result) == CALLCONTROL_NOWHERE)
            return callcontrol_answer_of(result);
        take(line->call,
             callcontrol_where_of(result) == CALLCONTROL_IN_CARRY ? line->carry : piece,
             callcontrol_size_of(result));
        piece += callcontrol_used_of(result);
        len -= callcontrol_used_of(result);
    }
}

/* The size of the next piece: mostly a few bytes, at times none or many. */
static size_t next_size(uint32_t *seed)
{
    *seed = *seed * 1664525u + 1013904223u;
    uint32_t drawn = *seed >> 16;
    return drawn % 8 == 0 ? drawn / 8 % (PIECE_MAX + 1) : drawn / 8 % 6;
}

int main(int argc, char **argv)
{
    uint32_t seed = argc > 1 ? (uint32_t)strtoul(argv[1], NULL, 10) : 1;
    struct line line = {0};
    uint8_t piece[PIECE_MAX];
    if (callcontrol_fresh(line.call, sizeof line.call) != CALLCONTROL_RECORD_SIZE
        || callcontrol_pieces_fresh(line.reader, sizeof line.reader) != CALLCONTROL_READER_SIZE)
        return EXIT_FAILURE;

    printf("answer state plane bytes place\n");
    while (!feof(stdin)) {
        size_t size = next_size(&seed);
        size_t len = fread(piece, 1, size, stdin);
        if (ferror(stdin))
            return EXIT_FAILURE;
        if (take_piece(&line, piece, len) != CALLCONTROL_TAKEN) {
            /* An impossible length: where the next record begins can't be known any more. */
            print_line(CALLCONTROL_BAD_LENGTH, line.call, 0, 0);
            return EXIT_SUCCESS;
        }
    }
    if (line.reader[0] != 0) /* the input ended within a record */
        print_line(CALLCONTROL_BAD_LENGTH, line.call, 0, 0);
    return EXIT_SUCCESS;
}
