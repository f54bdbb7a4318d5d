/*
 * Calls the library for tests that run on another kind of machine and so cannot link it.
 *
 * Standard input is batches: a length as u32, then that many bytes of requests one after another.
 * Each batch comes back on standard output at the same length, every call made in place: the word
 * returned stands in the head, and all other bytes are what the call left there. So the other side
 * can see a byte changed anywhere, in a slice or beside it. Little-endian; the same head is in
 * src/request.rs.
 */
#define _GNU_SOURCE
#include "callcontrol.h"
#include <stdio.h>
#include <stdlib.h>
#include <string.h>
#include <sys/mman.h>
#include <unistd.h>

/* Of the archive that only the tests link. */
uint32_t callcontrol_test_record_in(uint8_t lies, uint8_t size, const uint8_t *carry, size_t carry_len,
                                    const uint8_t *piece, size_t piece_len, uint8_t *out,
                                    size_t out_len);
/* The second engine's entries, which build.rs gives names of their own. */
uint32_t small_callcontrol_fresh(uint8_t *record, size_t record_len);
uint32_t small_callcontrol_step(uint8_t *record, size_t record_len, const uint8_t *event,
                                size_t event_len, uint8_t *out, size_t out_len);

enum { RECORD, INPUT, OUT, SLICES };
enum { IN_PLACE, AT_START, AT_END };

struct request {
    uint32_t size; /* of this head and all that belongs to it */
    uint8_t function;
    uint8_t place[SLICES];
    uint32_t word;
    struct {
        uint32_t at, len; /* counted from the start of the head */
    } slice[SLICES];
    uint32_t number; /* handed in beside the slices */
};
_Static_assert(sizeof(struct request) == 40, "as in src/request.rs");

/* Blocks that may be used, each between two that may not be touched. */
enum { BLOCK = 65536 };
static uint8_t *island[SLICES];

static void fail(const char *what)
{
    fprintf(stderr, "bridge: %s\n", what);
    exit(2);
}

static void make_islands(void)
{
    for (int k = 0; k < SLICES; k++) {
        uint8_t *all = mmap(NULL, 3 * BLOCK, PROT_NONE, MAP_PRIVATE | MAP_ANONYMOUS, -1, 0);
        if (all == MAP_FAILED || mprotect(all + BLOCK, BLOCK, PROT_READ | PROT_WRITE) != 0)
            fail("no memory");
        island[k] = all + BLOCK;
    }
}

/*
 * A run of steps, each from the record that the last one gave. The input is whole event records one
 * after another, for a console each behind its place. As long as out has room for all that a step may
 * give, it gets the word, the record after the step, and the messages. Returns how many were played.
 */
static uint32_t play(int console, size_t lent, uint8_t *record, size_t record_len,
                     const uint8_t *input, size_t input_len, uint8_t *out, size_t out_len)
{
    const size_t head = sizeof(uint32_t) + record_len;
    uint32_t played = 0;
    for (; input_len > 0 && out_len >= head + lent; played++) {
        const uint8_t *event = input + (console ? 1 : 0);
        const size_t event_len = (size_t)event[0] | (size_t)event[1] << 8;
        const uint32_t word =
            console ? callcontrol_console_step(record, record_len, input[0], event, event_len,
                                               out + head, lent)
                    : callcontrol_step(record, record_len, event, event_len, out + head, lent);
        const size_t used = head + callcontrol_count_of(word);
        memcpy(out, &word, sizeof word);
        memcpy(out + sizeof word, record, record_len);
        out += used;
        out_len -= used;
        input_len -= (size_t)(event - input) + event_len;
        input = event + event_len;
    }
    return played;
}

static uint16_t half(const uint8_t *at)
{
    return (uint16_t)(at[0] | at[1] << 8);
}

static uint32_t call(unsigned function, uint32_t number, uint8_t *const at[], const size_t len[])
{
    switch (function) {
    case 0:
        return callcontrol_fresh(at[RECORD], len[RECORD]);
    case 1:
        return callcontrol_step(at[RECORD], len[RECORD], at[INPUT], len[INPUT], at[OUT], len[OUT]);
    case 2:
        return callcontrol_check_event(at[INPUT], len[INPUT]);
    case 3:
        return callcontrol_check_message(at[INPUT], len[INPUT]);
    case 4:
        return callcontrol_copy_event(at[INPUT], len[INPUT], at[OUT], len[OUT]);
    case 5:
        return callcontrol_copy_message(at[INPUT], len[INPUT], at[OUT], len[OUT]);
    case 6:
        return callcontrol_pieces_fresh(at[RECORD], len[RECORD]);
    case 7:
        return callcontrol_pieces_next(at[RECORD], len[RECORD], at[OUT], len[OUT], at[INPUT],
                                       len[INPUT]);
    case 8:
        return callcontrol_bank_new(at[RECORD], len[RECORD], number);
    case 9:
        return callcontrol_bank_stop(at[RECORD], len[RECORD], (uint16_t)number);
    case 10:
        return callcontrol_bank_start(at[RECORD], len[RECORD], (const uint32_t *)(void *)at[INPUT],
                                      len[INPUT] / 4, (uint16_t)number, (uint8_t)(number >> 16));
    case 11:
        return callcontrol_bank_advance(at[RECORD], len[RECORD], number,
                                        (uint16_t *)(void *)at[OUT], len[OUT] / 2);
    case 12:
        return callcontrol_console_fresh(at[RECORD], len[RECORD]);
    case 13:
        return callcontrol_console_step(at[RECORD], len[RECORD], (uint8_t)number, at[INPUT],
                                        len[INPUT], at[OUT], len[OUT]);
    case 20:
        return callcontrol_channel_fresh(at[RECORD], len[RECORD]);
    case 21:
        return callcontrol_channel_ask(at[RECORD], len[RECORD], half(at[INPUT]), half(at[INPUT] + 2),
                                       at[INPUT][4], at[OUT], len[OUT]);
    case 22:
        return callcontrol_channel_pdu(at[RECORD], len[RECORD], half(at[INPUT]), half(at[INPUT] + 2),
                                       half(at[INPUT] + 4) | (uint32_t)half(at[INPUT] + 6) << 16,
                                       at[OUT], len[OUT]);
    case 23:
        return callcontrol_channel_decide(at[RECORD], len[RECORD], half(at[INPUT]), at[INPUT][4],
                                          at[OUT], len[OUT]);
    case 24:
        return callcontrol_channel_ended(at[RECORD], len[RECORD], half(at[INPUT] + 2), at[OUT],
                                         len[OUT]);
    case 14:
    case 15:
        return play(function == 15, number, at[RECORD], len[RECORD], at[INPUT], len[INPUT],
                    at[OUT], len[OUT]);
    case 31:
        return callcontrol_test_record_in((uint8_t)number, (uint8_t)(number >> 8), at[RECORD],
                                          len[RECORD], at[INPUT], len[INPUT], at[OUT], len[OUT]);
    case 40:
        return callcontrol_direct_fresh(at[RECORD], len[RECORD]);
    case 41:
        return callcontrol_direct_step(at[RECORD], len[RECORD], at[INPUT], len[INPUT], at[OUT],
                                       len[OUT]);
    case 42:
        return callcontrol_direct_check_event(at[INPUT], len[INPUT]);
    case 43:
        return callcontrol_direct_check_message(at[INPUT], len[INPUT]);
    case 44:
        return callcontrol_direct_copy_event(at[INPUT], len[INPUT], at[OUT], len[OUT]);
    case 45:
        return callcontrol_direct_copy_message(at[INPUT], len[INPUT], at[OUT], len[OUT]);
    case 200:
        return small_callcontrol_fresh(at[RECORD], len[RECORD]);
    case 201:
        return small_callcontrol_step(at[RECORD], len[RECORD], at[INPUT], len[INPUT], at[OUT],
                                      len[OUT]);
    }
    fail("no such function");
    return 0;
}

static void serve(struct request *request)
{
    uint8_t *home[SLICES], *lent[SLICES];
    size_t len[SLICES];
    for (int k = 0; k < SLICES; k++) {
        home[k] = lent[k] = (uint8_t *)request + request->slice[k].at;
        len[k] = request->slice[k].len;
        if (request->place[k] != IN_PLACE) {
            if (len[k] > BLOCK)
                fail("too long for an island");
            lent[k] = island[k] + (request->place[k] == AT_START ? 0 : BLOCK - len[k]);
            memcpy(lent[k], home[k], len[k]);
        }
    }
    request->word = call(request->function, request->number, lent, len);
    for (int k = 0; k < SLICES; k++)
        if (lent[k] != home[k])
            memcpy(home[k], lent[k], len[k]);
}

/* Both give 0 at the end of the pipe. */
static int read_all(void *to, size_t len)
{
    for (ssize_t done; len > 0; to = (uint8_t *)to + done, len -= (size_t)done)
        if ((done = read(STDIN_FILENO, to, len)) <= 0)
            return 0;
    return 1;
}

static int write_all(const void *from, size_t len)
{
    for (ssize_t done; len > 0; from = (const uint8_t *)from + done, len -= (size_t)done)
        if ((done = write(STDOUT_FILENO, from, len)) <= 0)
            return 0;
    return 1;
}

int main(void)
{
    uint8_t *batch = NULL;
    size_t room = 0;
    uint32_t len;

    make_islands();
    while (read_all(&len, sizeof len)) {
        if (len > room) {
            free(batch);
            batch = malloc(room = len);
            if (!batch)
                fail("no memory");
        }
        if (!read_all(batch, len))
            fail("a batch was cut");
        for (uint32_t at = 0; at < len;) {
            struct request *request = (struct request *)(batch + at);
            at += request->size;
            serve(request);
        }
        if (!write_all(batch, len))
            return 1;
    }
    return 0;
}
