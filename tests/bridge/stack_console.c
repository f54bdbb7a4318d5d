/*
 * How much stack callcontrol_console_step uses. Standard input is events one after another, each after
 * its length as u32 and the place beside it as one byte; they are played from eight fresh records, with
 * room enough and with none. Prints the bytes used, the return address included.
 */
#include "callcontrol.h"
#include "painted.h"
#include <stdio.h>

enum { TABLE = CALLCONTROL_TABLE_SIZE, OUT = 256 };

static uint8_t table[TABLE], out[OUT];
static uint8_t tape[1 << 20];
static size_t tape_len;

typedef uint32_t console_step(uint8_t *, size_t, uint8_t, const uint8_t *, size_t, uint8_t *, size_t);
static console_step *volatile step;

static __attribute__((noinline)) uint32_t nothing(uint8_t *calls, size_t calls_len, uint8_t place,
                                                  const uint8_t *event, size_t event_len,
                                                  uint8_t *lent, size_t lent_len)
{
    (void)calls, (void)calls_len, (void)place, (void)event, (void)event_len, (void)lent, (void)lent_len;
    return 0;
}

static void play(void)
{
    for (size_t at = 0; at < tape_len;) {
        uint32_t len;
        __builtin_memcpy(&len, tape + at, sizeof len);
        at += sizeof len;
        uint8_t place = tape[at++];
        step(table, TABLE, place, tape + at, len, out, 0);
        step(table, TABLE, place, tape + at, len, out, OUT);
        at += len;
    }
}

int main(void)
{
    tape_len = fread(tape, 1, sizeof tape, stdin);
    callcontrol_console_fresh(table, TABLE);
    step = nothing;
    size_t returning = painted_depth(play);
    step = callcontrol_console_step;
    printf("%zu\n", painted_between(returning, painted_depth(play)));
    return 0;
}
