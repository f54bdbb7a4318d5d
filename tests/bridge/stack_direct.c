/*
 * How much stack callcontrol_direct_step uses. Standard input is events one after another, each after
 * its length as u32; the first is taken by the fresh record. Prints the bytes used, the return address
 * included.
 */
#include "callcontrol.h"
#include "painted.h"
#include <stdio.h>

static uint8_t tape[1 << 16];
static size_t tape_len;

typedef uint32_t direct_step(uint8_t *, size_t, const uint8_t *, size_t, uint8_t *, size_t);
static direct_step *volatile step;

static __attribute__((noinline)) uint32_t nothing(uint8_t *record, size_t record_len,
                                                  const uint8_t *event, size_t event_len,
                                                  uint8_t *out, size_t out_len)
{
    (void)record, (void)record_len, (void)event, (void)event_len, (void)out, (void)out_len;
    return 0;
}

static void play(void)
{
    uint8_t record[CALLCONTROL_DIRECT_RECORD_SIZE] = {0}, out[CALLCONTROL_DIRECT_STEP_MAX];
    for (size_t at = 0; at < tape_len;) {
        uint32_t len;
        __builtin_memcpy(&len, tape + at, sizeof len);
        at += sizeof len;
        step(record, sizeof record, tape + at, len, out, sizeof out);
        at += len;
    }
}

int main(void)
{
    tape_len = fread(tape, 1, sizeof tape, stdin);
    step = nothing;
    size_t returning = painted_depth(play);
    step = callcontrol_direct_step;
    printf("%zu\n", painted_between(returning, painted_depth(play)));
    return 0;
}
