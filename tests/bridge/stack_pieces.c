/*
 * How much stack callcontrol_pieces_next uses. Standard input is pieces one after another, each after
 * its length as u32; a piece is handed in until nothing more is found in it, and a reader that has
 * stopped is reset. Prints the bytes used, the return address included.
 */
#include "callcontrol.h"
#include "painted.h"
#include <stdio.h>

static uint8_t tape[1 << 22];
static size_t tape_len;

typedef uint32_t pieces_next(uint8_t *, size_t, uint8_t *, size_t, const uint8_t *, size_t);
static pieces_next *volatile next;

static __attribute__((noinline)) uint32_t nothing(uint8_t *reader, size_t reader_len,
                                                  uint8_t *carry, size_t carry_len,
                                                  const uint8_t *piece, size_t piece_len)
{
    (void)reader, (void)reader_len, (void)carry, (void)carry_len, (void)piece, (void)piece_len;
    return 0;
}

static void play(void)
{
    uint8_t reader[2] = {0, 0}, carry[64] = {0};
    for (size_t at = 0; at < tape_len;) {
        uint32_t len;
        __builtin_memcpy(&len, tape + at, sizeof len);
        at += sizeof len;
        for (size_t used = 0;;) {
            uint32_t word = next(reader, sizeof reader, carry, sizeof carry, tape + at + used, len - used);
            if (word >> 24 == 20)
                reader[0] = reader[1] = 0;
            if (word >> 24 != 0 || (word >> 16 & 0xFF) == 0)
                break;
            used += word & 0xFF;
        }
        at += len;
    }
}

int main(void)
{
    tape_len = fread(tape, 1, sizeof tape, stdin);
    next = nothing;
    size_t returning = painted_depth(play);
    next = callcontrol_pieces_next;
    printf("%zu\n", painted_between(returning, painted_depth(play)));
    return 0;
}
