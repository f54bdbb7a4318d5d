/*
 * How much stack the functions of the bank use: all four, with none to all seven timers due, and each
 * refusal. Prints the most of any of them, the return address included.
 */
#include "callcontrol.h"
#include "painted.h"
#include <stdio.h>

enum { BANK = 39, TABLE = 22 };

static const uint16_t timer[7] = {301, 302, 303, 306, 308, 310, 311};
static uint32_t table[TABLE];

typedef uint32_t bank_new(uint8_t *, size_t, uint32_t);
typedef uint32_t bank_stop(uint8_t *, size_t, uint16_t);
typedef uint32_t bank_start(uint8_t *, size_t, const uint32_t *, size_t, uint16_t, uint8_t);
typedef uint32_t bank_advance(uint8_t *, size_t, uint32_t, uint16_t *, size_t);
static bank_new *volatile new;
static bank_stop *volatile stop;
static bank_start *volatile start;
static bank_advance *volatile advance;

static __attribute__((noinline)) uint32_t no_new(uint8_t *bank, size_t len, uint32_t reading)
{
    (void)bank, (void)len, (void)reading;
    return 0;
}

static __attribute__((noinline)) uint32_t no_stop(uint8_t *bank, size_t len, uint16_t n)
{
    (void)bank, (void)len, (void)n;
    return 0;
}

static __attribute__((noinline)) uint32_t no_start(uint8_t *bank, size_t len, const uint32_t *from,
                                                   size_t from_len, uint16_t n, uint8_t code)
{
    (void)bank, (void)len, (void)from, (void)from_len, (void)n, (void)code;
    return 0;
}

static __attribute__((noinline)) uint32_t no_advance(uint8_t *bank, size_t len, uint32_t reading,
                                                     uint16_t *due, size_t due_len)
{
    (void)bank, (void)len, (void)reading, (void)due, (void)due_len;
    return 0;
}

static void play(void)
{
    uint8_t bank[BANK] = {0};
    uint16_t due[7] = {0};
    for (unsigned running = 0; running < 128; running++) {
        uint32_t now = 0xFFFFFFF0u;
        new (bank, BANK, now);
        for (unsigned k = 0; k < 7; k++) {
            start(bank, BANK, table, TABLE, timer[k], (uint8_t)k);
            if (!(running >> k & 1))
                stop(bank, BANK, timer[k]);
        }
        start(bank, BANK, table, TABLE, 305, 0);
        start(bank, BANK, table, TABLE, 310, 16);
        stop(bank, BANK, 305);
        advance(bank, BANK, now - 1, due, 7);
        for (uint32_t later = 0; later < 40; later++) {
            advance(bank, BANK, now + later, due, 0);
            advance(bank, BANK, now + later, due, 7);
        }
        advance(bank, BANK - 1, now, due, 7);
    }
}

int main(void)
{
    for (unsigned k = 0; k < TABLE; k++)
        table[k] = 3 + 7 * k % 11;
    new = no_new, stop = no_stop, start = no_start, advance = no_advance;
    size_t returning = painted_depth(play);
    new = callcontrol_bank_new, stop = callcontrol_bank_stop;
    start = callcontrol_bank_start, advance = callcontrol_bank_advance;
    printf("%zu\n", painted_between(returning, painted_depth(play)));
    return 0;
}
