/*
 * How much stack the functions of channel change responses use: all five, with none to four questions
 * waiting, and each refusal. Prints the most of any of them, the return address included.
 */
#include "callcontrol.h"
#include "painted.h"
#include <stdio.h>

enum { ROOMS = 20, OUT = 28 };

typedef uint32_t channel_fresh(uint8_t *, size_t);
typedef uint32_t channel_ask(uint8_t *, size_t, uint16_t, uint16_t, uint8_t, uint8_t *, size_t);
typedef uint32_t channel_pdu(uint8_t *, size_t, uint16_t, uint16_t, uint32_t, uint8_t *, size_t);
typedef uint32_t channel_decide(uint8_t *, size_t, uint16_t, uint8_t, uint8_t *, size_t);
typedef uint32_t channel_ended(uint8_t *, size_t, uint16_t, uint8_t *, size_t);
static channel_fresh *volatile fresh;
static channel_ask *volatile ask;
static channel_pdu *volatile pdu;
static channel_decide *volatile decide;
static channel_ended *volatile ended;

static __attribute__((noinline)) uint32_t no_fresh(uint8_t *rooms, size_t len)
{
    (void)rooms, (void)len;
    return 0;
}

static __attribute__((noinline)) uint32_t no_ask(uint8_t *rooms, size_t len, uint16_t number,
                                                 uint16_t call, uint8_t asked, uint8_t *out,
                                                 size_t out_len)
{
    (void)rooms, (void)len, (void)number, (void)call, (void)asked, (void)out, (void)out_len;
    return 0;
}

static __attribute__((noinline)) uint32_t no_pdu(uint8_t *rooms, size_t len, uint16_t number,
                                                 uint16_t call, uint32_t result, uint8_t *out,
                                                 size_t out_len)
{
    (void)rooms, (void)len, (void)number, (void)call, (void)result, (void)out, (void)out_len;
    return 0;
}

static __attribute__((noinline)) uint32_t no_decide(uint8_t *rooms, size_t len, uint16_t number,
                                                    uint8_t decision, uint8_t *out, size_t out_len)
{
    (void)rooms, (void)len, (void)number, (void)decision, (void)out, (void)out_len;
    return 0;
}

static __attribute__((noinline)) uint32_t no_ended(uint8_t *rooms, size_t len, uint16_t call,
                                                   uint8_t *out, size_t out_len)
{
    (void)rooms, (void)len, (void)call, (void)out, (void)out_len;
    return 0;
}

static void play(void)
{
    uint8_t rooms[ROOMS] = {0}, out[OUT] = {0};
    for (unsigned waiting = 0; waiting <= 5; waiting++) {
        fresh(rooms, ROOMS);
        for (uint16_t n = 0; n < waiting; n++)
            ask(rooms, ROOMS, n, 7, (uint8_t)(2 + n % 2), out, OUT);
        for (uint8_t asked = 0; asked < 9; asked++)
            ask(rooms, ROOMS, 0, 7, asked, out, OUT);
        for (uint8_t decision = 0; decision < 6; decision++)
            decide(rooms, ROOMS, 9, decision, out, OUT);
        pdu(rooms, ROOMS, 8, 7, 0, out, OUT);
        pdu(rooms, ROOMS, 8, 7, 6u << 24, out, OUT);
        ended(rooms, ROOMS, 7, out, OUT - 1);
        ended(rooms, ROOMS, 7, out, OUT);
        for (uint16_t n = 0; n < waiting; n++)
            ask(rooms, ROOMS, n, 7, (uint8_t)(2 + n % 2), out, OUT);
        for (uint16_t n = 0; n < waiting; n++)
            for (uint8_t decision = 0; decision < 6; decision++)
                decide(rooms, ROOMS, n, decision, out, OUT);
        ask(rooms, ROOMS - 1, 1, 7, 2, out, OUT);
    }
}

int main(void)
{
    fresh = no_fresh, ask = no_ask, pdu = no_pdu, decide = no_decide, ended = no_ended;
    size_t returning = painted_depth(play);
    fresh = callcontrol_channel_fresh, ask = callcontrol_channel_ask;
    pdu = callcontrol_channel_pdu, decide = callcontrol_channel_decide;
    ended = callcontrol_channel_ended;
    printf("%zu\n", painted_between(returning, painted_depth(play)));
    return 0;
}
