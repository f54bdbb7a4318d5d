/*
 * How much stack a function of the library uses: calls are made on a painted stack, and the paint
 * that is gone is counted. Twice with another paint, since what is written may happen to be one of
 * them; and once with a function in its place that does nothing, which is what the caller itself
 * uses. For Linux.
 */
#ifndef PAINTED_H
#define PAINTED_H

#include <stddef.h>
#include <stdint.h>
#include <string.h>
#include <ucontext.h>

enum { PAINTED = 65536, MARGIN = 4096 };

static uint8_t painted[PAINTED] __attribute__((aligned(16)));
static ucontext_t painted_home, painted_there;
static void (*painted_calls)(void);

/* Way down from the top, so that what enters and leaves this stack uses less than the calls do. */
static void painted_body(void)
{
    volatile uint8_t margin[MARGIN];
    margin[0] = 0;
    painted_calls();
    (void)margin[0]; /* still needed here, so the calls were not made in its place */
}

static size_t painted_gone(void (*calls)(void), uint8_t paint)
{
    size_t untouched = 0;
    memset(painted, paint, PAINTED);
    painted_calls = calls;
    getcontext(&painted_there);
    painted_there.uc_stack.ss_sp = painted;
    painted_there.uc_stack.ss_size = PAINTED;
    painted_there.uc_link = &painted_home;
    makecontext(&painted_there, painted_body, 0);
    swapcontext(&painted_home, &painted_there);
    while (untouched < PAINTED && painted[untouched] == paint)
        untouched++;
    return PAINTED - untouched;
}

/* The deepest that these calls go. */
static size_t painted_depth(void (*calls)(void))
{
    size_t one = painted_gone(calls, 0xA5), other = painted_gone(calls, 0x5A);
    return one > other ? one : other;
}

/* Bytes that a function uses, its return address included, of what the same calls of a function
 * that only returns and of the function itself used. */
static size_t painted_between(size_t returning, size_t working)
{
    return working - returning + sizeof(void *);
}

#endif /* PAINTED_H */
