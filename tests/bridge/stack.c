/*
 * How much stack one step uses. Standard input is events one after another, each after its length as
 * u32; they are played from the fresh record on a painted stack, twice with another paint, since
 * what a step writes may happen to be one of them. Prints how many bytes below the caller's stack
 * the paint is gone, the return address included. For x86-64 Linux, where the library is linked.
 */
#include "callcontrol.h"
#include <stdio.h>
#include <string.h>

enum { STACK = 65536, OUT = 64 };

static uint8_t stack[STACK] __attribute__((aligned(16)));
static uint8_t record[CALLCONTROL_RECORD_SIZE], out[OUT];
static uint8_t tape[1 << 20];

static uint32_t step_on(uint8_t *top, const uint8_t *event, size_t event_len)
{
    register uint8_t *lent __asm__("r8") = out;
    register size_t room __asm__("r9") = OUT;
    uint8_t *record_at = record;
    size_t record_len = sizeof record;
    uint64_t word;
    /* The library's own code keeps rbx as it finds it. */
    __asm__ volatile("mov %%rsp, %%rbx\n\t"
                     "mov %[top], %%rsp\n\t"
                     "call callcontrol_step\n\t"
                     "mov %%rbx, %%rsp"
                     : "=a"(word), "+D"(record_at), "+S"(record_len), "+d"(event), "+c"(event_len),
                       "+r"(lent), "+r"(room)
                     : [top] "r"(top)
                     : "rbx", "r10", "r11", "memory", "cc", "xmm0", "xmm1", "xmm2", "xmm3", "xmm4",
                       "xmm5", "xmm6", "xmm7", "xmm8", "xmm9", "xmm10", "xmm11", "xmm12", "xmm13",
                       "xmm14", "xmm15");
    return (uint32_t)word;
}

static size_t deepest(size_t tape_len, uint8_t paint)
{
    size_t untouched = 0;
    memset(stack, paint, STACK);
    callcontrol_fresh(record, sizeof record);
    for (size_t at = 0; at < tape_len;) {
        uint32_t len;
        memcpy(&len, tape + at, sizeof len);
        at += sizeof len;
        step_on(stack + STACK, tape + at, len);
        at += len;
    }
    while (untouched < STACK && stack[untouched] == paint)
        untouched++;
    return STACK - untouched;
}

int main(void)
{
    size_t len = fread(tape, 1, sizeof tape, stdin);
    size_t one = deepest(len, 0xA5), other = deepest(len, 0x5A);
    printf("%zu\n", one > other ? one : other);
    return 0;
}
