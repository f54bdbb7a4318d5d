/*
 * The shortest host: a fresh call, one event, and the messages that it orders.
 *
 *     gcc -std=c11 -Wall -Wextra -Werror -Iinclude examples/c/start.c \
 *         target/staticlib/libhost.a -o target/start
 */
#include "callcontrol_records.h"

#include <stdio.h>

int main(void)
{
    uint8_t call[CALLCONTROL_RECORD_SIZE], event[CALLCONTROL_EVENT_MAX], out[CALLCONTROL_RUN_MAX];

    callcontrol_fresh(call, sizeof call);

    size_t len = callcontrol_event_setup_request(event, 7, CALLCONTROL_SIMPLEX, 1);
    uint32_t result = callcontrol_step(call, sizeof call, event, len, out, sizeof out);

    for (size_t at = 0; at < callcontrol_count_of(result); at += callcontrol_length_of(out + at)) {
        switch (callcontrol_kind_of(out + at)) {
        case CALLCONTROL_U_SETUP:
            printf("send U-SETUP to %lu\n", (unsigned long)callcontrol_u_setup_address(out + at));
            break;
        case CALLCONTROL_START:
            printf("start T%u\n", (unsigned int)callcontrol_start_timer(out + at));
            break;
        }
    }
    return callcontrol_answer_of(result) == CALLCONTROL_TAKEN ? 0 : 1;
}
