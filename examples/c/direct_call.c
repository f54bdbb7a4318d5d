/*
 * Direct mode, an outgoing call as a C host plays it: nobody answers the first DM-SETUP PRES, and the
 * second is accepted at a lower grade of service. Then a call that uses all its attempts, one that
 * is asked for wrongly, and one on a channel that has become busy.
 *
 * The host keeps the bytes of the call, and which of its two timers run.
 *
 *     gcc -std=c11 -Wall -Wextra -Werror -Iinclude examples/c/direct_call.c \
 *         target/staticlib/libhost_direct.a -o target/direct_call
 */
#include "callcontrol_records.h"

#include <stdbool.h>
#include <stdio.h>

static uint8_t record[CALLCONTROL_DIRECT_RECORD_SIZE];

/* The event that is handed in next. */
static uint8_t event[CALLCONTROL_DIRECT_EVENT_MAX];

/* The timers that run; a set starts and stops them where this host keeps a flag. */
static bool dt303_runs, dt311_runs;

static void run(unsigned int timer, bool runs)
{
    printf("    %s DT%u\n", runs ? "START" : "STOP", timer);
    *(timer == CALLCONTROL_DT303 ? &dt303_runs : &dt311_runs) = runs;
}

/* What a message orders; a set would do it. */
static void carry_out(const uint8_t *message)
{
    switch (callcontrol_kind_of(message)) {
    case CALLCONTROL_DM_SETUP_PRES:
        printf("    DM-SETUP PRES target %u lowest %u\n", callcontrol_dm_setup_pres_target(message),
               callcontrol_dm_setup_pres_lowest(message));
        break;
    case CALLCONTROL_DM_CONNECT_ACK:
        printf("    DM-CONNECT ACK %u\n", callcontrol_dm_connect_ack_grade(message));
        break;
    case CALLCONTROL_DM_RELEASE:
        puts("    DM-RELEASE");
        break;
    case CALLCONTROL_DIRECT_STOP:
        run(callcontrol_direct_stop_timer(message), false);
        break;
    case CALLCONTROL_DIRECT_START:
        run(callcontrol_direct_start_timer(message), true);
        break;
    case CALLCONTROL_DIRECT_CONFIGURE:
        printf("    CONFIGURE %u\n", callcontrol_direct_configure_grade(message));
        break;
    case CALLCONTROL_DIRECT_SETUP_CONFIRM:
        printf("    to the user: SETUP confirm %u\n", callcontrol_direct_setup_confirm_grade(message));
        break;
    case CALLCONTROL_DIRECT_RELEASE_INDICATION:
        puts("    to the user: RELEASE indication");
        break;
    }
}

static void take(const char *name, size_t event_len)
{
    static const char *const states[] = {"IDLE", "PRESENCE CHECK", "ACTIVE"};
    uint8_t out[CALLCONTROL_DIRECT_STEP_MAX];
    uint32_t result = callcontrol_direct_step(record, sizeof record, event, event_len, out, sizeof out);

    printf("%s: answer %u, %s\n", name, callcontrol_answer_of(result),
           states[record[CALLCONTROL_DIRECT_AT_STATE]]);
    for (size_t at = 0; at < callcontrol_count_of(result); at += callcontrol_length_of(out + at))
        carry_out(out + at);
}

static void ask(uint8_t target, uint8_t lowest, uint8_t attempts)
{
    take("SETUP request", callcontrol_event_direct_setup_request(event, target, lowest, attempts));
}

static void report(uint8_t fared)
{
    take("DMA-REPORT", callcontrol_event_dma_report(event, fared));
}

/* DT303 has run out: handed in before any other event, and not at all once it was stopped, since it
 * would count for the next attempt or the next call. */
static void expire(void)
{
    if (!dt303_runs) {
        puts("expiry of DT303, on its way when it was stopped: not handed in");
        return;
    }
    dt303_runs = false;
    take("expiry of DT303", callcontrol_event_direct_expiry(event, CALLCONTROL_DT303));
}

/* No row leaves ACTIVE, so that nothing orders STOP: the host stops DT311 itself, and begins fresh. */
static void occupation_is_over(void)
{
    puts("the occupation is over");
    if (dt311_runs)
        run(CALLCONTROL_DT311, false);
    callcontrol_direct_fresh(record, sizeof record);
}

int main(void)
{
    callcontrol_direct_fresh(record, sizeof record);
    ask(9, 4, 2);
    report(CALLCONTROL_DIRECT_SENT);
    expire();
    report(CALLCONTROL_DIRECT_SENT);
    take("DM-CONNECT 4", callcontrol_event_dm_connect(event, 4));
    expire();
    ask(9, 4, 2);
    occupation_is_over();

    ask(9, 9, 1);
    report(CALLCONTROL_DIRECT_SENT);
    expire();
    ask(9, 4, 16);
    ask(9, 4, 3);
    report(CALLCONTROL_DIRECT_BUSY);
    return 0;
}
