/*
 * A call whose timers the library keeps: the host reads its millisecond counter right before each
 * event and every 100 ms besides, and hands in each timer that is due as an expiry before anything
 * else. The counter wraps in the middle of the call.
 *
 * The host keeps three things: the bytes of the call, the bytes of the bank of timers, and the
 * lengths of the timers.
 *
 *     gcc -std=c11 -Wall -Wextra -Werror -Iinclude examples/c/timed_call.c \
 *         target/staticlib/libhost.a -o target/timed_call
 */
#include "callcontrol_records.h"

#include <stdio.h>
#include <stdlib.h>

static uint8_t call[CALLCONTROL_RECORD_SIZE];
static uint8_t bank[CALLCONTROL_BANK_SIZE];

/* The event that is handed in next: a function of callcontrol_records.h builds it. */
static uint8_t event[CALLCONTROL_EVENT_MAX];

/* What the counter shows: four seconds and a little before it wraps. */
static uint32_t counter = 0xFFFFF000u;

/*
 * In milliseconds: T301 T302 T303 T306 T308 T311, then T310 for the codes 0 to 15. Code 0 is "no
 * limit", which no START names.
 */
static const uint32_t lengths[CALLCONTROL_LENGTHS] = {
    30000, 60000, 60000, 6000, 10000, 8000, 0, 30000, 45000, 60000, 120000,
    180000, 240000, 300000, 480000, 600000, 900000, 1200000, 1800000, 2400000, 3600000, 7200000,
};

static const struct {
    unsigned int number;
    const char *name;
} messages[] = {
    {CALLCONTROL_U_SETUP, "U-SETUP"},
    {CALLCONTROL_U_DISCONNECT, "U-DISCONNECT"},
    {CALLCONTROL_U_TX_CEASED, "U-TX CEASED"},
    {CALLCONTROL_U_CALL_RESTORE, "U-CALL RESTORE"},
    {CALLCONTROL_STOP, "STOP"},
    {CALLCONTROL_START, "START"},
    {CALLCONTROL_CONFIGURE, "CONFIGURE"},
    {CALLCONTROL_SETUP_CONFIRM, "SETUP confirm"},
    {CALLCONTROL_PROCEED, "PROCEED"},
    {CALLCONTROL_RELEASE_INDICATION, "RELEASE indication"},
    {CALLCONTROL_RELEASE_CONFIRM, "RELEASE confirm"},
    {CALLCONTROL_TX_INDICATION, "TX indication"},
    {CALLCONTROL_MODIFY_INDICATION, "MODIFY indication"},
};

static const char *name_of(unsigned int number)
{
    for (size_t at = 0; at < sizeof messages / sizeof messages[0]; at++)
        if (messages[at].number == number)
            return messages[at].name;
    return "a message that this host does not know";
}

static void must_be_taken(uint32_t result)
{
    if (callcontrol_answer_of(result) != CALLCONTROL_TAKEN) {
        fprintf(stderr, "refused: %08lX\n", (unsigned long)result);
        exit(EXIT_FAILURE);
    }
}

/* Carries out one message: the timers' go to the bank. A real host would send, switch and tell. */
static void carry_out(const uint8_t *message)
{
    printf("    %s", name_of(callcontrol_kind_of(message)));
    switch (callcontrol_kind_of(message)) {
    case CALLCONTROL_STOP:
        printf(" T%u", (unsigned int)callcontrol_stop_timer(message));
        must_be_taken(callcontrol_bank_stop(bank, sizeof bank, callcontrol_stop_timer(message)));
        break;
    case CALLCONTROL_START:
        printf(" T%u", (unsigned int)callcontrol_start_timer(message));
        must_be_taken(callcontrol_bank_start(bank, sizeof bank, lengths, CALLCONTROL_LENGTHS,
                                             callcontrol_start_timer(message),
                                             callcontrol_start_code(message)));
        break;
    case CALLCONTROL_CONFIGURE:
        printf(" %u", (unsigned int)callcontrol_configure_plane(message));
        break;
    }
    printf("\n");
}

/* One step: hands the event to the library, and carries out the messages in their order. */
static void take(const char *name, const uint8_t *record, size_t len)
{
    uint8_t out[CALLCONTROL_RUN_MAX];
    uint32_t result = callcontrol_step(call, sizeof call, record, len, out, sizeof out);

    printf("%08lX %s: answer %u\n", (unsigned long)counter, name, callcontrol_answer_of(result));
    for (size_t at = 0; at < callcontrol_count_of(result); at += callcontrol_length_of(out + at))
        carry_out(out + at);
}

/* A reading: each timer that is due is handed in as an expiry, before any other event of the call. */
static void read_counter(void)
{
    uint16_t due[CALLCONTROL_TIMERS];
    uint32_t result = callcontrol_bank_advance(bank, sizeof bank, counter, due, CALLCONTROL_TIMERS);

    must_be_taken(result);
    for (size_t at = 0; at < callcontrol_count_of(result); at++) {
        uint8_t expiry[CALLCONTROL_EVENT_MAX];
        char name[24];
        snprintf(name, sizeof name, "expiry of T%u", (unsigned int)due[at]);
        take(name, expiry, callcontrol_event_expiry(expiry, due[at]));
    }
}

/* An event of the user, the network or the lower layers: a reading goes right before it. */
static void play(const char *name, size_t event_len)
{
    read_counter();
    take(name, event, event_len);
}

/* Time passes; the host reads its counter every 100 ms. */
static void wait_for(uint32_t milliseconds)
{
    for (; milliseconds >= 100; milliseconds -= 100) {
        counter += 100; /* wraps */
        read_counter();
    }
    counter += milliseconds; /* an event comes between two of these readings */
}

int main(void)
{
    if (callcontrol_fresh(call, sizeof call) != CALLCONTROL_RECORD_SIZE)
        return EXIT_FAILURE;
    if (callcontrol_bank_new(bank, sizeof bank, counter) != CALLCONTROL_BANK_SIZE)
        return EXIT_FAILURE;

    play("SETUP request", callcontrol_event_setup_request(event, 7, CALLCONTROL_SIMPLEX, 1));
    wait_for(330);
    play("REPORT sent", callcontrol_event_report_sent(event));
    wait_for(670);
    play("D-CALL PROCEEDING", callcontrol_event_d_call_proceeding(event, 21));
    wait_for(2090);
    play("D-CONNECT, granted",
         callcontrol_event_d_connect(event, 21, CALLCONTROL_GRANTED, CALLCONTROL_SIMPLEX, 1));

    /*
     * The counter wraps while the user speaks, too long: T311 runs out 8 s after D-CONNECT, and is
     * handed out at the first reading that is not before that.
     */
    wait_for(9000);

    /* 50 ms before T310 runs out the network prolongs the call: the whole length counts anew. */
    wait_for(20950);
    play("D-INFO, T310 anew",
         callcontrol_event_d_info(event, 21, 1, CALLCONTROL_T310_CODE_ABSENT, CALLCONTROL_SIMPLEX));
    wait_for(1000);

    /* The path is lost and found again, and the network does not answer: T306, then T308. */
    play("BREAK", callcontrol_event_break(event));
    wait_for(1540);
    play("RESUME", callcontrol_event_resume(event));

    /* T306 is due at 6 s. An event that comes after that, and before a reading, finds the call released. */
    wait_for(5900);
    counter += 150;
    play("D-CALL RESTORE, too late",
         callcontrol_event_d_call_restore(event, 21, CALLCONTROL_GRANTED, 1,
                                          CALLCONTROL_T310_CODE_ABSENT));
    wait_for(20000);
    return EXIT_SUCCESS;
}
