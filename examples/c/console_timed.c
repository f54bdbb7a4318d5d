/*
 * A console with its timers: eight places, and a bank of timers for each. Two calls are cut; one of
 * them is restored, and the other runs out of time. The counter wraps while both wait.
 *
 * The host keeps the bytes of the table, those of eight banks, and the lengths of the timers.
 *
 *     gcc -std=c11 -Wall -Wextra -Werror -Iinclude examples/c/console_timed.c \
 *         target/staticlib/libhost.a target/staticlib/libhost_console.a -o target/console_timed
 */
#include "callcontrol_records.h"

#include <stdio.h>
#include <stdlib.h>

static uint8_t table[CALLCONTROL_TABLE_SIZE];
static uint8_t banks[CALLCONTROL_PLACES][CALLCONTROL_BANK_SIZE];

/* The event that is handed in next: a function of callcontrol_records.h builds it. */
static uint8_t event[CALLCONTROL_EVENT_MAX];

/* What the counter shows: eight seconds and a little before it wraps. */
static uint32_t counter = 0xFFFFE000u;

/*
 * In milliseconds: T301 T302 T303 T306 T308 T311, then T310 for the codes 0 to 15. Code 0 is "no
 * limit", which no START names.
 */
static const uint32_t lengths[CALLCONTROL_LENGTHS] = {
    30000, 60000, 60000, 6000, 10000, 8000, 0, 30000, 45000, 60000, 120000,
    180000, 240000, 300000, 480000, 600000, 900000, 1200000, 1800000, 2400000, 3600000, 7200000,
};

static const struct {
    unsigned int number;
    const char *name;
} messages[] = {
    {CALLCONTROL_U_SETUP, "U-SETUP"},
    {CALLCONTROL_U_CONNECT, "U-CONNECT"},
    {CALLCONTROL_U_DISCONNECT, "U-DISCONNECT"},
    {CALLCONTROL_U_TX_CEASED, "U-TX CEASED"},
    {CALLCONTROL_U_CALL_RESTORE, "U-CALL RESTORE"},
    {CALLCONTROL_STOP, "STOP"},
    {CALLCONTROL_START, "START"},
    {CALLCONTROL_CONFIGURE, "CONFIGURE"},
    {CALLCONTROL_SETUP_INDICATION, "SETUP indication"},
    {CALLCONTROL_SETUP_CONFIRM, "SETUP confirm"},
    {CALLCONTROL_COMPLETE, "COMPLETE"},
    {CALLCONTROL_RELEASE_INDICATION, "RELEASE indication"},
    {CALLCONTROL_RELEASE_CONFIRM, "RELEASE confirm"},
    {CALLCONTROL_TX_INDICATION, "TX indication"},
};

static const char *name_of(unsigned int number)
{
    for (size_t at = 0; at < sizeof messages / sizeof messages[0]; at++)
        if (messages[at].number == number)
            return messages[at].name;
    return "a message that this host does not know";
}

static void must_be_taken(uint32_t result)
{
    if (callcontrol_answer_of(result) != CALLCONTROL_TAKEN) {
        fprintf(stderr, "refused: %08lX\n", (unsigned long)result);
        exit(EXIT_FAILURE);
    }
}

/* Carries out one message of a place: its timers are in the place's own bank. */
static void carry_out(unsigned int place, const uint8_t *message)
{
    uint8_t *bank = banks[place];

    printf("    place %u: %s", place, name_of(callcontrol_kind_of(message)));
    switch (callcontrol_kind_of(message)) {
    case CALLCONTROL_STOP:
        printf(" T%u", (unsigned int)callcontrol_stop_timer(message));
        must_be_taken(callcontrol_bank_stop(bank, CALLCONTROL_BANK_SIZE,
                                            callcontrol_stop_timer(message)));
        break;
    case CALLCONTROL_START:
        printf(" T%u", (unsigned int)callcontrol_start_timer(message));
        must_be_taken(callcontrol_bank_start(bank, CALLCONTROL_BANK_SIZE, lengths, CALLCONTROL_LENGTHS,
                                             callcontrol_start_timer(message),
                                             callcontrol_start_code(message)));
        break;
    case CALLCONTROL_CONFIGURE:
        printf(" %u", (unsigned int)callcontrol_configure_plane(message));
        break;
    }
    printf("\n");
}

/* One step: a record CALLCONTROL_PLACE says whose messages follow, up to the next such record. */
static void take(const char *name, uint8_t place, const uint8_t *record, size_t len)
{
    uint8_t out[CALLCONTROL_CONSOLE_MAX];
    uint32_t result = callcontrol_console_step(table, sizeof table, place, record, len,
                                               out, sizeof out);
    unsigned int whose = 0;

    printf("%08lX %s: answer %u\n", (unsigned long)counter, name, callcontrol_answer_of(result));
    for (size_t at = 0; at < callcontrol_count_of(result); at += callcontrol_length_of(out + at)) {
        if (callcontrol_kind_of(out + at) == CALLCONTROL_PLACE)
            whose = callcontrol_place_number(out + at);
        else
            carry_out(whose, out + at);
    }
}

/* A reading for every bank: what a bank hands out is handed in, with its place, before the next. */
static void read_counter(void)
{
    for (uint8_t place = 0; place < CALLCONTROL_PLACES; place++) {
        uint16_t due[CALLCONTROL_TIMERS];
        uint32_t result = callcontrol_bank_advance(banks[place], CALLCONTROL_BANK_SIZE, counter,
                                                   due, CALLCONTROL_TIMERS);

        must_be_taken(result);
        for (size_t at = 0; at < callcontrol_count_of(result); at++) {
            uint8_t expiry[CALLCONTROL_EVENT_MAX];
            char name[40];
            snprintf(name, sizeof name, "expiry of T%u at place %u", (unsigned int)due[at],
                     (unsigned int)place);
            take(name, place, expiry, callcontrol_event_expiry(expiry, due[at]));
        }
    }
}

/* An event of a user, the network or the lower layers: readings go right before it. */
static void play(const char *name, uint8_t place, size_t event_len)
{
    read_counter();
    take(name, place, event, event_len);
}

/* Time passes; the host reads its counter every 100 ms. */
static void wait_for(uint32_t milliseconds)
{
    for (; milliseconds >= 100; milliseconds -= 100) {
        counter += 100; /* wraps */
        read_counter();
    }
    counter += milliseconds; /* an event comes between two of these readings */
}

int main(void)
{
    if (callcontrol_console_fresh(table, sizeof table) != CALLCONTROL_TABLE_SIZE)
        return EXIT_FAILURE;
    for (size_t place = 0; place < CALLCONTROL_PLACES; place++)
        if (callcontrol_bank_new(banks[place], CALLCONTROL_BANK_SIZE, counter) != CALLCONTROL_BANK_SIZE)
            return EXIT_FAILURE;

    /* One call goes out, its user transmits; another comes in. */
    play("SETUP request to 7", 0, callcontrol_event_setup_request(event, 7, CALLCONTROL_SIMPLEX, 1));
    wait_for(250);
    play("REPORT sent at place 0", 0, callcontrol_event_report_sent(event));
    wait_for(1010);
    play("D-CONNECT 21, granted", 0,
         callcontrol_event_d_connect(event, 21, CALLCONTROL_GRANTED, CALLCONTROL_SIMPLEX, 3));
    wait_for(700);
    play("D-SETUP 30 from 9", 0, callcontrol_event_d_setup(event, 30, 9, CALLCONTROL_SIMPLEX));
    wait_for(1300);
    play("SETUP response at place 1", 1, callcontrol_event_setup_response(event));
    wait_for(120);
    play("D-CONNECT ACKNOWLEDGE 30, granted to another", 0,
         callcontrol_event_d_connect_acknowledge(event, 30, CALLCONTROL_GRANTED_TO_ANOTHER, 3));

    /* The path is lost: both are cut, and T306 runs for both when it is found again. */
    wait_for(2000);
    play("BREAK", 0, callcontrol_event_break(event));
    wait_for(1830);
    play("RESUME", 0, callcontrol_event_resume(event));

    /* One is restored in time, and its user speaks on, too long. The other is released. */
    wait_for(3000);
    play("D-CALL RESTORE 21, granted", 0,
         callcontrol_event_d_call_restore(event, 21, CALLCONTROL_GRANTED, 0,
                                          CALLCONTROL_T310_CODE_ABSENT));
    wait_for(20000);
    return EXIT_SUCCESS;
}
