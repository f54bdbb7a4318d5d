/*
 * One call from set-up to release, as a C host plays it: each event goes through the library, and
 * everything the library orders is shown by name.
 *
 * The host keeps two things: the bytes of the call, and a buffer that it lends to each step.
 *
 *     gcc -std=c11 -Wall -Wextra -Werror -Iinclude examples/c/one_call.c \
 *         target/staticlib/libhost.a -o target/one_call
 */
#include "callcontrol_records.h"

#include <stdio.h>
#include <stdlib.h>

/* A kind of record: its name, and the letters of its body as the specification gives them; a record
 * of a kind that may carry slots, s, may also end without them. */
struct kind {
    unsigned int number;
    const char *name;
    const char *letters;
};

static const struct kind kinds[] = {
    {CALLCONTROL_SETUP_REQUEST, "SETUP request", "adqs"},
    {CALLCONTROL_SETUP_RESPONSE, "SETUP response", ""},
    {CALLCONTROL_RELEASE_REQUEST, "RELEASE request", ""},
    {CALLCONTROL_TX_REQUEST, "TX request", "k"},
    {CALLCONTROL_D_CALL_PROCEEDING, "D-CALL PROCEEDING", "i"},
    {CALLCONTROL_D_ALERT, "D-ALERT", "i"},
    {CALLCONTROL_D_CONNECT, "D-CONNECT", "igdos"},
    {CALLCONTROL_D_CONNECT_ACKNOWLEDGE, "D-CONNECT ACKNOWLEDGE", "igo"},
    {CALLCONTROL_D_SETUP, "D-SETUP", "iad"},
    {CALLCONTROL_D_INFO, "D-INFO", "irods"},
    {CALLCONTROL_D_TX_GRANTED, "D-TX GRANTED", "ig"},
    {CALLCONTROL_D_TX_CEASED, "D-TX CEASED", "i"},
    {CALLCONTROL_D_TX_INTERRUPT, "D-TX INTERRUPT", "ig"},
    {CALLCONTROL_D_TX_WAIT, "D-TX WAIT", "i"},
    {CALLCONTROL_D_TX_CONTINUE, "D-TX CONTINUE", "ik"},
    {CALLCONTROL_D_CALL_RESTORE, "D-CALL RESTORE", "igro"},
    {CALLCONTROL_D_DISCONNECT, "D-DISCONNECT", "i"},
    {CALLCONTROL_D_RELEASE, "D-RELEASE", "i"},
    {CALLCONTROL_REPORT_SENT, "REPORT sent", ""},
    {CALLCONTROL_REPORT_FAILED, "REPORT failed", ""},
    {CALLCONTROL_BREAK, "BREAK", ""},
    {CALLCONTROL_RESUME, "RESUME", ""},
    {CALLCONTROL_EXPIRY, "expiry", "n"},
    {CALLCONTROL_U_SETUP, "U-SETUP", "adqs"},
    {CALLCONTROL_U_CONNECT, "U-CONNECT", "i"},
    {CALLCONTROL_U_DISCONNECT, "U-DISCONNECT", "ic"},
    {CALLCONTROL_U_RELEASE, "U-RELEASE", "i"},
    {CALLCONTROL_U_INFO, "U-INFO", "id"},
    {CALLCONTROL_U_TX_DEMAND, "U-TX DEMAND", "i"},
    {CALLCONTROL_U_TX_CEASED, "U-TX CEASED", "i"},
    {CALLCONTROL_U_CALL_RESTORE, "U-CALL RESTORE", "iaq"},
    {CALLCONTROL_STOP, "STOP", "n"},
    {CALLCONTROL_START, "START", "no"},
    {CALLCONTROL_CONFIGURE, "CONFIGURE", "p"},
    {CALLCONTROL_CANCEL, "CANCEL", ""},
    {CALLCONTROL_SETUP_INDICATION, "SETUP indication", "iad"},
    {CALLCONTROL_SETUP_CONFIRM, "SETUP confirm", "ig"},
    {CALLCONTROL_PROCEED, "PROCEED", ""},
    {CALLCONTROL_ALERT, "ALERT", ""},
    {CALLCONTROL_COMPLETE, "COMPLETE", "g"},
    {CALLCONTROL_RELEASE_INDICATION, "RELEASE indication", "c"},
    {CALLCONTROL_RELEASE_CONFIRM, "RELEASE confirm", ""},
    {CALLCONTROL_TX_INDICATION, "TX indication", "x"},
    {CALLCONTROL_MODIFY_INDICATION, "MODIFY indication", "ds"},
};

/* The event that is handed in next: a function of callcontrol_records.h builds it. */
static uint8_t event[CALLCONTROL_EVENT_MAX];

static const char *const states[] = {
    "IDLE", "MO-CALL-SETUP", "MT-CALL-SETUP", "CALL-ACTIVE", "WAIT", "CALL-DISCONNECT",
};

static const char *const paths[] = {"up", "broken", "restoring"};

static const char *const planes[] = {
    "", "transmit", "receive", "transmit and receive", "off",
};

static size_t size_of(char letter)
{
    return letter == 'a' ? 4 : letter == 'i' || letter == 'n' ? 2 : 1;
}

static unsigned long little_endian(const uint8_t *bytes, size_t size)
{
    unsigned long value = 0;
    while (size-- > 0)
        value = value << 8 | bytes[size];
    return value;
}

static const struct kind *find_kind(unsigned long number)
{
    for (size_t at = 0; at < sizeof kinds / sizeof kinds[0]; at++)
        if (kinds[at].number == number)
            return &kinds[at];
    fprintf(stderr, "no such kind: %04lx\n", number);
    exit(EXIT_FAILURE);
}

/* Prints a record the library has read or written, so its length and kind are right. */
static void print_record(const uint8_t *record)
{
    const struct kind *kind = find_kind(callcontrol_kind_of(record));
    const uint8_t *field = record + CALLCONTROL_HEAD_SIZE;
    const uint8_t *end = record + callcontrol_length_of(record);
    printf("%s", kind->name);
    for (const char *letter = kind->letters; *letter != '\0' && field < end; letter++) {
        unsigned long value = little_endian(field, size_of(*letter));
        if (*letter == 'p')
            printf(" p=%lu (%s)", value, planes[value]);
        else
            printf(" %c=%lu", *letter, value);
        field += size_of(*letter);
    }
    printf("\n");
}

/* Hands one event to the library and shows what comes of it. */
static void play(uint8_t *call, size_t event_len)
{
    uint8_t out[CALLCONTROL_RUN_MAX];
    uint32_t result = callcontrol_step(call, CALLCONTROL_RECORD_SIZE, event, event_len,
                                       out, sizeof out);

    printf("\n");
    print_record(event);
    printf("  answer %u, place %u, %zu bytes: %s, path %s, plane %u (%s), slots %u\n",
           callcontrol_answer_of(result), callcontrol_place_of(result),
           callcontrol_count_of(result),
           states[call[CALLCONTROL_AT_STATE]], paths[call[CALLCONTROL_AT_PATH]],
           (unsigned int)call[CALLCONTROL_AT_PLANE], planes[call[CALLCONTROL_AT_PLANE]],
           (unsigned int)call[CALLCONTROL_AT_SLOTS]);

    /* A real host would send U-PDUs, set timers and tell its user here. */
    for (size_t at = 0; at < callcontrol_count_of(result); at += callcontrol_length_of(out + at)) {
        printf("    ");
        print_record(out + at);
    }
}

int main(void)
{
    uint8_t call[CALLCONTROL_RECORD_SIZE];
    if (callcontrol_fresh(call, sizeof call) != CALLCONTROL_RECORD_SIZE)
        return EXIT_FAILURE;

    printf("One call, set up by its user to address 7, with two slots\n");
    play(call, callcontrol_event_setup_request_slots(event, 7, CALLCONTROL_SIMPLEX, 1, 2));
    play(call, callcontrol_event_report_sent(event));
    play(call, callcontrol_event_d_call_proceeding(event, 21));
    play(call, callcontrol_event_d_alert(event, 21));
    play(call, callcontrol_event_d_connect(event, 21, CALLCONTROL_QUEUED, CALLCONTROL_SIMPLEX, 3));

    /* The network gives it four slots and changes nothing else: the present plane is told again. */
    play(call, callcontrol_event_d_info_slots(event, 21, 0, CALLCONTROL_T310_CODE_ABSENT,
                                              CALLCONTROL_SIMPLEX, 4));

    /* There is no grant 4: the byte at 6 is wrong. */
    play(call, callcontrol_event_d_tx_granted(event, 21, 4));

    /* A grant of another call is not ours. */
    play(call, callcontrol_event_d_tx_granted(event, 22, CALLCONTROL_GRANTED));
    play(call, callcontrol_event_d_tx_granted(event, 21, CALLCONTROL_GRANTED));

    /* The path is lost while transmitting, found again on another channel, and restored. */
    play(call, callcontrol_event_break(event));
    play(call, callcontrol_event_d_tx_granted(event, 21, CALLCONTROL_GRANTED));
    play(call, callcontrol_event_resume(event));
    play(call, callcontrol_event_d_call_restore(event, 21, CALLCONTROL_GRANTED, 1,
                                                CALLCONTROL_T310_CODE_ABSENT));

    play(call, callcontrol_event_tx_request(event, 0));
    play(call, callcontrol_event_release_request(event));
    play(call, callcontrol_event_report_sent(event));
    play(call, callcontrol_event_d_release(event, 21));
    return EXIT_SUCCESS;
}
