/*
 * Three calls on a console, as a C host plays them: one transmits, is cut and is restored while
 * another is set up. Each event goes through the library, and what the library orders is shown
 * with the place that it is for.
 *
 * The host keeps two things: the bytes of the table, and a buffer that it lends to each step.
 *
 *     gcc -std=c11 -Wall -Wextra -Werror -Iinclude examples/c/console.c \
 *         target/staticlib/libhost.a target/staticlib/libhost_console.a -o target/console
 */
#include "callcontrol_records.h"

#include <stdio.h>
#include <stdlib.h>

struct message {
    unsigned int kind;
    const char *name;
};

static const struct message messages[] = {
    {CALLCONTROL_U_SETUP, "U-SETUP"},
    {CALLCONTROL_U_CONNECT, "U-CONNECT"},
    {CALLCONTROL_U_DISCONNECT, "U-DISCONNECT"},
    {CALLCONTROL_U_RELEASE, "U-RELEASE"},
    {CALLCONTROL_U_INFO, "U-INFO"},
    {CALLCONTROL_U_TX_DEMAND, "U-TX DEMAND"},
    {CALLCONTROL_U_TX_CEASED, "U-TX CEASED"},
    {CALLCONTROL_U_CALL_RESTORE, "U-CALL RESTORE"},
    {CALLCONTROL_STOP, "STOP"},
    {CALLCONTROL_START, "START"},
    {CALLCONTROL_CONFIGURE, "CONFIGURE"},
    {CALLCONTROL_CANCEL, "CANCEL"},
    {CALLCONTROL_SETUP_INDICATION, "SETUP indication"},
    {CALLCONTROL_SETUP_CONFIRM, "SETUP confirm"},
    {CALLCONTROL_PROCEED, "PROCEED"},
    {CALLCONTROL_ALERT, "ALERT"},
    {CALLCONTROL_COMPLETE, "COMPLETE"},
    {CALLCONTROL_RELEASE_INDICATION, "RELEASE indication"},
    {CALLCONTROL_RELEASE_CONFIRM, "RELEASE confirm"},
    {CALLCONTROL_TX_INDICATION, "TX indication"},
    {CALLCONTROL_MODIFY_INDICATION, "MODIFY indication"},
};

static const char *const states[] = {
    "IDLE", "MO-CALL-SETUP", "MT-CALL-SETUP", "CALL-ACTIVE", "WAIT", "CALL-DISCONNECT",
};

static const char *const paths[] = {"up", "broken", "restoring"};

/* The event that is handed in next. */
static uint8_t event[CALLCONTROL_EVENT_MAX];

static const char *name_of(unsigned int kind)
{
    for (size_t at = 0; at < sizeof messages / sizeof messages[0]; at++)
        if (messages[at].kind == kind)
            return messages[at].name;
    fprintf(stderr, "no such message: %04x\n", kind);
    exit(EXIT_FAILURE);
}

/*
 * The messages of a turn. A record CALLCONTROL_PLACE says whose they are, up to the next such
 * record: a real host would hand them to the carrier, the timers and the user of that place.
 */
static void print_messages(const uint8_t *out, size_t count)
{
    for (size_t at = 0; at < count; at += callcontrol_length_of(out + at)) {
        const uint8_t *message = out + at;
        uint32_t read = callcontrol_check_message(message, callcontrol_length_of(message));
        if (callcontrol_answer_of(read) != CALLCONTROL_TAKEN) {
            fprintf(stderr, "the library wrote something that is no message\n");
            exit(EXIT_FAILURE);
        }
        if (callcontrol_kind_of(message) == CALLCONTROL_PLACE) {
            printf("    for place %u\n", (unsigned int)callcontrol_place_number(message));
            continue;
        }
        printf("      %s", name_of(callcontrol_kind_of(message)));
        for (size_t byte = CALLCONTROL_HEAD_SIZE; byte < callcontrol_length_of(message); byte++)
            printf(" %02X", (unsigned int)message[byte]);
        printf("\n");
    }
}

/* The places that are not IDLE. */
static void print_table(const uint8_t *table)
{
    for (unsigned int place = 0; place < CALLCONTROL_PLACES; place++) {
        const uint8_t *call = table + place * CALLCONTROL_RECORD_SIZE;
        if (call[CALLCONTROL_AT_STATE] != CALLCONTROL_IDLE)
            printf("  place %u: %s, identifier %u, path %s, plane %u\n", place,
                   states[call[CALLCONTROL_AT_STATE]], (unsigned int)callcontrol_u16(call + CALLCONTROL_AT_IDENTIFIER),
                   paths[call[CALLCONTROL_AT_PATH]], (unsigned int)call[CALLCONTROL_AT_PLANE]);
    }
}

/* Hands one event to the console and shows what comes of it. */
static void play(uint8_t *table, const char *what, uint8_t place, size_t event_len)
{
    uint8_t out[CALLCONTROL_CONSOLE_MAX];
    uint32_t result = callcontrol_console_step(table, CALLCONTROL_TABLE_SIZE, place,
                                               event, event_len, out, sizeof out);
    printf("\n%s: answer %u, %zu bytes\n", what, callcontrol_answer_of(result),
           callcontrol_count_of(result));
    print_messages(out, callcontrol_count_of(result));
    print_table(table);
}

int main(void)
{
    uint8_t table[CALLCONTROL_TABLE_SIZE];
    if (callcontrol_count_of(callcontrol_console_fresh(table, sizeof table)) != CALLCONTROL_TABLE_SIZE)
        return EXIT_FAILURE;

    /* The first call goes out; until it has an identifier no second one can. */
    play(table, "SETUP request to 7", 0, callcontrol_event_setup_request(event, 7, CALLCONTROL_SIMPLEX, 1));
    play(table, "SETUP request to 8", 0, callcontrol_event_setup_request(event, 8, CALLCONTROL_SIMPLEX, 0));
    play(table, "REPORT sent at place 0", 0, callcontrol_event_report_sent(event));
    play(table, "D-CONNECT 21, granted", 0,
         callcontrol_event_d_connect(event, 21, CALLCONTROL_GRANTED, CALLCONTROL_SIMPLEX, 3));

    /* The second call comes in. Its identifier is then held. */
    play(table, "D-SETUP 30 from 9", 0,
         callcontrol_event_d_setup(event, 30, 9, CALLCONTROL_SIMPLEX));
    play(table, "D-SETUP 30 from 9 again", 0,
         callcontrol_event_d_setup(event, 30, 9, CALLCONTROL_SIMPLEX));
    play(table, "SETUP response at place 1", 1, callcontrol_event_setup_response(event));
    play(table, "D-CONNECT ACKNOWLEDGE 30, granted to another", 0,
         callcontrol_event_d_connect_acknowledge(event, 30, CALLCONTROL_GRANTED_TO_ANOTHER, 2));

    /* The path is lost: both calls are cut. While they are restored a third goes out. */
    play(table, "BREAK", 0, callcontrol_event_break(event));
    play(table, "RESUME", 0, callcontrol_event_resume(event));
    play(table, "SETUP request to 8", 0, callcontrol_event_setup_request(event, 8, CALLCONTROL_SIMPLEX, 0));
    play(table, "D-CALL RESTORE 21, granted", 0,
         callcontrol_event_d_call_restore(event, 21, CALLCONTROL_GRANTED, 0, CALLCONTROL_T310_CODE_ABSENT));
    play(table, "D-CALL PROCEEDING 40", 0, callcontrol_event_d_call_proceeding(event, 40));
    play(table, "D-CALL RESTORE 30, granted to another", 0,
         callcontrol_event_d_call_restore(event, 30, CALLCONTROL_GRANTED_TO_ANOTHER, 0, CALLCONTROL_T310_CODE_ABSENT));
    play(table, "D-CONNECT 40, queued", 0,
         callcontrol_event_d_connect(event, 40, CALLCONTROL_QUEUED, CALLCONTROL_SIMPLEX, 3));

    /* The user at place 1 hangs up; there is no place 9; nobody holds 99. */
    play(table, "RELEASE request at place 1", 1, callcontrol_event_release_request(event));
    play(table, "RELEASE request at place 9", 9, callcontrol_event_release_request(event));
    play(table, "D-RELEASE 30", 0, callcontrol_event_d_release(event, 30));
    play(table, "D-RELEASE 99", 0, callcontrol_event_d_release(event, 99));
    return EXIT_SUCCESS;
}
