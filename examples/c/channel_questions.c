/*
 * A host whose lower layers ask whether to follow a channel allocation: questions on the PDUs of its
 * individual call are answered by what the step returned. Of three group calls one is for the user to
 * take, and the network asks for it twice; one is to a group that another part of the set is calling,
 * whose U-SETUP is cancelled too late; and one waits for the user until the network ends it.
 *
 * The host keeps three things: the bytes of its individual call, the bytes of the rooms of waiting
 * questions, and which of these wait for the user. Group calls it does not keep: the part that does is
 * told of CANCEL, and says what came of it.
 *
 *     gcc -std=c11 -Wall -Wextra -Werror -Iinclude examples/c/channel_questions.c \
 *         target/staticlib/libhost.a -o target/channel_questions
 */
#include "callcontrol.h"

#include <stdio.h>
#include <stdlib.h>
#include <string.h>

static uint8_t call[CALLCONTROL_RECORD_SIZE];
static uint8_t rooms[CALLCONTROL_ROOMS_SIZE];

/* The questions that wait for the user, in the order asked; a set runs T330 for each. */
struct question {
    uint16_t number, identifier;
};
static struct question for_user[CALLCONTROL_ROOMS_SIZE / CALLCONTROL_ROOM_SIZE];
static size_t for_user_len;

static uint16_t last_number;

static const char *const verdicts[] = {"accept", "reject", "ignore"};

static unsigned int two_bytes(const uint8_t *bytes)
{
    return bytes[0] | (unsigned int)bytes[1] << 8;
}

/* A question is answered, so it waits no more; here its T330 is stopped. */
static void answered(unsigned int number)
{
    size_t left = 0;

    for (size_t at = 0; at < for_user_len; at++)
        if (for_user[at].number != number)
            for_user[left++] = for_user[at];
    for_user_len = left;
}

/* What a real host hands to the lower layers, and to its part for group calls. */
static void hand_on(const uint8_t *out, size_t count)
{
    for (size_t at = 0; at < count; at += two_bytes(out + at)) {
        unsigned int kind = two_bytes(out + at + 2);
        if (kind == CALLCONTROL_CHANNEL_ANSWER) {
            printf("    to the lower layers: question %u, %s\n", two_bytes(out + at + 4),
                   verdicts[out[at + 6]]);
            answered(two_bytes(out + at + 4));
        } else if (kind == CALLCONTROL_CANCEL)
            printf("    to the part for group calls: CANCEL of its U-SETUP\n");
        else
            printf("    message %04X\n", kind);
    }
}

/* How many questions wait, and what the library answered. */
static void show(const char *what, uint32_t result, const uint8_t *out)
{
    unsigned int waiting = 0;
    for (size_t at = 0; at < sizeof rooms; at += CALLCONTROL_ROOM_SIZE)
        waiting += rooms[at + CALLCONTROL_ROOM_AT_WAIT] != 0;
    printf("  %s: answer %u, %u waiting\n", what, callcontrol_answer_of(result), waiting);
    hand_on(out, callcontrol_count_of(result));
}

/* An event for the individual call; gives what the step returned. */
static uint32_t step(const char *what, const uint8_t *event)
{
    uint8_t out[CALLCONTROL_RUN_MAX];
    uint32_t result = callcontrol_step(call, sizeof call, event, two_bytes(event), out, sizeof out);
    printf("%s\n  step: answer %u, %zu bytes\n", what, callcontrol_answer_of(result),
           callcontrol_count_of(result));
    return result;
}

/* The question that came with an individually addressed PDU, asked after its step. */
static void ask_pdu(uint16_t identifier, uint32_t result)
{
    uint8_t out[CALLCONTROL_CHANNEL_ASK_MAX];
    last_number++;
    show("question", callcontrol_channel_pdu(rooms, sizeof rooms, last_number, identifier, result, out,
                                             sizeof out), out);
}

/* The question that came with a group addressed PDU; gives its number. */
static uint16_t ask_group(const char *what, uint16_t identifier, uint8_t asked)
{
    uint8_t out[CALLCONTROL_CHANNEL_ASK_MAX];
    last_number++;
    printf("%s, question %u\n", what, last_number);
    uint32_t result = callcontrol_channel_ask(rooms, sizeof rooms, last_number, identifier, asked, out,
                                              sizeof out);
    show("question", result, out);
    /* Here its T330 is started. */
    if (asked == CALLCONTROL_ASKED_GROUP && callcontrol_answer_of(result) == CALLCONTROL_TAKEN)
        for_user[for_user_len++] = (struct question){last_number, identifier};
    return last_number;
}

static void decide(uint16_t number, uint8_t decision)
{
    uint8_t out[CALLCONTROL_CHANNEL_ASK_MAX];
    show("decision", callcontrol_channel_decide(rooms, sizeof rooms, number, decision, out,
                                                sizeof out), out);
}

/* The user's one word on a group call decides every question of it that waits for the user. */
static void decide_call(const char *what, uint16_t identifier, uint8_t decision)
{
    struct question asked[sizeof for_user / sizeof for_user[0]];
    size_t len = for_user_len;

    printf("%s\n", what);
    memcpy(asked, for_user, sizeof asked); /* a decision takes its question from the list */
    for (size_t at = 0; at < len; at++)
        if (asked[at].identifier == identifier)
            decide(asked[at].number, decision);
}

static void ended(const char *what, uint16_t identifier)
{
    uint8_t out[CALLCONTROL_CHANNEL_MAX];
    if (what)
        printf("%s\n", what);
    show("end of the call", callcontrol_channel_ended(rooms, sizeof rooms, identifier, out,
                                                      sizeof out), out);
}

int main(void)
{
    static const uint8_t setup_request[] = {10, 0, 0x01, 0x01, 7, 0, 0, 0, 0, 1};
    static const uint8_t d_connect[] = {9, 0, 0x03, 0x02, 21, 0, CALLCONTROL_GRANTED, 0, 3};
    static const uint8_t another_grant[] = {7, 0, 0x07, 0x02, 22, 0, CALLCONTROL_GRANTED};
    static const uint8_t d_release[] = {6, 0, 0x0E, 0x02, 21, 0};

    if (callcontrol_fresh(call, sizeof call) != CALLCONTROL_RECORD_SIZE
        || callcontrol_channel_fresh(rooms, sizeof rooms) != CALLCONTROL_ROOMS_SIZE)
        return EXIT_FAILURE;

    step("The user calls address 7", setup_request);

    /* The PDU first, then its question with what the step returned. */
    ask_pdu(21, step("D-CONNECT for call 21, with a channel", d_connect));
    ask_pdu(22, step("A grant for another call, with a channel", another_grant));

    ask_group("D-SETUP of group call 40, a group that nobody here is calling", 40,
              CALLCONTROL_ASKED_GROUP);
    uint16_t cancelling =
        ask_group("D-SETUP of group call 41, a group that our part for group calls is calling, its "
                  "U-SETUP not reported sent", 41, CALLCONTROL_ASKED_OWN_GROUP);
    ask_group("The same D-SETUP of group call 40 again", 40, CALLCONTROL_ASKED_GROUP);
    ask_group("D-SETUP of group call 42, a group that nobody here is calling", 42,
              CALLCONTROL_ASKED_GROUP);

    decide_call("The user takes group call 40", 40, CALLCONTROL_SETUP_RESPONDED);
    puts("The part for group calls says that its U-SETUP was sent already: the cancel failed");
    decide(cancelling, CALLCONTROL_CANCEL_FAILED);
    puts("It is decided once");
    decide(cancelling, CALLCONTROL_CANCEL_WORKED);
    ended("The network ends group call 42", 42);

    /* The record forgets the identifier when the call ends: it is kept from before the step. */
    uint16_t identifier = (uint16_t)two_bytes(call + CALLCONTROL_AT_IDENTIFIER);
    ask_pdu(identifier, step("D-RELEASE for call 21, with a channel", d_release));
    ended(NULL, identifier);
    return EXIT_SUCCESS;
}
