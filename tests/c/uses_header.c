/*
 * Uses everything the header declares, as a host in C11 or C++17 would; the strictest warnings
 * are errors, so it shows that the header can be included anywhere.
 *
 * Every number is held against the library: events, expected messages and expected records are built
 * by the header's names alone, and must be what the library takes, writes and leaves. So a wrong
 * number of any name fails here. The test `header` tries that with a header whose names are
 * expressions, so that none of them stands where only a constant may.
 */
#include "callcontrol.h"
#include "callcontrol.h" /* a second time, on purpose */

#include <stdarg.h>
#include <stdio.h>
#include <string.h>

static int first_failure;

static void must(int claim, int line)
{
    if (!claim && first_failure == 0)
        first_failure = line;
}

#define MUST(claim) must((claim) ? 1 : 0, __LINE__)
#define ANSWERS(answer, result) MUST(callcontrol_answer_of(result) == (unsigned int)(answer))

/* ---- Records by name ----------------------------------------------------------------------- */

struct records {
    uint8_t bytes[512];
    size_t len;
};

/* The event that is handed in next, and the messages that it is to order. */
static struct records event, ordered;

static void put(uint8_t *at, size_t width, unsigned int value)
{
    for (size_t byte = 0; byte < width; byte++)
        at[byte] = (uint8_t)(value >> 8 * byte & 0xFFu);
}

/* A record behind those that are there; each digit of widths is the bytes of a field. */
static void add(struct records *to, int kind, const char *widths, va_list values)
{
    uint8_t *record = to->bytes + to->len;
    size_t size = CALLCONTROL_HEAD_SIZE;

    put(record + 2, 2, (unsigned int)kind);
    for (; *widths != '\0'; widths++) {
        size_t width = (size_t)(*widths - '0');
        put(record + size, width, (unsigned int)va_arg(values, int));
        size += width;
    }
    put(record, 2, (unsigned int)size);
    to->len += size;
}

static void happens(int kind, const char *widths, ...)
{
    va_list values;
    va_start(values, widths);
    event.len = 0;
    add(&event, kind, widths, values);
    va_end(values);
}

static void orders(int kind, const char *widths, ...)
{
    va_list values;
    va_start(values, widths);
    add(&ordered, kind, widths, values);
    va_end(values);
}

/* What a function wrote is what was to be ordered, which is then forgotten. */
static void wrote(const uint8_t *out, uint32_t result, int line)
{
    must(callcontrol_count_of(result) == ordered.len
             && memcmp(out, ordered.bytes, ordered.len) == 0, line);
    ordered.len = 0;
}

#define WROTE(result) wrote(out, result, __LINE__)

/* ---- A step -------------------------------------------------------------------------------- */

typedef uint32_t step_function(uint8_t *, size_t, const uint8_t *, size_t, uint8_t *, size_t);

/* A record that the library holds for us, and what it should hold. */
struct call {
    step_function *step;
    size_t size, most;
    uint8_t held[32], want[32];
};

static void steps(struct call *call, int answer, int line)
{
    uint8_t out[64];
    uint32_t result = call->step(call->held, call->size, event.bytes, event.len, out, call->most);

    must(callcontrol_answer_of(result) == (unsigned int)answer, line);
    wrote(out, result, line);
    must(memcmp(call->held, call->want, call->size) == 0, line);
}

#define STEP(answer) steps(&call, answer, __LINE__)
#define HOLDS(field, value) (call.want[field] = (uint8_t)(value))

/* The fresh record is written, and by the names it is this. */
static struct call fresh_call(void)
{
    struct call call;

    memset(&call, 0, sizeof call);
    call.step = callcontrol_step;
    call.size = CALLCONTROL_RECORD_SIZE;
    call.most = CALLCONTROL_RUN_MAX;
    MUST(callcontrol_fresh(call.held, call.size) == CALLCONTROL_RECORD_SIZE);
    HOLDS(CALLCONTROL_AT_STATE, CALLCONTROL_IDLE);
    HOLDS(CALLCONTROL_AT_PATH, CALLCONTROL_PATH_UP);
    HOLDS(CALLCONTROL_AT_PLANE, CALLCONTROL_PLANE_OFF);
    HOLDS(CALLCONTROL_AT_KEPT_PLANE, CALLCONTROL_PLANE_OFF);
    HOLDS(CALLCONTROL_AT_SLOTS, 1);
    MUST(memcmp(call.held, call.want, call.size) == 0);
    return call;
}

static const int I = 0x1234, A = 0x123456, THREE = 3;

/* To address A, simplex, with permission asked for. */
static struct call outgoing_call(void)
{
    struct call call = fresh_call();

    happens(CALLCONTROL_SETUP_REQUEST, "411", A, CALLCONTROL_SIMPLEX, 1);
    orders(CALLCONTROL_U_SETUP, "411", A, CALLCONTROL_SIMPLEX, 1);
    orders(CALLCONTROL_START, "21", CALLCONTROL_T303, 0);
    HOLDS(CALLCONTROL_AT_STATE, CALLCONTROL_MO_CALL_SETUP);
    put(call.want + CALLCONTROL_AT_ADDRESS, 4, (unsigned int)A);
    HOLDS(CALLCONTROL_AT_ASKED, 1);
    HOLDS(CALLCONTROL_AT_T303, 1);
    STEP(CALLCONTROL_TAKEN);
    return call;
}

/* A grant gives the plane, and clears what was asked for or keeps it. */
static struct call connected_call(int grant, int plane, int asked)
{
    struct call call = outgoing_call();

    happens(CALLCONTROL_D_CONNECT, "2111", I, grant, CALLCONTROL_SIMPLEX, THREE);
    orders(CALLCONTROL_STOP, "2", CALLCONTROL_T303);
    orders(CALLCONTROL_START, "21", CALLCONTROL_T310, THREE);
    if (plane == CALLCONTROL_PLANE_TRANSMIT)
        orders(CALLCONTROL_START, "21", CALLCONTROL_T311, 0);
    orders(CALLCONTROL_CONFIGURE, "1", plane);
    orders(CALLCONTROL_SETUP_CONFIRM, "21", I, grant);
    HOLDS(CALLCONTROL_AT_STATE, CALLCONTROL_CALL_ACTIVE);
    put(call.want + CALLCONTROL_AT_IDENTIFIER, 2, (unsigned int)I);
    HOLDS(CALLCONTROL_AT_SENT, 1);
    HOLDS(CALLCONTROL_AT_ASKED, asked);
    HOLDS(CALLCONTROL_AT_PLANE, plane);
    HOLDS(CALLCONTROL_AT_T310_CODE, THREE);
    HOLDS(CALLCONTROL_AT_T303, 0);
    HOLDS(CALLCONTROL_AT_T310, 1);
    HOLDS(CALLCONTROL_AT_T311, plane == CALLCONTROL_PLANE_TRANSMIT);
    STEP(CALLCONTROL_TAKEN);
    return call;
}

/* The set takes the plane to transmit, or loses it: T311 goes with it. */
static void tells_plane(struct call *held, int plane)
{
    struct call call = *held;
    int had = call.want[CALLCONTROL_AT_PLANE] == CALLCONTROL_PLANE_TRANSMIT;
    int has = plane == CALLCONTROL_PLANE_TRANSMIT;

    if (had && !has)
        orders(CALLCONTROL_STOP, "2", CALLCONTROL_T311);
    if (has)
        orders(CALLCONTROL_START, "21", CALLCONTROL_T311, 0);
    orders(CALLCONTROL_CONFIGURE, "1", plane);
    HOLDS(CALLCONTROL_AT_PLANE, plane);
    HOLDS(CALLCONTROL_AT_T311, has);
    *held = call;
}

/* A call that the user begins: set up, spoken in, paused, cut, restored, changed, hung up. */
static void is_begun_by_the_user(void)
{
    struct call call = outgoing_call();

    STEP(CALLCONTROL_NO_ROW);
    happens(CALLCONTROL_REPORT_SENT, "");
    HOLDS(CALLCONTROL_AT_SENT, 1);
    STEP(CALLCONTROL_TAKEN);
    happens(CALLCONTROL_D_CALL_PROCEEDING, "2", I);
    orders(CALLCONTROL_STOP, "2", CALLCONTROL_T303);
    orders(CALLCONTROL_START, "21", CALLCONTROL_T302, 0);
    orders(CALLCONTROL_PROCEED, "");
    put(call.want + CALLCONTROL_AT_IDENTIFIER, 2, (unsigned int)I);
    HOLDS(CALLCONTROL_AT_T303, 0);
    HOLDS(CALLCONTROL_AT_T302, 1);
    STEP(CALLCONTROL_TAKEN);
    happens(CALLCONTROL_D_ALERT, "2", I + 1);
    STEP(CALLCONTROL_OTHER_CALL);
    happens(CALLCONTROL_D_ALERT, "2", I);
    orders(CALLCONTROL_START, "21", CALLCONTROL_T302, 0);
    orders(CALLCONTROL_ALERT, "");
    STEP(CALLCONTROL_TAKEN);
    happens(CALLCONTROL_EXPIRY, "2", CALLCONTROL_T301);
    STEP(CALLCONTROL_NO_ROW);
    happens(CALLCONTROL_EXPIRY, "2", CALLCONTROL_T302);
    orders(CALLCONTROL_U_DISCONNECT, "21", I, CALLCONTROL_CAUSE_TIMER);
    orders(CALLCONTROL_START, "21", CALLCONTROL_T308, 0);
    orders(CALLCONTROL_CONFIGURE, "1", CALLCONTROL_PLANE_OFF);
    orders(CALLCONTROL_RELEASE_INDICATION, "1", CALLCONTROL_CAUSE_TIMER);
    HOLDS(CALLCONTROL_AT_STATE, CALLCONTROL_CALL_DISCONNECT);
    HOLDS(CALLCONTROL_AT_SENT, 0);
    HOLDS(CALLCONTROL_AT_ASKED, 0);
    HOLDS(CALLCONTROL_AT_T302, 0);
    HOLDS(CALLCONTROL_AT_T308, 1);
    STEP(CALLCONTROL_TAKEN);

    call = connected_call(CALLCONTROL_GRANTED, CALLCONTROL_PLANE_TRANSMIT, 0);
    happens(CALLCONTROL_D_INFO, "2111", I, 0, CALLCONTROL_T310_CODE_ABSENT, CALLCONTROL_SIMPLEX);
    STEP(CALLCONTROL_OWN_TRANSMISSION);
    happens(CALLCONTROL_D_TX_WAIT, "2", I);
    tells_plane(&call, CALLCONTROL_PLANE_OFF);
    orders(CALLCONTROL_TX_INDICATION, "1", CALLCONTROL_TX_WAIT);
    HOLDS(CALLCONTROL_AT_STATE, CALLCONTROL_WAIT);
    HOLDS(CALLCONTROL_AT_KEPT_PLANE, CALLCONTROL_PLANE_TRANSMIT);
    STEP(CALLCONTROL_TAKEN);
    happens(CALLCONTROL_D_TX_CONTINUE, "21", I, 1);
    tells_plane(&call, CALLCONTROL_PLANE_TRANSMIT);
    orders(CALLCONTROL_TX_INDICATION, "1", CALLCONTROL_TX_CONTINUED);
    HOLDS(CALLCONTROL_AT_STATE, CALLCONTROL_CALL_ACTIVE);
    HOLDS(CALLCONTROL_AT_KEPT_PLANE, CALLCONTROL_PLANE_OFF);
    STEP(CALLCONTROL_TAKEN);
    happens(CALLCONTROL_D_TX_INTERRUPT, "21", I, CALLCONTROL_GRANTED_TO_ANOTHER);
    tells_plane(&call, CALLCONTROL_PLANE_RECEIVE);
    orders(CALLCONTROL_TX_INDICATION, "1", CALLCONTROL_TX_INTERRUPTED);
    STEP(CALLCONTROL_TAKEN);
    happens(CALLCONTROL_D_TX_CEASED, "2", I);
    tells_plane(&call, CALLCONTROL_PLANE_OFF);
    orders(CALLCONTROL_TX_INDICATION, "1", CALLCONTROL_TX_CEASED);
    STEP(CALLCONTROL_TAKEN);
    happens(CALLCONTROL_TX_REQUEST, "1", 1);
    orders(CALLCONTROL_U_TX_DEMAND, "2", I);
    HOLDS(CALLCONTROL_AT_ASKED, 1);
    STEP(CALLCONTROL_TAKEN);
    happens(CALLCONTROL_TX_REQUEST, "1", 0);
    orders(CALLCONTROL_U_TX_CEASED, "2", I);
    HOLDS(CALLCONTROL_AT_ASKED, 0);
    STEP(CALLCONTROL_TAKEN);
    happens(CALLCONTROL_D_TX_GRANTED, "21", I, CALLCONTROL_GRANTED);
    tells_plane(&call, CALLCONTROL_PLANE_TRANSMIT);
    orders(CALLCONTROL_TX_INDICATION, "1", CALLCONTROL_GRANTED);
    STEP(CALLCONTROL_TAKEN);
    happens(CALLCONTROL_EXPIRY, "2", CALLCONTROL_T311);
    orders(CALLCONTROL_U_TX_CEASED, "2", I);
    orders(CALLCONTROL_CONFIGURE, "1", CALLCONTROL_PLANE_OFF);
    HOLDS(CALLCONTROL_AT_PLANE, CALLCONTROL_PLANE_OFF);
    HOLDS(CALLCONTROL_AT_T311, 0);
    STEP(CALLCONTROL_TAKEN);
    happens(CALLCONTROL_D_TX_WAIT, "2", I);
    tells_plane(&call, CALLCONTROL_PLANE_OFF);
    orders(CALLCONTROL_TX_INDICATION, "1", CALLCONTROL_TX_WAIT);
    HOLDS(CALLCONTROL_AT_STATE, CALLCONTROL_WAIT);
    STEP(CALLCONTROL_TAKEN);
    happens(CALLCONTROL_D_TX_CONTINUE, "21", I, 0);
    tells_plane(&call, CALLCONTROL_PLANE_OFF);
    orders(CALLCONTROL_TX_INDICATION, "1", CALLCONTROL_TX_CONTINUED_OFF);
    HOLDS(CALLCONTROL_AT_STATE, CALLCONTROL_CALL_ACTIVE);
    STEP(CALLCONTROL_TAKEN);
    happens(CALLCONTROL_BREAK, "");
    tells_plane(&call, CALLCONTROL_PLANE_OFF);
    HOLDS(CALLCONTROL_AT_PATH, CALLCONTROL_PATH_BROKEN);
    STEP(CALLCONTROL_TAKEN);
    happens(CALLCONTROL_RESUME, "");
    orders(CALLCONTROL_U_CALL_RESTORE, "241", I, A, 0);
    orders(CALLCONTROL_START, "21", CALLCONTROL_T306, 0);
    HOLDS(CALLCONTROL_AT_PATH, CALLCONTROL_PATH_RESTORING);
    HOLDS(CALLCONTROL_AT_T306, 1);
    STEP(CALLCONTROL_TAKEN);
    happens(CALLCONTROL_D_CALL_RESTORE, "2111", I, CALLCONTROL_QUEUED, 1,
            CALLCONTROL_T310_CODE_ABSENT);
    orders(CALLCONTROL_STOP, "2", CALLCONTROL_T306);
    orders(CALLCONTROL_START, "21", CALLCONTROL_T310, THREE);
    orders(CALLCONTROL_TX_INDICATION, "1", CALLCONTROL_QUEUED);
    HOLDS(CALLCONTROL_AT_PATH, CALLCONTROL_PATH_UP);
    HOLDS(CALLCONTROL_AT_T306, 0);
    STEP(CALLCONTROL_TAKEN);
    happens(CALLCONTROL_D_INFO, "21111", I, 1, CALLCONTROL_T310_CODE_MAX, CALLCONTROL_DUPLEX,
            CALLCONTROL_SLOTS_MAX);
    orders(CALLCONTROL_START, "21", CALLCONTROL_T310, CALLCONTROL_T310_CODE_MAX);
    tells_plane(&call, CALLCONTROL_PLANE_OFF);
    orders(CALLCONTROL_MODIFY_INDICATION, "11", CALLCONTROL_DUPLEX, CALLCONTROL_SLOTS_MAX);
    HOLDS(CALLCONTROL_AT_MODE, CALLCONTROL_DUPLEX);
    HOLDS(CALLCONTROL_AT_T310_CODE, CALLCONTROL_T310_CODE_MAX);
    HOLDS(CALLCONTROL_AT_SLOTS, CALLCONTROL_SLOTS_MAX);
    STEP(CALLCONTROL_TAKEN);
    happens(CALLCONTROL_D_INFO, "2111", I, 1, CALLCONTROL_T310_CODE_NO_LIMIT, CALLCONTROL_DUPLEX);
    orders(CALLCONTROL_STOP, "2", CALLCONTROL_T310);
    tells_plane(&call, CALLCONTROL_PLANE_OFF);
    orders(CALLCONTROL_MODIFY_INDICATION, "11", CALLCONTROL_DUPLEX, CALLCONTROL_SLOTS_MAX);
    HOLDS(CALLCONTROL_AT_T310_CODE, CALLCONTROL_T310_CODE_NO_LIMIT);
    HOLDS(CALLCONTROL_AT_T310, 0);
    STEP(CALLCONTROL_TAKEN);
    happens(CALLCONTROL_MODIFY_REQUEST, "1", CALLCONTROL_SIMPLEX);
    STEP(CALLCONTROL_RETIRED);
    happens(CALLCONTROL_RELEASE_REQUEST, "");
    orders(CALLCONTROL_U_DISCONNECT, "21", I, CALLCONTROL_CAUSE_USER);
    orders(CALLCONTROL_START, "21", CALLCONTROL_T308, 0);
    tells_plane(&call, CALLCONTROL_PLANE_OFF);
    HOLDS(CALLCONTROL_AT_STATE, CALLCONTROL_CALL_DISCONNECT);
    HOLDS(CALLCONTROL_AT_SENT, 0);
    HOLDS(CALLCONTROL_AT_T308, 1);
    STEP(CALLCONTROL_TAKEN);
    happens(CALLCONTROL_REPORT_SENT, "");
    HOLDS(CALLCONTROL_AT_SENT, 1);
    STEP(CALLCONTROL_TAKEN);
    happens(CALLCONTROL_D_RELEASE, "2", I);
    orders(CALLCONTROL_STOP, "2", CALLCONTROL_T308);
    orders(CALLCONTROL_CONFIGURE, "1", CALLCONTROL_PLANE_OFF);
    orders(CALLCONTROL_RELEASE_CONFIRM, "");
    memcpy(call.want, fresh_call().want, call.size);
    STEP(CALLCONTROL_TAKEN);
}

static void is_begun_by_another(void)
{
    struct call call = fresh_call();

    happens(CALLCONTROL_D_SETUP, "241", I, A, CALLCONTROL_DUPLEX);
    orders(CALLCONTROL_SETUP_INDICATION, "241", I, A, CALLCONTROL_DUPLEX);
    HOLDS(CALLCONTROL_AT_STATE, CALLCONTROL_MT_CALL_SETUP);
    put(call.want + CALLCONTROL_AT_IDENTIFIER, 2, (unsigned int)I);
    put(call.want + CALLCONTROL_AT_ADDRESS, 4, (unsigned int)A);
    HOLDS(CALLCONTROL_AT_MODE, CALLCONTROL_DUPLEX);
    STEP(CALLCONTROL_TAKEN);
    happens(CALLCONTROL_SETUP_RESPONSE, "");
    orders(CALLCONTROL_U_CONNECT, "2", I);
    orders(CALLCONTROL_START, "21", CALLCONTROL_T301, 0);
    HOLDS(CALLCONTROL_AT_T301, 1);
    STEP(CALLCONTROL_TAKEN);
    happens(CALLCONTROL_D_CONNECT_ACKNOWLEDGE, "211", I, CALLCONTROL_GRANTED,
            CALLCONTROL_T310_CODE_NO_LIMIT);
    orders(CALLCONTROL_STOP, "2", CALLCONTROL_T301);
    orders(CALLCONTROL_CONFIGURE, "1", CALLCONTROL_PLANE_TRANSMIT_AND_RECEIVE);
    orders(CALLCONTROL_COMPLETE, "1", CALLCONTROL_GRANTED);
    HOLDS(CALLCONTROL_AT_STATE, CALLCONTROL_CALL_ACTIVE);
    HOLDS(CALLCONTROL_AT_PLANE, CALLCONTROL_PLANE_TRANSMIT_AND_RECEIVE);
    HOLDS(CALLCONTROL_AT_T301, 0);
    STEP(CALLCONTROL_TAKEN);
    happens(CALLCONTROL_D_DISCONNECT, "2", I);
    orders(CALLCONTROL_U_RELEASE, "2", I);
    orders(CALLCONTROL_CONFIGURE, "1", CALLCONTROL_PLANE_OFF);
    orders(CALLCONTROL_RELEASE_INDICATION, "1", CALLCONTROL_CAUSE_NETWORK);
    memcpy(call.want, fresh_call().want, call.size);
    STEP(CALLCONTROL_TAKEN);
}

static void ends_before_it_is_connected(void)
{
    struct call call = outgoing_call();

    happens(CALLCONTROL_REPORT_FAILED, "");
    orders(CALLCONTROL_STOP, "2", CALLCONTROL_T303);
    orders(CALLCONTROL_RELEASE_INDICATION, "1", CALLCONTROL_CAUSE_TRANSFER_FAILED);
    memcpy(call.want, fresh_call().want, call.size);
    STEP(CALLCONTROL_TAKEN);
    call = outgoing_call();
    happens(CALLCONTROL_RELEASE_REQUEST, "");
    orders(CALLCONTROL_STOP, "2", CALLCONTROL_T303);
    orders(CALLCONTROL_CANCEL, "");
    orders(CALLCONTROL_RELEASE_CONFIRM, "");
    memcpy(call.want, fresh_call().want, call.size);
    STEP(CALLCONTROL_TAKEN);
}

/* A step wants just so much room, of a call that began fresh and of a sound record that none reaches. */
static void wants_room(void)
{
    struct call call = outgoing_call();
    uint8_t out[64];
    uint32_t result;

    happens(CALLCONTROL_D_CONNECT, "2111", I, CALLCONTROL_GRANTED, CALLCONTROL_SIMPLEX, THREE);
    call.most = CALLCONTROL_RUN_MAX - 1;
    STEP(CALLCONTROL_NO_ROOM);
    result = callcontrol_step(call.held, call.size, event.bytes, event.len, out, CALLCONTROL_RUN_MAX);
    MUST(result == CALLCONTROL_RUN_MAX);

    call.held[CALLCONTROL_AT_T301] = call.held[CALLCONTROL_AT_T302] = 1;
    call.held[CALLCONTROL_AT_T303] = call.held[CALLCONTROL_AT_T308] = 1;
    happens(CALLCONTROL_D_DISCONNECT, "2", I);
    memcpy(call.want, call.held, call.size);
    call.most = CALLCONTROL_STEP_MAX - 1;
    STEP(CALLCONTROL_NO_ROOM);
    result = callcontrol_step(call.held, call.size, event.bytes, event.len, out, CALLCONTROL_STEP_MAX);
    MUST(result == CALLCONTROL_STEP_MAX);

    call = fresh_call();
    call.held[CALLCONTROL_AT_SENT] = 1; /* IDLE only if fresh */
    memcpy(call.want, call.held, call.size);
    STEP(CALLCONTROL_NOT_SOUND);
}

/* ---- Readers of one record ----------------------------------------------------------------- */

typedef uint32_t check_function(const uint8_t *, size_t);

/* The longest record of these kinds, by the place of an answer 4: 2 where the size is wrong. */
static size_t longest(check_function *check, const int *kinds)
{
    size_t most = 0;

    for (; *kinds != 0; kinds++) {
        uint8_t record[96] = {0};
        put(record + 2, 2, (unsigned int)*kinds);
        for (size_t size = CALLCONTROL_HEAD_SIZE; size < sizeof record; size++) {
            put(record, 2, (unsigned int)size);
            uint32_t result = check(record, size);
            MUST(callcontrol_answer_of(result) != CALLCONTROL_UNKNOWN_KIND);
            if (callcontrol_place_of(result) != 2 && size > most)
                most = size;
        }
    }
    return most;
}

/* The event that was built last is wrong in the field before its end, which is so many bytes from it. */
#define WRONG(check, back)                                              \
    MUST(check(event.bytes, event.len)                                  \
         == ((uint32_t)CALLCONTROL_BAD_BODY << 24 | (uint32_t)(event.len - (back)) << 16))
#define RIGHT(check) MUST(check(event.bytes, event.len) == CALLCONTROL_TAKEN)

static void reads_records(void)
{
    const int event_kinds[] = {
        CALLCONTROL_SETUP_REQUEST, CALLCONTROL_SETUP_RESPONSE, CALLCONTROL_RELEASE_REQUEST,
        CALLCONTROL_TX_REQUEST, CALLCONTROL_D_CALL_PROCEEDING, CALLCONTROL_D_ALERT,
        CALLCONTROL_D_CONNECT, CALLCONTROL_D_CONNECT_ACKNOWLEDGE, CALLCONTROL_D_SETUP,
        CALLCONTROL_D_INFO, CALLCONTROL_D_TX_GRANTED, CALLCONTROL_D_TX_CEASED,
        CALLCONTROL_D_TX_INTERRUPT, CALLCONTROL_D_TX_WAIT, CALLCONTROL_D_TX_CONTINUE,
        CALLCONTROL_D_CALL_RESTORE, CALLCONTROL_D_DISCONNECT, CALLCONTROL_D_RELEASE,
        CALLCONTROL_REPORT_SENT, CALLCONTROL_REPORT_FAILED, CALLCONTROL_BREAK, CALLCONTROL_RESUME,
        CALLCONTROL_EXPIRY, 0};
    const int message_kinds[] = {
        CALLCONTROL_U_SETUP, CALLCONTROL_U_CONNECT, CALLCONTROL_U_DISCONNECT, CALLCONTROL_U_RELEASE,
        CALLCONTROL_U_INFO, CALLCONTROL_U_TX_DEMAND, CALLCONTROL_U_TX_CEASED,
        CALLCONTROL_U_CALL_RESTORE, CALLCONTROL_STOP, CALLCONTROL_START, CALLCONTROL_CONFIGURE,
        CALLCONTROL_CANCEL, CALLCONTROL_PLACE, CALLCONTROL_CHANNEL_ANSWER,
        CALLCONTROL_SETUP_INDICATION, CALLCONTROL_SETUP_CONFIRM, CALLCONTROL_PROCEED,
        CALLCONTROL_ALERT, CALLCONTROL_COMPLETE, CALLCONTROL_RELEASE_INDICATION,
        CALLCONTROL_RELEASE_CONFIRM, CALLCONTROL_TX_INDICATION, CALLCONTROL_MODIFY_INDICATION, 0};
    const int direct_event_kinds[] = {
        CALLCONTROL_DIRECT_SETUP_REQUEST, CALLCONTROL_DMA_REPORT, CALLCONTROL_DM_CONNECT,
        CALLCONTROL_DM_DISCONNECT, CALLCONTROL_DIRECT_EXPIRY, 0};
    const int direct_message_kinds[] = {
        CALLCONTROL_DM_SETUP_PRES, CALLCONTROL_DM_CONNECT_ACK, CALLCONTROL_DM_RELEASE,
        CALLCONTROL_DIRECT_STOP, CALLCONTROL_DIRECT_START, CALLCONTROL_DIRECT_CONFIGURE,
        CALLCONTROL_DIRECT_SETUP_CONFIRM, CALLCONTROL_DIRECT_RELEASE_INDICATION, 0};
    uint8_t copy[CALLCONTROL_MESSAGE_MAX];

    MUST(longest(callcontrol_check_event, event_kinds) == CALLCONTROL_EVENT_MAX);
    MUST(longest(callcontrol_check_message, message_kinds) == CALLCONTROL_MESSAGE_MAX);
    MUST(longest(callcontrol_direct_check_event, direct_event_kinds) == CALLCONTROL_DIRECT_EVENT_MAX);
    MUST(longest(callcontrol_direct_check_message, direct_message_kinds)
         == CALLCONTROL_DIRECT_MESSAGE_MAX);

    /* Each limit is taken, and what is beyond it is wrong where it stands. */
    happens(CALLCONTROL_D_RELEASE, "2", CALLCONTROL_IDENTIFIER_MAX);
    RIGHT(callcontrol_check_event);
    happens(CALLCONTROL_D_RELEASE, "2", CALLCONTROL_IDENTIFIER_MAX + 1);
    WRONG(callcontrol_check_event, 2);
    happens(CALLCONTROL_SETUP_REQUEST, "411", CALLCONTROL_ADDRESS_MAX, CALLCONTROL_DUPLEX, 1);
    RIGHT(callcontrol_check_event);
    happens(CALLCONTROL_SETUP_REQUEST, "411", CALLCONTROL_ADDRESS_MAX + 1, CALLCONTROL_DUPLEX, 1);
    WRONG(callcontrol_check_event, 6);
    happens(CALLCONTROL_SETUP_REQUEST, "4111", A, CALLCONTROL_DUPLEX, 1, CALLCONTROL_SLOTS_MAX);
    RIGHT(callcontrol_check_event);
    MUST(callcontrol_copy_event(event.bytes, event.len, copy, sizeof copy) == event.len);
    MUST(memcmp(copy, event.bytes, event.len) == 0);
    happens(CALLCONTROL_SETUP_REQUEST, "4111", A, CALLCONTROL_DUPLEX, 1, CALLCONTROL_SLOTS_MAX + 1);
    WRONG(callcontrol_check_event, 1);
    happens(CALLCONTROL_D_CONNECT_ACKNOWLEDGE, "211", I, 0, CALLCONTROL_T310_CODE_MAX);
    RIGHT(callcontrol_check_event);
    happens(CALLCONTROL_D_CONNECT_ACKNOWLEDGE, "211", I, 0, CALLCONTROL_T310_CODE_MAX + 1);
    WRONG(callcontrol_check_event, 1);
    happens(CALLCONTROL_D_CALL_RESTORE, "2111", I, 0, 0, CALLCONTROL_T310_CODE_ABSENT);
    RIGHT(callcontrol_check_event);
    happens(CALLCONTROL_D_CALL_RESTORE, "2111", I, 0, 0, CALLCONTROL_T310_CODE_ABSENT + 1);
    WRONG(callcontrol_check_event, 1);
    happens(CALLCONTROL_TX_INDICATION, "1", CALLCONTROL_TX_INDICATION_MAX);
    RIGHT(callcontrol_check_message);
    MUST(callcontrol_copy_message(event.bytes, event.len, copy, sizeof copy) == event.len);
    MUST(memcmp(copy, event.bytes, event.len) == 0);
    happens(CALLCONTROL_TX_INDICATION, "1", CALLCONTROL_TX_INDICATION_MAX + 1);
    WRONG(callcontrol_check_message, 1);
    happens(CALLCONTROL_U_INFO, "21", I, CALLCONTROL_DUPLEX);
    RIGHT(callcontrol_check_message);
    ANSWERS(CALLCONTROL_UNKNOWN_KIND, callcontrol_check_event(event.bytes, event.len));
    ANSWERS(CALLCONTROL_BAD_LENGTH, callcontrol_check_message(event.bytes, event.len - 1));
    ANSWERS(CALLCONTROL_NO_ROOM, callcontrol_copy_message(event.bytes, event.len, copy, 0));
    happens(CALLCONTROL_PLACE, "1", CALLCONTROL_PLACES - 1);
    RIGHT(callcontrol_check_message);
    happens(CALLCONTROL_PLACE, "1", CALLCONTROL_PLACES);
    WRONG(callcontrol_check_message, 1);
    happens(CALLCONTROL_DMA_REPORT, "1", CALLCONTROL_DIRECT_UNKNOWN);
    RIGHT(callcontrol_direct_check_event);
    MUST(callcontrol_direct_copy_event(event.bytes, event.len, copy, sizeof copy) == event.len);
    happens(CALLCONTROL_DMA_REPORT, "1", CALLCONTROL_DIRECT_UNKNOWN + 1);
    WRONG(callcontrol_direct_check_event, 1);
    happens(CALLCONTROL_DM_SETUP_PRES, "11", 9, 4);
    RIGHT(callcontrol_direct_check_message);
    MUST(callcontrol_direct_copy_message(event.bytes, event.len, copy, sizeof copy) == event.len);
}

/* ---- A console ----------------------------------------------------------------------------- */

static uint8_t table[256];

static uint32_t console(unsigned int place, uint8_t *out, size_t out_len)
{
    return callcontrol_console_step(table, CALLCONTROL_TABLE_SIZE, (uint8_t)place, event.bytes,
                                    event.len, out, out_len);
}

/* The room that an event wants, to the byte. */
static void wants(unsigned int place, size_t room, int line)
{
    uint8_t out[CALLCONTROL_CONSOLE_MAX + 1];

    must(room < sizeof out, line);
    must(callcontrol_answer_of(console(place, out, room - 1)) == CALLCONTROL_NO_ROOM, line);
    must(console(place, out, room) == room, line);
}

static void runs_a_console(void)
{
    uint8_t out[CALLCONTROL_CONSOLE_MAX];
    uint32_t result;

    MUST(callcontrol_console_fresh(table, CALLCONTROL_TABLE_SIZE) == CALLCONTROL_TABLE_SIZE);
    for (int place = 0; place < (int)CALLCONTROL_PLACES; place++) {
        happens(CALLCONTROL_SETUP_REQUEST, "411", A, CALLCONTROL_SIMPLEX, 1);
        orders(CALLCONTROL_PLACE, "1", place);
        orders(CALLCONTROL_U_SETUP, "411", A, CALLCONTROL_SIMPLEX, 1);
        orders(CALLCONTROL_START, "21", CALLCONTROL_T303, 0);
        result = console(0, out, sizeof out);
        WROTE(result);
        ANSWERS(CALLCONTROL_ID_AWAITED, console(0, out, sizeof out));
        happens(CALLCONTROL_D_CONNECT, "2111", I + place, CALLCONTROL_GRANTED, CALLCONTROL_SIMPLEX,
                THREE);
        wants(0, CALLCONTROL_CONSOLE_PLACE_MAX, __LINE__);
    }
    happens(CALLCONTROL_SETUP_REQUEST, "411", A, CALLCONTROL_SIMPLEX, 1);
    ANSWERS(CALLCONTROL_NO_IDLE_PLACE, console(0, out, sizeof out));
    happens(CALLCONTROL_D_SETUP, "241", I, A, 0);
    ANSWERS(CALLCONTROL_ID_HELD, console(0, out, sizeof out));
    happens(CALLCONTROL_D_RELEASE, "2", I - 1);
    ANSWERS(CALLCONTROL_OTHER_CALL, console(0, out, sizeof out));
    happens(CALLCONTROL_EXPIRY, "2", CALLCONTROL_T308);
    ANSWERS(CALLCONTROL_PLACE_OVER, console(CALLCONTROL_PLACES, out, sizeof out));
    ANSWERS(CALLCONTROL_NO_ROW, console(CALLCONTROL_PLACES - 1, out, sizeof out));
    happens(CALLCONTROL_BREAK, "");
    wants(0, CALLCONTROL_CONSOLE_BREAK_MAX, __LINE__);
    happens(CALLCONTROL_RESUME, "");
    wants(0, CALLCONTROL_CONSOLE_MAX, __LINE__);
}

/* ---- Records from a serial line ------------------------------------------------------------ */

/* A record that comes in two pieces is handed on from the carry, and one in one piece from there. */
static void reads_pieces(void)
{
    uint8_t reader[CALLCONTROL_READER_SIZE];
    uint8_t carry[CALLCONTROL_CARRY_SIZE + 1];
    uint8_t line[128] = {4, 0, 0x01, 0x03, 4, 0, 0x03, 0x03, 3, 0};
    size_t lent = CALLCONTROL_CARRY_SIZE;
    uint32_t result = callcontrol_pieces_fresh(reader, sizeof reader);

    MUST(result == CALLCONTROL_READER_SIZE);
    result = callcontrol_pieces_next(reader, sizeof reader, carry, lent, line, 3);
    MUST(callcontrol_where_of(result) == CALLCONTROL_NOWHERE && callcontrol_used_of(result) == 3);
    result = callcontrol_pieces_next(reader, sizeof reader, carry, lent, line + 3, 7);
    MUST(callcontrol_where_of(result) == CALLCONTROL_IN_CARRY && callcontrol_size_of(result) == 4
         && callcontrol_used_of(result) == 1 && carry[3] == 0x03);
    result = callcontrol_pieces_next(reader, sizeof reader, carry, lent, line + 4, 6);
    MUST(callcontrol_where_of(result) == CALLCONTROL_IN_PIECE && callcontrol_used_of(result) == 4);
    result = callcontrol_pieces_next(reader, sizeof reader, carry, lent, line + 8, 2);
    ANSWERS(CALLCONTROL_IMPOSSIBLE_LENGTH, result);
    result = callcontrol_pieces_next(reader, sizeof reader, carry, lent, line, 4);
    ANSWERS(CALLCONTROL_READER_STOPPED, result);
    result = callcontrol_pieces_next(reader, sizeof reader, carry, lent - 1, line, 4);
    ANSWERS(CALLCONTROL_CARRY_TOO_SHORT, result);
    /* The longest record that is handed on, and one byte more. */
    put(line, 2, CALLCONTROL_CARRY_SIZE);
    MUST(callcontrol_pieces_fresh(reader, sizeof reader) == CALLCONTROL_READER_SIZE);
    result = callcontrol_pieces_next(reader, sizeof reader, carry, lent, line, sizeof line);
    MUST(callcontrol_size_of(result) == CALLCONTROL_CARRY_SIZE);
    put(line, 2, CALLCONTROL_CARRY_SIZE + 1);
    result = callcontrol_pieces_next(reader, sizeof reader, carry, lent, line, sizeof line);
    ANSWERS(CALLCONTROL_IMPOSSIBLE_LENGTH, result);
}

/* ---- A bank of timers ---------------------------------------------------------------------- */

static void keeps_timers(void)
{
    const struct {
        uint16_t timer, length;
    } timers[] = {
        {CALLCONTROL_T301, CALLCONTROL_LENGTH_OF_T301}, {CALLCONTROL_T302, CALLCONTROL_LENGTH_OF_T302},
        {CALLCONTROL_T303, CALLCONTROL_LENGTH_OF_T303}, {CALLCONTROL_T306, CALLCONTROL_LENGTH_OF_T306},
        {CALLCONTROL_T308, CALLCONTROL_LENGTH_OF_T308}, {CALLCONTROL_T310, CALLCONTROL_LENGTH_OF_T310},
        {CALLCONTROL_T311, CALLCONTROL_LENGTH_OF_T311}};
    const uint32_t first = 0x01020304;
    uint8_t bank[CALLCONTROL_BANK_SIZE], want[64] = {0};
    uint32_t lengths[CALLCONTROL_LENGTHS + 1];
    uint16_t due[CALLCONTROL_TIMERS + 1];
    uint32_t result = callcontrol_bank_new(bank, sizeof bank, first);

    MUST(result == CALLCONTROL_BANK_SIZE);
    put(want + CALLCONTROL_BANK_AT_LAST, 4, first);
    MUST(memcmp(bank, want, sizeof bank) == 0);
    for (size_t at = 0; at < sizeof timers / sizeof timers[0]; at++) {
        memset(lengths, 0, sizeof lengths);
        lengths[timers[at].length] = 10;
        result = callcontrol_bank_start(bank, sizeof bank, lengths, CALLCONTROL_LENGTHS,
                                        timers[at].timer, 0);
        MUST(result == CALLCONTROL_TAKEN);
        put(want + CALLCONTROL_BANK_AT_DEADLINES + 4 * at, 4, first + 10);
        want[(size_t)CALLCONTROL_BANK_AT_RUNNING + at] = 1;
        MUST(memcmp(bank, want, sizeof bank) == 0);
    }
    ANSWERS(CALLCONTROL_READING_EARLIER, callcontrol_bank_advance(bank, sizeof bank, first - 1, due,
                                                                  CALLCONTROL_TIMERS));
    ANSWERS(CALLCONTROL_LIST_SHORT, callcontrol_bank_advance(bank, sizeof bank, first + 10, due,
                                                             CALLCONTROL_TIMERS - 1));
    result = callcontrol_bank_advance(bank, sizeof bank, first + 10, due, CALLCONTROL_TIMERS);
    MUST(result == CALLCONTROL_TIMERS && result == sizeof timers / sizeof timers[0]);
    for (size_t at = 0; at < sizeof timers / sizeof timers[0]; at++)
        MUST(due[at] == timers[at].timer);

    /* T310's lengths follow one another by code, to the end of the table. */
    memset(lengths, 0, sizeof lengths);
    lengths[CALLCONTROL_LENGTHS - 1] = CALLCONTROL_LENGTH_MAX;
    result = callcontrol_bank_start(bank, sizeof bank, lengths, CALLCONTROL_LENGTHS, CALLCONTROL_T310,
                                    CALLCONTROL_T310_CODE_MAX);
    MUST(result == CALLCONTROL_TAKEN);
    MUST(callcontrol_bank_stop(bank, sizeof bank, CALLCONTROL_T310) == CALLCONTROL_TAKEN);
    result = callcontrol_bank_start(bank, sizeof bank, lengths, CALLCONTROL_LENGTHS - 1,
                                    CALLCONTROL_T310, CALLCONTROL_T310_CODE_MAX);
    ANSWERS(CALLCONTROL_LENGTH_OUT_OF_RANGE, result);
    lengths[CALLCONTROL_LENGTHS - 1] = CALLCONTROL_LENGTH_MAX + 1;
    result = callcontrol_bank_start(bank, sizeof bank, lengths, CALLCONTROL_LENGTHS, CALLCONTROL_T310,
                                    CALLCONTROL_T310_CODE_MAX);
    ANSWERS(CALLCONTROL_LENGTH_OUT_OF_RANGE, result);
    ANSWERS(CALLCONTROL_TIMER_UNKNOWN, callcontrol_bank_stop(bank, sizeof bank, 300));
}

/* ---- Direct mode --------------------------------------------------------------------------- */

static struct call presence_check(void)
{
    struct call call;

    memset(&call, 0, sizeof call);
    call.step = callcontrol_direct_step;
    call.size = CALLCONTROL_DIRECT_RECORD_SIZE;
    call.most = CALLCONTROL_DIRECT_STEP_MAX;
    MUST(callcontrol_direct_fresh(call.held, call.size) == CALLCONTROL_DIRECT_RECORD_SIZE);
    HOLDS(CALLCONTROL_DIRECT_AT_STATE, CALLCONTROL_DIRECT_IDLE);
    MUST(memcmp(call.held, call.want, call.size) == 0);
    happens(CALLCONTROL_DIRECT_SETUP_REQUEST, "111", 9, 4, CALLCONTROL_DIRECT_ATTEMPTS_MAX + 1);
    STEP(CALLCONTROL_DIRECT_BEYOND);
    happens(CALLCONTROL_DIRECT_SETUP_REQUEST, "111", 9, 4, CALLCONTROL_DIRECT_ATTEMPTS_MAX);
    orders(CALLCONTROL_DM_SETUP_PRES, "11", 9, 4);
    HOLDS(CALLCONTROL_DIRECT_AT_STATE, CALLCONTROL_DIRECT_PRESENCE_CHECK);
    HOLDS(CALLCONTROL_DIRECT_AT_TARGET, 9);
    HOLDS(CALLCONTROL_DIRECT_AT_LOWEST, 4);
    HOLDS(CALLCONTROL_DIRECT_AT_LIMIT, CALLCONTROL_DIRECT_ATTEMPTS_MAX);
    HOLDS(CALLCONTROL_DIRECT_AT_USED, 1);
    STEP(CALLCONTROL_TAKEN);
    STEP(CALLCONTROL_DIRECT_NO_ROW);
    return call;
}

static struct call sent_to_the_called_set(void)
{
    struct call call = presence_check();

    happens(CALLCONTROL_DMA_REPORT, "1", CALLCONTROL_DIRECT_SENT);
    orders(CALLCONTROL_DIRECT_START, "2", CALLCONTROL_DT303);
    HOLDS(CALLCONTROL_DIRECT_AT_DT303, 1);
    STEP(CALLCONTROL_TAKEN);
    return call;
}

static void calls_in_direct_mode(void)
{
    struct call call = sent_to_the_called_set();
    uint8_t out[CALLCONTROL_DIRECT_STEP_MAX];

    happens(CALLCONTROL_DIRECT_EXPIRY, "2", CALLCONTROL_DT311);
    STEP(CALLCONTROL_DIRECT_NO_ROW);
    happens(CALLCONTROL_DIRECT_EXPIRY, "2", CALLCONTROL_DT303);
    orders(CALLCONTROL_DM_RELEASE, "");
    orders(CALLCONTROL_DM_SETUP_PRES, "11", 9, 4);
    HOLDS(CALLCONTROL_DIRECT_AT_USED, 2);
    HOLDS(CALLCONTROL_DIRECT_AT_DT303, 0);
    STEP(CALLCONTROL_TAKEN);

    call = sent_to_the_called_set();
    happens(CALLCONTROL_DM_CONNECT, "1", 5);
    call.most = CALLCONTROL_DIRECT_STEP_MAX - 1;
    STEP(CALLCONTROL_NO_ROOM);
    MUST(callcontrol_direct_step(call.held, call.size, event.bytes, event.len, out, sizeof out)
         == CALLCONTROL_DIRECT_STEP_MAX);
    call = sent_to_the_called_set();
    happens(CALLCONTROL_DM_CONNECT, "1", 5);
    orders(CALLCONTROL_DIRECT_STOP, "2", CALLCONTROL_DT303);
    orders(CALLCONTROL_DM_CONNECT_ACK, "1", 5);
    orders(CALLCONTROL_DIRECT_START, "2", CALLCONTROL_DT311);
    orders(CALLCONTROL_DIRECT_CONFIGURE, "1", 5);
    orders(CALLCONTROL_DIRECT_SETUP_CONFIRM, "1", 5);
    HOLDS(CALLCONTROL_DIRECT_AT_STATE, CALLCONTROL_DIRECT_ACTIVE);
    HOLDS(CALLCONTROL_DIRECT_AT_DT303, 0);
    HOLDS(CALLCONTROL_DIRECT_AT_DT311, 1);
    STEP(CALLCONTROL_TAKEN);

    call = sent_to_the_called_set();
    happens(CALLCONTROL_DM_DISCONNECT, "");
    orders(CALLCONTROL_DIRECT_STOP, "2", CALLCONTROL_DT303);
    orders(CALLCONTROL_DM_RELEASE, "");
    orders(CALLCONTROL_DIRECT_RELEASE_INDICATION, "");
    memset(call.want, 0, sizeof call.want);
    STEP(CALLCONTROL_TAKEN);
    /* Both are a release; each has a number of its own, and the reader knows no other. */
    MUST(CALLCONTROL_DIRECT_BUSY + 1 == CALLCONTROL_DIRECT_UNKNOWN);
    for (int fared = CALLCONTROL_DIRECT_BUSY; fared <= (int)CALLCONTROL_DIRECT_UNKNOWN; fared++) {
        call = presence_check();
        happens(CALLCONTROL_DMA_REPORT, "1", fared);
        orders(CALLCONTROL_DIRECT_RELEASE_INDICATION, "");
        memset(call.want, 0, sizeof call.want);
        STEP(CALLCONTROL_TAKEN);
    }
}

/* ---- Channel change responses -------------------------------------------------------------- */

static uint8_t rooms[64];

/* A question of call I, and what is answered and written at once. */
static void asks(int number, int asked, int answer, int line)
{
    uint8_t out[CALLCONTROL_CHANNEL_ASK_MAX];
    uint32_t result = callcontrol_channel_ask(rooms, CALLCONTROL_ROOMS_SIZE, (uint16_t)number, (uint16_t)I,
                                              (uint8_t)asked, out, sizeof out);
    must(callcontrol_answer_of(result) == (unsigned int)answer, line);
    wrote(out, result, line);
}

static void decides(int number, int decision, int answer, int line)
{
    uint8_t out[CALLCONTROL_CHANNEL_ASK_MAX];
    uint32_t result = callcontrol_channel_decide(rooms, CALLCONTROL_ROOMS_SIZE, (uint16_t)number,
                                                 (uint8_t)decision, out, sizeof out);
    must(callcontrol_answer_of(result) == (unsigned int)answer, line);
    wrote(out, result, line);
}

#define ASK(number, asked, answer) asks(number, asked, answer, __LINE__)
#define DECIDE(number, decision, answer) decides(number, decision, answer, __LINE__)
#define TOLD(number, verdict) orders(CALLCONTROL_CHANNEL_ANSWER, "21", number, verdict)

static void answers_questions(void)
{
    const struct {
        int asked, verdict;
    } at_once[] = {{CALLCONTROL_ASKED_TAKEN, CALLCONTROL_ACCEPT},
                   {CALLCONTROL_ASKED_REFUSED, CALLCONTROL_REJECT},
                   {CALLCONTROL_ASKED_OBEYED, CALLCONTROL_ACCEPT},
                   {CALLCONTROL_ASKED_OVER_OWN_TRANSMISSION, CALLCONTROL_IGNORE},
                   {CALLCONTROL_ASKED_NOT_OBEYED, CALLCONTROL_REJECT}};
    const struct {
        int asked, decision, verdict;
    } later[] = {
        {CALLCONTROL_ASKED_GROUP, CALLCONTROL_SETUP_RESPONDED, CALLCONTROL_ACCEPT},
        {CALLCONTROL_ASKED_GROUP, CALLCONTROL_RELEASE_REQUESTED, CALLCONTROL_REJECT},
        {CALLCONTROL_ASKED_GROUP, CALLCONTROL_T330_EXPIRED, CALLCONTROL_REJECT},
        {CALLCONTROL_ASKED_OWN_GROUP, CALLCONTROL_CANCEL_WORKED, CALLCONTROL_ACCEPT},
        {CALLCONTROL_ASKED_OWN_GROUP, CALLCONTROL_CANCEL_FAILED, CALLCONTROL_IGNORE}};
    const int number = 0x0506, four = 4;
    uint8_t out[CALLCONTROL_CHANNEL_MAX], want[64] = {0};
    uint32_t result = callcontrol_channel_fresh(rooms, CALLCONTROL_ROOMS_SIZE);

    MUST(result == CALLCONTROL_ROOMS_SIZE);
    TOLD(number, CALLCONTROL_ACCEPT);
    result = callcontrol_channel_pdu(rooms, CALLCONTROL_ROOMS_SIZE, (uint16_t)number, (uint16_t)I, 17, out,
                                     CALLCONTROL_CHANNEL_ASK_MAX);
    MUST(result == CALLCONTROL_CHANNEL_ASK_MAX);
    WROTE(result);
    TOLD(number, CALLCONTROL_REJECT);
    result = callcontrol_channel_pdu(rooms, CALLCONTROL_ROOMS_SIZE, (uint16_t)number, (uint16_t)I,
                                     (uint32_t)CALLCONTROL_NO_ROW << 24, out, sizeof out);
    WROTE(result);
    for (size_t at = 0; at < sizeof at_once / sizeof at_once[0]; at++) {
        TOLD(number, at_once[at].verdict);
        ASK(number, at_once[at].asked, CALLCONTROL_TAKEN);
    }
    ASK(number, CALLCONTROL_ASKED_OWN_GROUP_OTHERWISE, CALLCONTROL_OWN_GROUP);
    for (size_t at = 0; at < sizeof later / sizeof later[0]; at++) {
        int waits = later[at].asked == CALLCONTROL_ASKED_GROUP ? 1 : 2;
        if (waits == 2)
            orders(CALLCONTROL_CANCEL, "");
        ASK(number, later[at].asked, CALLCONTROL_TAKEN);
        want[CALLCONTROL_ROOM_AT_WAIT] = (uint8_t)waits;
        put(want + CALLCONTROL_ROOM_AT_NUMBER, 2, (unsigned int)number);
        put(want + CALLCONTROL_ROOM_AT_CALL, 2, (unsigned int)I);
        MUST(memcmp(rooms, want, CALLCONTROL_ROOMS_SIZE) == 0);
        ASK(number, later[at].asked, CALLCONTROL_NUMBER_WAITS);
        DECIDE(number, waits == 1 ? CALLCONTROL_CANCEL_WORKED : CALLCONTROL_SETUP_RESPONDED,
               CALLCONTROL_NONE_WAITS);
        TOLD(number, later[at].verdict);
        DECIDE(number, later[at].decision, CALLCONTROL_TAKEN);
    }
    /* Both reject; each has a number of its own. */
    MUST(CALLCONTROL_RELEASE_REQUESTED != CALLCONTROL_T330_EXPIRED);
    DECIDE(number, CALLCONTROL_CANCEL_FAILED + 1, CALLCONTROL_BAD_BODY);
    ASK(number, CALLCONTROL_ASKED_NOT_OBEYED + 1, CALLCONTROL_BAD_BODY);
    for (int more = 0; more < four; more++) {
        ASK(number + more, CALLCONTROL_ASKED_GROUP, CALLCONTROL_TAKEN);
        MUST(rooms[more * CALLCONTROL_ROOM_SIZE + CALLCONTROL_ROOM_AT_WAIT] == 1);
        MUST(rooms[more * CALLCONTROL_ROOM_SIZE + CALLCONTROL_ROOM_AT_NUMBER] == 6 + more);
    }
    ASK(number + four, CALLCONTROL_ASKED_GROUP, CALLCONTROL_FOUR_WAIT);
    for (int more = 0; more < four; more++)
        TOLD(number + more, CALLCONTROL_REJECT);
    ANSWERS(CALLCONTROL_NO_ROOM, callcontrol_channel_ended(rooms, CALLCONTROL_ROOMS_SIZE, (uint16_t)I, out,
                                                           CALLCONTROL_CHANNEL_MAX - 1));
    result = callcontrol_channel_ended(rooms, CALLCONTROL_ROOMS_SIZE, (uint16_t)I, out, sizeof out);
    MUST(result == CALLCONTROL_CHANNEL_MAX);
    WROTE(result);
}

/* ---- Every enum is a type ------------------------------------------------------------------ */

struct every_enum {
    enum callcontrol_answer answer;
    enum callcontrol_pieces_answer pieces_answer;
    enum callcontrol_bank_answer bank_answer;
    enum callcontrol_channel_answer channel_answer;
    enum callcontrol_field field;
    enum callcontrol_state state;
    enum callcontrol_path path;
    enum callcontrol_mode mode;
    enum callcontrol_grant grant;
    enum callcontrol_cause cause;
    enum callcontrol_plane plane;
    enum callcontrol_tx_indication tx_indication;
    enum callcontrol_timer timer;
    enum callcontrol_event_kind event_kind;
    enum callcontrol_message_kind message_kind;
    enum callcontrol_where where;
    enum callcontrol_bank_field bank_field;
    enum callcontrol_length length;
    enum callcontrol_direct_answer direct_answer;
    enum callcontrol_direct_field direct_field;
    enum callcontrol_direct_state direct_state;
    enum callcontrol_direct_report direct_report;
    enum callcontrol_direct_timer direct_timer;
    enum callcontrol_direct_event_kind direct_event_kind;
    enum callcontrol_direct_message_kind direct_message_kind;
    enum callcontrol_room_field room_field;
    enum callcontrol_verdict verdict;
    enum callcontrol_asked asked;
    enum callcontrol_decision decision;
};

int main(void)
{
    is_begun_by_the_user();
    is_begun_by_another();
    ends_before_it_is_connected();
    (void)connected_call(CALLCONTROL_GRANTED_TO_ANOTHER, CALLCONTROL_PLANE_RECEIVE, 1);
    (void)connected_call(CALLCONTROL_NOT_GRANTED, CALLCONTROL_PLANE_OFF, 0);
    (void)connected_call(CALLCONTROL_QUEUED, CALLCONTROL_PLANE_OFF, 1);
    wants_room();
    reads_records();
    runs_a_console();
    reads_pieces();
    keeps_timers();
    calls_in_direct_mode();
    answers_questions();
    if (first_failure != 0)
        fprintf(stderr, "uses_header.c:%d: the library does not agree\n", first_failure);
    return first_failure == 0 ? 0 : 1;
}
