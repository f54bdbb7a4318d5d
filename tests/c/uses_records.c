/*
 * Every function of callcontrol_records.h against the library: an event that a builder made is the
 * one that its letters give, and the library reads it and writes it back as the same bytes; each
 * field of a message that the library reads is what was put there.
 *
 * The fields of a record have different values, none of them 0 where another could be, so that no
 * field can stand for another. The test `records_header` tries this program with every number of
 * the header wrong in turn.
 */
#include "callcontrol_records.h"
#include "callcontrol_records.h" /* a second time, on purpose */

#include <stdarg.h>
#include <stdio.h>
#include <string.h>

static int first_failure;

static void must(int claim, int line)
{
    if (!claim && first_failure == 0)
        first_failure = line;
}

#define MUST(claim) must((claim) ? 1 : 0, __LINE__)

enum { ROOM = 32 };

static uint8_t built[ROOM], wanted[ROOM];

/* The record of a kind; each digit of widths is the bytes of a field. Gives its length. */
static size_t make(int kind, const char *widths, va_list values)
{
    size_t len = CALLCONTROL_HEAD_SIZE;

    memset(wanted, 0xEE, sizeof wanted);
    for (; *widths != '\0'; widths++) {
        unsigned long value = (unsigned long)va_arg(values, int);
        for (int byte = *widths - '0'; byte > 0; byte--, value >>= 8)
            wanted[len++] = (uint8_t)(value & 0xFFu);
    }
    wanted[0] = (uint8_t)len;
    wanted[1] = 0;
    wanted[2] = (uint8_t)((unsigned int)kind & 0xFFu);
    wanted[3] = (uint8_t)((unsigned int)kind >> 8);
    return len;
}

typedef uint32_t copier(const uint8_t *bytes, size_t len, uint8_t *out,
                        size_t out_len);

/* The library reads the record in wanted, and writes it back as it is. */
static int is_read(copier *copy, size_t len)
{
    uint8_t copied[ROOM];
    uint32_t result = copy(wanted, len, copied, sizeof copied);

    return callcontrol_answer_of(result) == CALLCONTROL_TAKEN && callcontrol_count_of(result) == len
        && memcmp(copied, wanted, len) == 0;
}

static void is_event(int line, copier *copy, size_t len, int kind, const char *widths, ...)
{
    va_list values;
    va_start(values, widths);
    must(make(kind, widths, values) == len, line);
    va_end(values);
    must(memcmp(built, wanted, sizeof built) == 0, line);
    must(callcontrol_length_of(built) == len && callcontrol_kind_of(built) == (unsigned int)kind, line);
    must(is_read(copy, len), line);
    memset(built, 0xEE, sizeof built);
}

#define EVENT(built_len, ...) is_event(__LINE__, callcontrol_copy_event, built_len, __VA_ARGS__)
#define DIRECT(built_len, ...) is_event(__LINE__, callcontrol_direct_copy_event, built_len, __VA_ARGS__)

static const uint8_t *message_of(int line, copier *copy, int kind, const char *widths, ...)
{
    va_list values;
    va_start(values, widths);
    must(is_read(copy, make(kind, widths, values)), line);
    va_end(values);
    return wanted;
}

#define MESSAGE(...) message_of(__LINE__, callcontrol_copy_message, __VA_ARGS__)
#define DIRECT_MESSAGE(...) message_of(__LINE__, callcontrol_direct_copy_message, __VA_ARGS__)

static void events_of_user_and_lower_layers(void)
{
    EVENT(callcontrol_event_setup_request(built, 0xABCDEF, 1, 0), CALLCONTROL_SETUP_REQUEST, "411", 0xABCDEF, 1, 0);
    EVENT(callcontrol_event_setup_request(built, 7, 0, 1), CALLCONTROL_SETUP_REQUEST, "411", 7, 0, 1);
    EVENT(callcontrol_event_setup_request_slots(built, 0xABCDEF, 1, 0, 3), CALLCONTROL_SETUP_REQUEST, "4111", 0xABCDEF, 1, 0, 3);
    EVENT(callcontrol_event_setup_request_slots(built, 7, 0, 1, 4), CALLCONTROL_SETUP_REQUEST, "4111", 7, 0, 1, 4);
    EVENT(callcontrol_event_setup_response(built), CALLCONTROL_SETUP_RESPONSE, "");
    EVENT(callcontrol_event_release_request(built), CALLCONTROL_RELEASE_REQUEST, "");
    EVENT(callcontrol_event_tx_request(built, 1), CALLCONTROL_TX_REQUEST, "1", 1);
    EVENT(callcontrol_event_tx_request(built, 0), CALLCONTROL_TX_REQUEST, "1", 0);
    EVENT(callcontrol_event_report_sent(built), CALLCONTROL_REPORT_SENT, "");
    EVENT(callcontrol_event_report_failed(built), CALLCONTROL_REPORT_FAILED, "");
    EVENT(callcontrol_event_break(built), CALLCONTROL_BREAK, "");
    EVENT(callcontrol_event_resume(built), CALLCONTROL_RESUME, "");
    EVENT(callcontrol_event_expiry(built, CALLCONTROL_T306), CALLCONTROL_EXPIRY, "2", CALLCONTROL_T306);
    EVENT(callcontrol_event_expiry(built, CALLCONTROL_T311), CALLCONTROL_EXPIRY, "2", CALLCONTROL_T311);
}

static void events_of_the_network(void)
{
    EVENT(callcontrol_event_d_call_proceeding(built, 0x1234), CALLCONTROL_D_CALL_PROCEEDING, "2", 0x1234);
    EVENT(callcontrol_event_d_alert(built, 0x1234), CALLCONTROL_D_ALERT, "2", 0x1234);
    EVENT(callcontrol_event_d_connect(built, 0x1234, 3, 1, 15), CALLCONTROL_D_CONNECT, "2111", 0x1234, 3, 1, 15);
    EVENT(callcontrol_event_d_connect(built, 0x3FFF, 2, 0, 1), CALLCONTROL_D_CONNECT, "2111", 0x3FFF, 2, 0, 1);
    EVENT(callcontrol_event_d_connect_slots(built, 0x1234, 3, 1, 15, 2), CALLCONTROL_D_CONNECT, "21111", 0x1234, 3, 1, 15, 2);
    EVENT(callcontrol_event_d_connect_slots(built, 0x3FFF, 2, 0, 1, 4), CALLCONTROL_D_CONNECT, "21111", 0x3FFF, 2, 0, 1, 4);
    EVENT(callcontrol_event_d_connect_acknowledge(built, 0x1234, 3, 15), CALLCONTROL_D_CONNECT_ACKNOWLEDGE, "211", 0x1234, 3, 15);
    EVENT(callcontrol_event_d_setup(built, 0x1234, 0xABCDEF, 1), CALLCONTROL_D_SETUP, "241", 0x1234, 0xABCDEF, 1);
    EVENT(callcontrol_event_d_setup(built, 0x3FFF, 7, 0), CALLCONTROL_D_SETUP, "241", 0x3FFF, 7, 0);
    EVENT(callcontrol_event_d_info(built, 0x1234, 1, 16, 0), CALLCONTROL_D_INFO, "2111", 0x1234, 1, 16, 0);
    EVENT(callcontrol_event_d_info(built, 0x3FFF, 0, 5, 1), CALLCONTROL_D_INFO, "2111", 0x3FFF, 0, 5, 1);
    EVENT(callcontrol_event_d_info_slots(built, 0x1234, 1, 16, 0, 3), CALLCONTROL_D_INFO, "21111", 0x1234, 1, 16, 0, 3);
    EVENT(callcontrol_event_d_info_slots(built, 0x3FFF, 0, 5, 1, 4), CALLCONTROL_D_INFO, "21111", 0x3FFF, 0, 5, 1, 4);
    EVENT(callcontrol_event_d_tx_granted(built, 0x1234, 3), CALLCONTROL_D_TX_GRANTED, "21", 0x1234, 3);
    EVENT(callcontrol_event_d_tx_ceased(built, 0x1234), CALLCONTROL_D_TX_CEASED, "2", 0x1234);
    EVENT(callcontrol_event_d_tx_interrupt(built, 0x1234, 3), CALLCONTROL_D_TX_INTERRUPT, "21", 0x1234, 3);
    EVENT(callcontrol_event_d_tx_wait(built, 0x1234), CALLCONTROL_D_TX_WAIT, "2", 0x1234);
    EVENT(callcontrol_event_d_tx_continue(built, 0x1234, 1), CALLCONTROL_D_TX_CONTINUE, "21", 0x1234, 1);
    EVENT(callcontrol_event_d_call_restore(built, 0x1234, 3, 1, 16), CALLCONTROL_D_CALL_RESTORE, "2111", 0x1234, 3, 1, 16);
    EVENT(callcontrol_event_d_call_restore(built, 0x3FFF, 2, 0, 5), CALLCONTROL_D_CALL_RESTORE, "2111", 0x3FFF, 2, 0, 5);
    EVENT(callcontrol_event_d_disconnect(built, 0x1234), CALLCONTROL_D_DISCONNECT, "2", 0x1234);
    EVENT(callcontrol_event_d_release(built, 0x1234), CALLCONTROL_D_RELEASE, "2", 0x1234);
}

static void events_of_direct_mode(void)
{
    DIRECT(callcontrol_event_direct_setup_request(built, 200, 100, 15), CALLCONTROL_DIRECT_SETUP_REQUEST, "111", 200, 100, 15);
    DIRECT(callcontrol_event_dma_report(built, CALLCONTROL_DIRECT_UNKNOWN), CALLCONTROL_DMA_REPORT, "1", CALLCONTROL_DIRECT_UNKNOWN);
    DIRECT(callcontrol_event_dm_connect(built, 150), CALLCONTROL_DM_CONNECT, "1", 150);
    DIRECT(callcontrol_event_dm_disconnect(built), CALLCONTROL_DM_DISCONNECT, "");
    DIRECT(callcontrol_event_direct_expiry(built, CALLCONTROL_DT303), CALLCONTROL_DIRECT_EXPIRY, "2", CALLCONTROL_DT303);
}

static void messages_to_the_network(void)
{
    const uint8_t *m = MESSAGE(CALLCONTROL_U_SETUP, "411", 0xABCDEF, 1, 0);
    MUST(callcontrol_u_setup_address(m) == 0xABCDEF && callcontrol_u_setup_mode(m) == 1);
    MUST(callcontrol_u_setup_asked(m) == 0 && !callcontrol_u_setup_has_slots(m));
    m = MESSAGE(CALLCONTROL_U_SETUP, "4111", 7, 0, 1, 4);
    MUST(callcontrol_u_setup_address(m) == 7 && callcontrol_u_setup_mode(m) == 0 && callcontrol_u_setup_asked(m) == 1);
    MUST(callcontrol_u_setup_has_slots(m) && callcontrol_u_setup_slots(m) == 4);
    m = MESSAGE(CALLCONTROL_U_CONNECT, "2", 0x1234);
    MUST(callcontrol_u_connect_identifier(m) == 0x1234);
    m = MESSAGE(CALLCONTROL_U_DISCONNECT, "21", 0x1234, 2);
    MUST(callcontrol_u_disconnect_identifier(m) == 0x1234 && callcontrol_u_disconnect_cause(m) == 2);
    m = MESSAGE(CALLCONTROL_U_RELEASE, "2", 0x1234);
    MUST(callcontrol_u_release_identifier(m) == 0x1234);
    m = MESSAGE(CALLCONTROL_U_INFO, "21", 0x1234, 1);
    MUST(callcontrol_u_info_identifier(m) == 0x1234 && callcontrol_u_info_mode(m) == 1);
    m = MESSAGE(CALLCONTROL_U_TX_DEMAND, "2", 0x1234);
    MUST(callcontrol_u_tx_demand_identifier(m) == 0x1234);
    m = MESSAGE(CALLCONTROL_U_TX_CEASED, "2", 0x1234);
    MUST(callcontrol_u_tx_ceased_identifier(m) == 0x1234);
    m = MESSAGE(CALLCONTROL_U_CALL_RESTORE, "241", 0x1234, 0xABCDEF, 1);
    MUST(callcontrol_u_call_restore_identifier(m) == 0x1234 && callcontrol_u_call_restore_address(m) == 0xABCDEF);
    MUST(callcontrol_u_call_restore_asked(m) == 1);
}

static void messages_to_lower_layers_and_user(void)
{
    const uint8_t *m = MESSAGE(CALLCONTROL_STOP, "2", CALLCONTROL_T306);
    MUST(callcontrol_stop_timer(m) == CALLCONTROL_T306);
    m = MESSAGE(CALLCONTROL_START, "21", CALLCONTROL_T310, 15);
    MUST(callcontrol_start_timer(m) == CALLCONTROL_T310 && callcontrol_start_code(m) == 15);
    m = MESSAGE(CALLCONTROL_CONFIGURE, "1", 3);
    MUST(callcontrol_configure_plane(m) == 3);
    m = MESSAGE(CALLCONTROL_PLACE, "1", 7);
    MUST(callcontrol_place_number(m) == 7);
    m = MESSAGE(CALLCONTROL_CHANNEL_ANSWER, "21", 0x1234, 2);
    MUST(callcontrol_channel_answer_number(m) == 0x1234 && callcontrol_channel_answer_verdict(m) == 2);
    m = MESSAGE(CALLCONTROL_SETUP_INDICATION, "241", 0x1234, 0xABCDEF, 1);
    MUST(callcontrol_setup_indication_identifier(m) == 0x1234 && callcontrol_setup_indication_address(m) == 0xABCDEF);
    MUST(callcontrol_setup_indication_mode(m) == 1);
    m = MESSAGE(CALLCONTROL_SETUP_CONFIRM, "21", 0x1234, 3);
    MUST(callcontrol_setup_confirm_identifier(m) == 0x1234 && callcontrol_setup_confirm_grant(m) == 3);
    m = MESSAGE(CALLCONTROL_COMPLETE, "1", 2);
    MUST(callcontrol_complete_grant(m) == 2);
    m = MESSAGE(CALLCONTROL_RELEASE_INDICATION, "1", 4);
    MUST(callcontrol_release_indication_cause(m) == 4);
    m = MESSAGE(CALLCONTROL_TX_INDICATION, "1", 8);
    MUST(callcontrol_tx_indication_what(m) == 8);
    m = MESSAGE(CALLCONTROL_MODIFY_INDICATION, "11", 1, 3);
    MUST(callcontrol_modify_indication_mode(m) == 1 && callcontrol_modify_indication_slots(m) == 3);
}

static void messages_of_direct_mode(void)
{
    const uint8_t *m = DIRECT_MESSAGE(CALLCONTROL_DM_SETUP_PRES, "11", 200, 100);
    MUST(callcontrol_dm_setup_pres_target(m) == 200 && callcontrol_dm_setup_pres_lowest(m) == 100);
    m = DIRECT_MESSAGE(CALLCONTROL_DM_CONNECT_ACK, "1", 150);
    MUST(callcontrol_dm_connect_ack_grade(m) == 150);
    m = DIRECT_MESSAGE(CALLCONTROL_DIRECT_STOP, "2", CALLCONTROL_DT303);
    MUST(callcontrol_direct_stop_timer(m) == CALLCONTROL_DT303);
    m = DIRECT_MESSAGE(CALLCONTROL_DIRECT_START, "2", CALLCONTROL_DT311);
    MUST(callcontrol_direct_start_timer(m) == CALLCONTROL_DT311);
    m = DIRECT_MESSAGE(CALLCONTROL_DIRECT_CONFIGURE, "1", 150);
    MUST(callcontrol_direct_configure_grade(m) == 150);
    m = DIRECT_MESSAGE(CALLCONTROL_DIRECT_SETUP_CONFIRM, "1", 150);
    MUST(callcontrol_direct_setup_confirm_grade(m) == 150);
}

/* Bytes over 127, and all four of a number, are read and put as they are. */
static void numbers(void)
{
    uint8_t bytes[8];

    callcontrol_put_u32(bytes, 0x89ABCDEFu);
    MUST(bytes[0] == 0xEF && bytes[1] == 0xCD && bytes[2] == 0xAB && bytes[3] == 0x89);
    MUST(callcontrol_u32(bytes) == 0x89ABCDEFu && callcontrol_u16(bytes) == 0xCDEF);
    callcontrol_put_u16(bytes, 0x1289);
    MUST(bytes[0] == 0x89 && bytes[1] == 0x12 && bytes[2] == 0xAB);
    MUST(callcontrol_put_head(bytes, 4, 0x0102) == 4 && callcontrol_u32(bytes) == 0x01020004u);
}

int main(void)
{
    memset(built, 0xEE, sizeof built);
    numbers();
    events_of_user_and_lower_layers();
    events_of_the_network();
    events_of_direct_mode();
    messages_to_the_network();
    messages_to_lower_layers_and_user();
    messages_of_direct_mode();
    if (first_failure != 0)
        fprintf(stderr, "tests/c/uses_records.c: line %d\n", first_failure);
    return first_failure != 0;
}
