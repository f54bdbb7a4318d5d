/*
 * Events built and messages read without touching their bytes: a function for each event that builds
 * it from its fields, and one for each field of each message. All of it is plain C in this header; no
 * archive has it. callcontrol.h has the letters with their widths, ranges and meanings.
 *
 * A builder writes the whole event to the front of event, which has CALLCONTROL_EVENT_MAX bytes, and
 * returns its length. It tests nothing: the step refuses a field that is out of range with answer 4.
 * A reader takes a message that a step wrote; look at callcontrol_kind_of first.
 */
#ifndef CALLCONTROL_RECORDS_H
#define CALLCONTROL_RECORDS_H

#include "callcontrol.h"

#ifdef __cplusplus
extern "C" {
#endif

/* ---- Any record ---------------------------------------------------------------------------- */

static inline uint16_t callcontrol_u16(const uint8_t *bytes)
{
    return (uint16_t)(bytes[0] | (unsigned int)bytes[1] << 8);
}

static inline uint32_t callcontrol_u32(const uint8_t *bytes)
{
    return callcontrol_u16(bytes) | (uint32_t)callcontrol_u16(bytes + 2) << 16;
}

static inline void callcontrol_put_u16(uint8_t *bytes, uint16_t value)
{
    bytes[0] = (uint8_t)(value & 0xFFu);
    bytes[1] = (uint8_t)(value >> 8);
}

static inline void callcontrol_put_u32(uint8_t *bytes, uint32_t value)
{
    callcontrol_put_u16(bytes, (uint16_t)(value & 0xFFFFu));
    callcontrol_put_u16(bytes + 2, (uint16_t)(value >> 16));
}

/* Writes length and kind, and returns the length. */
static inline size_t callcontrol_put_head(uint8_t *record, uint16_t len, uint16_t kind)
{
    callcontrol_put_u16(record, len);
    callcontrol_put_u16(record + 2, kind);
    return len;
}

/* All bytes of a record: the next message of a step begins behind them. */
static inline size_t callcontrol_length_of(const uint8_t *record)
{
    return callcontrol_u16(record);
}

/* One of enum callcontrol_event_kind or callcontrol_message_kind, or of direct mode's. */
static inline unsigned int callcontrol_kind_of(const uint8_t *record)
{
    return callcontrol_u16(record + 2);
}

/* ---- Events -------------------------------------------------------------------------------- */

/* SETUP request a d q */
static inline size_t callcontrol_event_setup_request(uint8_t *event, uint32_t address, uint8_t mode,
                                                     uint8_t asked)
{
    callcontrol_put_u32(event + 4, address);
    event[8] = mode;
    event[9] = asked;
    return callcontrol_put_head(event, 10, CALLCONTROL_SETUP_REQUEST);
}

/* SETUP request a d q s */
static inline size_t callcontrol_event_setup_request_slots(uint8_t *event, uint32_t address,
                                                           uint8_t mode, uint8_t asked,
                                                           uint8_t slots)
{
    callcontrol_put_u32(event + 4, address);
    event[8] = mode;
    event[9] = asked;
    event[10] = slots;
    return callcontrol_put_head(event, 11, CALLCONTROL_SETUP_REQUEST);
}

/* SETUP response */
static inline size_t callcontrol_event_setup_response(uint8_t *event)
{
    return callcontrol_put_head(event, 4, CALLCONTROL_SETUP_RESPONSE);
}

/* RELEASE request */
static inline size_t callcontrol_event_release_request(uint8_t *event)
{
    return callcontrol_put_head(event, 4, CALLCONTROL_RELEASE_REQUEST);
}

/* TX request k */
static inline size_t callcontrol_event_tx_request(uint8_t *event, uint8_t demand)
{
    event[4] = demand;
    return callcontrol_put_head(event, 5, CALLCONTROL_TX_REQUEST);
}

/* D-CALL PROCEEDING i */
static inline size_t callcontrol_event_d_call_proceeding(uint8_t *event, uint16_t identifier)
{
    callcontrol_put_u16(event + 4, identifier);
    return callcontrol_put_head(event, 6, CALLCONTROL_D_CALL_PROCEEDING);
}

/* D-ALERT i */
static inline size_t callcontrol_event_d_alert(uint8_t *event, uint16_t identifier)
{
    callcontrol_put_u16(event + 4, identifier);
    return callcontrol_put_head(event, 6, CALLCONTROL_D_ALERT);
}

/* D-CONNECT i g d o */
static inline size_t callcontrol_event_d_connect(uint8_t *event, uint16_t identifier, uint8_t grant,
                                                 uint8_t mode, uint8_t code)
{
    callcontrol_put_u16(event + 4, identifier);
    event[6] = grant;
    event[7] = mode;
    event[8] = code;
    return callcontrol_put_head(event, 9, CALLCONTROL_D_CONNECT);
}

/* D-CONNECT i g d o s */
static inline size_t callcontrol_event_d_connect_slots(uint8_t *event, uint16_t identifier,
                                                       uint8_t grant, uint8_t mode, uint8_t code,
                                                       uint8_t slots)
{
    callcontrol_put_u16(event + 4, identifier);
    event[6] = grant;
    event[7] = mode;
    event[8] = code;
    event[9] = slots;
    return callcontrol_put_head(event, 10, CALLCONTROL_D_CONNECT);
}

/* D-CONNECT ACKNOWLEDGE i g o */
static inline size_t callcontrol_event_d_connect_acknowledge(uint8_t *event, uint16_t identifier,
                                                             uint8_t grant, uint8_t code)
{
    callcontrol_put_u16(event + 4, identifier);
    event[6] = grant;
    event[7] = code;
    return callcontrol_put_head(event, 8, CALLCONTROL_D_CONNECT_ACKNOWLEDGE);
}

/* D-SETUP i a d */
static inline size_t callcontrol_event_d_setup(uint8_t *event, uint16_t identifier,
                                               uint32_t address, uint8_t mode)
{
    callcontrol_put_u16(event + 4, identifier);
    callcontrol_put_u32(event + 6, address);
    event[10] = mode;
    return callcontrol_put_head(event, 11, CALLCONTROL_D_SETUP);
}

/* D-INFO i r o d */
static inline size_t callcontrol_event_d_info(uint8_t *event, uint16_t identifier, uint8_t reset,
                                              uint8_t code, uint8_t mode)
{
    callcontrol_put_u16(event + 4, identifier);
    event[6] = reset;
    event[7] = code;
    event[8] = mode;
    return callcontrol_put_head(event, 9, CALLCONTROL_D_INFO);
}

/* D-INFO i r o d s */
static inline size_t callcontrol_event_d_info_slots(uint8_t *event, uint16_t identifier,
                                                    uint8_t reset, uint8_t code, uint8_t mode,
                                                    uint8_t slots)
{
    callcontrol_put_u16(event + 4, identifier);
    event[6] = reset;
    event[7] = code;
    event[8] = mode;
    event[9] = slots;
    return callcontrol_put_head(event, 10, CALLCONTROL_D_INFO);
}

/* D-TX GRANTED i g */
static inline size_t callcontrol_event_d_tx_granted(uint8_t *event, uint16_t identifier,
                                                    uint8_t grant)
{
    callcontrol_put_u16(event + 4, identifier);
    event[6] = grant;
    return callcontrol_put_head(event, 7, CALLCONTROL_D_TX_GRANTED);
}

/* D-TX CEASED i */
static inline size_t callcontrol_event_d_tx_ceased(uint8_t *event, uint16_t identifier)
{
    callcontrol_put_u16(event + 4, identifier);
    return callcontrol_put_head(event, 6, CALLCONTROL_D_TX_CEASED);
}

/* D-TX INTERRUPT i g */
static inline size_t callcontrol_event_d_tx_interrupt(uint8_t *event, uint16_t identifier,
                                                      uint8_t grant)
{
    callcontrol_put_u16(event + 4, identifier);
    event[6] = grant;
    return callcontrol_put_head(event, 7, CALLCONTROL_D_TX_INTERRUPT);
}

/* D-TX WAIT i */
static inline size_t callcontrol_event_d_tx_wait(uint8_t *event, uint16_t identifier)
{
    callcontrol_put_u16(event + 4, identifier);
    return callcontrol_put_head(event, 6, CALLCONTROL_D_TX_WAIT);
}

/* D-TX CONTINUE i k */
static inline size_t callcontrol_event_d_tx_continue(uint8_t *event, uint16_t identifier,
                                                     uint8_t demand)
{
    callcontrol_put_u16(event + 4, identifier);
    event[6] = demand;
    return callcontrol_put_head(event, 7, CALLCONTROL_D_TX_CONTINUE);
}

/* D-CALL RESTORE i g r o */
static inline size_t callcontrol_event_d_call_restore(uint8_t *event, uint16_t identifier,
                                                      uint8_t grant, uint8_t reset, uint8_t code)
{
    callcontrol_put_u16(event + 4, identifier);
    event[6] = grant;
    event[7] = reset;
    event[8] = code;
    return callcontrol_put_head(event, 9, CALLCONTROL_D_CALL_RESTORE);
}

/* D-DISCONNECT i */
static inline size_t callcontrol_event_d_disconnect(uint8_t *event, uint16_t identifier)
{
    callcontrol_put_u16(event + 4, identifier);
    return callcontrol_put_head(event, 6, CALLCONTROL_D_DISCONNECT);
}

/* D-RELEASE i */
static inline size_t callcontrol_event_d_release(uint8_t *event, uint16_t identifier)
{
    callcontrol_put_u16(event + 4, identifier);
    return callcontrol_put_head(event, 6, CALLCONTROL_D_RELEASE);
}

/* REPORT sent */
static inline size_t callcontrol_event_report_sent(uint8_t *event)
{
    return callcontrol_put_head(event, 4, CALLCONTROL_REPORT_SENT);
}

/* REPORT failed */
static inline size_t callcontrol_event_report_failed(uint8_t *event)
{
    return callcontrol_put_head(event, 4, CALLCONTROL_REPORT_FAILED);
}

/* BREAK */
static inline size_t callcontrol_event_break(uint8_t *event)
{
    return callcontrol_put_head(event, 4, CALLCONTROL_BREAK);
}

/* RESUME */
static inline size_t callcontrol_event_resume(uint8_t *event)
{
    return callcontrol_put_head(event, 4, CALLCONTROL_RESUME);
}

/* expiry n */
static inline size_t callcontrol_event_expiry(uint8_t *event, uint16_t timer)
{
    callcontrol_put_u16(event + 4, timer);
    return callcontrol_put_head(event, 6, CALLCONTROL_EXPIRY);
}

/* ---- Events of direct mode ----------------------------------------------------------------- */

/* SETUP request t l m */
static inline size_t callcontrol_event_direct_setup_request(uint8_t *event, uint8_t target,
                                                            uint8_t lowest, uint8_t attempts)
{
    event[4] = target;
    event[5] = lowest;
    event[6] = attempts;
    return callcontrol_put_head(event, 7, CALLCONTROL_DIRECT_SETUP_REQUEST);
}

/* DMA-REPORT v */
static inline size_t callcontrol_event_dma_report(uint8_t *event, uint8_t report)
{
    event[4] = report;
    return callcontrol_put_head(event, 5, CALLCONTROL_DMA_REPORT);
}

/* DM-CONNECT t */
static inline size_t callcontrol_event_dm_connect(uint8_t *event, uint8_t grade)
{
    event[4] = grade;
    return callcontrol_put_head(event, 5, CALLCONTROL_DM_CONNECT);
}

/* DM-DISCONNECT */
static inline size_t callcontrol_event_dm_disconnect(uint8_t *event)
{
    return callcontrol_put_head(event, 4, CALLCONTROL_DM_DISCONNECT);
}

/* expiry n */
static inline size_t callcontrol_event_direct_expiry(uint8_t *event, uint16_t timer)
{
    callcontrol_put_u16(event + 4, timer);
    return callcontrol_put_head(event, 6, CALLCONTROL_DIRECT_EXPIRY);
}

/* ---- Fields of messages -------------------------------------------------------------------- */

/* U-SETUP a d q, or a d q s */
static inline uint32_t callcontrol_u_setup_address(const uint8_t *message)
{
    return callcontrol_u32(message + 4);
}

static inline uint8_t callcontrol_u_setup_mode(const uint8_t *message)
{
    return message[8];
}

static inline uint8_t callcontrol_u_setup_asked(const uint8_t *message)
{
    return message[9];
}

/* Whether this U-SETUP carries slots; callcontrol_u_setup_slots is only for one that does. */
static inline int callcontrol_u_setup_has_slots(const uint8_t *message)
{
    return callcontrol_length_of(message) == 11;
}

static inline uint8_t callcontrol_u_setup_slots(const uint8_t *message)
{
    return message[10];
}

/* U-CONNECT i */
static inline uint16_t callcontrol_u_connect_identifier(const uint8_t *message)
{
    return callcontrol_u16(message + 4);
}

/* U-DISCONNECT i c */
static inline uint16_t callcontrol_u_disconnect_identifier(const uint8_t *message)
{
    return callcontrol_u16(message + 4);
}

static inline uint8_t callcontrol_u_disconnect_cause(const uint8_t *message)
{
    return message[6];
}

/* U-RELEASE i */
static inline uint16_t callcontrol_u_release_identifier(const uint8_t *message)
{
    return callcontrol_u16(message + 4);
}

/* U-INFO i d: in files of older sets; no step writes it */
static inline uint16_t callcontrol_u_info_identifier(const uint8_t *message)
{
    return callcontrol_u16(message + 4);
}

static inline uint8_t callcontrol_u_info_mode(const uint8_t *message)
{
    return message[6];
}

/* U-TX DEMAND i */
static inline uint16_t callcontrol_u_tx_demand_identifier(const uint8_t *message)
{
    return callcontrol_u16(message + 4);
}

/* U-TX CEASED i */
static inline uint16_t callcontrol_u_tx_ceased_identifier(const uint8_t *message)
{
    return callcontrol_u16(message + 4);
}

/* U-CALL RESTORE i a q */
static inline uint16_t callcontrol_u_call_restore_identifier(const uint8_t *message)
{
    return callcontrol_u16(message + 4);
}

static inline uint32_t callcontrol_u_call_restore_address(const uint8_t *message)
{
    return callcontrol_u32(message + 6);
}

static inline uint8_t callcontrol_u_call_restore_asked(const uint8_t *message)
{
    return message[10];
}

/* STOP n */
static inline uint16_t callcontrol_stop_timer(const uint8_t *message)
{
    return callcontrol_u16(message + 4);
}

/* START n o */
static inline uint16_t callcontrol_start_timer(const uint8_t *message)
{
    return callcontrol_u16(message + 4);
}

static inline uint8_t callcontrol_start_code(const uint8_t *message)
{
    return message[6];
}

/* CONFIGURE p */
static inline uint8_t callcontrol_configure_plane(const uint8_t *message)
{
    return message[4];
}

/* PLACE y: the place of a console whose messages follow */
static inline uint8_t callcontrol_place_number(const uint8_t *message)
{
    return message[4];
}

/* CHANNEL ANSWER u v: the question's number, and one of enum callcontrol_verdict */
static inline uint16_t callcontrol_channel_answer_number(const uint8_t *message)
{
    return callcontrol_u16(message + 4);
}

static inline uint8_t callcontrol_channel_answer_verdict(const uint8_t *message)
{
    return message[6];
}

/* SETUP indication i a d */
static inline uint16_t callcontrol_setup_indication_identifier(const uint8_t *message)
{
    return callcontrol_u16(message + 4);
}

static inline uint32_t callcontrol_setup_indication_address(const uint8_t *message)
{
    return callcontrol_u32(message + 6);
}

static inline uint8_t callcontrol_setup_indication_mode(const uint8_t *message)
{
    return message[10];
}

/* SETUP confirm i g */
static inline uint16_t callcontrol_setup_confirm_identifier(const uint8_t *message)
{
    return callcontrol_u16(message + 4);
}

static inline uint8_t callcontrol_setup_confirm_grant(const uint8_t *message)
{
    return message[6];
}

/* COMPLETE g */
static inline uint8_t callcontrol_complete_grant(const uint8_t *message)
{
    return message[4];
}

/* RELEASE indication c */
static inline uint8_t callcontrol_release_indication_cause(const uint8_t *message)
{
    return message[4];
}

/* TX indication x: a grant below 4, else one of enum callcontrol_tx_indication */
static inline uint8_t callcontrol_tx_indication_what(const uint8_t *message)
{
    return message[4];
}

/* MODIFY indication d s */
static inline uint8_t callcontrol_modify_indication_mode(const uint8_t *message)
{
    return message[4];
}

static inline uint8_t callcontrol_modify_indication_slots(const uint8_t *message)
{
    return message[5];
}

/* ---- Fields of direct mode's messages ------------------------------------------------------ */

/* DM-SETUP PRES t l */
static inline uint8_t callcontrol_dm_setup_pres_target(const uint8_t *message)
{
    return message[4];
}

static inline uint8_t callcontrol_dm_setup_pres_lowest(const uint8_t *message)
{
    return message[5];
}

/* DM-CONNECT ACK t */
static inline uint8_t callcontrol_dm_connect_ack_grade(const uint8_t *message)
{
    return message[4];
}

/* STOP of direct mode n */
static inline uint16_t callcontrol_direct_stop_timer(const uint8_t *message)
{
    return callcontrol_u16(message + 4);
}

/* START of direct mode n */
static inline uint16_t callcontrol_direct_start_timer(const uint8_t *message)
{
    return callcontrol_u16(message + 4);
}

/* CONFIGURE of direct mode t */
static inline uint8_t callcontrol_direct_configure_grade(const uint8_t *message)
{
    return message[4];
}

/* SETUP confirm of direct mode t */
static inline uint8_t callcontrol_direct_setup_confirm_grade(const uint8_t *message)
{
    return message[4];
}

#ifdef __cplusplus
}
#endif

#endif /* CALLCONTROL_RECORDS_H */
