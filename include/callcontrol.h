/*
 * Call control (CC) of one individual circuit mode call in a TETRA mobile station,
 * ETSI EN 300 392-2 clause 14.5.1: every event handed in is taken or refused with one answer,
 * and what it orders is written into a buffer the host lends.
 *
 * The library holds nothing: a call is 22 bytes in the hands of the host. No function allocates,
 * keeps a pointer after it returns, or reads or writes a byte beyond the lengths it is given, so
 * any number of calls can be run side by side, each by one thread at a time. Bytes that may be
 * written must not overlap other bytes handed to the same function. Pointers must not be null, also
 * where the length is 0. docs/HOST.md has what a host must do, and what each answer asks of it.
 *
 * The library is an archive for each product, and each function says at its end which have it:
 * libhost.a for a set with one call, and libhost_console.a, linked beside it, for a console;
 * libhost_small.a, in place of libhost.a, for a set with little room: fresh and step alone, with the
 * same results in less code; libhost_direct.a, which needs no other, for direct mode.
 *
 * Every function but callcontrol_pieces_next returns answer * 2^24 + place * 2^16 + count. Counted are
 * the bytes written to out, or to what a function makes fresh, and by callcontrol_bank_advance the
 * timers due. With answer 4 of a reader the place says what is wrong: the offset of the first bad
 * field from the first byte of the record, or 2 where the size of the body is wrong. With every other
 * answer it is 0.
 *
 * What changed: a record has one byte more, the slots per frame (CALLCONTROL_AT_SLOTS), and a table
 * eight more. A host that keeps records of 21 bytes, or tables of 168, gets answer 1 to them, and
 * begins with callcontrol_fresh. MODIFY indication has one byte more, so a host that reads it by its
 * old size must change.
 */
#ifndef CALLCONTROL_H
#define CALLCONTROL_H

#include <stddef.h>
#include <stdint.h>

#ifdef __cplusplus
extern "C" {
#endif

/* ---- Sizes and limits ---------------------------------------------------------------------- */

#define CALLCONTROL_RECORD_SIZE 22u         /* bytes of a call record */
#define CALLCONTROL_PLACES 8u               /* calls of a console */
#define CALLCONTROL_TABLE_SIZE 176u         /* bytes of a console's table: eight records */
#define CALLCONTROL_HEAD_SIZE 4u            /* length u16 and kind u16 before the body */
#define CALLCONTROL_EVENT_MAX 11u           /* bytes of the longest event */
#define CALLCONTROL_MESSAGE_MAX 11u         /* bytes of the longest message */
#define CALLCONTROL_RUN_MAX 32u             /* the most one step writes, of a call that began fresh and was only stepped */
#define CALLCONTROL_STEP_MAX 52u            /* the most one step writes, from any sound record */
#define CALLCONTROL_CONSOLE_PLACE_MAX 37u   /* the most an event for one place writes ... */
#define CALLCONTROL_CONSOLE_BREAK_MAX 128u  /* ... and BREAK ... */
#define CALLCONTROL_CONSOLE_MAX 184u        /* ... and RESUME, on a table reached from fresh */
#define CALLCONTROL_IDENTIFIER_MAX 16383u   /* i */
#define CALLCONTROL_ADDRESS_MAX 16777215u   /* a; 0 is unknown */
#define CALLCONTROL_SLOTS_MAX 4u            /* s; the least is 1 */
#define CALLCONTROL_T310_CODE_MAX 15u       /* o */
#define CALLCONTROL_T310_CODE_NO_LIMIT 0u   /* o: no START is written; a running T310 is stopped */
#define CALLCONTROL_T310_CODE_ABSENT 16u    /* o in D-INFO and D-CALL RESTORE: none given */
#define CALLCONTROL_TX_INDICATION_MAX 8u    /* x */
#define CALLCONTROL_READER_SIZE 2u          /* bytes of a reader of pieces */
#define CALLCONTROL_CARRY_SIZE 64u          /* bytes of its carry, and of the longest record it hands on */

#define CALLCONTROL_ROOMS_SIZE 20u          /* bytes of the rooms of waiting channel questions */
#define CALLCONTROL_CHANNEL_ASK_MAX 7u      /* the most a question or a decision writes ... */
#define CALLCONTROL_CHANNEL_MAX 28u         /* ... and a call's end */

#define CALLCONTROL_BANK_SIZE 39u           /* bytes of a bank of timers */
#define CALLCONTROL_TIMERS 7u               /* the timers in it, so the most that one reading hands out */
#define CALLCONTROL_LENGTHS 22u             /* entries of a table of lengths */
#define CALLCONTROL_LENGTH_MAX 1073741824u  /* ms, 2^30: the longest a timer runs; the shortest is 1 */

/* ---- Answers ------------------------------------------------------------------------------- */

/*
 * The first that applies is given, in the order 1 2 3 9 4 5 6 8 7, of a console with 40 41 42 43
 * between 4 and 5. A refusal counts 0 bytes and changes no byte.
 */
enum callcontrol_answer {
    CALLCONTROL_TAKEN = 0,        /* taken; bytes written are counted */
    CALLCONTROL_NOT_SOUND = 1,    /* the bytes are no call record, or it is not sound */
    CALLCONTROL_BAD_LENGTH = 2,   /* under 4 bytes, or the length field differs from them */
    CALLCONTROL_UNKNOWN_KIND = 3, /* no event kind (for messages: no message kind) */
    CALLCONTROL_BAD_BODY = 4,     /* body size or a field out of range */
    CALLCONTROL_OTHER_CALL = 5,   /* a network event whose identifier is not the held one; of a console: no place fits */
    CALLCONTROL_NO_ROW = 6,       /* nothing is foreseen for this event in this state */
    CALLCONTROL_NO_ROOM = 7,      /* the messages are longer than the lent buffer */
    CALLCONTROL_OWN_TRANSMISSION = 8, /* D-INFO in plane 1 or 3; after 6 and before 7 */
    CALLCONTROL_RETIRED = 9,          /* an event kind that is taken no more; after 3 and before 4 */

    /* Of a console alone, between 4 and 5. */
    CALLCONTROL_PLACE_OVER = 40,   /* the place that is named is over 7 */
    CALLCONTROL_ID_HELD = 41,      /* D-SETUP with an identifier that a place holds already */
    CALLCONTROL_ID_AWAITED = 42,   /* SETUP request while a place outside IDLE has no identifier */
    CALLCONTROL_NO_IDLE_PLACE = 43 /* eight calls are there already */
};

/* Of callcontrol_pieces_next: 0 and 1 as above, and these, in the order 22, 21, 20. */
enum callcontrol_pieces_answer {
    CALLCONTROL_IMPOSSIBLE_LENGTH = 20, /* a length below 4 or above 64: the reader stops */
    CALLCONTROL_READER_STOPPED = 21,    /* and stays so until callcontrol_pieces_fresh */
    CALLCONTROL_CARRY_TOO_SHORT = 22    /* the carry has under 64 bytes */
};

/* Of a bank of timers, after 1 for bytes that are no bank. */
enum callcontrol_bank_answer {
    CALLCONTROL_TIMER_UNKNOWN = 30,       /* no timer has this number */
    CALLCONTROL_LENGTH_OUT_OF_RANGE = 31, /* a length of 0 or over 2^30, or none in the table */
    CALLCONTROL_READING_EARLIER = 32,     /* the reading is earlier than the last */
    CALLCONTROL_LIST_SHORT = 33           /* more timers are due than the lent list holds */
};

/* Of channel questions: 0, 1, 4 (place 0) and 7, and these; in the order 1, 4, 50, 51, 53, 52, 7. */
enum callcontrol_channel_answer {
    CALLCONTROL_NUMBER_WAITS = 50, /* a question of this number waits already */
    CALLCONTROL_FOUR_WAIT = 51,    /* the question would have to wait, and four do */
    CALLCONTROL_NONE_WAITS = 52,   /* no waiting question of this number waits for this decision */
    CALLCONTROL_OWN_GROUP = 53     /* a group that we are calling, otherwise than CALLCONTROL_ASKED_OWN_GROUP; open with the client */
};

/* ---- The call record ----------------------------------------------------------------------- */

/* Offsets of the fields; numbers of more than one byte are little-endian. */
enum callcontrol_field {
    CALLCONTROL_AT_STATE = 0,
    CALLCONTROL_AT_IDENTIFIER = 1, /* u16 */
    CALLCONTROL_AT_ADDRESS = 3,    /* u32 */
    CALLCONTROL_AT_MODE = 7,
    CALLCONTROL_AT_ASKED = 8,
    CALLCONTROL_AT_SENT = 9,
    CALLCONTROL_AT_PATH = 10,
    CALLCONTROL_AT_PLANE = 11,
    CALLCONTROL_AT_KEPT_PLANE = 12,
    CALLCONTROL_AT_T310_CODE = 13,
    CALLCONTROL_AT_T301 = 14, /* the timers, each 0 or 1 */
    CALLCONTROL_AT_T302 = 15,
    CALLCONTROL_AT_T303 = 16,
    CALLCONTROL_AT_T306 = 17,
    CALLCONTROL_AT_T308 = 18,
    CALLCONTROL_AT_T310 = 19,
    CALLCONTROL_AT_T311 = 20,
    CALLCONTROL_AT_SLOTS = 21 /* slots per frame, 1 to 4 */
};

enum callcontrol_state {
    CALLCONTROL_IDLE = 0,
    CALLCONTROL_MO_CALL_SETUP = 1,
    CALLCONTROL_MT_CALL_SETUP = 2,
    CALLCONTROL_CALL_ACTIVE = 3,
    CALLCONTROL_WAIT = 4,
    CALLCONTROL_CALL_DISCONNECT = 5
};

enum callcontrol_path {
    CALLCONTROL_PATH_UP = 0,
    CALLCONTROL_PATH_BROKEN = 1,
    CALLCONTROL_PATH_RESTORING = 2
};

/* ---- Letters of a body, and their values --------------------------------------------------- */

/*
 * A record is its length u16 (all its bytes), its kind u16 and its body, little-endian. A body is
 * its letters' fields in the order given with its kind, nothing between them:
 *
 *   letter  width  range       meaning
 *   i       u16    1..16383    the call's identifier; 0 is allowed in D-DISCONNECT, D-RELEASE,
 *                              U-DISCONNECT and U-RELEASE alone
 *   a       u32    0..16777215 the other party's address; 0 is unknown, and refused in SETUP request
 *                              and U-SETUP
 *   d       u8     0..1        the mode: enum callcontrol_mode
 *   q       u8     0..1        1: permission to transmit is asked for with the set-up or restoration
 *   g       u8     0..3        what the network grants: enum callcontrol_grant
 *   o       u8     0..15       the code of T310's length, 0 no limit; in D-INFO and D-CALL RESTORE
 *                              also 16, none given
 *   r       u8     0..1        1: T310 begins anew, by o or, where that is 16, by the held code;
 *                              0: it runs on, and o is not looked at
 *   k       u8     0..1        TX request: 1 demand, 0 cease; D-TX CONTINUE: 1 as before the pause,
 *                              0 off
 *   s       u8     1..4        slots per frame; the last byte of a body, which may lack it
 *   n       u16    seven       a timer: enum callcontrol_timer
 *   c       u8     1..4        why a call ends: enum callcontrol_cause
 *   p       u8     1..4        the U-plane: enum callcontrol_plane
 *   x       u8     0..8        enum callcontrol_tx_indication
 *   y       u8     0..7        a place of a console
 *   u       u16    any         the number of a channel question
 *   v       u8     0..2        the answer to it: enum callcontrol_verdict
 *
 * Direct mode has letters of its own, below. callcontrol_records.h builds events and reads messages
 * by these fields.
 */

enum callcontrol_mode { /* d */
    CALLCONTROL_SIMPLEX = 0,
    CALLCONTROL_DUPLEX = 1
};

enum callcontrol_grant { /* g */
    CALLCONTROL_GRANTED = 0,
    CALLCONTROL_NOT_GRANTED = 1,
    CALLCONTROL_QUEUED = 2,
    CALLCONTROL_GRANTED_TO_ANOTHER = 3
};

enum callcontrol_cause { /* c */
    CALLCONTROL_CAUSE_USER = 1,
    CALLCONTROL_CAUSE_TIMER = 2,
    CALLCONTROL_CAUSE_NETWORK = 3,
    CALLCONTROL_CAUSE_TRANSFER_FAILED = 4
};

enum callcontrol_plane { /* p */
    CALLCONTROL_PLANE_TRANSMIT = 1,
    CALLCONTROL_PLANE_RECEIVE = 2,
    CALLCONTROL_PLANE_TRANSMIT_AND_RECEIVE = 3,
    CALLCONTROL_PLANE_OFF = 4
};

/* x of TX indication; below 4 it is the grant. */
enum callcontrol_tx_indication {
    CALLCONTROL_TX_CEASED = 4,
    CALLCONTROL_TX_INTERRUPTED = 5,
    CALLCONTROL_TX_WAIT = 6,
    CALLCONTROL_TX_CONTINUED = 7,     /* with the plane kept in the pause */
    CALLCONTROL_TX_CONTINUED_OFF = 8  /* without it */
};

enum callcontrol_timer { /* n */
    CALLCONTROL_T301 = 301,
    CALLCONTROL_T302 = 302,
    CALLCONTROL_T303 = 303,
    CALLCONTROL_T306 = 306,
    CALLCONTROL_T308 = 308,
    CALLCONTROL_T310 = 310,
    CALLCONTROL_T311 = 311
};

/* ---- Kinds of records, with the letters of their bodies ------------------------------------ */

enum callcontrol_event_kind {
    CALLCONTROL_SETUP_REQUEST = 0x0101, /* a d q s, or without s */
    CALLCONTROL_SETUP_RESPONSE = 0x0102,
    CALLCONTROL_RELEASE_REQUEST = 0x0103,
    CALLCONTROL_TX_REQUEST = 0x0104,     /* k: 1 demand, 0 cease */
    CALLCONTROL_MODIFY_REQUEST = 0x0105, /* retired: answer 9, whatever its body; its number is given to nothing else */

    CALLCONTROL_D_CALL_PROCEEDING = 0x0201,     /* i */
    CALLCONTROL_D_ALERT = 0x0202,               /* i */
    CALLCONTROL_D_CONNECT = 0x0203,             /* i g d o s, or without s: the held slots stay */
    CALLCONTROL_D_CONNECT_ACKNOWLEDGE = 0x0204, /* i g o */
    CALLCONTROL_D_SETUP = 0x0205,               /* i a d */
    CALLCONTROL_D_INFO = 0x0206,                /* i r o d s, or without s: the same */
    CALLCONTROL_D_TX_GRANTED = 0x0207,          /* i g */
    CALLCONTROL_D_TX_CEASED = 0x0208,           /* i */
    CALLCONTROL_D_TX_INTERRUPT = 0x0209,        /* i g */
    CALLCONTROL_D_TX_WAIT = 0x020A,             /* i */
    CALLCONTROL_D_TX_CONTINUE = 0x020B,         /* i k */
    CALLCONTROL_D_CALL_RESTORE = 0x020C,        /* i g r o */
    CALLCONTROL_D_DISCONNECT = 0x020D,          /* i, 0 allowed */
    CALLCONTROL_D_RELEASE = 0x020E,             /* i, 0 allowed */

    CALLCONTROL_REPORT_SENT = 0x0301,   /* of this call's U-SETUP or U-DISCONNECT, the one written last; of no other PDU */
    CALLCONTROL_REPORT_FAILED = 0x0302, /* the same; neither after a step's CANCEL nor after the call's end */
    CALLCONTROL_BREAK = 0x0303,
    CALLCONTROL_RESUME = 0x0304,

    CALLCONTROL_EXPIRY = 0x0401 /* n */
};

enum callcontrol_message_kind {
    CALLCONTROL_U_SETUP = 0x0501,        /* a d q s, or without s where the SETUP request had none */
    CALLCONTROL_U_CONNECT = 0x0502,      /* i */
    CALLCONTROL_U_DISCONNECT = 0x0503,   /* i c, 0 is the dummy identifier */
    CALLCONTROL_U_RELEASE = 0x0504,      /* i, 0 allowed */
    CALLCONTROL_U_INFO = 0x0505,         /* i d: no step writes it any more */
    CALLCONTROL_U_TX_DEMAND = 0x0506,    /* i */
    CALLCONTROL_U_TX_CEASED = 0x0507,    /* i */
    CALLCONTROL_U_CALL_RESTORE = 0x0508, /* i a q */

    CALLCONTROL_STOP = 0x0601,      /* n */
    CALLCONTROL_START = 0x0602,     /* n o: o is 0 but for T310, whose 0 no step writes */
    CALLCONTROL_CONFIGURE = 0x0603, /* p */
    CALLCONTROL_CANCEL = 0x0604, /* of a step: take back the call's U-SETUP or U-DISCONNECT that is not reported yet; of a channel question: a group call's U-SETUP */
    CALLCONTROL_PLACE = 0x0605, /* y, 0 to 7: the messages behind it are this place's */
    CALLCONTROL_CHANNEL_ANSWER = 0x0606, /* u v: a question's number u16; 0 accept, 1 reject, 2 ignore; no step writes it */

    CALLCONTROL_SETUP_INDICATION = 0x0701, /* i a d */
    CALLCONTROL_SETUP_CONFIRM = 0x0702,    /* i g */
    CALLCONTROL_PROCEED = 0x0703,
    CALLCONTROL_ALERT = 0x0704,
    CALLCONTROL_COMPLETE = 0x0705,           /* g */
    CALLCONTROL_RELEASE_INDICATION = 0x0706, /* c */
    CALLCONTROL_RELEASE_CONFIRM = 0x0707,
    CALLCONTROL_TX_INDICATION = 0x0708,     /* x */
    CALLCONTROL_MODIFY_INDICATION = 0x0709  /* d s: the mode, and the slots that the call then has */
};

/* ---- Functions ----------------------------------------------------------------------------- */

/*
 * Writes the fresh record (IDLE) and counts 22; answer 1 and nothing written if record_len is
 * not 22.
 */
uint32_t callcontrol_fresh(uint8_t *record, size_t record_len); /* in libhost.a, libhost_small.a */

/*
 * Takes one event: rewrites the record, writes the messages it orders to the front of out, one
 * after another, and counts their bytes; later bytes of out stay as they are. A refusal (answers
 * 1 to 9) leaves record and out byte for byte. CALLCONTROL_RUN_MAX bytes are enough for a record that
 * callcontrol_fresh wrote and only this function changed since, CALLCONTROL_STEP_MAX for any sound one.
 */
uint32_t callcontrol_step(uint8_t *record, size_t record_len,
                          const uint8_t *event, size_t event_len,
                          uint8_t *out, size_t out_len); /* in libhost.a, libhost_small.a */

/*
 * Writes eight fresh records and counts 176; answer 1 and nothing written if table_len is not 176.
 */
uint32_t callcontrol_console_fresh(uint8_t *table, size_t table_len); /* in libhost_console.a */

/*
 * Takes one event for a console of eight calls. The table is eight records one after the other.
 * SETUP response, RELEASE and TX request, the REPORTs and expiry are for the place that is
 * named, 0 to 7; any other event finds its place itself, and place is not looked at: SETUP request
 * and D-SETUP go to the lowest IDLE place, other network events to the place outside IDLE that holds
 * their identifier, else to the one that has none. What a place orders follows a record
 * CALLCONTROL_PLACE with its number, places rising; a place that orders nothing has none. Each place
 * has its own timers: keep a set (or a bank) for each, and hand in an expiry, and the REPORT of a
 * PDU, with the place that ordered it. A refusal leaves table and out byte for byte. BREAK and RESUME reach every
 * place that would take them, or, where out is too short for all, none: lend
 * CALLCONTROL_CONSOLE_MAX bytes, and 7 never comes back on a table that callcontrol_console_fresh
 * wrote and only this function changed since. Answer 1: the bytes are not eight records, one is not
 * sound, two hold one identifier above 0, or two outside IDLE hold none; 5: no place fits; 6 to
 * BREAK or RESUME: no place would take it.
 */
uint32_t callcontrol_console_step(uint8_t *table, size_t table_len, uint8_t place,
                                  const uint8_t *event, size_t event_len,
                                  uint8_t *out, size_t out_len); /* in libhost_console.a */

/* Reads one event record: answer 0, 2, 3, 9 or 4 with its place, count 0. */
uint32_t callcontrol_check_event(const uint8_t *bytes, size_t len); /* in libhost.a */

/* Reads one message record: answer 0, 2, 3 or 4 with its place, count 0. */
uint32_t callcontrol_check_message(const uint8_t *bytes, size_t len); /* in libhost.a */

/* Reads one event record and writes it back to out: answer 0 with its length, or 2, 3, 9, 4 or 7. */
uint32_t callcontrol_copy_event(const uint8_t *bytes, size_t len, uint8_t *out, size_t out_len); /* in libhost.a */

/* Reads one message record and writes it back to out: answer 0 with its length, or 2, 3, 4 or 7. */
uint32_t callcontrol_copy_message(const uint8_t *bytes, size_t len, uint8_t *out, size_t out_len); /* in libhost.a */

/* The answer in a result of any function here. */
static inline unsigned int callcontrol_answer_of(uint32_t result)
{
    return (unsigned int)(result >> 24);
}

/*
 * The place in a result: where an answer 4 found the record wrong, 0 with every other answer. It is
 * an offset in the record, never a place of a console.
 */
static inline unsigned int callcontrol_place_of(uint32_t result)
{
    return (unsigned int)(result >> 16 & 0xFFu);
}

/* The count in a result: bytes written, and for callcontrol_bank_advance the timers due. */
static inline size_t callcontrol_count_of(uint32_t result)
{
    return (size_t)(result & 0xFFFFu);
}

/* ---- Records from a serial line ------------------------------------------------------------ */

/*
 * A modem splits a record over several reads or hands over three at once. A host keeps a reader
 * (2 bytes: how many bytes are carried, 0 to 63; whether it is stopped) and its carry (64 bytes),
 * and hands over each piece that it read, and then what is left of the piece, until nothing is
 * found. However the line is cut, the same records come out in the same order.
 */

enum callcontrol_where {
    CALLCONTROL_NOWHERE = 0,
    CALLCONTROL_IN_CARRY = 1, /* at the front of the carry */
    CALLCONTROL_IN_PIECE = 2  /* at the front of the piece */
};

/*
 * Makes a reader fresh, or resets it: nothing is carried and it is not stopped. Counts its 2
 * bytes; answer 1 and nothing written if reader_len is not 2.
 */
uint32_t callcontrol_pieces_fresh(uint8_t *reader, size_t reader_len); /* in libhost.a */

/*
 * Takes a piece of any length, also 0, and hands on the first record that ends in it, as the first
 * bytes of the piece or, if it began in an earlier piece, of the carry, where it stays until the
 * next call. Returns answer * 2^24 + where * 2^16 + size * 2^8 + bytes of the piece used. Where
 * nothing is found the whole piece was used, and its bytes are carried. A refusal has 0 in all
 * three and changes no byte of the carry: 1 if the bytes are no reader, 22, 21, or 20, which stops
 * the reader, with nothing carried.
 */
uint32_t callcontrol_pieces_next(uint8_t *reader, size_t reader_len,
                                 uint8_t *carry, size_t carry_len,
                                 const uint8_t *piece, size_t piece_len); /* in libhost.a */

/* Where the record is, one of enum callcontrol_where. */
static inline unsigned int callcontrol_where_of(uint32_t result)
{
    return (unsigned int)(result >> 16 & 0xFFu);
}

/* How many bytes the record has. */
static inline size_t callcontrol_size_of(uint32_t result)
{
    return (size_t)(result >> 8 & 0xFFu);
}

/* How many bytes of the piece were used; those behind them are handed over next. */
static inline size_t callcontrol_used_of(uint32_t result)
{
    return (size_t)(result & 0xFFu);
}

/* ---- Timers kept by the library ------------------------------------------------------------ */

/*
 * A bank keeps the seven timers over the host's millisecond counter, 32 bits that wrap. Its four
 * functions return answer * 2^24 + count. A refusal counts 0 and changes nothing.
 *
 * A START counts from the last reading: make one right before each event of the call. All that it
 * hands out is handed in as expiries before any other event of that call, since an event may start
 * such a timer anew. The bank is right as long as each reading is at or after the last accepted one,
 * and less than 2^31 ms (24 days) after it: so read the counter while no timer runs, too.
 */

/* Offsets in a bank; the timers' own stand in the order 301 302 303 306 308 310 311. */
enum callcontrol_bank_field {
    CALLCONTROL_BANK_AT_LAST = 0,      /* u32, the last reading that was accepted */
    CALLCONTROL_BANK_AT_DEADLINES = 4, /* seven u32; the deadline of a stopped timer says nothing */
    CALLCONTROL_BANK_AT_RUNNING = 32   /* seven u8, each 0 or 1 */
};

/* Entries of a table of lengths, in milliseconds; T310's follow one another by code, 0 to 15. */
enum callcontrol_length {
    CALLCONTROL_LENGTH_OF_T301 = 0,
    CALLCONTROL_LENGTH_OF_T302 = 1,
    CALLCONTROL_LENGTH_OF_T303 = 2,
    CALLCONTROL_LENGTH_OF_T306 = 3,
    CALLCONTROL_LENGTH_OF_T308 = 4,
    CALLCONTROL_LENGTH_OF_T311 = 5,
    CALLCONTROL_LENGTH_OF_T310 = 6
};

/*
 * Makes a bank in which no timer runs, with a first reading of the counter, and counts 39; answer
 * 1 and nothing written if bank_len is not 39.
 */
uint32_t callcontrol_bank_new(uint8_t *bank, size_t bank_len, uint32_t reading); /* in libhost.a */

/* STOP: the timer no longer runs, if it ran. Answer 0, 1 or 30, count 0. */
uint32_t callcontrol_bank_stop(uint8_t *bank, size_t bank_len, uint16_t timer); /* in libhost.a */

/*
 * START: the timer runs from the last accepted reading on for its length in the table, anew if it
 * ran; code matters for T310 alone. A table may end behind the entry asked for. Answer 0, 1, 30 or
 * 31, count 0; after 31 repeat it with a right length: the call record counts the timer as running.
 */
uint32_t callcontrol_bank_start(uint8_t *bank, size_t bank_len,
                                const uint32_t *lengths, size_t lengths_len,
                                uint16_t timer, uint8_t code); /* in libhost.a */

/*
 * A new reading: writes the numbers of all timers then due to the front of due, the earliest
 * deadline first and equal ones by rising number, and counts them (timers, not bytes); they no
 * longer run. Later elements of due stay as they are. Answer 0, 1, 32 or 33; a list of
 * CALLCONTROL_TIMERS is always long enough, and after 33 the reading counts as not made.
 */
uint32_t callcontrol_bank_advance(uint8_t *bank, size_t bank_len, uint32_t reading,
                                  uint16_t *due, size_t due_len); /* in libhost.a */

/* ---- Direct mode --------------------------------------------------------------------------- */

/*
 * The outgoing call between sets without a network, with presence check: ETSI EN 300 396-3, clause
 * 6.2.2.1. It has a record, kinds and answers of its own; its timers DT303 and DT311 are not the
 * network's T303 and T311. Its records have the layout of all others.
 */

#define CALLCONTROL_DIRECT_RECORD_SIZE 7u   /* bytes of a record */
#define CALLCONTROL_DIRECT_EVENT_MAX 7u     /* bytes of the longest event */
#define CALLCONTROL_DIRECT_MESSAGE_MAX 6u   /* bytes of the longest message */
#define CALLCONTROL_DIRECT_STEP_MAX 27u     /* the most one step writes */
#define CALLCONTROL_DIRECT_ATTEMPTS_MAX 15u /* m; the least is 1 */

/* Answers 0 to 4 and 7 as above, and these, in the order 1 2 3 4 60 61 7. */
enum callcontrol_direct_answer {
    CALLCONTROL_DIRECT_BEYOND = 60, /* attempts out of 1 to 15, or lowest above target */
    CALLCONTROL_DIRECT_NO_ROW = 61  /* nothing is foreseen for this event in this state */
};

/* Offsets of a record's fields, one byte each. */
enum callcontrol_direct_field {
    CALLCONTROL_DIRECT_AT_STATE = 0,
    CALLCONTROL_DIRECT_AT_TARGET = 1,
    CALLCONTROL_DIRECT_AT_LOWEST = 2,
    CALLCONTROL_DIRECT_AT_LIMIT = 3, /* attempts that the request allows */
    CALLCONTROL_DIRECT_AT_USED = 4,  /* attempts made */
    CALLCONTROL_DIRECT_AT_DT303 = 5, /* timers, each 0 or 1 */
    CALLCONTROL_DIRECT_AT_DT311 = 6
};

enum callcontrol_direct_state {
    CALLCONTROL_DIRECT_IDLE = 0,
    CALLCONTROL_DIRECT_PRESENCE_CHECK = 1,
    CALLCONTROL_DIRECT_ACTIVE = 2
};

enum callcontrol_direct_report { /* v */
    CALLCONTROL_DIRECT_SENT = 0,
    CALLCONTROL_DIRECT_BUSY = 1,
    CALLCONTROL_DIRECT_UNKNOWN = 2
};

enum callcontrol_direct_timer { /* n, u16 */
    CALLCONTROL_DT303 = 303,
    CALLCONTROL_DT311 = 311
};

/* t a grade of service (higher is better), l the lowest that is accepted, m attempts: any byte. */
enum callcontrol_direct_event_kind {
    CALLCONTROL_DIRECT_SETUP_REQUEST = 0x0801, /* t l m */
    CALLCONTROL_DMA_REPORT = 0x0802,           /* v */
    CALLCONTROL_DM_CONNECT = 0x0803,           /* t */
    CALLCONTROL_DM_DISCONNECT = 0x0804,
    CALLCONTROL_DIRECT_EXPIRY = 0x0805 /* n */
};

enum callcontrol_direct_message_kind {
    CALLCONTROL_DM_SETUP_PRES = 0x0901,  /* t l */
    CALLCONTROL_DM_CONNECT_ACK = 0x0902, /* t */
    CALLCONTROL_DM_RELEASE = 0x0903,
    CALLCONTROL_DIRECT_STOP = 0x0911,          /* n */
    CALLCONTROL_DIRECT_START = 0x0912,         /* n */
    CALLCONTROL_DIRECT_CONFIGURE = 0x0913,     /* t */
    CALLCONTROL_DIRECT_SETUP_CONFIRM = 0x0921, /* t */
    CALLCONTROL_DIRECT_RELEASE_INDICATION = 0x0922
};

/* Writes the fresh record, and counts 7; answer 1 and nothing written if record_len is not 7. */
uint32_t callcontrol_direct_fresh(uint8_t *record, size_t record_len); /* in libhost_direct.a */

/*
 * One event: the next record is in record and the messages at the front of out, or, with any answer
 * but 0, no byte has changed. 27 bytes are always enough for out.
 */
uint32_t callcontrol_direct_step(uint8_t *record, size_t record_len,
                                 const uint8_t *event, size_t event_len,
                                 uint8_t *out, size_t out_len); /* in libhost_direct.a */

/* What reading one event or one message answers: 0, 2, 3 or 4, with the place. */
uint32_t callcontrol_direct_check_event(const uint8_t *bytes, size_t len);   /* in libhost_direct.a */
uint32_t callcontrol_direct_check_message(const uint8_t *bytes, size_t len); /* in libhost_direct.a */

/* Reads one event or one message, and writes it back to the front of out; 7 if it does not fit. */
uint32_t callcontrol_direct_copy_event(const uint8_t *bytes, size_t len,
                                       uint8_t *out, size_t out_len); /* in libhost_direct.a */
uint32_t callcontrol_direct_copy_message(const uint8_t *bytes, size_t len,
                                         uint8_t *out, size_t out_len); /* in libhost_direct.a */

/* ---- Channel change responses -------------------------------------------------------------- */

/*
 * The lower layers ask whether to follow a channel allocation ("channel change response required",
 * EN 300 392-2 clause 14.5.3.2). Each question brings a number, and the call: the identifier in the
 * PDU that came with it. The answer is a message CALLCONTROL_CHANNEL_ANSWER with the number and a
 * verdict, which the host hands to the lower layers as "channel change accepted". A question is
 * answered in the call that asks, or it waits in one of four rooms and is answered by its decision or
 * by its call's end, whichever comes first. The functions return answer * 2^24 + count.
 *
 * A refusal changes nothing and answers nothing: 50, 51 and 53 leave the lower layers without an
 * answer, and what they do then is the host's to settle. After 7 lend more and call again.
 *
 * A group D-SETUP that the network repeats is a question of its own each time, with its own number.
 * A decision is for one question: hand the user's SETUP response or RELEASE request in for every
 * question of that call that waits for the user, in the order asked.
 *
 * Group calls are another part's of the set. CANCEL, which callcontrol_channel_ask writes, takes back
 * the U-SETUP of a group call: that part carries it out, gets its REPORTs, and says whether it worked.
 * No call record is touched by it, and none must be kept for a group call.
 */

/* What the rooms hold, four times: 0 free, 1 waits for the user, 2 for the cancel. */
enum callcontrol_room_field {
    CALLCONTROL_ROOM_AT_WAIT = 0,   /* u8; a free room is zeros */
    CALLCONTROL_ROOM_AT_NUMBER = 1, /* u16 */
    CALLCONTROL_ROOM_AT_CALL = 3,   /* u16 */
    CALLCONTROL_ROOM_SIZE = 5
};

/* The verdict in a message CALLCONTROL_CHANNEL_ANSWER. */
enum callcontrol_verdict {
    CALLCONTROL_ACCEPT = 0,
    CALLCONTROL_REJECT = 1,
    CALLCONTROL_IGNORE = 2
};

/* What is asked. For the first two use callcontrol_channel_pdu, which takes the step's result. */
enum callcontrol_asked {
    CALLCONTROL_ASKED_TAKEN = 0,        /* individually addressed, and the step took the PDU: accept */
    CALLCONTROL_ASKED_REFUSED = 1,      /* individually addressed, and the step refused it: reject */
    CALLCONTROL_ASKED_GROUP = 2,        /* D-SETUP to a group that we aren't calling: waits for the user */
    CALLCONTROL_ASKED_OWN_GROUP = 3,    /* to one that we are calling, U-SETUP not reported sent, service compatible: writes CANCEL, waits for it */
    CALLCONTROL_ASKED_OWN_GROUP_OTHERWISE = 4, /* to one that we are calling, otherwise: answer 53 */
    CALLCONTROL_ASKED_OBEYED = 5,       /* a group addressed PDU of an ongoing call that is obeyed: accept */
    CALLCONTROL_ASKED_OVER_OWN_TRANSMISSION = 6, /* not obeyed: D-TX GRANTED or D-TX INTERRUPT while we transmit: ignore */
    CALLCONTROL_ASKED_NOT_OBEYED = 7    /* not obeyed otherwise: reject */
};

/* What is decided. */
enum callcontrol_decision {
    CALLCONTROL_SETUP_RESPONDED = 0,  /* the user's SETUP response: accept */
    CALLCONTROL_RELEASE_REQUESTED = 1, /* the user's RELEASE request: reject */
    CALLCONTROL_T330_EXPIRED = 2,     /* reject */
    CALLCONTROL_CANCEL_WORKED = 3,    /* accept */
    CALLCONTROL_CANCEL_FAILED = 4     /* ignore */
};

/* Writes four free rooms and counts 20; answer 1 and nothing written if rooms_len is not 20. */
uint32_t callcontrol_channel_fresh(uint8_t *rooms, size_t rooms_len); /* in libhost.a */

/*
 * A question of this number, on a PDU with this call's identifier (0 to 16383). One that waits is
 * answer 0 with the count of what it wrote: 0, or CANCEL's 4. For a question that waits for the user
 * the host starts T330 from this answer on, and stops it when the question is answered; no bank has
 * T330. Answer 0, 1, 4, 50, 51, 53 or 7.
 */
uint32_t callcontrol_channel_ask(uint8_t *rooms, size_t rooms_len, uint16_t number, uint16_t call,
                                 uint8_t asked, uint8_t *out, size_t out_len); /* in libhost.a */

/*
 * The question on an individually addressed PDU, with the result that callcontrol_step or
 * callcontrol_console_step returned for that PDU: accepted if the step took it, else rejected. A step
 * that got 7 has not taken it: make the step again with more room first, and ask after the last try.
 * Answer 0, 1, 4, 50 or 7.
 */
uint32_t callcontrol_channel_pdu(uint8_t *rooms, size_t rooms_len, uint16_t number, uint16_t call,
                                 uint32_t result, uint8_t *out, size_t out_len); /* in libhost.a */

/* A decision for the waiting question of this number. Answer 0, 1, 4, 52 or 7. */
uint32_t callcontrol_channel_decide(uint8_t *rooms, size_t rooms_len, uint16_t number,
                                    uint8_t decision, uint8_t *out, size_t out_len); /* in libhost.a */

/*
 * A call has ended: the questions that wait for it are rejected, rooms rising, all or none. A record
 * that is fresh again has no identifier: keep it from before the step that ends the call. The question
 * on the ending PDU itself is asked first, by callcontrol_channel_pdu, and accepted. Answer 0, 1, 4 or 7.
 */
uint32_t callcontrol_channel_ended(uint8_t *rooms, size_t rooms_len, uint16_t call,
                                   uint8_t *out, size_t out_len); /* in libhost.a */

#ifdef __cplusplus
}
#endif

#endif /* CALLCONTROL_H */
