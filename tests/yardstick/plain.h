/*
 * One call in plain C, written for speed: the paper's checks and rows by hand, no table, no
 * abstraction, nothing proved. It is what the library's time and code are measured by, and the test
 * `yardstick` holds it to the Rust account. For a little-endian machine.
 */
#ifndef PLAIN_H
#define PLAIN_H

#include <stddef.h>
#include <stdint.h>
#include <string.h>

/* Compiled twice, for speed and for size, under two names. */
#ifdef FOR_SIZE
#define PLAIN(name) plain_small_##name
#else
#define PLAIN(name) plain_##name
#endif

enum { RECORD_SIZE = 22, PLACES = 8, TABLE_SIZE = PLACES * RECORD_SIZE, MARK_SIZE = 5 };
enum { ID_MAX = 16383, ADDRESS_MAX = 16777215, CODE_MAX = 15, CODE_ABSENT = 16, SLOTS_MAX = 4 };
enum { IDLE, MO, MT, ACTIVE, WAIT, DISCONNECT };
enum { UP, BROKEN, RESTORING };
enum { T301 = 1, T302 = 2, T303 = 4, T306 = 8, T308 = 16, T310 = 32, T311 = 64 };
enum { OFF = 4 };

struct call {
    uint32_t address;
    uint16_t id;
    uint8_t state, mode, asked, sent, path, plane, kept, code, slots;
    uint8_t timers; /* a bit for each that runs */
};

struct event {
    uint32_t a;
    uint16_t kind, i;
    uint8_t g, d, o, r, k; /* k also for q */
    uint8_t s;             /* 0 where the body carries none */
    uint8_t n;             /* a bit, as in timers */
};

struct orders {
    uint8_t stops, cancel, starts, plane; /* plane 0: no CONFIGURE */
    uint32_t pdu, user;                   /* heads, 0: none */
    uint64_t pdu_body, user_body;
};

static inline uint16_t u16_at(const uint8_t *b) { uint16_t v; memcpy(&v, b, 2); return v; }
static inline uint32_t u32_at(const uint8_t *b) { uint32_t v; memcpy(&v, b, 4); return v; }
static inline void put16(uint8_t *b, uint16_t v) { memcpy(b, &v, 2); }
static inline void put32(uint8_t *b, uint32_t v) { memcpy(b, &v, 4); }

#define REFUSED(answer, place) ((uint32_t)(answer) << 24 | (uint32_t)(place) << 16)
#define HEAD(size, kind) ((uint32_t)(4 + (size)) | (uint32_t)(kind) << 16)

static const struct call FRESH = {.plane = OFF, .kept = OFF, .slots = 1};

/* ---- the record */

/* Whether these bytes are a record, and a sound one. */
static inline int unpack(struct call *c, const uint8_t *b)
{
    uint64_t t;
    memcpy(&t, b + 13, 8); /* the T310 code and the seven timers */
    uint64_t flags = t >> 8;
    if (b[0] > DISCONNECT || b[7] > 1 || (b[8] | b[9]) > 1 || b[10] > RESTORING ||
        (uint8_t)(b[11] - 1) > 3 || (uint8_t)(b[12] - 1) > 3 ||
        (uint8_t)(b[21] - 1) >= SLOTS_MAX || (flags & 0xFEFEFEFEFEFEFEu))
        return 0;
    c->state = b[0];
    c->id = u16_at(b + 1);
    c->address = u32_at(b + 3);
    c->mode = b[7];
    c->asked = b[8];
    c->sent = b[9];
    c->path = b[10];
    c->plane = b[11];
    c->kept = b[12];
    c->code = b[13];
    c->slots = b[21];
    c->timers = (uint8_t)(flags * 0x0102040810204080u >> 56); /* one bit of each byte */
    /* sound */
    if (c->state == IDLE)
        return !(c->id | c->address | c->mode | c->asked | c->sent | c->path | c->code | c->timers) &&
               c->plane == OFF && c->kept == OFF && c->slots == 1;
    int up = c->state == ACTIVE && c->path == UP;
    return c->id <= ID_MAX && c->address <= ADDRESS_MAX && c->code <= CODE_MAX &&
           !!(c->timers & T311) == (c->plane == 1) && !!(c->timers & T306) == (c->path == RESTORING) &&
           (c->plane == OFF || up) && (c->path == UP || c->state == ACTIVE) &&
           (c->kept == OFF || c->state == WAIT) && (c->id || c->state == MO || c->state == DISCONNECT);
}

static inline void pack(const struct call *c, uint8_t *b)
{
    b[0] = c->state;
    put16(b + 1, c->id);
    put32(b + 3, c->address);
    b[7] = c->mode;
    b[8] = c->asked;
    b[9] = c->sent;
    b[10] = c->path;
    b[11] = c->plane;
    b[12] = c->kept;
    b[13] = c->code;
    for (int k = 0; k < 7; k++)
        b[14 + k] = c->timers >> k & 1;
    b[21] = c->slots;
}

/* ---- reading */

static inline uint8_t timer_bit(uint16_t n)
{
    switch (n) {
    case 301: return T301;
    case 302: return T302;
    case 303: return T303;
    case 306: return T306;
    case 308: return T308;
    case 310: return T310;
    case 311: return T311;
    }
    return 0;
}

#define SIZE(size) if (len != 4 + (size)) return REFUSED(4, 2)
/* A body that may carry the slots behind its other fields, and the slots. */
#define SIZE_OR_SLOTS(size) if (len != 4 + (size) && len != 5 + (size)) return REFUSED(4, 2)
#define ASK_SLOTS(e, size) \
    e->s = len == 5 + (size) ? b[4 + (size)] : 0; \
    ASK(len == 4 + (size) || (uint8_t)(e->s - 1) < SLOTS_MAX, 4 + (size))
#define ASK(holds, at) if (!(holds)) return REFUSED(4, at)
#define IS_ID(v) ((uint16_t)((v) - 1) < ID_MAX)

static inline uint32_t read_event(struct event *e, const uint8_t *b, size_t len)
{
    if (len < 4 || u16_at(b) != len)
        return REFUSED(2, 0);
    e->kind = u16_at(b + 2);
    switch (e->kind) {
    case 0x0101: /* SETUP request a d q, or with s */
        SIZE_OR_SLOTS(6);
        e->a = u32_at(b + 4), e->d = b[8], e->k = b[9];
        ASK(e->a - 1 < ADDRESS_MAX, 4);
        ASK(e->d <= 1, 8);
        ASK(e->k <= 1, 9);
        ASK_SLOTS(e, 6);
        return 0;
    case 0x0102: case 0x0103: case 0x0301: case 0x0302: case 0x0303: case 0x0304:
        SIZE(0);
        return 0;
    case 0x0104: /* TX request k */
        SIZE(1);
        e->k = b[4];
        ASK(e->k <= 1, 4);
        return 0;
    case 0x0105: /* MODIFY request, retired */
        return REFUSED(9, 0);
    case 0x0201: case 0x0202: case 0x0208: case 0x020A: /* i */
        SIZE(2);
        e->i = u16_at(b + 4);
        ASK(IS_ID(e->i), 4);
        return 0;
    case 0x0203: /* D-CONNECT i g d o, or with s */
        SIZE_OR_SLOTS(5);
        e->i = u16_at(b + 4), e->g = b[6], e->d = b[7], e->o = b[8];
        ASK(IS_ID(e->i), 4);
        ASK(e->g <= 3, 6);
        ASK(e->d <= 1, 7);
        ASK(e->o <= CODE_MAX, 8);
        ASK_SLOTS(e, 5);
        return 0;
    case 0x0204: /* D-CONNECT ACKNOWLEDGE i g o */
        SIZE(4);
        e->i = u16_at(b + 4), e->g = b[6], e->o = b[7];
        ASK(IS_ID(e->i), 4);
        ASK(e->g <= 3, 6);
        ASK(e->o <= CODE_MAX, 7);
        return 0;
    case 0x0205: /* D-SETUP i a d */
        SIZE(7);
        e->i = u16_at(b + 4), e->a = u32_at(b + 6), e->d = b[10];
        ASK(IS_ID(e->i), 4);
        ASK(e->a <= ADDRESS_MAX, 6);
        ASK(e->d <= 1, 10);
        return 0;
    case 0x0206: /* D-INFO i r o d, or with s */
        SIZE_OR_SLOTS(5);
        e->i = u16_at(b + 4), e->r = b[6], e->o = b[7], e->d = b[8];
        ASK(IS_ID(e->i), 4);
        ASK(e->r <= 1, 6);
        ASK(e->o <= CODE_ABSENT, 7);
        ASK(e->d <= 1, 8);
        ASK_SLOTS(e, 5);
        return 0;
    case 0x0207: case 0x0209: /* i g */
        SIZE(3);
        e->i = u16_at(b + 4), e->g = b[6];
        ASK(IS_ID(e->i), 4);
        ASK(e->g <= 3, 6);
        return 0;
    case 0x020B: /* D-TX CONTINUE i k */
        SIZE(3);
        e->i = u16_at(b + 4), e->k = b[6];
        ASK(IS_ID(e->i), 4);
        ASK(e->k <= 1, 6);
        return 0;
    case 0x020C: /* D-CALL RESTORE i g r o */
        SIZE(5);
        e->i = u16_at(b + 4), e->g = b[6], e->r = b[7], e->o = b[8];
        ASK(IS_ID(e->i), 4);
        ASK(e->g <= 3, 6);
        ASK(e->r <= 1, 7);
        ASK(e->o <= CODE_ABSENT, 8);
        return 0;
    case 0x020D: case 0x020E: /* i, 0 allowed */
        SIZE(2);
        e->i = u16_at(b + 4);
        ASK(e->i <= ID_MAX, 4);
        return 0;
    case 0x0401: /* expiry n */
        SIZE(2);
        e->n = timer_bit(u16_at(b + 4));
        ASK(e->n, 4);
        return 0;
    }
    return REFUSED(3, 0);
}

/* ---- rows */

static inline void stop(struct call *c, struct orders *o, uint8_t timers)
{
    o->stops |= c->timers & timers;
    c->timers &= (uint8_t)~timers;
}

static inline void start(struct call *c, struct orders *o, uint8_t timer)
{
    c->timers |= timer;
    o->stops &= (uint8_t)~timer;
    o->starts |= timer;
}

static inline void store_slots(struct call *c, uint8_t s)
{
    if (s)
        c->slots = s;
}

static inline void start_t310(struct call *c, struct orders *o, uint8_t code)
{
    c->code = code;
    if (code)
        start(c, o, T310);
    else
        stop(c, o, T310);
}

static inline void configure(struct call *c, struct orders *o, uint8_t plane)
{
    if (plane == 1)
        start(c, o, T311);
    else
        stop(c, o, T311);
    c->plane = o->plane = plane;
}

static inline void grant(struct call *c, struct orders *o, uint8_t g)
{
    if (g == 0)
        configure(c, o, c->mode ? 3 : 1);
    else if (g == 3)
        configure(c, o, 2);
    if (g < 2)
        c->asked = 0;
}

static inline void grant_or_off(struct call *c, struct orders *o, uint8_t g)
{
    grant(c, o, g);
    if (g == 1 || g == 2)
        configure(c, o, OFF);
}

static inline void pdu(struct orders *o, uint32_t head, uint64_t body) { o->pdu = head, o->pdu_body = body; }
static inline void user(struct orders *o, uint32_t head, uint64_t body) { o->user = head, o->user_body = body; }
static inline void tx_indication(struct orders *o, uint8_t x) { user(o, HEAD(1, 0x0708), x); }

static inline void release(struct call *c, struct orders *o, uint8_t cause)
{
    stop(c, o, 127);
    pdu(o, HEAD(3, 0x0503), c->id | (uint64_t)cause << 16);
    start(c, o, T308);
    configure(c, o, OFF);
    c->sent = c->asked = 0;
    c->path = UP;
    c->kept = OFF;
    c->state = DISCONNECT;
}

static inline void end_call(struct call *c, struct orders *o, uint32_t head, uint64_t body)
{
    stop(c, o, 127);
    o->plane = OFF;
    user(o, head, body);
    *c = FRESH;
}

#define RELEASE_CONFIRM HEAD(0, 0x0707), 0
#define RELEASE_INDICATION(cause) HEAD(1, 0x0706), cause

/* The row of an event that was read, on a sound record: 0, 5, 6 or 8. */
static inline uint32_t row(struct call *c, const struct event *e, struct orders *o)
{
    uint8_t s = c->state;
    if (e->kind >> 8 == 2 && e->kind != 0x0205 && e->i != c->id && (c->id || s == IDLE))
        return 5;
    switch (e->kind) {
    case 0x0101:
        if (s != IDLE)
            return 6;
        c->state = MO, c->address = e->a, c->mode = e->d, c->asked = e->k;
        store_slots(c, e->s);
        pdu(o, e->s ? HEAD(7, 0x0501) : HEAD(6, 0x0501),
            e->a | (uint64_t)e->d << 32 | (uint64_t)e->k << 40 | (uint64_t)e->s << 48);
        start(c, o, T303);
        return 0;
    case 0x0102:
        if (s != MT || c->timers & T301)
            return 6;
        pdu(o, HEAD(2, 0x0502), c->id);
        start(c, o, T301);
        return 0;
    case 0x0103:
        if (s == IDLE || s == DISCONNECT)
            return 6;
        if (s == MO && !c->sent) {
            o->cancel = 1;
            stop(c, o, T303);
            user(o, RELEASE_CONFIRM);
            *c = FRESH;
        } else
            release(c, o, 1);
        return 0;
    case 0x0104:
        if (s != ACTIVE || c->path == RESTORING)
            return 6;
        if (c->path == BROKEN) {
            if (e->k == c->asked)
                return 6;
            c->asked = e->k;
        } else if (e->k) {
            if (c->asked || (c->plane != 2 && c->plane != OFF))
                return 6;
            pdu(o, HEAD(2, 0x0506), c->id);
            c->asked = 1;
        } else if (c->plane == 1) {
            pdu(o, HEAD(2, 0x0507), c->id);
            configure(c, o, OFF);
        } else if (c->asked) {
            pdu(o, HEAD(2, 0x0507), c->id);
            c->asked = 0;
        } else
            return 6;
        return 0;
    case 0x0201: case 0x0202:
        if (s != MO)
            return 6;
        c->id = e->i, c->sent = 1;
        stop(c, o, T303);
        start(c, o, T302);
        user(o, HEAD(0, e->kind == 0x0201 ? 0x0703 : 0x0704), 0);
        return 0;
    case 0x0203:
        if (s != MO)
            return 6;
        c->id = e->i, c->mode = e->d, c->sent = 1, c->state = ACTIVE;
        store_slots(c, e->s);
        stop(c, o, T302 | T303);
        start_t310(c, o, e->o);
        grant_or_off(c, o, e->g);
        user(o, HEAD(3, 0x0702), e->i | (uint64_t)e->g << 16);
        return 0;
    case 0x0204:
        if (s != MT || !(c->timers & T301))
            return 6;
        c->state = ACTIVE;
        stop(c, o, T301);
        start_t310(c, o, e->o);
        grant_or_off(c, o, e->g);
        user(o, HEAD(1, 0x0705), e->g);
        return 0;
    case 0x0205:
        if (s != IDLE)
            return 6;
        c->state = MT, c->id = e->i, c->address = e->a, c->mode = e->d;
        user(o, HEAD(7, 0x0701), e->i | (uint64_t)e->a << 16 | (uint64_t)e->d << 48);
        return 0;
    case 0x0206:
        if (s != ACTIVE || c->path != UP)
            return 6;
        if (c->plane & 1)
            return 8;
        if (e->r)
            start_t310(c, o, e->o == CODE_ABSENT ? c->code : e->o);
        if (e->d != c->mode) {
            c->mode = e->d;
            configure(c, o, OFF);
        } else
            o->plane = c->plane;
        store_slots(c, e->s);
        user(o, HEAD(2, 0x0709), e->d | (uint64_t)c->slots << 8);
        return 0;
    case 0x0207:
        if (s != ACTIVE || c->path != UP)
            return 6;
        grant(c, o, e->g);
        tx_indication(o, e->g);
        return 0;
    case 0x0208:
        if (s != ACTIVE || c->path != UP)
            return 6;
        configure(c, o, OFF);
        tx_indication(o, 4);
        return 0;
    case 0x0209:
        if (s != ACTIVE || c->path != UP)
            return 6;
        configure(c, o, e->g == 3 ? 2 : OFF);
        tx_indication(o, 5);
        return 0;
    case 0x020A:
        if (s != ACTIVE || c->path != UP)
            return 6;
        c->state = WAIT, c->kept = c->plane;
        configure(c, o, OFF);
        tx_indication(o, 6);
        return 0;
    case 0x020B:
        if (s != WAIT)
            return 6;
        c->state = ACTIVE;
        configure(c, o, e->k ? c->kept : OFF);
        c->kept = OFF;
        tx_indication(o, e->k ? 7 : 8);
        return 0;
    case 0x020C:
        if (s != ACTIVE || c->path != RESTORING)
            return 6;
        stop(c, o, T306);
        c->path = UP;
        grant(c, o, e->g);
        if (e->r)
            start_t310(c, o, e->o == CODE_ABSENT ? c->code : e->o);
        tx_indication(o, e->g);
        return 0;
    case 0x020D:
        if (s == IDLE)
            return 6;
        o->cancel = s == DISCONNECT && !c->sent;
        pdu(o, HEAD(2, 0x0504), e->i);
        end_call(c, o, RELEASE_INDICATION(3));
        return 0;
    case 0x020E:
        if (s == IDLE)
            return 6;
        o->cancel = s == DISCONNECT && !c->sent;
        if (s == DISCONNECT && c->sent)
            end_call(c, o, RELEASE_CONFIRM);
        else
            end_call(c, o, RELEASE_INDICATION(3));
        return 0;
    case 0x0301:
        if ((s != MO && s != DISCONNECT) || c->sent)
            return 6;
        c->sent = 1;
        return 0;
    case 0x0302:
        if ((s != MO && s != DISCONNECT) || c->sent)
            return 6;
        if (s == MO) {
            stop(c, o, T303);
            user(o, RELEASE_INDICATION(4));
            *c = FRESH;
        } else
            end_call(c, o, RELEASE_CONFIRM);
        return 0;
    case 0x0303:
        if (s == WAIT) {
            c->state = ACTIVE, c->kept = OFF;
            tx_indication(o, 8);
        } else if (s != ACTIVE || c->path == BROKEN)
            return 6;
        else if (c->path == RESTORING)
            stop(c, o, T306);
        else if (c->plane & 1)
            c->asked = 1;
        c->path = BROKEN;
        configure(c, o, OFF);
        return 0;
    case 0x0304:
        if (s != ACTIVE || c->path != BROKEN)
            return 6;
        c->asked |= c->mode;
        c->path = RESTORING;
        pdu(o, HEAD(7, 0x0508), c->id | (uint64_t)c->address << 16 | (uint64_t)c->asked << 48);
        start(c, o, T306);
        return 0;
    case 0x0401:
        if (!(c->timers & e->n))
            return 6;
        if (s == DISCONNECT) {
            if (e->n != T308)
                return 6;
            c->timers &= (uint8_t)~T308;
            end_call(c, o, RELEASE_CONFIRM);
        } else if (e->n == T311) {
            if (s != ACTIVE || c->path != UP)
                return 6;
            c->timers &= (uint8_t)~T311;
            pdu(o, HEAD(2, 0x0507), c->id);
            configure(c, o, OFF);
        } else {
            if (e->n == T308)
                return 6;
            c->timers &= (uint8_t)~e->n;
            release(c, o, 2);
            user(o, RELEASE_INDICATION(2));
        }
        return 0;
    }
    return 6;
}

/* ---- laying */

static const uint16_t TIMER_NUMBER[7] = {301, 302, 303, 306, 308, 310, 311};

static inline size_t written(const struct orders *o)
{
    return 6u * (unsigned)__builtin_popcount(o->stops) + 7u * (unsigned)__builtin_popcount(o->starts) +
           (o->cancel ? 4u : 0u) + (o->plane ? 5u : 0u) + (o->pdu & 0xFFFF) + (o->user & 0xFFFF);
}

static inline uint8_t *lay_one(uint8_t *out, uint32_t head, uint64_t body)
{
    put32(out, head);
    out += 4;
    switch ((head & 0xFFFF) - 4) {
    case 0: return out;
    case 1: out[0] = (uint8_t)body; return out + 1;
    case 2: put16(out, (uint16_t)body); return out + 2;
    case 3: put16(out, (uint16_t)body), out[2] = (uint8_t)(body >> 16); return out + 3;
    case 6: put32(out, (uint32_t)body), put16(out + 4, (uint16_t)(body >> 32)); return out + 6;
    }
    put32(out, (uint32_t)body), put16(out + 4, (uint16_t)(body >> 32)), out[6] = (uint8_t)(body >> 48);
    return out + 7;
}

static inline void lay(uint8_t *out, const struct orders *o, uint8_t code)
{
    for (unsigned t = o->stops; t; t &= t - 1) {
        put32(out, HEAD(2, 0x0601));
        put16(out + 4, TIMER_NUMBER[__builtin_ctz(t)]);
        out += 6;
    }
    if (o->cancel) {
        put32(out, HEAD(0, 0x0604));
        out += 4;
    }
    if (o->pdu)
        out = lay_one(out, o->pdu, o->pdu_body);
    for (unsigned t = o->starts; t; t &= t - 1) {
        put32(out, HEAD(3, 0x0602));
        put16(out + 4, TIMER_NUMBER[__builtin_ctz(t)]);
        out[6] = t & -t & T310 ? code : 0;
        out += 7;
    }
    if (o->plane) {
        put32(out, HEAD(1, 0x0603));
        out[4] = o->plane;
        out += 5;
    }
    if (o->user)
        lay_one(out, o->user, o->user_body);
}

#endif
