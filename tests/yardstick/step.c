/* The six entries for one call, under names of their own. */
#include "plain.h"

uint32_t PLAIN(fresh)(uint8_t *record, size_t record_len)
{
    if (record_len != RECORD_SIZE)
        return REFUSED(1, 0);
    pack(&FRESH, record);
    return RECORD_SIZE;
}

uint32_t PLAIN(step)(uint8_t *record, size_t record_len, const uint8_t *bytes, size_t len,
                    uint8_t *out, size_t out_len)
{
    struct call c;
    struct event e;
    struct orders o = {0};
    if (record_len != RECORD_SIZE || !unpack(&c, record))
        return REFUSED(1, 0);
    uint32_t answer = read_event(&e, bytes, len);
    if (answer)
        return answer;
    answer = row(&c, &e, &o);
    if (answer)
        return REFUSED(answer, 0);
    size_t count = written(&o);
    if (count > out_len)
        return REFUSED(7, 0);
    lay(out, &o, c.code);
    pack(&c, record);
    return (uint32_t)count;
}

uint32_t PLAIN(check_event)(const uint8_t *bytes, size_t len)
{
    struct event e;
    return read_event(&e, bytes, len);
}

/* What was read is in range, so that its bytes are what would be written. */
uint32_t PLAIN(copy_event)(const uint8_t *bytes, size_t len, uint8_t *out, size_t out_len)
{
    struct event e;
    uint32_t answer = read_event(&e, bytes, len);
    if (answer)
        return answer;
    if (len > out_len)
        return REFUSED(7, 0);
    memcpy(out, bytes, len);
    return (uint32_t)len;
}

static uint32_t read_message(const uint8_t *b, size_t len)
{
    if (len < 4 || u16_at(b) != len)
        return REFUSED(2, 0);
    switch (u16_at(b + 2)) {
    case 0x0501: /* U-SETUP a d q, or with s */
        SIZE_OR_SLOTS(6);
        ASK(u32_at(b + 4) - 1 < ADDRESS_MAX, 4);
        ASK(b[8] <= 1, 8);
        ASK(b[9] <= 1, 9);
        ASK(len == 10 || (uint8_t)(b[10] - 1) < SLOTS_MAX, 10);
        return 0;
    case 0x0502: case 0x0506: case 0x0507: /* i */
        SIZE(2);
        ASK(IS_ID(u16_at(b + 4)), 4);
        return 0;
    case 0x0503: /* U-DISCONNECT i c, i may be 0 */
        SIZE(3);
        ASK(u16_at(b + 4) <= ID_MAX, 4);
        ASK((uint8_t)(b[6] - 1) <= 3, 6);
        return 0;
    case 0x0504: /* U-RELEASE i, 0 allowed */
        SIZE(2);
        ASK(u16_at(b + 4) <= ID_MAX, 4);
        return 0;
    case 0x0505: /* U-INFO i d */
        SIZE(3);
        ASK(IS_ID(u16_at(b + 4)), 4);
        ASK(b[6] <= 1, 6);
        return 0;
    case 0x0508: case 0x0701: /* i a and a flag */
        SIZE(7);
        ASK(IS_ID(u16_at(b + 4)), 4);
        ASK(u32_at(b + 6) <= ADDRESS_MAX, 6);
        ASK(b[10] <= 1, 10);
        return 0;
    case 0x0601: /* STOP n */
        SIZE(2);
        ASK(timer_bit(u16_at(b + 4)), 4);
        return 0;
    case 0x0602: /* START n o */
        SIZE(3);
        ASK(timer_bit(u16_at(b + 4)), 4);
        ASK(b[6] <= (u16_at(b + 4) == 310 ? CODE_MAX : 0), 6);
        return 0;
    case 0x0603: /* CONFIGURE p */
    case 0x0706: /* RELEASE indication c */
        SIZE(1);
        ASK((uint8_t)(b[4] - 1) <= 3, 4);
        return 0;
    case 0x0604: case 0x0703: case 0x0704: case 0x0707:
        SIZE(0);
        return 0;
    case 0x0605: /* a console's place */
        SIZE(1);
        ASK(b[4] < PLACES, 4);
        return 0;
    case 0x0606: /* CHANNEL ANSWER u v */
        SIZE(3);
        ASK(b[6] <= 2, 6);
        return 0;
    case 0x0702: /* SETUP confirm i g */
        SIZE(3);
        ASK(IS_ID(u16_at(b + 4)), 4);
        ASK(b[6] <= 3, 6);
        return 0;
    case 0x0705: /* COMPLETE g */
        SIZE(1);
        ASK(b[4] <= 3, 4);
        return 0;
    case 0x0708: /* TX indication x */
        SIZE(1);
        ASK(b[4] <= 8, 4);
        return 0;
    case 0x0709: /* MODIFY indication d s */
        SIZE(2);
        ASK(b[4] <= 1, 4);
        ASK((uint8_t)(b[5] - 1) < SLOTS_MAX, 5);
        return 0;
    }
    return REFUSED(3, 0);
}

uint32_t PLAIN(check_message)(const uint8_t *bytes, size_t len)
{
    return read_message(bytes, len);
}

uint32_t PLAIN(copy_message)(const uint8_t *bytes, size_t len, uint8_t *out, size_t out_len)
{
    uint32_t answer = read_message(bytes, len);
    if (answer)
        return answer;
    if (len > out_len)
        return REFUSED(7, 0);
    memcpy(out, bytes, len);
    return (uint32_t)len;
}
