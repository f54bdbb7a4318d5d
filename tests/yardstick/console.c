/* The console's two entries, under names of their own. */
#include "plain.h"

uint32_t PLAIN(console_fresh)(uint8_t *table, size_t table_len)
{
    if (table_len != TABLE_SIZE)
        return REFUSED(1, 0);
    for (int k = 0; k < PLACES; k++)
        pack(&FRESH, table + k * RECORD_SIZE);
    return TABLE_SIZE;
}

/* A key for each place: the identifier, and in IDLE a number that no other has. */
static inline int lowest(const uint16_t *keys, uint16_t key)
{
    int k = 0;
    while (k < PLACES && keys[k] != key)
        k++;
    return k;
}

static inline int lowest_idle(const uint16_t *keys)
{
    int k = 0;
    while (k < PLACES && keys[k] <= ID_MAX)
        k++;
    return k;
}

/* What a place writes, behind the record with its number. */
static inline void lay_place(uint8_t *out, int k, const struct orders *o, uint8_t code)
{
    put32(out, HEAD(1, 0x0605));
    out[4] = (uint8_t)k;
    lay(out + MARK_SIZE, o, code);
}

uint32_t PLAIN(console_step)(uint8_t *table, size_t table_len, uint8_t place, const uint8_t *bytes,
                            size_t len, uint8_t *out, size_t out_len)
{
    struct call calls[PLACES];
    uint16_t keys[PLACES];
    struct event e;
    if (table_len != TABLE_SIZE)
        return REFUSED(1, 0);
    for (int k = 0; k < PLACES; k++) {
        if (!unpack(&calls[k], table + k * RECORD_SIZE))
            return REFUSED(1, 0);
        keys[k] = calls[k].state == IDLE ? (uint16_t)(ID_MAX + 1 + k) : calls[k].id;
    }
    for (int j = 0; j < PLACES; j++)
        for (int k = j + 1; k < PLACES; k++)
            if (keys[j] == keys[k])
                return REFUSED(1, 0);
    uint32_t answer = read_event(&e, bytes, len);
    if (answer)
        return answer;

    int at;
    switch (e.kind) {
    case 0x0101:
        if (lowest(keys, 0) < PLACES)
            return REFUSED(42, 0);
        at = lowest_idle(keys);
        if (at == PLACES)
            return REFUSED(43, 0);
        break;
    case 0x0205:
        if (lowest(keys, e.i) < PLACES)
            return REFUSED(41, 0);
        at = lowest_idle(keys);
        if (at == PLACES)
            return REFUSED(43, 0);
        break;
    case 0x0102: case 0x0103: case 0x0104: case 0x0301: case 0x0302: case 0x0401:
        if (place >= PLACES)
            return REFUSED(40, 0);
        at = place;
        break;
    case 0x0303: case 0x0304: {
        struct orders all[PLACES];
        uint8_t taken[PLACES];
        size_t room = 0, some = 0;
        for (int k = 0; k < PLACES; k++) {
            all[k] = (struct orders){0};
            taken[k] = !row(&calls[k], &e, &all[k]);
            if (taken[k]) {
                size_t count = written(&all[k]);
                room += count ? MARK_SIZE + count : 0;
                some = 1;
            }
        }
        if (!some)
            return REFUSED(6, 0);
        if (room > out_len)
            return REFUSED(7, 0);
        for (int k = 0; k < PLACES; k++) {
            if (!taken[k])
                continue;
            size_t count = written(&all[k]);
            if (count) {
                lay_place(out, k, &all[k], calls[k].code);
                out += MARK_SIZE + count;
            }
            pack(&calls[k], table + k * RECORD_SIZE);
        }
        return (uint32_t)room;
    }
    default:
        at = lowest(keys, e.i);
        if (at == PLACES)
            at = lowest(keys, 0);
        if (at == PLACES)
            return REFUSED(5, 0);
    }

    struct orders o = {0};
    answer = row(&calls[at], &e, &o);
    if (answer)
        return REFUSED(answer, 0);
    size_t count = written(&o);
    if (count) {
        if (MARK_SIZE + count > out_len)
            return REFUSED(7, 0);
        lay_place(out, at, &o, calls[at].code);
        count += MARK_SIZE;
    }
    pack(&calls[at], table + at * RECORD_SIZE);
    return (uint32_t)count;
}
