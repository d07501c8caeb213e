/*
 * A case of the fuzzing harness as bytes: sixteen of a head, then the net, the sheet and the record.
 *
 *     0  the length of the net      2  the length of the sheet      4  of the output      6  of scratch      (two bytes each, the lesser first)
 *     8  the length of the reply    9  the node                    10  the transition    11  the places     12  the filling
 *
 * What follows the sheet is the record. A length beyond the bytes that are there is cut. Node and transition from 250 on are great ones.
 */
#ifndef FUZZ_H
#define FUZZ_H

#include <stddef.h>
#include <stdint.h>

enum { FUZZ_HEAD = 16, FUZZ_MOST = 66000 };

struct fuzz_case {
    const uint8_t *net, *sheet, *record;
    size_t net_length, sheet_length, record_length, out_length, scratch_length, reply_length;
    uint32_t node, transition;
    uint8_t places, filling;
};

static inline size_t fuzz_length(const uint8_t *data)
{
    return (size_t)data[0] | (size_t)data[1] << 8;
}

static inline uint32_t fuzz_number(uint8_t byte)
{
    return byte < 250 ? byte : 0xffffffffu - (255u - byte) * 0x1fffffffu;
}

/* Reads a case; 0 where there is none. */
static inline int fuzz_case_read(struct fuzz_case *c, const uint8_t *data, size_t size)
{
    size_t left = size - FUZZ_HEAD;
    if (size < FUZZ_HEAD || size > FUZZ_MOST)
        return 0;
    c->net_length = fuzz_length(data) < left ? fuzz_length(data) : left;
    left -= c->net_length;
    c->sheet_length = fuzz_length(data + 2) < left ? fuzz_length(data + 2) : left;
    c->record_length = left - c->sheet_length;
    c->out_length = fuzz_length(data + 4);
    c->scratch_length = fuzz_length(data + 6);
    c->reply_length = data[8];
    c->node = fuzz_number(data[9]);
    c->transition = fuzz_number(data[10]);
    c->places = data[11];
    c->filling = data[12];
    c->net = data + FUZZ_HEAD;
    c->sheet = c->net + c->net_length;
    c->record = c->sheet + c->sheet_length;
    return 1;
}

#endif
