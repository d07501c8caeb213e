/*
 * How the fuzzer changes a case: by libFuzzer's own changes of bytes, and as often by changes that leave it a net and a sheet in form, so
 * that the later checks are met too: a word, an entry in its order, an arc, a count, a node split in two, a firing, a length that is lent.
 */
#include <string.h>
#include "fuzz.h"
#include "split.h"
#include "wulthrein.h"

size_t LLVMFuzzerMutate(uint8_t *data, size_t size, size_t max_size);
size_t LLVMFuzzerCustomMutator(uint8_t *data, size_t size, size_t max_size, unsigned int seed);

static uint32_t state;

static uint32_t below(uint32_t limit)
{
    state = state * 1664525u + 1013904223u;
    return (uint32_t)((uint64_t)(state ^ state >> 15) * limit >> 32);
}

/* ---- words, and keyed entries behind a head */

enum { WORDS = 9000 };

struct words {
    uint32_t at[WORDS];
    size_t count;
};

static struct words net, sheet, record;

static void load(struct words *w, const uint8_t *bytes, size_t length)
{
    size_t i;
    w->count = length / 4 < WORDS - 4 ? length / 4 : WORDS - 4;
    for (i = 0; i < w->count; i++)
        w->at[i] = (uint32_t)bytes[4 * i] | (uint32_t)bytes[4 * i + 1] << 8 | (uint32_t)bytes[4 * i + 2] << 16 | (uint32_t)bytes[4 * i + 3] << 24;
}

static uint8_t *store(uint8_t *bytes, const struct words *w)
{
    size_t i, j;
    for (i = 0; i < w->count; i++)
        for (j = 0; j < 4; j++)
            *bytes++ = (uint8_t)(w->at[i] >> (8 * j));
    return bytes;
}

/* How many entries there are behind a head, or -1 where the words are not in form. */
static long entries(const struct words *w, size_t head)
{
    return w->count >= head && w->at[head - 1] <= 4096 && w->count == head + 2 * w->at[head - 1] ? (long)w->at[head - 1] : -1;
}

/* The key gets a value, or goes. */
static void set(struct words *w, size_t head, uint32_t key, uint32_t value, int keep)
{
    long k = entries(w, head);
    size_t i, n = (size_t)k;
    if (k < 0)
        return;
    for (i = 0; i < n && w->at[head + i] < key; i++)
        ;
    if (i < n && w->at[head + i] == key) {
        w->at[head + n + i] = value;
        if (keep)
            return;
        memmove(w->at + head + n + i, w->at + head + n + i + 1, 4 * (n - i - 1));
        memmove(w->at + head + i, w->at + head + i + 1, 4 * (2 * n - i - 2));
        w->at[head - 1]--;
        w->count -= 2;
    } else if (keep && n < 4096 && w->count + 2 <= WORDS) {
        memmove(w->at + head + i + 1, w->at + head + i, 4 * (2 * n - i));
        memmove(w->at + head + n + i + 2, w->at + head + n + 1 + i, 4 * (n - i));
        w->at[head + i] = key;
        w->at[head + n + 1 + i] = value;
        w->at[head - 1]++;
        w->count += 2;
    }
}

static uint32_t some_number(void)
{
    static const uint32_t edges[] = {0, 1, 2, 31, 32, 33, 127, 128, 129, 4095, 4096, 4097, 999999999, 1000000000, 1000000001, 2147483648u, 4294967295u};
    return below(3) == 0 ? edges[below(sizeof edges / sizeof edges[0])] : below(6);
}

/* ---- changes */

static void change_word(struct words *w)
{
    size_t i;
    if (w->count == 0)
        return;
    i = below((uint32_t)w->count);
    switch (below(3)) {
    case 0: w->at[i] = some_number(); break;
    case 1: w->at[i] += below(2) ? 1 : 4294967295u; break;
    default: w->at[i] = w->at[below((uint32_t)w->count)]; break;
    }
}

static void change_net(void)
{
    uint32_t places = net.at[0], transitions = net.at[1];
    long k = entries(&net, 3);
    if (k < 0 || places < 1 || places > 32 || transitions < 1 || transitions > 32)
        change_word(&net);
    else if (k > 0 && below(3) == 0)
        set(&net, 3, net.at[3 + below((uint32_t)k)], 0, 0);
    else
        set(&net, 3, below((2 * transitions + 2) * places), 1 + some_number(), 1);
}

/* A node that an arc leads to is split: what was accepted mostly is so still. */
static void split_node(uint32_t transitions, uint32_t places)
{
    static struct words old;
    uint32_t nodes = sheet.at[0], k = sheet.at[1], entry;
    if (nodes >= 128 || k == 0 || k > 2048)
        return;
    entry = below(k);
    if (sheet.at[2 + entry] >= nodes * transitions || sheet.at[2 + k + entry] >= nodes)
        return;
    old = sheet;
    sheet.count = split(sheet.at, old.at, transitions, places, old.at[2 + k + entry], entry);
}

static void change_sheet(void)
{
    uint32_t places = net.at[0], transitions = net.at[1], nodes = sheet.at[0], node;
    long k = entries(&sheet, 2);
    if (k < 0 || net.count < 3 || places < 1 || places > 32 || transitions < 1 || transitions > 32 || nodes < 1 || nodes > 128) {
        change_word(&sheet);
        return;
    }
    node = below(nodes);
    switch (below(6)) {
    case 0: set(&sheet, 2, node * transitions + below(transitions), below(nodes), below(4) != 0); break;
    case 1: set(&sheet, 2, nodes * transitions + node * places + below(places), 1 + some_number(), below(4) != 0); break;
    case 2: if (k > 0) set(&sheet, 2, sheet.at[2 + below((uint32_t)k)], below(nodes), below(2) != 0); break;
    default: split_node(transitions, places); break;
    }
}

static void change_record(void)
{
    if (record.count > 0 && below(3) == 0)
        record.count--;
    else if (record.count < 60)
        record.at[record.count++] = below(8) == 0 ? some_number() : below(net.count > 1 && net.at[1] <= 32 ? net.at[1] + 1 : 4);
    else
        change_word(&record);
}

static void change_lent(uint8_t *head)
{
    static const uint16_t outs[] = {0, 3, 4, 5, 31, 32, 33, 127, 128, 129, 32775, 32776, 32777}, scratches[] = {0, 32767, 32768, 32769, 32771, 40000};
    static const uint8_t replies[] = {0, 1, 47, 48, 49, 100};
    uint16_t length;
    switch (below(5)) {
    case 0: length = outs[below(13)], head[4] = (uint8_t)length, head[5] = (uint8_t)(length >> 8); break;
    case 1: length = scratches[below(6)], head[6] = (uint8_t)length, head[7] = (uint8_t)(length >> 8); break;
    case 2: head[8] = replies[below(6)]; break;
    case 3: head[9 + below(2)] = (uint8_t)(below(8) ? below(12) : below(256)); break;
    default: head[11 + below(2)] = (uint8_t)below(256); break;
    }
}

size_t LLVMFuzzerCustomMutator(uint8_t *data, size_t size, size_t max_size, unsigned int seed)
{
    static uint8_t made[FUZZ_HEAD + 3 * 4 * WORDS];
    struct fuzz_case c;
    uint8_t *end;
    uint32_t changes;
    state = seed * 2654435761u + 1;
    if (!fuzz_case_read(&c, data, size) || below(4) == 0)
        return LLVMFuzzerMutate(data, size, max_size);
    load(&net, c.net, c.net_length);
    load(&sheet, c.sheet, c.sheet_length);
    load(&record, c.record, c.record_length);
    memcpy(made, data, FUZZ_HEAD);
    for (changes = 1 + below(3); changes > 0; changes--)
        switch (below(8)) {
        case 0: change_word(below(2) ? &net : &sheet); break;
        case 1: change_net(); break;
        case 2: case 3: case 4: change_sheet(); break;
        case 5: case 6: change_record(); break;
        default: change_lent(made); break;
        }
    end = store(store(store(made + FUZZ_HEAD, &net), &sheet), &record);
    made[0] = (uint8_t)(4 * net.count);
    made[1] = (uint8_t)(4 * net.count >> 8);
    made[2] = (uint8_t)(4 * sheet.count);
    made[3] = (uint8_t)(4 * sheet.count >> 8);
    size = (size_t)(end - made);
    if (size > max_size || size > FUZZ_MOST)
        return LLVMFuzzerMutate(data, (size_t)(FUZZ_HEAD + c.net_length + c.sheet_length + c.record_length), max_size);
    memcpy(data, made, size);
    return size;
}
