/*
 * A host of the calls over bytes: every buffer stands between canaries, filled with bytes of which each is known, and every byte is
 * looked at after each call. Lengths of reply 0, 47, 48 and 49, odd lengths of scratch, inputs of every length modulo four, and output
 * buffers as long as needed, one byte less and one more. `host exact` lends blocks of just their length, for a checker of memory.
 * The last line is 'N passed, M failed'.
 */
#include <stdio.h>
#include <stdlib.h>
#include <string.h>
#include "wulthrein.h"

enum { GUARD = 64, CANARY = 0xA5 };

static unsigned long passed, failed;
static size_t guard = GUARD;

static void expect(int right, const char *what, size_t a, size_t b, size_t c)
{
    if (right) {
        passed++;
        return;
    }
    if (++failed <= 10)
        printf("FAILED %s (%lu, %lu, %lu)\n", what, (unsigned long)a, (unsigned long)b, (unsigned long)c);
}

/* ---- buffers */

struct buffer {
    uint8_t *block, *bytes;
    size_t length;
};

static uint8_t filling(size_t i)
{
    return (uint8_t)(37 * i + 11);
}

static struct buffer lend(size_t length)
{
    struct buffer b;
    size_t i;
    b.block = (uint8_t *)malloc(length + 2 * guard + (length + guard == 0));
    if (b.block == NULL)
        exit(2);
    b.bytes = b.block + guard;
    b.length = length;
    memset(b.block, CANARY, length + 2 * guard);
    for (i = 0; i < length; i++)
        b.bytes[i] = filling(i);
    return b;
}

static struct buffer lend_words(const uint32_t *words, size_t count, size_t more)
{
    struct buffer b = lend(4 * count + more);
    size_t i, j;
    for (i = 0; i < count; i++)
        for (j = 0; j < 4; j++)
            b.bytes[4 * i + j] = (uint8_t)(words[i] >> (8 * j));
    return b;
}

/* Whether the canaries stand and the bytes from some place on are as they were filled. */
static int kept_from(const struct buffer *b, size_t from)
{
    size_t i;
    for (i = 0; i < guard; i++)
        if (b->block[i] != CANARY || b->bytes[b->length + i] != CANARY)
            return 0;
    for (i = from; i < b->length; i++)
        if (b->bytes[i] != filling(i))
            return 0;
    return 1;
}

static int words_are(const struct buffer *b, const uint32_t *words, size_t count)
{
    size_t i, j;
    for (i = 0; i < count; i++)
        for (j = 0; j < 4; j++)
            if (b->bytes[4 * i + j] != (uint8_t)(words[i] >> (8 * j)))
                return 0;
    return 1;
}

static int zero_to(const struct buffer *b, size_t to)
{
    size_t i;
    for (i = 0; i < to; i++)
        if (b->bytes[i] != 0)
            return 0;
    return 1;
}

/* ---- the example: fill, drain, fill, drain (14.4), and a record of three firings */

static const uint32_t NET[] = {1, 2, 2, 1, 2, 1, 1};
static const uint32_t SHEET[] = {4, 6, 0, 3, 4, 7, 9, 11, 1, 2, 3, 0, 1, 1};
static const uint32_t FIRINGS[] = {0, 1, 0};
static const uint32_t FORM[] = {2, 3, 0, 3, 5, 1, 0, 1};
static const uint32_t COUNTS[] = {1};

#define COUNT(words) (sizeof(words) / sizeof(words)[0])

/* ---- one call */

enum call { CHECK, RUN, SHORT_FORM };

static const uint64_t OWN[3][3] = {{4, 4, 2}, {3, 3, 3}, {8, 0, 0}};

/* Makes a call and looks at what it left. The inputs have so many bytes too many; needed are the bytes of the result. */
static void make(enum call call, const size_t more[3], size_t out_length, size_t scratch_length, size_t reply_length)
{
    struct buffer net = lend_words(NET, COUNT(NET), more[0]), sheet = lend_words(SHEET, COUNT(SHEET), more[1]);
    struct buffer record = lend_words(FIRINGS, COUNT(FIRINGS), more[2]);
    struct buffer out = lend(out_length), scratch = lend(scratch_length), reply = lend(reply_length);
    const uint32_t *result = call == RUN ? COUNTS : FORM;
    size_t needed = call == CHECK ? 0 : call == RUN ? COUNT(COUNTS) : COUNT(FORM);
    int broken = more[0] % 4 != 0 || more[1] % 4 != 0 || (call == RUN && more[2] % 4 != 0);
    int small_reply = reply_length < WULTHREIN_REPLY_BYTES, small_scratch = scratch_length < WULTHREIN_SCRATCH_BYTES;
    uint32_t number = small_reply || small_scratch ? 21 : broken ? 31 : 0, returned;
    int i;
    if (number == 0 && more[0] != 0) /* whole words too many */
        number = 1;
    if (number == 0 && more[1] != 0)
        number = 6;
    if (number == 0 && call == RUN && more[2] != 0)
        number = 20;
    if (number == 0 && out_length / 4 < needed)
        number = 22;

    if (call == CHECK)
        returned = wulthrein_check(net.bytes, net.length, sheet.bytes, sheet.length, scratch.bytes, scratch.length, reply.bytes, reply.length);
    else if (call == RUN)
        returned = wulthrein_run(net.bytes, net.length, sheet.bytes, sheet.length, record.bytes, record.length, out.bytes, out.length,
                                 scratch.bytes, scratch.length, reply.bytes, reply.length);
    else
        returned = wulthrein_short_form(net.bytes, net.length, sheet.bytes, sheet.length, out.bytes, out.length, scratch.bytes,
                                        scratch.length, reply.bytes, reply.length);

    expect(returned == number, "returned", (size_t)call, returned, number);
    expect(kept_from(&net, 4 * COUNT(NET)) && kept_from(&sheet, 4 * COUNT(SHEET)) && kept_from(&record, 4 * COUNT(FIRINGS)) &&
               words_are(&net, NET, COUNT(NET)) && words_are(&sheet, SHEET, COUNT(SHEET)) && words_are(&record, FIRINGS, COUNT(FIRINGS)),
           "inputs", (size_t)call, number, 0);
    if (small_reply || small_scratch)
        expect(kept_from(&scratch, 0), "scratch untouched", (size_t)call, scratch_length, reply_length);
    else
        expect(zero_to(&scratch, WULTHREIN_SCRATCH_BYTES) && kept_from(&scratch, WULTHREIN_SCRATCH_BYTES), "scratch cleared", (size_t)call,
               scratch_length, 0);
    if (number == 0 && needed != 0)
        expect(words_are(&out, result, needed) && kept_from(&out, 4 * needed), "result", (size_t)call, out_length, needed);
    else
        expect(kept_from(&out, 0), "no result", (size_t)call, out_length, number);
    if (small_reply) {
        expect(kept_from(&reply, 0), "reply untouched", (size_t)call, reply_length, 0);
    } else {
        expect(kept_from(&reply, WULTHREIN_REPLY_BYTES), "past the reply", (size_t)call, reply_length, 0);
        expect(wulthrein_number(reply.bytes, WULTHREIN_NUMBER) == number &&
                   wulthrein_number(reply.bytes, WULTHREIN_KIND) == (number == 20 ? WULTHREIN_RECORD : WULTHREIN_NONE) &&
                   wulthrein_number(reply.bytes, WULTHREIN_POSITION) == (number == 20 ? 3u : 0u),
               "number, kind, position", (size_t)call, number, (size_t)wulthrein_number(reply.bytes, WULTHREIN_KIND));
        for (i = 0; i < 3; i++)
            expect(wulthrein_number(reply.bytes, (enum wulthrein_reply)(3 + i)) == (number == 0 ? OWN[call][i] : 0), "own number", (size_t)call,
                   (size_t)i, number);
    }
    free(net.block);
    free(sheet.block);
    free(record.block);
    free(out.block);
    free(scratch.block);
    free(reply.block);
}

/* A single firing at a node, and what it returns where nothing is short or broken. */
static void fire(const size_t more[3], size_t scratch_length, uint32_t node, uint32_t transition, uint32_t fired)
{
    struct buffer net = lend_words(NET, COUNT(NET), more[0]), sheet = lend_words(SHEET, COUNT(SHEET), more[1]), scratch = lend(scratch_length);
    uint32_t number = scratch_length < WULTHREIN_SCRATCH_BYTES ? 21 : more[0] % 4 != 0 || more[1] % 4 != 0 ? 31 : more[0] != 0 ? 1 : more[1] != 0 ? 6 : 0;
    uint32_t returned = wulthrein_fire(net.bytes, net.length, sheet.bytes, sheet.length, node, transition, scratch.bytes, scratch.length);
    expect(returned == (number == 0 ? fired : WULTHREIN_REFUSED + number), "fired", node, transition, returned);
    expect(kept_from(&net, 4 * COUNT(NET)) && kept_from(&sheet, 4 * COUNT(SHEET)), "inputs of a firing", node, transition, 0);
    if (number == 21)
        expect(kept_from(&scratch, 0), "scratch of a firing untouched", scratch_length, 0, 0);
    else
        expect(zero_to(&scratch, WULTHREIN_SCRATCH_BYTES) && kept_from(&scratch, WULTHREIN_SCRATCH_BYTES), "scratch of a firing", scratch_length, 0, 0);
    free(net.block);
    free(sheet.block);
    free(scratch.block);
}

int main(int count, char **words)
{
    static const size_t replies[] = {0, 1, 47, 48, 49, 100}, outs[] = {0, 3, 4, 5, 7, 31, 32, 33, 35, 36, 64, 32776};
    static const size_t scratches[] = {0, 1, 8192, 32767, 32768, 32769, 32771, 40000};
    static const size_t whole[3] = {0, 0, 0};
    size_t more[3], i, j, call;
    if (count == 2 && strcmp(words[1], "exact") == 0)
        guard = 0;
    for (call = CHECK; call <= SHORT_FORM; call++) {
        for (i = 0; i < COUNT(replies); i++)
            for (j = 0; j < COUNT(scratches); j++)
                make((enum call)call, whole, 32776, scratches[j], replies[i]);
        for (i = 0; i < COUNT(outs); i++)
            for (j = 0; j < COUNT(replies); j++)
                make((enum call)call, whole, outs[i], 32768, replies[j]);
        for (more[0] = 0; more[0] < 5; more[0]++)
            for (more[1] = 0; more[1] < 5; more[1]++)
                for (more[2] = 0; more[2] < 5; more[2]++)
                    for (j = 3; j < 5; j++)
                        make((enum call)call, more, 33, scratches[j], 49);
    }
    for (i = 0; i < COUNT(scratches); i++) {
        fire(whole, scratches[i], 0, 0, 1);
        fire(whole, scratches[i], 1, 1, 2);
        fire(whole, scratches[i], 3, 1, 0);
        fire(whole, scratches[i], 0, 1, WULTHREIN_REFUSED + 20);
        fire(whole, scratches[i], 0, 2, WULTHREIN_REFUSED + 20);
        fire(whole, scratches[i], 4, 0, WULTHREIN_REFUSED + 18);
        fire(whole, scratches[i], 4294967295u, 4294967295u, WULTHREIN_REFUSED + 18);
    }
    more[2] = 0;
    for (more[0] = 0; more[0] < 5; more[0]++)
        for (more[1] = 0; more[1] < 5; more[1]++)
            fire(more, 32768, 2, 0, 3);
    printf("%lu passed, %lu failed\n", passed, failed);
    return failed != 0;
}
