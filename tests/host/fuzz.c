/*
 * A harness of the calls over bytes for libFuzzer, one program for each CALL. A case is a net, a sheet, a record, a node, a transition and
 * the lengths that are lent. Every buffer stands against a page that may not be touched, with a canary on its other side. After each call
 * all that the header promises of its buffers is looked at; then it is made again, with other contents and other places of what it is lent,
 * and has to answer the same; then the calls are held to one another. What is wrong is told, and ends the program by abort().
 *
 * With PLAY defined no fuzzer is needed: the program plays the files that it is handed, and ends with 'N passed, 0 failed'.
 */
#include <stdio.h>
#include <stdlib.h>
#include <string.h>
#include <sys/mman.h>
#include <unistd.h>
#include "fuzz.h"
#include "split.h"
#include "wulthrein.h"

enum call { CHECK, RUN, SHORT_FORM, FIRE, CALLS };

#ifndef CALL
#define CALL CHECK
#endif

static const char *const NAMES[] = {"check", "run", "short_form", "fire"};

static void hold(int right, const char *what)
{
    if (!right) {
        fprintf(stderr, "BROKEN PROMISE: %s\n", what);
        abort();
    }
}

/* ---- buffers */

enum { ROOM = 20 * 4096, CANARY = 64, CANARY_BYTE = 0xA5 };

/* Pages between two that may not be touched. */
static uint8_t *new_room(void)
{
    size_t page = (size_t)sysconf(_SC_PAGESIZE);
    uint8_t *start = (uint8_t *)mmap(NULL, ROOM + 2 * page, PROT_NONE, MAP_PRIVATE | MAP_ANONYMOUS, -1, 0);
    if (start == (uint8_t *)MAP_FAILED || mprotect(start + page, ROOM, PROT_READ | PROT_WRITE) != 0)
        exit(2);
    return start + page;
}

/* What buffers are filled with, from one of the first places on, and what cleared scratch holds. */
static uint8_t filling[ROOM + 256], zeros[WULTHREIN_SCRATCH_BYTES];

struct buffer {
    uint8_t *bytes, *canary;
    const uint8_t *before; /* what it held before the call */
    size_t length;
};

/* Lends bytes of a room: its last ones, or its first, so that one end is the end of what may be touched. */
static struct buffer lend(uint8_t *room, size_t length, int last, const uint8_t *content)
{
    struct buffer b;
    b.bytes = last ? room + ROOM - length : room;
    b.canary = last ? b.bytes - CANARY : b.bytes + length;
    b.before = content;
    b.length = length;
    memcpy(b.bytes, content, length);
    memset(b.canary, CANARY_BYTE, CANARY);
    return b;
}

/* Whether the canary stands and the bytes from some place on are as they were. */
static int kept_from(const struct buffer *b, size_t from)
{
    size_t i;
    for (i = 0; i < CANARY; i++)
        if (b->canary[i] != CANARY_BYTE)
            return 0;
    return memcmp(b->bytes + from, b->before + from, b->length - from) == 0;
}

static int cleared(const struct buffer *b)
{
    return memcmp(b->bytes, zeros, sizeof zeros) == 0 && kept_from(b, sizeof zeros);
}

/* All that is lent, and what it is filled with at first. */
static uint8_t *net_room, *sheet_room, *record_room, *out_room, *scratch_room, *reply_room;

static void make_rooms(void)
{
    size_t i;
    for (i = 0; i < sizeof filling; i++)
        filling[i] = (uint8_t)(37 * i + i / 256);
    net_room = new_room();
    sheet_room = new_room();
    record_room = new_room();
    out_room = new_room();
    scratch_room = new_room();
    reply_room = new_room();
}

/* A word of an input, 0 where it has fewer. */
static uint32_t word(const uint8_t *bytes, size_t length, size_t i)
{
    return 4 * i + 4 > length ? 0 : (uint32_t)bytes[4 * i] | (uint32_t)bytes[4 * i + 1] << 8 | (uint32_t)bytes[4 * i + 2] << 16 | (uint32_t)bytes[4 * i + 3] << 24;
}

/* ---- a call and its promises */

struct answer {
    uint32_t number, returned;
    uint64_t own[3];
    size_t words;            /* of the result */
    uint8_t result[WULTHREIN_SHEET_BYTES];
};

static uint64_t met[CALLS][32];

/* Whether a call can answer a number, and what its position counts (8.2). */
static int can_answer(enum call call, uint32_t number)
{
    return number <= 17 || number == 21 || number == 26 || number == 27 || number == 31 || (number == 18 && call == FIRE) ||
           (number == 20 && (call == FIRE || call == RUN)) || (number == 22 && (call == RUN || call == SHORT_FORM));
}

static enum wulthrein_kind kind_of(uint32_t number)
{
    switch (number) {
    case 3: case 4: case 8: case 9: case 14: case 15: case 27: return WULTHREIN_ENTRY;
    case 10: case 26: return WULTHREIN_PLACE;
    case 11: case 12: case 13: case 16: case 17: return WULTHREIN_NODE;
    case 20: return WULTHREIN_RECORD;
    default: return WULTHREIN_NONE;
    }
}

static uint64_t positions(const struct fuzz_case *c, uint32_t number)
{
    switch (kind_of(number)) {
    case WULTHREIN_ENTRY: return number <= 4 ? word(c->net, c->net_length, 2) : word(c->sheet, c->sheet_length, 1);
    case WULTHREIN_PLACE: return word(c->net, c->net_length, 0);
    case WULTHREIN_NODE: return word(c->sheet, c->sheet_length, 0);
    case WULTHREIN_RECORD: return c->record_length / 4;
    default: return 1;
    }
}

/* What libFuzzer is to strive for beside the paths of this file: answers that it has not seen. */
#ifndef PLAY
__attribute__((section("__libfuzzer_extra_counters"))) static uint8_t seen[8192];

static void saw(enum call call, uint32_t number, uint64_t position, uint64_t size)
{
    uint32_t hash = (uint32_t)call;
    hash = hash * 31 + number;
    hash = hash * 131 + (uint32_t)(position < 40 ? position : 40 + position % 4);
    hash = hash * 61 + (uint32_t)(size < 20 ? size : 20 + size / 16);
    seen[hash * 2654435761u >> 19] = 1;
}
#else
static void saw(enum call call, uint32_t number, uint64_t position, uint64_t size)
{
    (void)call, (void)number, (void)position, (void)size;
}
#endif

/* The numbers of a reply, of an accepted call its own too. */
static void look_at_reply(enum call call, const struct fuzz_case *c, const uint8_t *reply, struct answer *a)
{
    int i;
    uint32_t nodes = word(c->sheet, c->sheet_length, 0), entries = word(c->sheet, c->sheet_length, 1);
    uint64_t position = wulthrein_number(reply, WULTHREIN_POSITION);
    hold(wulthrein_number(reply, WULTHREIN_NUMBER) == a->number, "the reply begins with what is returned");
    hold(wulthrein_number(reply, WULTHREIN_KIND) == (uint64_t)kind_of(a->number), "the kind of the position is the refusal's");
    hold(position < positions(c, a->number), "the position is one of those counted");
    for (i = 0; i < 3; i++)
        a->own[i] = wulthrein_number(reply, (enum wulthrein_reply)(3 + i));
    saw(call, a->number, a->number == 0 ? a->own[1] : position, a->own[0]);
    if (a->number != 0) {
        hold(a->own[0] == 0 && a->own[1] == 0 && a->own[2] == 0, "a refusal has no numbers of its own");
    } else if (call == CHECK) {
        hold(a->own[0] == nodes && a->own[1] <= entries && 1 <= a->own[2] && a->own[2] <= nodes, "nodes, arcs and await nodes");
    } else if (call == RUN) {
        hold(a->own[0] == c->record_length / 4 && a->own[1] < nodes, "the firings and the node at the end");
        hold((a->own[2] == 0) == (a->own[0] == 0) && a->own[2] <= entries, "the entry of the last firing");
        a->words = word(c->net, c->net_length, 0);
    } else {
        hold(2 <= a->own[0] && a->own[0] <= c->sheet_length / 4 && a->own[1] == 0 && a->own[2] == 0, "the words of the form");
        a->words = (size_t)a->own[0];
    }
}

/* Makes a call. Places and fillings of what is lent come from a number, on which no answer depends. */
static struct answer make(enum call call, const struct fuzz_case *c, unsigned turn)
{
    struct answer a;
    uint8_t places = (uint8_t)(turn & 1 ? ~c->places : c->places);
    const uint8_t *held = filling + (uint8_t)(c->filling + 101 * turn);
    struct buffer net = lend(net_room, c->net_length, places & 1, c->net), sheet = lend(sheet_room, c->sheet_length, places & 2, c->sheet);
    struct buffer record = lend(record_room, c->record_length, places & 4, c->record), out = lend(out_room, c->out_length, places & 8, held);
    struct buffer scratch = lend(scratch_room, c->scratch_length, places & 16, held), reply = lend(reply_room, c->reply_length, places & 32, held);
    int small_reply = call != FIRE && c->reply_length < WULTHREIN_REPLY_BYTES, small_scratch = c->scratch_length < WULTHREIN_SCRATCH_BYTES;
    int broken = c->net_length % 4 != 0 || c->sheet_length % 4 != 0 || (call == RUN && c->record_length % 4 != 0);
    memset(&a, 0, offsetof(struct answer, result));

    if (call == CHECK)
        a.returned = wulthrein_check(net.bytes, net.length, sheet.bytes, sheet.length, scratch.bytes, scratch.length, reply.bytes, reply.length);
    else if (call == RUN)
        a.returned = wulthrein_run(net.bytes, net.length, sheet.bytes, sheet.length, record.bytes, record.length, out.bytes, out.length, scratch.bytes,
                                   scratch.length, reply.bytes, reply.length);
    else if (call == SHORT_FORM)
        a.returned = wulthrein_short_form(net.bytes, net.length, sheet.bytes, sheet.length, out.bytes, out.length, scratch.bytes, scratch.length,
                                          reply.bytes, reply.length);
    else
        a.returned = wulthrein_fire(net.bytes, net.length, sheet.bytes, sheet.length, c->node, c->transition, scratch.bytes, scratch.length);

    a.number = call == FIRE ? wulthrein_refused(a.returned) : a.returned;
    hold(can_answer(call, a.number), "the number is one that the call can answer");
    met[call][a.number]++;
    hold((a.number == 21) == (small_reply || small_scratch), "21 exactly if reply or scratch is too short");
    hold((a.number == 31) == (!small_reply && !small_scratch && broken), "31 exactly if neither is and an input has a broken word");
    hold(kept_from(&net, 0) && kept_from(&sheet, 0) && kept_from(&record, 0), "inputs are left alone");
    hold(small_reply || small_scratch ? kept_from(&scratch, 0) : cleared(&scratch), "scratch is cleared, or left alone by 21");
    if (call == FIRE) {
        hold(kept_from(&reply, 0) && kept_from(&out, 0), "a firing has no reply and no output");
        hold(a.number != 0 || a.returned < word(c->sheet, c->sheet_length, 0), "a firing leads to a node");
        saw(call, a.number, a.returned & 255, 0);
    } else if (small_reply) {
        hold(kept_from(&reply, 0) && kept_from(&out, 0), "with too short a reply nothing is written");
    } else {
        hold(kept_from(&reply, WULTHREIN_REPLY_BYTES), "what lies past the reply is left alone");
        look_at_reply(call, c, reply.bytes, &a);
        hold(4 * a.words <= out.length && kept_from(&out, 4 * a.words), "what lies past the result is left alone, and all of it by a refusal");
        memcpy(a.result, out.bytes, 4 * a.words);
    }
    return a;
}

static struct answer twice(enum call call, const struct fuzz_case *c)
{
    struct answer one = make(call, c, 0), other = make(call, c, 1);
    hold(one.returned == other.returned && memcmp(one.own, other.own, sizeof one.own) == 0 && one.words == other.words &&
             memcmp(one.result, other.result, 4 * one.words) == 0,
         "another scratch, another place: the same answer");
    return one;
}

/* ---- the calls beside one another */

/* The same net and sheet with buffers that suffice. */
static struct fuzz_case with_room(const struct fuzz_case *c)
{
    struct fuzz_case d = *c;
    d.out_length = WULTHREIN_SHEET_BYTES;
    d.scratch_length = WULTHREIN_SCRATCH_BYTES;
    d.reply_length = WULTHREIN_REPLY_BYTES;
    return d;
}

/* A short form is accepted, has no more nodes, and is its own short form. */
static void form_of_form(const struct fuzz_case *c, const struct answer *form)
{
    static struct answer checked, again;
    struct fuzz_case d = with_room(c);
    d.sheet = form->result;
    d.sheet_length = 4 * form->words;
    checked = make(CHECK, &d, 2);
    hold(checked.number == 0 && checked.own[0] <= word(c->sheet, c->sheet_length, 0), "a short form is accepted and has no more nodes");
    again = make(SHORT_FORM, &d, 3);
    hold(again.number == 0 && again.words == form->words && memcmp(again.result, form->result, 4 * form->words) == 0, "a short form is its own");
}

/* A sheet with a node split in two allows the same, so that it has the same short form. The node is one that two arcs lead to, or the root. */
static void form_of_split(const struct fuzz_case *c, const struct answer *form)
{
    static struct answer again;
    static uint32_t words[WULTHREIN_SHEET_BYTES / 4], made[WULTHREIN_SHEET_BYTES / 2];
    static uint8_t bytes[4 * WULTHREIN_ENTRIES * 4];
    struct fuzz_case d = with_room(c);
    uint32_t nodes, k, node, entry = 0, arcs_there = 0, i;
    for (i = 0; i < c->sheet_length / 4; i++)
        words[i] = word(c->sheet, c->sheet_length, i);
    nodes = words[0];
    k = words[1];
    node = c->filling % nodes;
    for (i = 0; i < k && words[2 + i] < nodes * c->net[4]; i++)
        if (words[2 + k + i] == node)
            entry = i, arcs_there++;
    if (nodes == WULTHREIN_NODES || 2 * k > WULTHREIN_ENTRIES || arcs_there < (node == 0 ? 1 : 2))
        return;
    d.sheet = bytes;
    d.sheet_length = 4 * split(made, words, c->net[4], c->net[0], node, entry);
    for (i = 0; i < d.sheet_length; i++)
        bytes[i] = (uint8_t)(made[i / 4] >> (8 * (i % 4)));
    again = make(SHORT_FORM, &d, 5);
    hold(again.number == 0 && again.words == form->words && memcmp(again.result, form->result, 4 * form->words) == 0, "a node more, the same firings: the same short form");
}

/* A run goes where single firings go, one by one, as far as they go. */
static void run_by_firings(const struct fuzz_case *c, const struct answer *run)
{
    static struct answer fired;
    struct fuzz_case d = with_room(c);
    size_t i, firings = c->record_length / 4;
    if (firings > 40)
        return;
    d.node = 0;
    for (i = 0; i < firings; i++) {
        d.transition = word(c->record, c->record_length, i);
        fired = make(FIRE, &d, (unsigned)i);
        if (fired.number != 0)
            break;
        d.node = fired.returned;
    }
    if (run->number == 0)
        hold(i == firings && d.node == run->own[1], "a run ends where its firings lead");
    else if (run->number == 20)
        hold(i < firings && fired.number == 20, "a run refused by 20 has a firing that is refused by 20");
}

static void beside(enum call call, const struct fuzz_case *c, const struct answer *a)
{
    static struct answer checked;
    struct fuzz_case d = with_room(c);
    if (a->number == 21 || a->number == 31)
        return;
    checked = make(CHECK, &d, 4);
    hold(checked.number == a->number || (checked.number == 0 && (a->number == 18 || a->number == 20 || a->number == 22)), "every call checks the net and the sheet");
    if (call == SHORT_FORM && a->number == 0) {
        form_of_form(c, a);
        form_of_split(c, a);
    }
    if (call == RUN && checked.number == 0)
        run_by_firings(c, a);
}

int LLVMFuzzerTestOneInput(const uint8_t *data, size_t size);

int LLVMFuzzerTestOneInput(const uint8_t *data, size_t size)
{
    static struct answer a;
    struct fuzz_case c;
    if (net_room == NULL)
        make_rooms();
    if (fuzz_case_read(&c, data, size)) {
        a = twice(CALL, &c);
        beside(CALL, &c, &a);
    }
    return 0;
}

/* How often each number was met, at the end of the program. */
__attribute__((destructor)) static void tell(void)
{
    int i;
    fprintf(stderr, "met by %s:", NAMES[CALL]);
    for (i = 0; i < 32; i++)
        if (met[CALL][i] != 0)
            fprintf(stderr, " %d", i);
    fprintf(stderr, "\n");
}

#ifdef PLAY
int main(int count, char **words)
{
    static uint8_t data[4 * ROOM];
    int i;
    for (i = 1; i < count; i++) {
        FILE *file = fopen(words[i], "rb");
        size_t size;
        if (file == NULL)
            return 2;
        size = fread(data, 1, sizeof data, file);
        fclose(file);
        fprintf(stderr, "%s\n", words[i]);
        LLVMFuzzerTestOneInput(data, size);
    }
    printf("%d passed, 0 failed\n", count - 1);
    return 0;
}
#endif
