/*
 * A header controller in small: reads a net and a sheet, checks the sheet, and then follows it. Where the sheet waits, it asks the site
 * which source comes next; then it fires until the sheet waits again, and asks for the outcome wherever there is a choice.
 *
 *     controller NET SHEET < EVENTS
 *
 * NET and SHEET are files of words of four bytes, least significant byte first. EVENTS are the numbers of transitions, parted by blanks:
 * what the site answers, in its order. The exit status is 0 where every event could be fired, 1 where something was refused, and 2 where
 * a file cannot be read.
 */
#include <stdio.h>
#include <stdlib.h>
#include "wulthrein.h"

static uint8_t net[WULTHREIN_NET_BYTES + 4], sheet[WULTHREIN_SHEET_BYTES + 4]; /* a word more than fits, so that too long is seen */
static size_t net_length, sheet_length;
static uint8_t scratch[WULTHREIN_SCRATCH_BYTES], reply[WULTHREIN_REPLY_BYTES];

static size_t read_file(const char *name, uint8_t *bytes, size_t room)
{
    FILE *file = fopen(name, "rb");
    size_t length;
    if (file == NULL) {
        fprintf(stderr, "controller: %s cannot be read\n", name);
        exit(2);
    }
    length = fread(bytes, 1, room, file);
    fclose(file);
    return length;
}

/* What a call replied where it refused. */
static int refused(const char *what)
{
    static const char *const kinds[] = {"none", "entry", "place", "node", "record"};
    printf("%s refused by %u, %s %u\n", what, (unsigned)wulthrein_number(reply, WULTHREIN_NUMBER),
           kinds[wulthrein_number(reply, WULTHREIN_KIND)], (unsigned)wulthrein_number(reply, WULTHREIN_POSITION));
    return 1;
}

static uint32_t fire(uint32_t node, uint32_t transition)
{
    return wulthrein_fire(net, net_length, sheet, sheet_length, node, transition, scratch, sizeof scratch);
}

/* The transitions that a node offers, one bit each. */
static uint32_t offered(uint32_t node)
{
    uint32_t set = 0, t;
    for (t = 0; t < WULTHREIN_TRANSITIONS; t++)
        if (wulthrein_refused(fire(node, t)) == 0)
            set |= (uint32_t)1 << t;
    return set;
}

static uint32_t lowest(uint32_t set)
{
    uint32_t t = 0;
    while ((set >> t & 1) == 0)
        t++;
    return t;
}

/* The site's next event, or nothing at the end. */
static int ask(uint32_t *transition)
{
    unsigned given;
    if (scanf("%u", &given) != 1)
        return 0;
    *transition = given;
    return 1;
}

/* What was fired, as the record of a run: its end node and its counts are those of the sheet. */
static int check_record(const uint8_t *record, size_t length, uint32_t node)
{
    uint8_t counts[WULTHREIN_COUNTS_BYTES];
    size_t places = net[0], p;
    if (wulthrein_run(net, net_length, sheet, sheet_length, record, length, counts, sizeof counts, scratch, sizeof scratch, reply,
                      sizeof reply) != WULTHREIN_ACCEPTED)
        return refused("the record");
    printf("fired %u, at node %u%s, counts", (unsigned)wulthrein_number(reply, WULTHREIN_RUN_FIRED),
           (unsigned)wulthrein_number(reply, WULTHREIN_RUN_NODE), wulthrein_number(reply, WULTHREIN_RUN_NODE) == node ? "" : " (not where it stands)");
    for (p = 0; p < places; p++)
        printf(" %lu", (unsigned long)(counts[4 * p] + 256ul * counts[4 * p + 1] + 65536ul * counts[4 * p + 2] + 16777216ul * counts[4 * p + 3]));
    printf("\n");
    return 0;
}

static int follow_events(void)
{
    static uint8_t record[4 * 4096]; /* each firing as a word, the transition in its lowest byte */
    size_t length = 0;
    uint32_t node = 0, sources = offered(0), set, transition = 0, next; /* node 0 waits, so it offers the sources */
    for (;;) {
        set = offered(node);
        if (set == sources)
            printf("node %u waits\n", (unsigned)node);
        if ((set != sources && (set & (set - 1)) == 0)) {
            transition = lowest(set); /* nothing to ask */
        } else if (length == sizeof record || !ask(&transition)) {
            break;
        }
        next = fire(node, transition);
        if (wulthrein_refused(next) != 0) {
            printf("node %u: transition %u refused by %u\n", (unsigned)node, (unsigned)transition, (unsigned)wulthrein_refused(next));
            return 1;
        }
        printf("node %u fires %u to node %u\n", (unsigned)node, (unsigned)transition, (unsigned)next);
        record[length] = (uint8_t)transition;
        length += 4;
        node = next;
    }
    return check_record(record, length, node);
}

int main(int count, char **words)
{
    static uint8_t form[WULTHREIN_SHEET_BYTES];
    if (count != 3) {
        fprintf(stderr, "usage: controller NET SHEET < EVENTS\n");
        return 2;
    }
    net_length = read_file(words[1], net, sizeof net);
    sheet_length = read_file(words[2], sheet, sizeof sheet);
    if (wulthrein_check(net, net_length, sheet, sheet_length, scratch, sizeof scratch, reply, sizeof reply) != WULTHREIN_ACCEPTED)
        return refused("the sheet");
    printf("accepted: %u nodes, %u arcs, %u await nodes\n", (unsigned)wulthrein_number(reply, WULTHREIN_CHECK_NODES),
           (unsigned)wulthrein_number(reply, WULTHREIN_CHECK_ARCS), (unsigned)wulthrein_number(reply, WULTHREIN_CHECK_AWAITS));
    if (wulthrein_short_form(net, net_length, sheet, sheet_length, form, sizeof form, scratch, sizeof scratch, reply, sizeof reply) != WULTHREIN_ACCEPTED)
        return refused("the short form");
    printf("its short form has %u words\n", (unsigned)wulthrein_number(reply, WULTHREIN_FORM_WORDS));
    return follow_events();
}
