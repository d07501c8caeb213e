/*
 * Wulthrein: line-up schedules (sheets) of Petri nets, checked, run and shortened. Calls over byte buffers, for C and C++.
 *
 * Link libwulthrein.a, which needs nothing but memcpy and memset. docs/EMBEDDING.md tells more, docs/SPEC.md all of it: the clauses
 * named here as 15.3 are numbered there.
 *
 * What is proved of these calls holds for every content and every length of every buffer: no input is trusted, nothing outside the
 * buffers is read or written, and every call ends.
 *
 * Buffers. A buffer is a pointer and, after it, its length in bytes. Buffers that a call writes (out, scratch, reply) must not overlap
 * one another or an input. No pointer may be null, not even that of a buffer of 0 bytes: hand over the address of anything. There is no
 * alignment to keep.
 *
 * Inputs. A net, a sheet and a record are words of four bytes, least significant byte first (12.1); parts 2 and 3 of the specification
 * say what the words mean. A record is the transitions to be fired, one word for each. If the length of an input is no multiple of
 * four, the answer is 31 (WULTHREIN_BROKEN_WORD); inputs may be longer than any that is accepted.
 *
 * Scratch. At least WULTHREIN_SCRATCH_BYTES are to be lent; fewer are refused by 21 and left as they were. Otherwise those first bytes
 * are 0 after the call, whatever the answer, and what lies past them is unchanged. What scratch held before does not matter (15.4).
 *
 * Reply. The first three calls write six numbers of 64 bits, least significant byte first, to the first WULTHREIN_REPLY_BYTES of the
 * reply, refused or not; what lies past them is unchanged. If fewer bytes are lent, 21 is returned and nothing at all is written, to
 * scratch and out neither (15.3). wulthrein_number reads one of them:
 *
 *     WULTHREIN_NUMBER    0, or the number of the refusal; it is also what the call returns
 *     WULTHREIN_KIND      what the position counts
 *     WULTHREIN_POSITION  the position, from 0; 0 where nothing is counted
 *     the call's own three numbers, all 0 where it refuses
 *
 * Output. An accepted call writes its result to the first bytes of out, as words of four bytes, and leaves what lies past it. A refused
 * call writes nothing to out. A buffer whose whole words are too few is refused by 22; bytes past its last whole word are never
 * written. Any length will do otherwise: 31 is for inputs only (15.5).
 *
 * Order. 21 before 31, 31 before anything is read; then the net, the sheet, the record or the firing, and 22 last (7.65).
 *
 * Threads and time. The calls share nothing and keep nothing: any number may run at once, on buffers of their own. Each takes
 * up to 90 KB of stack.
 */
#ifndef WULTHREIN_H
#define WULTHREIN_H

#include <stddef.h>
#include <stdint.h>

#ifdef __cplusplus
extern "C" {
#endif

#define WULTHREIN_VERSION "1.0.0"

/* Limits: a buffer of the size named always suffices. */
#define WULTHREIN_PLACES 32u
#define WULTHREIN_TRANSITIONS 32u
#define WULTHREIN_NODES 128u
#define WULTHREIN_ENTRIES 4096u
#define WULTHREIN_COUNT 1000000000u

#define WULTHREIN_SCRATCH_BYTES 32768u   /* 8,192 words */
#define WULTHREIN_REPLY_BYTES 48u        /* six numbers of eight bytes */
#define WULTHREIN_NET_BYTES 16908u       /* the longest net that can be accepted */
#define WULTHREIN_SHEET_BYTES 32776u     /* the longest sheet that can be accepted; every short form fits */
#define WULTHREIN_COUNTS_BYTES 128u      /* what a run writes, of a net of 32 places */

/* Refusals by number (7.1 to 7.31). Some belong to calls that are not offered here; they are listed so that a number can be named. */
enum wulthrein_refusal {
    WULTHREIN_ACCEPTED = 0,
    WULTHREIN_RAGGED_NET = 1,          /* the net is shorter or longer than its words say */
    WULTHREIN_NET_SIZE = 2,            /* too few or too many places, transitions or entries */
    WULTHREIN_NET_ORDER = 3,           /* at an entry: its key does not rise, or is no key */
    WULTHREIN_NET_WEIGHT = 4,          /* at an entry: its weight is 0 or too large */
    WULTHREIN_NO_SOURCE = 5,           /* every transition takes something */
    WULTHREIN_RAGGED_SHEET = 6,        /* the sheet is shorter or longer than its words say */
    WULTHREIN_SHEET_SIZE = 7,          /* too few or too many nodes or entries */
    WULTHREIN_SHEET_ORDER = 8,         /* at an entry: its key does not rise, or is no key */
    WULTHREIN_SHEET_VALUE = 9,         /* at an entry: no node, or a count that is 0 or too large */
    WULTHREIN_WRONG_START = 10,        /* at a place: the root holds something else than the place starts with */
    WULTHREIN_DEAD_END = 11,           /* at a node: it offers nothing */
    WULTHREIN_TORN_CHOICE = 12,        /* at a node: what it offers is not one whole choice set */
    WULTHREIN_BUSY_ROOT = 13,          /* at node 0: it does not wait for the sources */
    WULTHREIN_STARVED_ARC = 14,        /* at an entry: its transition takes more than its node holds */
    WULTHREIN_WRONG_LANDING = 15,      /* at an entry: the target does not hold what firing gives */
    WULTHREIN_STRAY_NODE = 16,         /* at a node: nothing leads there from the root */
    WULTHREIN_NO_WAY_HOME = 17,        /* at a node: no path leads to a node that waits */
    WULTHREIN_NO_SUCH_NODE = 18,       /* a single firing: the sheet has fewer nodes */
    WULTHREIN_WALKER_ASTRAY = 19,      /* by no call here */
    WULTHREIN_NOT_OFFERED = 20,        /* no arc for that transition; in a run at the index of the firing */
    WULTHREIN_SMALL_SCRATCH = 21,      /* too few bytes of scratch or of reply */
    WULTHREIN_SMALL_OUT = 22,          /* the output buffer has no room for the result */
    WULTHREIN_NO_RECORD = 23,          /* by no call here */
    WULTHREIN_LOGGED_NODE = 24,        /* by no call here */
    WULTHREIN_NO_COUNTS_FIT = 25,      /* by no call here */
    WULTHREIN_OVERFULL_START = 26,     /* at a place: it starts above its capacity */
    WULTHREIN_OVER_CAPACITY = 27,      /* at an entry: its transition has no room for what it puts */
    WULTHREIN_BROKEN_WORD = 31         /* the length of an input is no multiple of four */
};

/* What a position counts, always from 0 (8.2). */
enum wulthrein_kind {
    WULTHREIN_NONE = 0,
    WULTHREIN_ENTRY = 1,   /* entries of the net for 3 and 4, of the sheet otherwise */
    WULTHREIN_PLACE = 2,
    WULTHREIN_NODE = 3,
    WULTHREIN_RECORD = 4   /* firings of the record */
};

/* The numbers of a reply, in their order; the last three by the call. */
enum wulthrein_reply {
    WULTHREIN_NUMBER = 0,
    WULTHREIN_KIND = 1,
    WULTHREIN_POSITION = 2,

    WULTHREIN_CHECK_NODES = 3,
    WULTHREIN_CHECK_ARCS = 4,
    WULTHREIN_CHECK_AWAITS = 5,

    WULTHREIN_RUN_FIRED = 3,
    WULTHREIN_RUN_NODE = 4,
    WULTHREIN_RUN_ENTRY = 5,       /* 1 more than the sheet's entry of the last firing; 0 where nothing was fired */

    WULTHREIN_FORM_WORDS = 3       /* how many words were written to out */
};

/* One of the six numbers of a reply. */
static inline uint64_t wulthrein_number(const uint8_t *reply, enum wulthrein_reply which)
{
    uint64_t number = 0;
    size_t i;
    for (i = 0; i < 8; i++)
        number |= (uint64_t)reply[8 * (size_t)which + i] << (8 * i);
    return number;
}

/*
 * Checks a sheet against a net. The reply's own numbers are how many nodes, arcs and await nodes there are.
 */
uint32_t wulthrein_check(const uint8_t *net, size_t net_length, const uint8_t *sheet, size_t sheet_length,
                         uint8_t *scratch, size_t scratch_length, uint8_t *reply, size_t reply_length);

/*
 * Fires the transitions of a record one after the other from node 0. The reply's own numbers are how many were fired, the node at the
 * end, and 1 more than the entry of the last firing. Out gets what each place holds at the end, a word for each place of the net.
 */
uint32_t wulthrein_run(const uint8_t *net, size_t net_length, const uint8_t *sheet, size_t sheet_length,
                       const uint8_t *record, size_t record_length, uint8_t *out, size_t out_length,
                       uint8_t *scratch, size_t scratch_length, uint8_t *reply, size_t reply_length);

/*
 * Writes the short form of a sheet to out. The reply's own numbers are how many words it has, 0 and 0. Two sheets of one net have the
 * same short form, byte for byte, exactly when they allow the same lists of firings.
 */
uint32_t wulthrein_short_form(const uint8_t *net, size_t net_length, const uint8_t *sheet, size_t sheet_length,
                              uint8_t *out, size_t out_length, uint8_t *scratch, size_t scratch_length,
                              uint8_t *reply, size_t reply_length);

/*
 * Fires one transition at a node of a sheet, from the counts that the sheet gives the node. Net and sheet are checked each time.
 * Returns the next node, or WULTHREIN_REFUSED and the number of a refusal: wulthrein_refused tells them apart.
 */
#define WULTHREIN_REFUSED 2147483648u

uint32_t wulthrein_fire(const uint8_t *net, size_t net_length, const uint8_t *sheet, size_t sheet_length,
                        uint32_t node, uint32_t transition, uint8_t *scratch, size_t scratch_length);

/* The number of the refusal that a firing returned, or 0 where it returned a node. */
static inline uint32_t wulthrein_refused(uint32_t fired)
{
    return fired < WULTHREIN_REFUSED ? 0u : fired - WULTHREIN_REFUSED;
}

#ifdef __cplusplus
}
#endif

#endif
