/*
 * Faults for the fuzzing harness to see, one for each promise that it holds the calls to: FAULT names the one that is planted. The linker
 * puts these functions in the place of the calls (--wrap), which they make, and then spoil what was done.
 */
#include <stdlib.h>
#include <string.h>
#include "wulthrein.h"

typedef const uint8_t *input;

uint32_t __real_wulthrein_check(input, size_t, input, size_t, uint8_t *, size_t, uint8_t *, size_t);
uint32_t __real_wulthrein_run(input, size_t, input, size_t, input, size_t, uint8_t *, size_t, uint8_t *, size_t, uint8_t *, size_t);
uint32_t __real_wulthrein_short_form(input, size_t, input, size_t, uint8_t *, size_t, uint8_t *, size_t, uint8_t *, size_t);
uint32_t __real_wulthrein_fire(input, size_t, input, size_t, uint32_t, uint32_t, uint8_t *, size_t);
uint32_t __wrap_wulthrein_check(input, size_t, input, size_t, uint8_t *, size_t, uint8_t *, size_t);
uint32_t __wrap_wulthrein_run(input, size_t, input, size_t, input, size_t, uint8_t *, size_t, uint8_t *, size_t, uint8_t *, size_t);
uint32_t __wrap_wulthrein_short_form(input, size_t, input, size_t, uint8_t *, size_t, uint8_t *, size_t, uint8_t *, size_t);
uint32_t __wrap_wulthrein_fire(input, size_t, input, size_t, uint32_t, uint32_t, uint8_t *, size_t);

static volatile uint8_t read_past;

static int planted(const char *fault)
{
    const char *named = getenv("FAULT");
    return named != NULL && strcmp(named, fault) == 0;
}

/* What any call can do to its buffers. */
static void spoil(input net, size_t n, input sheet, size_t s, uint8_t *scratch, size_t k)
{
    if (planted("input changed") && s > 0)
        ((uint8_t *)(uintptr_t)sheet)[s - 1] ^= 1;
    if (planted("scratch left") && k >= WULTHREIN_SCRATCH_BYTES)
        scratch[WULTHREIN_SCRATCH_BYTES - 1] = 1;
    if (planted("past scratch") && k > WULTHREIN_SCRATCH_BYTES)
        scratch[k - 1] ^= 1;
    if (planted("small scratch") && k == WULTHREIN_SCRATCH_BYTES - 1)
        scratch[0] ^= 1;
    if (planted("canary"))
        scratch[k] = 0; /* the canary, or a page that may not be touched */
    if (planted("read past the net"))
        read_past = net[n];
    if (planted("read before the net"))
        read_past = net[-1];
}

uint32_t __wrap_wulthrein_check(input net, size_t n, input sheet, size_t s, uint8_t *scratch, size_t k, uint8_t *reply, size_t m)
{
    uint8_t held = k > 0 ? scratch[0] : 0;
    uint32_t number = __real_wulthrein_check(net, n, sheet, s, scratch, k, reply, m);
    spoil(net, n, sheet, s, scratch, k);
    if (planted("reply of another number") && m >= 48)
        reply[0] ^= 1;
    if (planted("wrong kind") && number == 11)
        reply[8] = 2;
    if (planted("far position") && number == 16)
        reply[16] = 200;
    if (planted("own numbers of a refusal") && number == 10)
        reply[24] = 1;
    if (planted("past the reply") && m > 48)
        reply[48] ^= 1;
    if (planted("small reply") && m == 47)
        reply[46] ^= 1;
    if (planted("depends on scratch") && number == 0 && held % 2 == 0)
        reply[40]++;
    if (planted("a number of another call") && number == 17)
        reply[0] = 18, number = 18;
    if (planted("31 without need") && number == 9)
        memset(reply, 0, 48), reply[0] = 31, number = 31;
    if (planted("21 without need") && number == 9)
        memset(reply, 0, 48), reply[0] = 21, number = 21;
    return number;
}

uint32_t __wrap_wulthrein_run(input net, size_t n, input sheet, size_t s, input record, size_t r, uint8_t *out, size_t o, uint8_t *scratch, size_t k,
                              uint8_t *reply, size_t m)
{
    uint32_t number = __real_wulthrein_run(net, n, sheet, s, record, r, out, o, scratch, k, reply, m);
    spoil(net, n, sheet, s, scratch, k);
    if (planted("output of a refusal") && number == 20 && o > 0)
        out[0] ^= 1;
    if (planted("past the counts") && number == 0 && o > 4u * net[0])
        out[4u * net[0]] ^= 1;
    if (planted("run ends elsewhere") && number == 0 && reply[32] > 0)
        reply[32]--;
    if (planted("run refused without reason") && number == 22)
        memset(reply, 0, 48), reply[0] = 20, reply[8] = 4, number = 20;
    return number;
}

uint32_t __wrap_wulthrein_short_form(input net, size_t n, input sheet, size_t s, uint8_t *out, size_t o, uint8_t *scratch, size_t k, uint8_t *reply, size_t m)
{
    uint32_t number = __real_wulthrein_short_form(net, n, sheet, s, out, o, scratch, k, reply, m);
    spoil(net, n, sheet, s, scratch, k);
    if (planted("form of wrong words") && number == 0)
        out[0]++;
    if (planted("form that is the sheet") && number == 0 && o >= s && s < 1024)
        memcpy(out, sheet, s), reply[24] = (uint8_t)(s / 4);
    if (planted("form of a form") && number == 0 && s == 4 * (size_t)reply[24]) /* of a sheet that is its own form */
        out[s - 4] ^= 3;
    return number;
}

uint32_t __wrap_wulthrein_fire(input net, size_t n, input sheet, size_t s, uint32_t node, uint32_t transition, uint8_t *scratch, size_t k)
{
    uint32_t fired = __real_wulthrein_fire(net, n, sheet, s, node, transition, scratch, k);
    spoil(net, n, sheet, s, scratch, k);
    if (planted("fired to no node") && fired < WULTHREIN_REFUSED)
        fired += sheet[0];
    if (planted("fires what is refused") && fired == WULTHREIN_REFUSED + 12)
        fired = 0;
    return fired;
}
