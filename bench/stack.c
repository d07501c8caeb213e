/* How much stack a call over bytes touches: each runs in a thread whose stack was filled with a pattern, less what a thread that does nothing touches. */
#define _GNU_SOURCE
#include <pthread.h>
#include <stdio.h>
#include <stdlib.h>
#include <string.h>
#include "wulthrein.h"

enum { STACK = 1 << 20, PATTERN = 0x5A };

static uint8_t net[WULTHREIN_NET_BYTES], sheet[WULTHREIN_SHEET_BYTES], out[WULTHREIN_SHEET_BYTES];
static uint8_t scratch[WULTHREIN_SCRATCH_BYTES], reply[WULTHREIN_REPLY_BYTES];
static size_t net_length, sheet_length;

static void *nothing(void *unused) { return unused; }

static void *check(void *unused)
{
    wulthrein_check(net, net_length, sheet, sheet_length, scratch, sizeof scratch, reply, sizeof reply);
    return unused;
}

static void *run(void *unused)
{
    static const uint8_t record[4] = {0, 0, 0, 0};
    wulthrein_run(net, net_length, sheet, sheet_length, record, sizeof record, out, sizeof out, scratch, sizeof scratch, reply, sizeof reply);
    return unused;
}

static void *form(void *unused)
{
    wulthrein_short_form(net, net_length, sheet, sheet_length, out, sizeof out, scratch, sizeof scratch, reply, sizeof reply);
    return unused;
}

static void *fire(void *unused)
{
    wulthrein_fire(net, net_length, sheet, sheet_length, 0, 0, scratch, sizeof scratch);
    return unused;
}

static size_t touched(void *(*call)(void *))
{
    static uint8_t stack[STACK] __attribute__((aligned(4096)));
    pthread_attr_t attr;
    pthread_t thread;
    size_t i = 0;
    memset(stack, PATTERN, sizeof stack);
    pthread_attr_init(&attr);
    pthread_attr_setstack(&attr, stack, sizeof stack);
    if (pthread_create(&thread, &attr, call, NULL) != 0)
        exit(2);
    pthread_join(thread, NULL);
    while (i < sizeof stack && stack[i] == PATTERN)
        i++;
    return sizeof stack - i;
}

static size_t read_file(const char *name, uint8_t *bytes, size_t room)
{
    FILE *file = fopen(name, "rb");
    size_t length;
    if (file == NULL)
        exit(2);
    length = fread(bytes, 1, room, file);
    fclose(file);
    return length;
}

int main(int count, char **words)
{
    size_t base;
    if (count != 3)
        return 2;
    net_length = read_file(words[1], net, sizeof net);
    sheet_length = read_file(words[2], sheet, sizeof sheet);
    base = touched(nothing);
    printf("check %lu\nrun %lu\nshort_form %lu\nfire %lu\n", (unsigned long)(touched(check) - base), (unsigned long)(touched(run) - base),
           (unsigned long)(touched(form) - base), (unsigned long)(touched(fire) - base));
    return wulthrein_number(reply, WULTHREIN_NUMBER) != 0;
}
