/* A sheet with one of its nodes split in two: it allows the same firings, by one node more. */
#ifndef SPLIT_H
#define SPLIT_H

#include <stddef.h>
#include <stdint.h>

/*
 * Writes the words of the sheet in which a node has a twin, with its arcs and counts, and in which the arc of an entry leads to the twin. The
 * words are those of a sheet in form, and there is room for as many again. The arcs of the twin come behind all others, and so do its counts.
 */
static inline size_t split(uint32_t *to, const uint32_t *sheet, uint32_t transitions, uint32_t places, uint32_t node, uint32_t entry)
{
    uint32_t nodes = sheet[0], k = sheet[1], arcs = nodes * transitions, twin, made = 0, i, turn, key;
    const uint32_t *keys = sheet + 2, *values = keys + k;
    for (i = 0, twin = 0; i < k; i++)
        twin += keys[i] < arcs ? keys[i] / transitions == node : (keys[i] - arcs) / places == node;
    to[0] = nodes + 1;
    to[1] = k + twin;
    for (turn = 0; turn < 4; turn++) /* arcs, the twin's arcs, counts, the twin's counts */
        for (i = 0; i < k; i++) {
            if ((keys[i] < arcs) != (turn < 2))
                continue;
            key = turn < 2 ? keys[i] : keys[i] - arcs;
            if (turn % 2 == 1 && key / (turn < 2 ? transitions : places) != node)
                continue;
            if (turn % 2 == 1)
                key += (nodes - node) * (turn < 2 ? transitions : places);
            to[2 + made] = turn < 2 ? key : key + arcs + transitions;
            to[2 + k + twin + made] = turn == 0 && i == entry ? nodes : values[i];
            made++;
        }
    return 2 + 2 * (size_t)made;
}

#endif
