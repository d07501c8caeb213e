"""The refusals by number: the word for each, what it means at the plant, and what to do about it."""
from collections import namedtuple

Refusal = namedtuple("Refusal", "word meaning remedy")

# which are about the net, about the words of a sheet, about a list of firings, and about a log; the others are about a sheet that can be read
OF_NET, OF_WORDS, OF_RECORD, OF_LOG = {1, 2, 3, 4, 5, 26}, {6, 7, 8, 9}, {20}, {20, 23, 24}
NO_COUNTS, BAD_DURATION, ENDLESS = 25, 32, 33
OF_PROGRAMS, OF_COMPOSING, OF_TIMES = {18, 19, 21, 22, 31}, {28, 29, 30}, {32, 33}

REFUSALS = {
    1: Refusal(
        "ragged net",
        "The net's file is cut short, has something over, or is no net at all.",
        "Fetch the file again; by hand, count its words: three, then as many keys as the third says, then as many weights.",
    ),
    2: Refusal(
        "net size",
        "The net has no place, no transition, more than 32 of either, or more entries than its sizes allow.",
        "Leave out what the line-up does not need, or split the plant into nets that are checked one by one.",
    ),
    3: Refusal(
        "net order",
        "An entry of the net is there twice, out of order, or about a place or transition that the net does not have.",
        "Sort the keys, drop the double one, and see whether the numbers of places and transitions at the front are right.",
    ),
    4: Refusal(
        "net weight",
        "A transition takes or puts, or a place starts with or can hold, 0 or more than 1,000,000,000.",
        "Leave out what is 0, but for a capacity: a place without one can hold any number, and one that shall stay empty is a place that no transition puts into. Count in a larger unit what is too much.",
    ),
    5: Refusal(
        "no source",
        "Every transition takes something, so nothing can come from outside that one could wait for: no ship, no order.",
        "Give the net the event that starts the work, as a transition that takes nothing.",
    ),
    6: Refusal(
        "ragged sheet",
        "The sheet's file is cut short, has something over, or is no sheet at all.",
        "Fetch the file again; by hand, count its words: two, then as many keys as the second says, then as many values.",
    ),
    7: Refusal(
        "sheet size",
        "The sheet has no node, more than 128, or more than 4,096 arcs and counts together.",
        "Merge nodes that hold the same and go on alike, or plan for fewer parcels at once.",
    ),
    8: Refusal(
        "sheet order",
        "An entry of the sheet is there twice, out of order, or beyond its nodes; often the sheet was written for another net.",
        "See whether it belongs to this net; sort the keys and drop the double one.",
    ),
    9: Refusal(
        "sheet value",
        "An arrow leads to a node that is not there, or a count is 0 or more than 1,000,000,000.",
        "Lead the arrow to a node of the sheet; leave out a count of 0.",
    ),
    10: Refusal(
        "wrong start",
        "The first node does not hold what the plant holds when the schedule begins.",
        "Correct the first node's counts, or the net's starting counts if these are stale.",
    ),
    11: Refusal(
        "dead end",
        "The line-up stops at this node: no arrow says what comes next.",
        "Give the node its arrows, of one whole choice set; if nobody needs the node, remove it.",
    ),
    12: Refusal(
        "torn choice",
        "The node answers only some of the outcomes that the plant decides between, or mixes outcomes of different questions, or leaves open what the schedule has to decide.",
        "Leave one choice set at the node, whole: every transition that takes the same, or a single one where others draw on a place of theirs.",
    ),
    13: Refusal(
        "busy root",
        "The first node is already at work, where it has to wait for whatever comes from outside.",
        "Let the first node offer exactly the sources; begin the sheet at the node that waits.",
    ),
    14: Refusal(
        "starved arc",
        "A transition is planned where a place holds less than it takes.",
        "Correct the counts of the node that the arrow leaves, or plan the transition after the one that fills the place.",
    ),
    15: Refusal(
        "wrong landing",
        "After the transition the plant holds something else than the node says that the arrow leads to.",
        "Correct the counts of that node, or lead the arrow to a node with the counts that result.",
    ),
    16: Refusal(
        "stray node",
        "No list of firings from the first node comes to this node: it is left over, or an arrow to it is missing.",
        "Lead an arrow to it, or remove it.",
    ),
    17: Refusal(
        "no way home",
        "Whatever happens from this node on, the plant never again waits for what comes from outside.",
        "Lead some arrow from here, or from a node that follows, to a node that waits.",
    ),
    18: Refusal(
        "no such node",
        "A program that fires step by step stands at a node number that the sheet does not have.",
        "Let the program start with a fresh walker of this net and sheet. No command of lineup gives this number.",
    ),
    19: Refusal(
        "walker astray",
        "A program that fires step by step believes in other counts than those of the node where it stands.",
        "Find out which of the two is the plant's, then start with a fresh walker. No command of lineup gives this number.",
    ),
    20: Refusal(
        "not offered",
        "A firing has no arrow at the node where it comes up: the sheet does not plan it there.",
        "See what the node offers; the list of firings or the sheet is another one than was meant.",
    ),
    21: Refusal(
        "small scratch",
        "A program has lent the checker too little memory: under 8,192 words.",
        "Lend 8,192 words. No command of lineup gives this number.",
    ),
    22: Refusal(
        "small out",
        "A program has lent a buffer that is too short for the result.",
        "Lend one word for each place; 8,194 for a short form or a mended sheet, and 8,193 for the list of what changed. No command of lineup gives this number.",
    ),
    23: Refusal(
        "no record",
        "The log of the header is empty, cut short, has something over, or has more than 4,096 firings.",
        "Fetch the log again, or replay it in parts; by hand, count its words: one, then as many transitions as it says, then as many nodes.",
    ),
    24: Refusal(
        "logged node differs",
        "The log names another node than the one where the firing leads by the sheet.",
        "See which sheet the header ran by; from this firing on, the log and the sheet do not speak of the same plant.",
    ),
    25: Refusal(
        "no counts fit",
        "No counts whatsoever make these arrows right: a transition is planned where there is less than it takes, or no room for what it puts, two ways to one node bring different counts, or a count or the sheet would be too large.",
        "Follow the firings that are told: an arrow on the way is wrong, or a capacity is, or two nodes were made one that hold different counts.",
    ),
    26: Refusal(
        "overfull start",
        "A place holds more than it can when the schedule begins.",
        "Correct what the place starts with, or its capacity.",
    ),
    27: Refusal(
        "over capacity",
        "A transition is planned where a place has no room for what it puts, before anything is taken from it.",
        "Plan the transition after one that drains the place, or correct its capacity.",
    ),
    28: Refusal(
        "wrong number of sheets",
        "There are more or fewer sheets to compose than the net has sources, or more than four.",
        "Give one sheet for each source, in any order. A net with more than four sources has to be planned in one sheet.",
    ),
    29: Refusal(
        "too many",
        "The sheets are too large together: their numbers of nodes multiply to more than 128, or a count would be above 1,000,000,000, or there would be more than 4,096 arcs and counts.",
        "Merge nodes of a sheet that hold the same and go on alike, or plan for fewer parcels at once.",
    ),
    30: Refusal(
        "dependent",
        "A sheet relies on what another one keeps changed while it waits: a transition is planned where a place then holds less than it takes, or has no room for what it puts.",
        "Let the other sheet give back what it took, or clear what it put, before it waits; or plan both sources in one sheet.",
    ),
    31: Refusal(
        "broken word",
        "A program has handed over bytes of a net, a sheet or a record that are no whole words: their number is no multiple of four.",
        "Hand over all bytes, four for each word; the file may be cut short. No command of lineup gives this number: it answers 1 or 6 for such a file.",
    ),
    32: Refusal(
        "bad duration",
        "The durations are not two for each transition of the net, or a transition's earliest is above its latest, or one of them is above 1,000,000 seconds.",
        "Give each transition its earliest and its latest duration in seconds; by hand, count the words: how many transitions, then as many earliest durations, then as many latest.",
    ),
    33: Refusal(
        "endless reaction",
        "The same outcomes, coming again and again, would keep the plant at work for ever without its waiting once; so no worst time can be told.",
        "Lead some arrow of the loop to a node that waits, or plan how often it may go round, with nodes of its own for each time.",
    ),
}
