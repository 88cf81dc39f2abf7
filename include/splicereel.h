/*
 * Splicereel: bicycle stress levels and least-stress routes on a street
 * network.
 *
 * Link with target/staticlib/libsplicereel_c.a, which `make lib` writes, for
 * x86-64. Of the C library it needs memory functions such as memset alone.
 *
 * Every call, on every input that keeps the rules below, ends with an answer
 * or a refusal. It returns 0 where it answers and the refusal's number
 * otherwise; what else it has to tell stands in `told`. Refused line alone is
 * asked for a refusal: it returns a number other than 0 on every input, and
 * tells the line in `part`. The calls keep no pointer, allocate nothing and
 * have no state of their own: they may run in many threads at once.
 *
 * A network of at most SPLICEREEL_TOWN_NODES nodes and
 * SPLICEREEL_TOWN_SEGMENTS segments is a town, a larger one a county: its
 * counts decide that, not its edition. Every network of editions 01 and 02 is a
 * town, and so is a small one of edition 03. A call about a town takes less
 * than 64 KiB of stack, and one about a county less than 448 KiB
 * (SPLICEREEL_TOWN_STACK, SPLICEREEL_COUNTY_STACK).
 *
 * Rules for what is lent, the only ones:
 *
 * - A pointer is not null, also where its length is 0; it then may point
 *   anywhere, aligned.
 * - A pointer to 16-bit numbers is aligned for them, and so is one to 32-bit
 *   numbers and one to size_t. Bytes lie anywhere.
 * - A length counts elements, not bytes, and that many are there.
 * - What a call may write (output, best, previous, buffer, list, told, part)
 *   shares no element with anything else that is lent to the same call. `text`,
 *   `net` and `marks` are only read.
 * - `told` has 8 elements, `part` has 2.
 *
 * What is lent may hold anything beforehand: nothing need be cleared.
 *
 * Segments are numbered from 0, in the order of their lines. Run 2s rides
 * segment s from its A end to its B end, run 2s + 1 from B to A.
 *
 * Editions 01, 02 and 03 of the format are known, and a network is judged by
 * the rules of the edition that its head names. The frames of 01 and 02 are the
 * same. Edition 02 has a mark more, 16, a central two-way turn lane, and a
 * control more, 5, a signal with a bicycle left-turn improvement; under edition
 * 01 they are refused. Edition 03 has the rules, marks and controls of edition
 * 02, and is for counties: up to 8,000 nodes and 8,000 segments in place of
 * 1,000, and segments of up to 264,000 feet in place of 52,800. Its lengths
 * have 4 bytes in place of 2, so that its segment frames have 32 bytes in place
 * of 30. A network of edition 02 can be moved up to 03, and one of 03 back to 02
 * where it is within the limits of that.
 */
#ifndef SPLICEREEL_H
#define SPLICEREEL_H

#include <stddef.h>
#include <stdint.h>

/* The version of this header and of the archive that it belongs to. */
#define SPLICEREEL_VERSION_MAJOR 0
#define SPLICEREEL_VERSION_MINOR 6
#define SPLICEREEL_VERSION_PATCH 0
#define SPLICEREEL_VERSION "0.6.0"

#ifdef __cplusplus
extern "C" {
#endif

enum {
    /* Every network: none that Read can keep has more. That is the largest of
       edition 03. */
    SPLICEREEL_MAX_NODES = 8000,
    SPLICEREEL_MAX_SEGMENTS = 8000,
    /* Bytes of the longest text that Read accepts: 15 for the head's line, and
       65 for each segment's. */
    SPLICEREEL_MAX_TEXT = 15 + 65 * SPLICEREEL_MAX_SEGMENTS,
    /* Kept bytes, 7 and 32 for each segment: an output so long serves every
       network. */
    SPLICEREEL_MAX_NETWORK = 7 + 32 * SPLICEREEL_MAX_SEGMENTS,
    /* Runs, two for each segment: scratch and buffer so long serve every
       network. */
    SPLICEREEL_MAX_RUNS = 2 * SPLICEREEL_MAX_SEGMENTS,
    /* Numbers of a reach map, two for each node: a list so long serves every
       network. Marks for SPLICEREEL_MAX_NODES nodes do so too. */
    SPLICEREEL_MAX_LIST = 2 * SPLICEREEL_MAX_NODES,

    /* A town: a network with at most so many, whatever its edition. A call
       about one takes less stack. */
    SPLICEREEL_TOWN_NODES = 1000,
    SPLICEREEL_TOWN_SEGMENTS = 1000,
    /* Scratch and buffer so long serve every town. */
    SPLICEREEL_TOWN_RUNS = 2 * SPLICEREEL_TOWN_SEGMENTS,
    /* A list so long serves every town. */
    SPLICEREEL_TOWN_LIST = 2 * SPLICEREEL_TOWN_NODES,

    /* A call about a town takes less than so many bytes of stack, and one about
       a county less than so many. */
    SPLICEREEL_TOWN_STACK = 64 * 1024,
    SPLICEREEL_COUNTY_STACK = 448 * 1024,

    /* Elements of `told`. */
    SPLICEREEL_TOLD = 8,
    /* Elements of `part`. */
    SPLICEREEL_PART = 2
};

/* Feet that no length which a call tells is above: 16,000 runs of 264,000 feet.
   It fits 32 bits, but is no int and so no enumerator. */
#define SPLICEREEL_MAX_FEET UINT32_C(4224000000)

/* What a call returns. Where Read would refuse, Refused line returns Read's
   number. */
enum splicereel_number {
    /* The call answers. */
    SPLICEREEL_ANSWERED = 0,

    /* Read: a line is not whole pairs of uppercase hexadecimal digits ended
       by byte 0A, or it is empty. */
    SPLICEREEL_NOT_DIGITS = 1,
    /* Read: the bytes of a frame do not sum to 0 modulo 256. */
    SPLICEREEL_WRONG_CHECK = 2,
    /* Read: the kind or the length of a frame is wrong for its position; an
       empty text is this at line 1. */
    SPLICEREEL_WRONG_FRAME = 3,
    /* Read: a field is against the ranges or rules. */
    SPLICEREEL_WRONG_FIELD = 4,
    /* Read: a segment beyond the head's number, or too few, then at the line
       after the last. */
    SPLICEREEL_WRONG_COUNT = 5,
    /* Read: a leg is taken already, by an earlier frame or by the frame's
       other end. */
    SPLICEREEL_LEG_TAKEN = 6,
    /* Read: the output is shorter than the network; with line 1, and before
       line 2 is looked at. */
    SPLICEREEL_OUTPUT_TOO_SHORT = 7,

    /* Every call about a kept network, and before anything else: the bytes are
       no network that Read could keep. */
    SPLICEREEL_NOT_A_NETWORK = 8,
    /* Route, Least stress, Reach map, Nearest: a node is not below the number
       of nodes. */
    SPLICEREEL_NO_SUCH_NODE = 9,
    /* Route, Reach map, Nearest: the tolerance is not 1 to 4. */
    SPLICEREEL_NO_SUCH_TOLERANCE = 10,
    /* Route, Least stress, Reach map, Nearest: a scratch slice is shorter than
       2 numbers for each segment. Route and Least stress also: the place is
       beyond the buffer's end, or fewer than 2 numbers for each segment follow
       it. */
    SPLICEREEL_NO_ROOM = 11,
    /* Judge a segment: no such segment. Judge a movement: either run does not
       exist or is not open. */
    SPLICEREEL_NO_SUCH_RUN = 12,
    /* Judge a movement: no movement joins the two runs. */
    SPLICEREEL_NO_MOVEMENT = 13,
    /* Refused line: Read would accept the text. */
    SPLICEREEL_NO_REFUSED_LINE = 14,
    /* Reach map: the list is shorter than 2 numbers for each node. Nearest:
       there are fewer marks than nodes. */
    SPLICEREEL_TOO_FEW_ENTRIES = 15,
    /* Move up, Move back: the network is of an edition that has no move that
       way. */
    SPLICEREEL_NO_SUCH_MOVE = 16,
    /* Move back: there are more nodes or segments than edition 02 has, or a
       segment is longer. */
    SPLICEREEL_ABOVE_LIMITS = 17,
    /* Move up, Move back: the output is shorter than the moved network. */
    SPLICEREEL_TOO_SHORT_FOR_MOVE = 18
};

/* The text of what a call returned, in English, without a full stop. */
static inline const char *splicereel_refusal_text(uint32_t number)
{
    switch (number) {
    case SPLICEREEL_ANSWERED:
        return "the call answers";
    case SPLICEREEL_NOT_DIGITS:
        return "a line is not whole pairs of uppercase hexadecimal digits ended by byte 0A";
    case SPLICEREEL_WRONG_CHECK:
        return "the check of a frame is wrong";
    case SPLICEREEL_WRONG_FRAME:
        return "the kind or the length of a frame is wrong for its position";
    case SPLICEREEL_WRONG_FIELD:
        return "a field is against the ranges or rules";
    case SPLICEREEL_WRONG_COUNT:
        return "a segment beyond the head's number, or too few segments";
    case SPLICEREEL_LEG_TAKEN:
        return "two segment ends share node and leg";
    case SPLICEREEL_OUTPUT_TOO_SHORT:
        return "the output is shorter than the network";
    case SPLICEREEL_NOT_A_NETWORK:
        return "the bytes are no network that Read could keep";
    case SPLICEREEL_NO_SUCH_NODE:
        return "there is no such node";
    case SPLICEREEL_NO_SUCH_TOLERANCE:
        return "a tolerance is 1 to 4";
    case SPLICEREEL_NO_ROOM:
        return "scratch or route buffer have not two numbers for each segment";
    case SPLICEREEL_NO_SUCH_RUN:
        return "there is no such segment or run, or the run is not open";
    case SPLICEREEL_NO_MOVEMENT:
        return "no movement joins the two runs";
    case SPLICEREEL_NO_REFUSED_LINE:
        return "Read would accept the text: no line is refused";
    case SPLICEREEL_TOO_FEW_ENTRIES:
        return "a lent list has fewer entries than there are nodes";
    case SPLICEREEL_NO_SUCH_MOVE:
        return "a network of this edition has no move that way";
    case SPLICEREEL_ABOVE_LIMITS:
        return "a count or a length is above the limits of the edition moved to";
    case SPLICEREEL_TOO_SHORT_FOR_MOVE:
        return "the output is shorter than the moved network";
    default:
        return "a number that no call returns";
    }
}

/* Where in `told` a call tells what. */
enum splicereel_told {
    /* Read: the bytes written where it accepts, the line where it refuses. */
    SPLICEREEL_READ_BYTES = 0,
    SPLICEREEL_READ_LINE = 0,

    /* Judge a segment, Judge a movement: the level, 1 to 4. */
    SPLICEREEL_JUDGE_LEVEL = 0,
    /* Judge a segment: what governs the level, a splicereel_measure. */
    SPLICEREEL_JUDGE_MEASURE = 1,

    /* Route, Least stress: 1 where a route is found, 0 for none. */
    SPLICEREEL_ROUTE_FOUND = 0,
    /* The number of its runs. */
    SPLICEREEL_ROUTE_COUNT = 1,
    /* Its length. */
    SPLICEREEL_ROUTE_FEET = 2,
    /* The greatest level of its runs and movements. */
    SPLICEREEL_ROUTE_LEVEL = 3,
    /* Least stress: the tolerance. */
    SPLICEREEL_ROUTE_TOLERANCE = 4,

    /* Reach map: the number of entries in the list. */
    SPLICEREEL_MAP_COUNT = 0,

    /* Nearest: 1 where a marked node has a route, 0 for none. */
    SPLICEREEL_NEAREST_FOUND = 0,
    /* The nearest of them. */
    SPLICEREEL_NEAREST_NODE = 1,
    /* Its least length. */
    SPLICEREEL_NEAREST_FEET = 2,

    /* Move up, Move back: the bytes written. */
    SPLICEREEL_MOVE_BYTES = 0
};

/* Where in `part` Refused line tells what. */
enum splicereel_part {
    /* Where the part begins: the bytes of the text before it. */
    SPLICEREEL_PART_START = 0,
    /* Its bytes. */
    SPLICEREEL_PART_LENGTH = 1
};

/* What governs a segment's level. */
enum splicereel_measure {
    SPLICEREEL_LANES = 1,
    SPLICEREEL_REACH = 2,
    SPLICEREEL_SPEED = 3,
    SPLICEREEL_BLOCKING = 4,
    /* Under editions 02 and 03 also beside a bike lane, where riding in the
       traffic is the lower level. */
    SPLICEREEL_MIXED_TRAFFIC = 5,
    SPLICEREEL_SEPARATE_PATH = 6
};

/*
 * Read: a network text into kept bytes.
 *
 * Accepted: returns 0, told[0] is the number of bytes written from the start
 * of the output; later bytes stay.
 * Refused: returns 1 to 7, told[0] is the line, counted from 1 (at most
 * SPLICEREEL_MAX_SEGMENTS + 2, the line after the last segment's, which is
 * refused itself); the output stays as it was.
 * told[1] to told[7] stay.
 */
uint32_t splicereel_read(
    const uint8_t *text, size_t text_length,
    uint8_t *output, size_t output_length,
    uint32_t told[8]);

/*
 * Refused line: the part of a text that holds the line at which Read refuses
 * it, for an output of output_length bytes. That is a number alone: no output
 * is lent. SPLICEREEL_MAX_NETWORK asks whether the text is in order at all.
 *
 * Returns 1 to 7, as Read: the part is the bytes of Read's line before its 0A,
 * or to the text's end where it has none; a 0D stays in it. With 7 that is the
 * head line; where segments are missing (5) and for an empty text (3) it is the
 * empty part at the text's end.
 * Returns 14 where Read accepts the text: the part is the empty one at the
 * text's end.
 * part[0] is where the part begins, part[1] its bytes, and their sum is at most
 * text_length; both are always written, and nothing else is. They are size_t,
 * for a broken line may be longer than 32 bits tell.
 *
 * Only the first faulty line is told: a text with that line mended or cut out
 * may be refused at another.
 */
uint32_t splicereel_refused_line(
    const uint8_t *text, size_t text_length,
    size_t output_length,
    size_t part[2]);

/*
 * Judge a segment of a kept network.
 *
 * Returns 0: told[0] is the level, 1 to 4; told[1] is the governing measure
 * (enum splicereel_measure). From version 0.2.0 on a reach of 27 and under
 * beside parking costs level 2, not 3, where the limit is below 25 mph or the
 * street is residential; Route and Least stress go by the same levels.
 * Under editions 02 and 03 a turn lane (mark 16) between one lane each way
 * makes the reach of a bike lane count 4 half feet more, and a street with a
 * bike lane has the level of mixed traffic where that is lower, by twice its
 * lanes where it is open both ways.
 * Refused: returns 8 or 12, told stays. The other elements of told stay.
 */
uint32_t splicereel_judge_segment(
    const uint8_t *net, size_t net_length,
    size_t segment,
    uint32_t told[8]);

/*
 * Judge the movement from one run onto another.
 *
 * Returns 0: told[0] is the level, 1 to 4. Under editions 02 and 03 a signal is
 * level 4, and one with a bicycle left-turn improvement (control 5) level 1.
 * Refused: returns 8, 12 or 13, told stays. The other elements of told stay.
 */
uint32_t splicereel_judge_movement(
    const uint8_t *net, size_t net_length,
    size_t first, size_t second,
    uint32_t told[8]);

/*
 * Route: a shortest route from one node to another within a tolerance.
 *
 * Returns 0 and told[0] is 1: told[1] is the count of its runs, told[2] its
 * length in feet, told[3] its level. The runs stand in the buffer from the
 * place on; the numbers before the place and past the last run stay. Which of
 * several shortest routes it is, is left open. From a node to itself it is
 * the empty route: count 0, length 0, level 1.
 * Returns 0 and told[0] is 0: there is no route within the tolerance. The
 * buffer stays as it was, and so do told[1] to told[7].
 * Refused: returns 8, 9, 10 or 11, in that order; nothing is written.
 *
 * Each scratch slice (best, previous) has at least 2 numbers for each segment,
 * and so has the buffer from the place on. After an answer the scratch holds
 * anything.
 */
uint32_t splicereel_route(
    const uint8_t *net, size_t net_length,
    size_t from, size_t to, size_t tolerance,
    uint32_t *best, size_t best_length,
    uint32_t *previous, size_t previous_length,
    uint16_t *buffer, size_t buffer_length, size_t place,
    uint32_t told[8]);

/*
 * Least stress: a shortest route within the smallest tolerance that has any.
 *
 * As splicereel_route without 10; where a route is found told[4] is that
 * tolerance. None means that tolerance 4 has no route either.
 */
uint32_t splicereel_least_stress(
    const uint8_t *net, size_t net_length,
    size_t from, size_t to,
    uint32_t *best, size_t best_length,
    uint32_t *previous, size_t previous_length,
    uint16_t *buffer, size_t buffer_length, size_t place,
    uint32_t told[8]);

/*
 * Reach map: every node that has a route from one node within a tolerance and
 * a greatest length in feet, and no other.
 *
 * Returns 0: told[0] is the number of entries. They stand in the list from its
 * start, in rising node number, two numbers each: the node, and the least
 * length of its routes within the tolerance. A length equal to the greatest is
 * within it. The start is always an entry, with length 0. The numbers past the
 * last entry stay, and so do told[1] to told[7].
 * Refused: returns 8, 9, 10, 11 or 15, in that order; nothing is written.
 *
 * Each scratch slice (best, previous) has at least 2 numbers for each segment,
 * and the list at least 2 for each node, reached or not. After an answer the
 * scratch holds anything. The greatest length may be any number; from
 * UINT32_MAX on it excludes no node.
 */
uint32_t splicereel_reach_map(
    const uint8_t *net, size_t net_length,
    size_t from, size_t tolerance, size_t greatest,
    uint32_t *best, size_t best_length,
    uint32_t *previous, size_t previous_length,
    uint32_t *list, size_t list_length,
    uint32_t told[8]);

/*
 * Nearest: of the marked nodes the one with the shortest route from one node
 * within a tolerance.
 *
 * A node is marked where its byte of `marks` is not 0; bytes past the last
 * node's mean nothing.
 *
 * Returns 0 and told[0] is 1: told[1] is the node, told[2] the least length of
 * its routes within the tolerance. Of several that are equally near it is the
 * one with the lowest number. A start that is marked is the nearest, at 0.
 * Returns 0 and told[0] is 0: no marked node has a route within the tolerance.
 * told[1] to told[7] stay.
 * Refused: returns 8, 9, 10, 11 or 15, in that order; nothing is written.
 *
 * Each scratch slice (best, previous) has at least 2 numbers for each segment,
 * and there is a mark for each node at least. After an answer the scratch
 * holds anything. The elements of told that are not named stay.
 */
uint32_t splicereel_nearest(
    const uint8_t *net, size_t net_length,
    size_t from, size_t tolerance,
    const uint8_t *marks, size_t marks_length,
    uint32_t *best, size_t best_length,
    uint32_t *previous, size_t previous_length,
    uint32_t told[8]);

/*
 * Move up: a kept network of edition 02 as one of edition 03.
 *
 * Returns 0: told[0] is the number of bytes written from the start of the
 * output, 7 and 32 for each segment; later bytes stay, and so do told[1] to
 * told[7]. The edition, the lengths' width and the head's check change, and
 * nothing else: every level is the same, and every route of the one network is
 * a route of the other, of the same length and level.
 * Refused: returns 8, 16 or 18, in that order; nothing is written.
 *
 * A network of edition 01 has no move, since its levels would change.
 */
uint32_t splicereel_move_up(
    const uint8_t *net, size_t net_length,
    uint8_t *output, size_t output_length,
    uint32_t told[8]);

/*
 * Move back: a kept network of edition 03 as one of edition 02.
 *
 * As splicereel_move_up the other way, so that told[0] is 7 and 30 for each
 * segment. Of a network that was moved up it writes the first bytes again, and
 * Move up does so of one that was moved back.
 * Refused: returns 8, 16, 17 or 18, in that order; nothing is written.
 */
uint32_t splicereel_move_back(
    const uint8_t *net, size_t net_length,
    uint8_t *output, size_t output_length,
    uint32_t told[8]);

#ifdef __cplusplus
}
#endif

#endif
