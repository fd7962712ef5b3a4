/* Marginlilac for C: a whole run of the scheduler, on bytes. Link libmarginlilac.a, which tools/archive makes.
 *
 * A slice is two arguments, where it begins and how many bytes it has. Its bytes are words, the lowest byte first, and may lie at any
 * address. No pointer may be null, also where the length is 0. A slice that is written must not overlap any other; the first five,
 * which are only read, may overlap one another.
 *
 *   Read         Bytes a word   Words
 *   identifiers  4              one a row: 1 to 65,535. Row 0 is the root, the line
 *   parents      4              one a row: the identifier of an earlier row; 0 for the root
 *   shares       4              one a row: 1 to 840, parts of 840 of the parent; 0 for the root
 *   classes      4              one an event: the identifier that a packet has arrived for, or 0 where the line has finished its packet
 *   lengths      4              one an event: the packet's bytes, 1 to 9,000; 0 for a finish
 *
 *   Written      Bytes a word   Words that it needs, and what it has after a run that is done
 *   order        4              one an event; begins with the packets in the order in which they went on the line, each by the place
 *                               of its event, counted from 0: as many as the answer's count
 *   report       8              five a row: bytes finished, start, finish, virtual time, packets held
 *   lags         8              one a row, signed (two's complement); above 0 the row is short of its share
 *   working      4              one an event; begins with a zero for each event
 *   answer       4              exactly four, 16 bytes: number, place, second place, count
 *
 * There are 2 to 256 rows and 0 to 65,536 events. A result slice may be longer than it needs; what is after the words named above stays
 * as it was. What a result slice holds before the call does not matter.
 *
 * Each function returns the answer's number: 0 where the run is done, else why it is refused, the first that is found in this order. A
 * refusal has count 0, and of a refused input nothing is written but the answer.
 *
 *   Number  Refused because                                                                     Place
 *   3       a slice is not a whole number of its words, or the answer not 16 bytes: looked       (nothing is written at all)
 *           for before all else
 *   1       identifiers, parents and shares differ in length, or there are under 2 or over
 *           256 rows                                                                            0
 *   2       classes and lengths differ in length, or the events are over 65,536                 0
 *   3       a result slice has fewer words than it needs                                        0
 *   then row by row, row 0 for 4, 15 and 6 alone:
 *   4       an identifier is 0                                                                  row
 *   15      an identifier is over 65,535                                                        row
 *   6       row 0 has a parent or a share                                                       0
 *   5       an identifier stands in an earlier row                                              row; second place: the earlier row
 *   7       the parent is not the identifier of an earlier row                                  row
 *   8       the share is 0 or over 840                                                          row
 *   9       the row is more than 8 steps below the root                                         row
 *   then:
 *   10      the shares of a row's children are over 840 together                                the lowest such row
 *   then event by event, an arrival for 11, 12 and 13, a finish for 13 and 14:
 *   11      no row has the event's class                                                        event
 *   12      the event's class is the root or has children                                       event
 *   13      the length is 0 or over 9,000; or a finish has a length                             event
 *   14      a finish while the line is idle                                                     event
 *
 * A call keeps nothing for the next one and has no state but what is lent, so several threads can call at once, each with result slices of
 * its own. It asks for no memory but some 1.35 million bytes of stack, on every call: give its thread 1.5 MB or more. It calls memcpy and
 * memset and nothing else.
 */
#ifndef MARGINLILAC_H
#define MARGINLILAC_H

#include <stddef.h>
#include <stdint.h>

#ifdef __cplusplus
extern "C" {
#endif

/* The run by the engine that looks at every child of a row to find the one that it takes. Takes, writes and returns what is said above. */
uint32_t marginlilac_run(
    const uint8_t *identifiers, size_t identifiers_bytes,
    const uint8_t *parents, size_t parents_bytes,
    const uint8_t *shares, size_t shares_bytes,
    const uint8_t *classes, size_t classes_bytes,
    const uint8_t *lengths, size_t lengths_bytes,
    uint8_t *order, size_t order_bytes,
    uint8_t *report, size_t report_bytes,
    uint8_t *lags, size_t lags_bytes,
    uint8_t *working, size_t working_bytes,
    uint8_t *answer, size_t answer_bytes);

/* The run by the engine that keeps each row's waiting children in heaps. The same arguments, and byte for byte the same results. */
uint32_t marginlilac_run_heaps(
    const uint8_t *identifiers, size_t identifiers_bytes,
    const uint8_t *parents, size_t parents_bytes,
    const uint8_t *shares, size_t shares_bytes,
    const uint8_t *classes, size_t classes_bytes,
    const uint8_t *lengths, size_t lengths_bytes,
    uint8_t *order, size_t order_bytes,
    uint8_t *report, size_t report_bytes,
    uint8_t *lags, size_t lags_bytes,
    uint8_t *working, size_t working_bytes,
    uint8_t *answer, size_t answer_bytes);

#ifdef __cplusplus
}
#endif

#endif
