/* The primary station (the fitter's hand tool) for C programs: one request at a time, its replies, and the wake-up rule.
 *
 * Link libtool_exports.a (`tools/archives tool_exports` writes it to target/staticlib/, for x86-64-v2 Linux). Addresses, keys and numbers are in
 * written order, most significant octet first; on the wire they go the other way round. Buffers of one call must not overlap, and no
 * pointer is null, also where its count is 0.
 *
 * Tool memory is 278 octets (docs/TOOL_MEMORY.md has the layout). It holds one tool, is for one call at a time, and nothing but these calls
 * writes it. Every call tests it before use.
 *
 * A call gives 0, or a number:
 *   17  the frame buffer is under 128 octets, an address is not of 6, a key or number not of 8      nothing at all has changed
 *   12  the memory holds what no tool leaves: a state mark not in use, a length over its limit,
 *       a partly received frame that cannot be                                                     nothing at all has changed
 *   16  a request runs already                                                                     nothing at all has changed
 *    6  a broadcast address for a request to one station, or another for a broadcast request       nothing at all has changed
 *   21  a weak key to program with: one of DES's four, whatever its parity bits (propolisk_card.h)  nothing at all has changed
 *    7  more DATA than the request can have: 100 to program, 116 else                              nothing at all has changed
 *   1 to 5  a bad frame is dropped; the request that runs goes on                                   the receiver alone has changed
 *   13, 14, 15, 19, 20  the request is over: cipher wrong, echo wrong, session ended, unexpected frame, rejected
 * They are tested in the order 17, 12, 16, 6, 21, 7. Cells, and what is lent for DATA, are written where the result is 0 and at no other time; of
 * the frame buffer, octets past a frame are kept.
 *
 * What the host does:
 * - It sends a request's frame, the first *length octets of the frame buffer, after an AGN wake-up call where *wake is 1.
 * - It hands over each octet that comes from the bus, and no octet that it sends itself: its own frame, heard back, is a good frame from that
 *   station for that ADP that no request expects, and ends the request with 19.
 * - It reports a gap when TAO ends after an octet (IEC 62056-3-1, Table 1: 40 ms, "whose expiry indicates the end of a frame").
 * - It reports a session end when its own waiting time for a reply ends with no first octet: TA10 of the physical layer (Table 1) or T1 of
 *   the data link layer. A session end does not reset the wake-up rule.
 * - Where *length is not 0 after an octet, it sends those octets: AUT, without a wake-up call.
 * - It fits a label for a record with propolisk_label_fit (propolisk_primitives.h) before it programs or transfers it: octet counts and character
 *   counts never stand in for each other.
 *
 * Stack, measured in octets below the caller (examples/call_stack.c): octet 3,272, the requests under 2,300, gap and session_end under 900,
 * new 24. */
#ifndef PROPOLISK_TOOL_H
#define PROPOLISK_TOOL_H

#include <stddef.h>
#include <stdint.h>

#define PROPOLISK_TOOL_MEMORY 278
/* Octets of stack that a call needs at most, as measured. */
#define PROPOLISK_TOOL_STACK 3584

/* Writes a fresh tool: no request runs, the receiver is empty, and there was no request yet. What the memory held is not looked at. */
void propolisk_tool_new(uint8_t memory[PROPOLISK_TOOL_MEMORY]);

/* Requests. 0: *length is the frame's whole length, *wake is 1 where an AGN wake-up goes before it, and *ended is 1 where the request is done
 * once sent (broadcast and initialise), 0 where a reply is awaited. */

/* Reads a record: ENQ. */
uint8_t propolisk_tool_read(uint8_t memory[PROPOLISK_TOOL_MEMORY], const uint8_t *ads, size_t ads_count, uint8_t adp, uint8_t tab,
                            uint8_t *frame, size_t room, size_t *length, uint8_t *wake, uint8_t *ended);

/* Writes a record by transfer: TRF, at most 116 octets of DATA. */
uint8_t propolisk_tool_transfer(uint8_t memory[PROPOLISK_TOOL_MEMORY], const uint8_t *ads, size_t ads_count, uint8_t adp, uint8_t tab,
                                const uint8_t *data, size_t data_count, uint8_t *frame, size_t room, size_t *length, uint8_t *wake,
                                uint8_t *ended);

/* Writes a record by remote programming: REC, at most 100 octets of DATA; AUT follows when the right ECH has come. The key and the random
 * number NA1 are of 8 octets each; the memory keeps them. 21: the key is weak. A request that runs is never refused
 * for its key. */
uint8_t propolisk_tool_program(uint8_t memory[PROPOLISK_TOOL_MEMORY], const uint8_t *ads, size_t ads_count, uint8_t adp, uint8_t tab,
                               const uint8_t *data, size_t data_count, const uint8_t *key, size_t key_count, const uint8_t *na1,
                               size_t na1_count, uint8_t *frame, size_t room, size_t *length, uint8_t *wake, uint8_t *ended);

/* Writes a record of every station: TRB, at most 116 octets of DATA, to the broadcast address 000000000000. */
uint8_t propolisk_tool_broadcast(uint8_t memory[PROPOLISK_TOOL_MEMORY], const uint8_t *ads, size_t ads_count, uint8_t adp, uint8_t tab,
                                 const uint8_t *data, size_t data_count, uint8_t *frame, size_t room, size_t *length, uint8_t *wake,
                                 uint8_t *ended);

/* Initialises the bus: IB, to the broadcast address. */
uint8_t propolisk_tool_initialise(uint8_t memory[PROPOLISK_TOOL_MEMORY], const uint8_t *ads, size_t ads_count, uint8_t adp,
                                  uint8_t *frame, size_t room, size_t *length, uint8_t *wake, uint8_t *ended);

/* Events. */

/* An octet from the bus. 0: *length is the length of the AUT to send, or 0 where nothing is to be sent; *ended is 1 where the request has ended
 * well; the DATA of a reading that has ended well are the first *count octets of `data`, whose other octets are kept, and *count is 0
 * otherwise. A number of 13, 14, 19 or 20 says that the request has ended without success. */
uint8_t propolisk_tool_octet(uint8_t memory[PROPOLISK_TOOL_MEMORY], uint8_t octet, uint8_t *frame, size_t room, size_t *length,
                             uint8_t *ended, uint8_t data[116], size_t *count);

/* A gap on the bus. 3: it was inside a frame, which is dropped. */
uint8_t propolisk_tool_gap(uint8_t memory[PROPOLISK_TOOL_MEMORY]);

/* The end of a session. 15: a request ran, and is over. */
uint8_t propolisk_tool_session_end(uint8_t memory[PROPOLISK_TOOL_MEMORY]);

#endif
