/* The communication card (the secondary station of IEC 62056-3-1 without DLMS) for a meter board's program in C.
 *
 * Link libcard_exports.a (`tools/archives card_exports` writes it to target/staticlib/). The board lends the card its memory with every call
 * and keeps it between calls; the library keeps nothing. docs/MEMORY.md gives the memory's layout octet by octet.
 *
 * THE BOARD'S DUTIES
 *  - Buffers of one call must not overlap one another, the cell of `length` included. No pointer is null, also where its count is 0. These two
 *    are not tested: no proof speaks of a call that breaks them.
 *  - Between calls only these calls write the memory. One call at a time works on it: where octets come by interrupt, a meter write waits.
 *  - Every octet, gap and session end of the bus is reported, in the order in which they came. A call refused with 17 or 12 has not happened: an
 *    octet so refused is lost for its frame unless it is given again.
 *  - Gap: report one when TAO (40 ms, IEC 62056-3-1:2021, Table 2) passes without an octet after an octet was received. It ends a frame.
 *  - Session end: report one when TA10 (Table 2) passes without the first octet of a frame, which is where Table 6 ends the session of an
 *    energized station. A waiting programming exchange is then over.
 *  - With EVERY octet a fresh number NA2 of 8 octets is lent that nobody can foretell (Annex G: numbers differ from each other in more than 4 bits
 *    over 400 of them, each bit is 0 about as often as 1). The card uses the one lent with the last octet of a REC. If a number comes again,
 *    whoever heard the exchange in which it was used can play that AUT again, and the card will take it for the key's owner. The card tests
 *    the number's length and nothing else.
 *  - A reply goes out on the bus from the front of the reply buffer, `*length` octets of it; after 17 and 12, which leave *length, none does.
 *
 * Numbers that more than one call gives, in the order in which they are tested:
 * 17: the memory is under PROPOLISK_CARD_MEMORY octets, or another buffer has not the length that its call names. Nothing is changed, *length included.
 * 12: the memory does not hold a card: its address is broadcast, its key is weak, its records break what setup's 12, 7, 8 and 9 ask, the wait's DATA
 *     is over 100 octets, the mark of the wait or of the receiver is not in use, or the partly received frame cannot be one. Nothing is changed, *length included.
 *     Memory that this setup accepted and only these calls wrote is never refused with 12.
 *  0: done, and nothing was refused.
 * A refusal writes nothing to memory but, where the rules of the bus say so, the receiver and the mark of the waiting exchange.
 *
 * Stack, measured in octets below the caller: setup 22,360, step_octet 107,064, step_gap 39,192, step_session_end 33,688, meter_write 44,632,
 * read 27,704 (examples/call_stack.c). The card's records are taken out of the memory whole for each call, which is where the stack goes.
 * Nothing is allocated elsewhere.
 *
 * The archive is for x86-64 Linux today, and for processors from x86-64-v2 on, since that is what the kit compiles for. A board of another kind needs a kit that compiles for
 * its processor and C calling convention, with a size_t of 64 bits or the proofs made again for its own width; memcpy and memset, the only functions that
 * the archive calls; and room for memory and stack. The sources and their proofs stay as they are. */
#ifndef PROPOLISK_CARD_H
#define PROPOLISK_CARD_H

#include <stddef.h>
#include <stdint.h>

/* Octets of card memory. More may be lent; octets past these are never changed. */
#define PROPOLISK_CARD_MEMORY 4160
/* Octets of one entry of setup, and of all 32. */
#define PROPOLISK_CARD_ENTRY 122
#define PROPOLISK_CARD_ENTRIES 3904
/* Octets of the shortest reply buffer, and of the longest record. */
#define PROPOLISK_CARD_REPLY 128
#define PROPOLISK_CARD_DATA 116
/* Octets of stack that a call needs at most, as measured. */
#define PROPOLISK_CARD_STACK 114688

/* The second octet of an entry: what sort of record it is. */
#define PROPOLISK_CARD_RAW 0
#define PROPOLISK_CARD_LABEL 1
/* The fifth octet of an entry: a sum of these. Its other bits are free: they are never read, and kept. */
#define PROPOLISK_CARD_READABLE 1
#define PROPOLISK_CARD_PROGRAMMING 2
#define PROPOLISK_CARD_TRANSFER 4

/* Makes the memory a fresh card: nothing received, no exchange waiting, `count` records with their first contents. What the memory held before does
 * not matter. The address has 6 octets and the key 8, both in written order (most significant octet first). An entry is TAB, kind, octet limit (0 to
 * 116), character limit (0 to 116, not read for a raw record), marks, length of the contents, then 116 octets of which the first are the
 * contents; only the first `count` entries are read.
 *  0: the card is set up. Memory that belongs to no field written here (records past the count, the waiting exchange's octets, the receiver's
 *     octets) stays as it was.
 * 17: the memory is too short, the address has not 6 octets or the key not 8.
 *  6: the address is 000000000000, which is broadcast.
 * 12: more than 32 records, a TAB twice, a kind that is neither raw nor label, or a limit over 116.
 * 21: the key is one of DES's four weak keys, whatever its parity bits (the lowest bit of each octet): 01 eight times, FE eight times, E0 four times
 *     then F1 four times, 1F four times then 0E four times. Under such a key, enciphering twice gives the block back.
 *  7, 8, 9: the first record whose contents are not acceptable has more octets than its limit, is an ill-formed label, or has more characters
 *     than its limit, a letter and the accents U+0300 to U+036F after it being one (propolisk_label_fit in propolisk_primitives.h).
 * Any refusal leaves the memory as it was. */
uint8_t propolisk_card_setup(uint8_t *memory, size_t room, const uint8_t *address, size_t address_count, const uint8_t *key,
                             size_t key_count, uint8_t count, const uint8_t entries[PROPOLISK_CARD_ENTRIES]);

/* An octet came over the bus. NA2 is the number of 8 octets that is lent anew with every octet (see above); the reply buffer has 128 octets or more.
 * *length becomes the length of the reply that now stands at the front of the reply buffer, or 0; 17 and 12 leave it. Octets past the reply are kept.
 *  0: the octet was taken in; where *length is not 0 it completed a frame that has a reply (DAT, ECH, EOS, TRA).
 * 17: the memory is too short, NA2 has not 8 octets, or the reply buffer has not 128; tested with every octet, also inside a frame.
 * 12: see above.
 *  1: N is under 11 or over 128; octets are now passed over until a gap or a session end.
 *  2, 4, 5: the frame is complete and bad: wrong CRC, unknown command, a length that its command cannot have. It is dropped.
 * 10, 11: no such record, or it is not readable or not open to this command. 7, 8, 9: the data is not acceptable, as in setup. 13: the cipher
 *     or the primary station is not the waiting exchange's. No record is changed. DRJ (10, 11, 7, 8, 9), or ARJ (13), stands in the reply
 *     buffer all the same; TRB has no reply. Any waiting exchange is over: its mark is cleared, and its octets stay. */
uint8_t propolisk_card_step_octet(uint8_t *memory, size_t room, uint8_t octet, const uint8_t *na2, size_t na2_count,
                                  uint8_t *reply, size_t reply_room, size_t *length);

/* A gap on the bus: TAO has passed (see above). 0: no frame was cut.   3: a frame was cut, and is dropped.   17, 12: see above. */
uint8_t propolisk_card_step_gap(uint8_t *memory, size_t room);

/* The session is over: TA10 has passed (see above). 0: the receiver is empty and no exchange waits.   17, 12: see above. */
uint8_t propolisk_card_step_session_end(uint8_t *memory, size_t room);

/* The meter itself writes a record, whatever its marks. A waiting exchange goes on waiting.
 *  0: the record holds the data.   17, 12: see above.   10: no such record.   7, 8, 9: the data is not acceptable, as in setup.
 * Any refusal leaves the memory as it was. */
uint8_t propolisk_card_meter_write(uint8_t *memory, size_t room, uint8_t tab, const uint8_t *data, size_t count);

/* The meter itself reads a record, for its display, whatever its marks. The memory is not changed.
 *  0: the record is the first *length octets of `data`, whose other octets are kept.
 * 17, 12: see above.   10: no such record; *length is 0. Refused, `data` is kept. */
uint8_t propolisk_card_read(const uint8_t *memory, size_t room, uint8_t tab, uint8_t data[PROPOLISK_CARD_DATA], size_t *length);

#endif
