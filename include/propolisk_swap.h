/* The swap file for C programs: the verdict on a file, its records one by one, the writer, and a list that collects records for it.
 *
 * Link libswap_exports.a (`tools/archives swap_exports` writes it to target/staticlib/, for x86-64-v2 Linux). Buffers and cells of one call must
 * not overlap, and no pointer is null, also where its count is 0. ADS is in written order, most significant octet first. A refusal changes
 * nothing that is lent but the cell that it names.
 *
 * Stack, measured in octets below the caller (examples/call_stack.c): add 106,824, all other calls under 300. */
#ifndef PROPOLISK_SWAP_H
#define PROPOLISK_SWAP_H

#include <stdbool.h>
#include <stddef.h>
#include <stdint.h>

/* Octets of stack that propolisk_swap_add needs at most, as measured. */
#define PROPOLISK_SWAP_STACK 110592

/* The kinds of a record. Raw: 0 to 116 octets of any sort. Label: 0 to 116 octets of well-formed UTF-8. Long: 0 to 4,096 octets of any sort,
 * such as a load curve, which no card takes. A program from before the long kind gives 18 at the first one of a file. */
#define PROPOLISK_SWAP_RAW 0
#define PROPOLISK_SWAP_LABEL 1
#define PROPOLISK_SWAP_LONG 2

/*  0: the file is accepted; *records is its count of records.
 * 18: it is faulty; *offset is the start of its first bad item, or 65,536 where it is too long. */
uint8_t propolisk_swap_verdict(const uint8_t *file, size_t count, size_t *records, size_t *offset);

/* Judges the file, as the verdict does, and gives the cursor of its first record. From there on propolisk_swap_next gives all records of
 * the file, propolisk_swap_next_for all of a station, and propolisk_swap_next_to_program those of a station that go onto a card, in order,
 * and then the end; none of them gives 18, and each goes on from a cursor that another left.
 *  0: *at is the offset at which the first record stands, *left how many records are left from there on. A cursor is good for the file it
 *     was made of, as long as nobody writes to the file.
 * 18: the file is faulty; *offset is what the verdict gives. *at and *left are kept: there is no cursor to go on with. */
uint8_t propolisk_swap_start(const uint8_t *file, size_t count, size_t *at, size_t *left, size_t *offset);

/* The record at a cursor.
 *  0: *found says whether a record was left. If so, its ADS, TAB and kind are in the cells, its data is the *length octets of the file
 *     from *from on, and the cursor goes on to the next record; if not, every other cell is kept.
 * 18: no record stands at the cursor: propolisk_swap_start did not give it for this file, nor did a call after that. *found is false, and
 *     all else is kept.
 * *found holds false or true before the call too, as any bool does that C reads. */
uint8_t propolisk_swap_next(const uint8_t *file, size_t count, size_t *at, size_t *left, bool *found, uint8_t ads[6], uint8_t *tab,
                            uint8_t *kind, size_t *from, size_t *length);

/* The first record of this station from a cursor on, with the cursor after it; answers as above, 18 also where a record on the way is bad. */
uint8_t propolisk_swap_next_for(const uint8_t *file, size_t count, const uint8_t station[6], size_t *at, size_t *left, bool *found,
                                uint8_t ads[6], uint8_t *tab, uint8_t *kind, size_t *from, size_t *length);

/* The first record from a cursor on that a tool programs this station's card with, raw or a label; its long records are passed over.
 * Answers as above; at the end the cursor is kept, so that propolisk_swap_next still gives the records that were passed over last. */
uint8_t propolisk_swap_next_to_program(const uint8_t *file, size_t count, const uint8_t station[6], size_t *at, size_t *left, bool *found,
                                       uint8_t ads[6], uint8_t *tab, uint8_t *kind, size_t *from, size_t *length);

/* Writes the file of these records over the front of the buffer; octets past the file are kept. A head is ten octets: ADS 6, TAB, kind,
 * and the length of its data, low octet first; the data of all heads stands one after the other.
 *  0: *length is the file's length.
 * 18: the file would be faulty; *offset is what the verdict on it would give. Tested before 17.
 * 17: the buffer is too short for the file. */
uint8_t propolisk_swap_write(const uint8_t *heads, size_t heads_count, const uint8_t *contents, size_t contents_count, uint8_t *buffer,
                             size_t room, size_t *length, size_t *offset);

/* Adds a record to a list, in its place by ADS then TAB. The list is *records heads and *octets octets of data, at the front of the two
 * arrays, as propolisk_swap_write takes them; both counts are 0 at first. A long record has 4,096 octets at most, others 116.
 *  0: *records and *octets are those of the list with the record.
 * 18: the list with the record would make a faulty file; *offset is what the verdict on it would give. Both arrays and both counts are
 *     kept. So is a record with an ADS and TAB that the list has already, and one for which there is no room. */
uint8_t propolisk_swap_add(uint8_t heads[40960], uint8_t contents[65536], size_t *records, size_t *octets, const uint8_t ads[6],
                           uint8_t tab, uint8_t kind, const uint8_t *content, size_t count, size_t *offset);

#endif
