/* Whole frames of IEC 62056-3-1 without DLMS for C programs: a builder and a reader.
 *
 * Link libframe_exports.a (`tools/archives frame_exports` writes it to target/staticlib/, for x86-64-v2 Linux). Addresses and numbers are in
 * written order, most significant octet first; on the wire they go the other way round. Buffers of one call must not overlap, and no
 * pointer is null, also where its count is 0. A refusal changes nothing that is lent. */
#ifndef PROPOLISK_FRAME_H
#define PROPOLISK_FRAME_H

#include <stddef.h>
#include <stdint.h>

/* Builds the frame with this command code over the front of the buffer; octets past the frame are kept.
 * Fields that the command does not carry are not looked at; its zero fields are written as zero. `announced` is the second ADS of RSO, and
 * the TABi of ASO are its data.
 *  0: *length is the whole length.
 * 17: the buffer is under 128 octets.   4: the code names no command.   7: more data than the command can have, or for ASO none. */
uint8_t propolisk_frame_build(uint8_t *buffer, size_t room, uint8_t code, const uint8_t ads[6], uint8_t adp, const uint8_t za1[8],
                              const uint8_t za2[8], uint8_t tab, const uint8_t announced[6], const uint8_t *data, size_t count,
                              size_t *length);

/* Reads a whole frame. The fields that the command does not carry, zero fields included, are given as zero.
 * 0: the frame is good; its DATA is in the first *length octets of `data`, whose other octets are kept.
 * 1: N is under 11 or over 128.   3: it is not as long as its N says (or empty).   2: the CRC is wrong.   4: the command is not known.
 * 5: the command cannot have this length. */
uint8_t propolisk_frame_read(const uint8_t *octets, size_t count, uint8_t *code, uint8_t ads[6], uint8_t *adp, uint8_t za1[8],
                             uint8_t za2[8], uint8_t *tab, uint8_t announced[6], uint8_t data[116], size_t *length);

#endif
