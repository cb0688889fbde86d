/* For C programs: the check key of IEC 62056-3-1 Annex E, one DES block of FIPS 46-3, and fitting a label of RFC 3629 text.
 *
 * Link libprimitive_exports.a (`tools/archives primitive_exports` writes it to target/staticlib/, for x86-64-v2 Linux). No call keeps anything between calls or
 * writes anything but what its sentence names. Buffers of one call must not overlap, and no pointer is null, also where its count is 0.
 *
 * Stack, measured in octets below the caller (examples/call_stack.c): one DES block, either way, 104, with one round key held at a time; a check key
 * 32, its test 48; fit 88. */
#ifndef PROPOLISK_PRIMITIVES_H
#define PROPOLISK_PRIMITIVES_H

#include <stdbool.h>
#include <stddef.h>
#include <stdint.h>

/* Octets of stack that a call needs at most, as measured. */
#define PROPOLISK_PRIMITIVES_STACK 256

/* The check key of the octets; a frame carries its low octet first. */
uint16_t propolisk_crc_key(const uint8_t *octets, size_t count);

/* The receiver's test of octets that end with their check key. */
bool propolisk_crc_divisible(const uint8_t *octets, size_t count);

/* The block is enciphered, or deciphered, where it stands. The first octet of key and block holds bits 1 to 8 of FIPS 46-3. Every key is taken, the
 * weak ones too. */
void propolisk_des_encipher(const uint8_t key[8], uint8_t block[8]);
void propolisk_des_decipher(const uint8_t key[8], uint8_t block[8]);

/* The longest front part of whole characters of the label within both limits. A character is a well-formed sequence of RFC 3629 with all sequences for
 * U+0300 to U+036F that directly follow it, so that a letter and its accents are kept together or not at all; where these start a label, they are one
 * character. A label of one character that is too long for the limits keeps nothing.
 * 0: *octets and *characters are the kept part's own counts; the part is the first *octets octets of the label.
 * 8: the label is ill-formed; *octets is the offset at which its longest well-formed front part ends, and *characters stays as it was.
 * The label is never changed. */
uint8_t propolisk_label_fit(const uint8_t *label, size_t count, size_t octet_limit, size_t character_limit, size_t *octets,
                            size_t *characters);

#endif
