/* The random numbers of the examples. A program takes them from a random generator; here they are a count, enciphered, so that each run prints the
 * same. */
#ifndef FRESH_NUMBER_H
#define FRESH_NUMBER_H

#include "propolisk_primitives.h"

static void fresh_number(uint8_t number[8])
{
    static const uint8_t secret[8] = {0x5A, 0x6F, 0xC3, 0xA9, 0x10, 0x32, 0x54, 0x76};
    static uint64_t count;
    count++;
    for (int i = 0; i < 8; i++)
        number[i] = (uint8_t)(count >> (56 - 8 * i));
    propolisk_des_encipher(secret, number);
}

#endif
