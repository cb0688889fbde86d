/* The check key of IEC 62056-3-1 Annex E as C programs of the field make such keys: with one table of 256 entries, an octet a turn, and with
 * eight such tables, eight octets a turn. compare/figures measures both beside ours. */
#include <stddef.h>
#include <stdint.h>

enum { ENTRIES = 256, SLICES = 8, DIVISOR = 0xA001 };

/* Entry i of table n is the key of the octet i with n octets 0 after it. */
static uint16_t tables[SLICES][ENTRIES];

/* Eight steps of the register, one for each bit, the lowest first. */
static uint16_t step_by_bits(uint16_t value)
{
    for (int bit = 0; bit < 8; bit++)
        value = (uint16_t)(value & 1 ? value >> 1 ^ DIVISOR : value >> 1);
    return value;
}

/* To be called once, before the keys. */
void crc_tables_make(void)
{
    for (uint16_t i = 0; i < ENTRIES; i++) {
        tables[0][i] = step_by_bits(i);
        for (int n = 1; n < SLICES; n++)
            tables[n][i] = step_by_bits(tables[n - 1][i]);
    }
}

static uint16_t by_octets(uint16_t value, const uint8_t *octets, size_t count)
{
    for (size_t i = 0; i < count; i++)
        value = (uint16_t)(value >> 8 ^ tables[0][(value ^ octets[i]) & 0xFF]);
    return value;
}

uint16_t crc_one_table(const uint8_t *octets, size_t count)
{
    return by_octets(0, octets, count);
}

uint16_t crc_eight_tables(const uint8_t *octets, size_t count)
{
    uint16_t value = 0;
    for (; count >= SLICES; octets += SLICES, count -= SLICES)
        value = tables[7][(value ^ octets[0]) & 0xFF] ^ tables[6][value >> 8 ^ octets[1]] ^ tables[5][octets[2]] ^ tables[4][octets[3]] ^
                tables[3][octets[4]] ^ tables[2][octets[5]] ^ tables[1][octets[6]] ^ tables[0][octets[7]];
    return by_octets(value, octets, count);
}
