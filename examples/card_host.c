/* A meter board with a card in it, and a fitter's tool at the other end of the wire, in one program: a setup that is refused for its weak key,
 * one that is not, a reading, programming with a wrong and a right authentication, meter writes. It prints each frame that the tool sends, what
 * the card answers, and the number that the board gets.
 *
 *   tools/archives card_exports frame_exports primitive_exports
 *   cc -Iinclude examples/card_host.c -Ltarget/staticlib -lcard_exports -lframe_exports -lprimitive_exports -o target/card_host
 */
#include "fresh_number.h"
#include "propolisk_card.h"
#include "propolisk_frame.h"
#include "propolisk_primitives.h"

#include <stdio.h>
#include <stdlib.h>
#include <string.h>

/* Command codes of Annex D, and the TABs of the two records. */
enum { ENQ = 0x01, REC = 0x03, ECH = 0x04, AUT = 0x05 };
enum { HOLDER = 0x0A, INDEX = 0x0B };

static const uint8_t address[6] = {0x11, 0x22, 0x33, 0x44, 0x55, 0x66};
static const uint8_t key[8] = {0x13, 0x34, 0x57, 0x79, 0x9B, 0xBC, 0xDF, 0xF1};
/* One of DES's four weak keys: a block enciphered twice under it is as it was before. The card takes none of them. */
static const uint8_t weak_key[8] = {0x01, 0x01, 0x01, 0x01, 0x01, 0x01, 0x01, 0x01};
static const uint8_t na1[8] = {0x01, 0x23, 0x45, 0x67, 0x89, 0xAB, 0xCD, 0xEF};
static const uint8_t none[8] = {0};

/* From the heap, so that a memory checker sees an access beside them. A board has them where it likes. */
static uint8_t *memory, *reply;
static size_t reply_length;

static void print_octets(const uint8_t *octets, size_t count)
{
    for (size_t i = 0; i < count; i++)
        printf("%02X", octets[i]);
}

static const char *name_of(uint8_t code)
{
    static const char *const names[] = {"",    "ENQ", "DAT", "REC", "ECH", "AUT", "EOS", "ASO",
                                        "RSO", "IB",  "DRJ", "ARJ", "TRF", "TRB", "TRA"};
    return code < sizeof names / sizeof *names ? names[code] : "";
}

static void print_frame(const char *way, const uint8_t *frame, size_t count)
{
    printf("  %s %s ", way, name_of(frame[8]));
    print_octets(frame, count);
    printf("\n");
}

/* The board hears a frame octet by octet, then the gap after it, and sends the card's reply. 17 and 12 leave the length, so it is 0 before. */
static void send_frame(const uint8_t *frame, size_t count)
{
    uint8_t number = 0, lent[8];
    reply_length = 0;
    print_frame("sends", frame, count);
    for (size_t i = 0; i < count; i++) {
        fresh_number(lent);
        number = propolisk_card_step_octet(memory, PROPOLISK_CARD_MEMORY, frame[i], lent, sizeof lent, reply, PROPOLISK_CARD_REPLY,
                                           &reply_length);
    }
    propolisk_card_step_gap(memory, PROPOLISK_CARD_MEMORY);
    if (reply_length > 0)
        print_frame("gets ", reply, reply_length);
    else
        printf("  gets  no reply\n");
    if (number != 0)
        printf("  the board gets %u\n", number);
}

static void send(uint8_t code, const uint8_t za1[8], const uint8_t za2[8], uint8_t tab, const char *data)
{
    uint8_t frame[128];
    size_t count = 0;
    propolisk_frame_build(frame, sizeof frame, code, address, 1, za1, za2, tab, none, (const uint8_t *)data, strlen(data), &count);
    send_frame(frame, count);
}

static void read_over_bus(uint8_t tab)
{
    printf("reading TAB %02X\n", tab);
    send(ENQ, none, none, tab, "");
}

/* REC, then AUT with the cipher of the number that came in ECH, under the key that the tool has. */
static void program(uint8_t tab, const char *data, const uint8_t tools_key[8])
{
    uint8_t code, ads[6], adp, za1[8], na2[8], its_tab, station[6], echo[116];
    size_t length;
    send(REC, na1, none, tab, data);
    if (propolisk_frame_read(reply, reply_length, &code, ads, &adp, za1, na2, &its_tab, station, echo, &length) != 0 || code != ECH)
        return;
    propolisk_des_encipher(tools_key, na2);
    send(AUT, none, na2, 0, "");
}

static void meter_write(uint8_t tab, const char *data)
{
    uint8_t number = propolisk_card_meter_write(memory, PROPOLISK_CARD_MEMORY, tab, (const uint8_t *)data, strlen(data));
    printf("the meter writes \"%s\" to TAB %02X: %u\n", data, tab, number);
}

static void display(uint8_t tab)
{
    uint8_t data[PROPOLISK_CARD_DATA];
    size_t length = 0;
    uint8_t number = propolisk_card_read(memory, PROPOLISK_CARD_MEMORY, tab, data, &length);
    printf("the meter's display, TAB %02X: %u \"%.*s\"\n", tab, number, (int)length, (const char *)data);
}

static void put_entry(uint8_t *entry, uint8_t tab, uint8_t kind, uint8_t octets, uint8_t characters, uint8_t marks, const char *contents)
{
    const uint8_t head[6] = {tab, kind, octets, characters, marks, (uint8_t)strlen(contents)};
    memcpy(entry, head, sizeof head);
    memcpy(entry + sizeof head, contents, strlen(contents));
}

static uint8_t set_up(const uint8_t cards_key[8])
{
    static uint8_t entries[PROPOLISK_CARD_ENTRIES];
    put_entry(entries, HOLDER, PROPOLISK_CARD_LABEL, 10, 3, PROPOLISK_CARD_READABLE | PROPOLISK_CARD_PROGRAMMING, "old");
    put_entry(entries + PROPOLISK_CARD_ENTRY, INDEX, PROPOLISK_CARD_RAW, 9, 0, PROPOLISK_CARD_READABLE, "000000000");
    return propolisk_card_setup(memory, PROPOLISK_CARD_MEMORY, address, sizeof address, cards_key, 8, 2, entries);
}

int main(void)
{
    static const uint8_t wrong_key[8] = {0x0E, 0x32, 0x92, 0x32, 0xEA, 0x6D, 0x0D, 0x73};
    memory = malloc(PROPOLISK_CARD_MEMORY);
    reply = malloc(PROPOLISK_CARD_REPLY);
    if (memory == NULL || reply == NULL)
        return 1;

    printf("setup with the key ");
    print_octets(weak_key, sizeof weak_key);
    printf(": %u\n", set_up(weak_key));
    printf("setup: %u\n", set_up(key));
    read_over_bus(HOLDER);
    printf("programming TAB %02X with a wrong key\n", HOLDER);
    program(HOLDER, "Zo\xC3\xA9", wrong_key);
    read_over_bus(HOLDER);
    printf("programming TAB %02X with the right key\n", HOLDER);
    program(HOLDER, "Zo\xC3\xA9", key);
    read_over_bus(HOLDER);
    printf("programming TAB %02X, which is not open to it\n", INDEX);
    program(INDEX, "000000001", key);
    meter_write(INDEX, "000000042");
    read_over_bus(INDEX);
    meter_write(HOLDER, "four");
    display(HOLDER);
    printf("session end: %u\n", propolisk_card_step_session_end(memory, PROPOLISK_CARD_MEMORY));

    free(reply);
    free(memory);
    return 0;
}
