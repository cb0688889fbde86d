/* A fitter's program: the hand tool reads the records of an old card, keeps them in a swap file beside a load curve that the flat's logger hands
 * over, and programs a new card from the file. The two cards stand at the other end of the wire, in the same program. The wire bends a bit of one
 * reply and loses another; a request that nobody answered is made again, and every record arrives. A weak key is refused before anything is sent.
 * It prints each frame, and the number that each request ends with.
 *
 *   tools/archives tool_exports swap_exports card_exports primitive_exports
 *   cc -Iinclude examples/tool_host.c -Ltarget/staticlib -ltool_exports -lswap_exports -lcard_exports -lprimitive_exports -o target/tool_host
 */
#include "fresh_number.h"
#include "propolisk_card.h"
#include "propolisk_primitives.h"
#include "propolisk_swap.h"
#include "propolisk_tool.h"

#include <stdio.h>
#include <stdlib.h>
#include <string.h>

/* The TABs of the two records, one that no card has, and that of the curve. */
enum { HOLDER = 0x0A, INDEX = 0x0B, UNKNOWN = 0x0C, CURVE = 0x05 };
/* The curve: the meter's index in Wh at every half hour of a day, three octets each, most significant first. */
enum { HALF_HOURS = 48, CURVE_OCTETS = 3 * HALF_HOURS, FIRST_INDEX = 88250, RISE = 250 };
/* The tool's own address, and the most octets and characters of a holder on the new card. */
enum { ADP = 1, HOLDER_OCTETS = 14, HOLDER_CHARACTERS = 20 };
/* Numbers of the tool. 1 to LAST_BAD_FRAME: a bad frame was dropped, and the request goes on. SESSION_ENDED: nobody answered it. */
enum { LAST_BAD_FRAME = 5, SESSION_ENDED = 15 };
/* How often a request that nobody answered is made again (IEC 62056-3-1, 5.2.4). */
enum { MAX_RETRY = 2 };
/* Which replies the wire spoils, counted from 1: a bit of one is bent, and all of the other is lost. */
enum { BENT_REPLY = 1, LOST_REPLY = 6 };

static const uint8_t address[6] = {0x11, 0x22, 0x33, 0x44, 0x55, 0x66};
static const uint8_t key[8] = {0x13, 0x34, 0x57, 0x79, 0x9B, 0xBC, 0xDF, 0xF1};
/* FE eight times is one of DES's four weak keys, and is weak whatever its parity bits; here one of them is turned. */
static const uint8_t weak_key[8] = {0xFE, 0xFE, 0xFE, 0xFF, 0xFE, 0xFE, 0xFE, 0xFE};

/* What is lent to the calls, from the heap, so that a memory checker sees an access beside it. */
static uint8_t *tool, *card, *frame, *reply, *data, *heads, *contents, *file;
static size_t data_count, records, contents_count, file_length;

/* How a request stands: how many octets of the frame buffer are to be sent, whether it is over, and the number that it ended with. */
struct request {
    size_t to_send;
    bool over;
    uint8_t number;
};

static uint8_t *lent(size_t count)
{
    uint8_t *octets = malloc(count);
    if (octets == NULL)
        exit(1);
    return octets;
}

static void print_octets(const char *before, const uint8_t *octets, size_t count)
{
    printf("%s", before);
    for (size_t i = 0; i < count; i++)
        printf("%02X", octets[i]);
    printf("\n");
}

/* The card hears a frame and the gap after it; gives the length of its reply. */
static size_t card_hears(size_t count)
{
    uint8_t number[8];
    size_t length = 0;
    for (size_t i = 0; i < count; i++) {
        fresh_number(number);
        propolisk_card_step_octet(card, PROPOLISK_CARD_MEMORY, frame[i], number, sizeof number, reply, PROPOLISK_CARD_REPLY, &length);
    }
    propolisk_card_step_gap(card, PROPOLISK_CARD_MEMORY);
    return length;
}

/* The wire carries a reply; gives how many octets of it arrive. */
static size_t carried(size_t length)
{
    static int replies;
    replies++;
    if (replies == LOST_REPLY) {
        printf("  gets  nothing\n");
        return 0;
    }
    if (replies == BENT_REPLY)
        reply[length / 2] ^= 0x04;
    print_octets("  gets  ", reply, length);
    return length;
}

/* Notes what the tool answered to an event. A bad frame is no end: the right reply may still come. */
static void note(struct request *request, uint8_t number, bool ended)
{
    bool bad_frame = 1 <= number && number <= LAST_BAD_FRAME;
    if (bad_frame)
        printf("  drops a bad frame: %u\n", number);
    if (ended || (number != 0 && !bad_frame)) {
        request->over = true;
        request->number = number;
    }
}

/* The tool hears the octets that arrived, and the gap after them. */
static void tool_hears(struct request *request, size_t arrived)
{
    for (size_t i = 0; i < arrived; i++) {
        size_t to_send = 0, count = 0;
        uint8_t ended = 0;
        uint8_t number = propolisk_tool_octet(tool, reply[i], frame, 128, &to_send, &ended, data, &count);
        if (to_send > 0)
            request->to_send = to_send;
        if (ended)
            data_count = count;
        note(request, number, ended);
    }
    note(request, propolisk_tool_gap(tool), false);
}

/* Nothing more comes: the waiting time ends at both ends of the wire, and each host reports a session end. */
static void end_session(struct request *request)
{
    printf("  session end\n");
    propolisk_card_step_session_end(card, PROPOLISK_CARD_MEMORY);
    note(request, propolisk_tool_session_end(tool), false);
}

/* Plays a request to its end, from the frame that its call gave: the tool hears the card's reply, and may then have an AUT to send. */
static uint8_t play(size_t count)
{
    struct request request = {.to_send = count};
    while (request.to_send > 0) {
        print_octets("  sends ", frame, request.to_send);
        size_t arrived = carried(card_hears(request.to_send));
        request.to_send = 0;
        tool_hears(&request, arrived);
    }
    if (!request.over)
        end_session(&request);
    printf("  ends with %u\n", request.number);
    return request.number;
}

/* Begins a request that was called: its wake-up call, if any, goes before its frame. */
static uint8_t begin(uint8_t number, size_t count, uint8_t wake)
{
    if (number != 0) {
        printf("  refused %u\n", number);
        return number;
    }
    if (wake)
        printf("  wake-up call\n");
    return play(count);
}

static uint8_t read_once(uint8_t tab)
{
    size_t count = 0;
    uint8_t wake = 0, ended = 0;
    printf("reading TAB %02X\n", tab);
    uint8_t number = propolisk_tool_read(tool, address, sizeof address, ADP, tab, frame, 128, &count, &wake, &ended);
    return begin(number, count, wake);
}

static uint8_t program_once(uint8_t tab, const uint8_t *octets, size_t octets_count, const uint8_t cards_key[8])
{
    uint8_t na1[8], wake = 0, ended = 0;
    size_t count = 0;
    printf("programming TAB %02X with %zu octets\n", tab, octets_count);
    fresh_number(na1);
    uint8_t number = propolisk_tool_program(tool, address, sizeof address, ADP, tab, octets, octets_count, cards_key, 8, na1, sizeof na1,
                                            frame, 128, &count, &wake, &ended);
    return begin(number, count, wake);
}

/* A reading changes nothing, so it may be asked for again. */
static uint8_t read_record(uint8_t tab)
{
    uint8_t number = read_once(tab);
    for (int retry = 0; retry < MAX_RETRY && number == SESSION_ENDED; retry++)
        number = read_once(tab);
    return number;
}

/* A lost reply does not say whether the card has written; to write the same octets again does no harm. */
static uint8_t program_record(uint8_t tab, const uint8_t *octets, size_t count)
{
    uint8_t number = program_once(tab, octets, count, key);
    for (int retry = 0; retry < MAX_RETRY && number == SESSION_ENDED; retry++)
        number = program_once(tab, octets, count, key);
    return number;
}

/* The office's list has a weak key for this card. The tool refuses it before anything is sent, and is free for the next request. */
static void try_weak_key(void)
{
    print_octets("the key on the list: ", weak_key, sizeof weak_key);
    program_once(HOLDER, (const uint8_t *)"Zo\xC3\xA9", 4, weak_key);
    print_octets("the key on the card: ", key, sizeof key);
}

/* A record that was read goes into its place in the list, whatever the order of reading. */
static void collect(uint8_t tab, uint8_t kind)
{
    size_t offset = 0;
    uint8_t number = read_record(tab);
    if (number == 0)
        number = propolisk_swap_add(heads, contents, &records, &contents_count, address, tab, kind, data, data_count, &offset);
    printf("  TAB %02X is %s the list\n", tab, number == 0 ? "in" : "NOT in");
}

/* The logger hands over its curve, which no record of a card has room for. */
static void collect_curve(void)
{
    uint8_t curve[CURVE_OCTETS];
    size_t offset = 0;
    for (int i = 0; i < HALF_HOURS; i++) {
        const uint32_t index = FIRST_INDEX + RISE * i;
        curve[3 * i] = (uint8_t)(index >> 16);
        curve[3 * i + 1] = (uint8_t)(index >> 8);
        curve[3 * i + 2] = (uint8_t)index;
    }
    printf("the logger's curve of %zu octets\n", sizeof curve);
    uint8_t number =
        propolisk_swap_add(heads, contents, &records, &contents_count, address, CURVE, PROPOLISK_SWAP_LONG, curve, sizeof curve, &offset);
    printf("  TAB %02X is %s the list\n", CURVE, number == 0 ? "in" : "NOT in");
}

static void give_up(uint8_t number, size_t offset)
{
    printf("the swap file is refused: %u at %zu\n", number, offset);
    exit(1);
}

static void verdict(size_t length)
{
    size_t count = 0, offset = 0;
    uint8_t number = propolisk_swap_verdict(file, length, &count, &offset);
    if (number == 0)
        printf("its first %zu octets: %zu records\n", length, count);
    else
        printf("its first %zu octets: refused %u at %zu\n", length, number, offset);
}

static void write_file(void)
{
    size_t offset = 0;
    uint8_t number = propolisk_swap_write(heads, 10 * records, contents, contents_count, file, 65536, &file_length, &offset);
    if (number != 0)
        give_up(number, offset);
    print_octets("swap file ", file, file_length);
    verdict(file_length);
    verdict(file_length - 1);
}

/* A label is cut to the room of the new record between two characters, or not at all. */
static void program_fitted(uint8_t tab, uint8_t kind, const uint8_t *octets, size_t count)
{
    size_t kept = count, characters = 0;
    uint8_t number = 0;
    if (kind == PROPOLISK_SWAP_LABEL)
        number = propolisk_label_fit(octets, count, HOLDER_OCTETS, HOLDER_CHARACTERS, &kept, &characters);
    if (number == 0)
        number = program_record(tab, octets, kept);
    printf("  TAB %02X is %s the new card\n", tab, number == 0 ? "on" : "NOT on");
}

/* Starting judges the file; on a file that it accepts, no record is refused. */
static void start(size_t *at, size_t *left)
{
    size_t offset = 0;
    uint8_t number = propolisk_swap_start(file, file_length, at, left, &offset);
    if (number != 0)
        give_up(number, offset);
}

/* Every record of the file, curves too. */
static void list_file(void)
{
    size_t at, left, from, length;
    bool found = false;
    uint8_t ads[6], tab, kind;
    start(&at, &left);
    while (propolisk_swap_next(file, file_length, &at, &left, &found, ads, &tab, &kind, &from, &length) == 0 && found)
        printf("  TAB %02X kind %u with %zu octets\n", tab, kind, length);
}

/* Every record that goes onto the card: the curve is passed over. */
static void program_from_file(void)
{
    size_t at, left, from, length;
    bool found = false;
    uint8_t ads[6], tab, kind;
    start(&at, &left);
    while (propolisk_swap_next_to_program(file, file_length, address, &at, &left, &found, ads, &tab, &kind, &from, &length) == 0 && found)
        program_fitted(tab, kind, file + from, length);
}

static void put_entry(uint8_t *entry, uint8_t tab, uint8_t kind, uint8_t octets, uint8_t characters, const char *held)
{
    const uint8_t head[6] = {tab, kind, octets, characters, PROPOLISK_CARD_READABLE | PROPOLISK_CARD_PROGRAMMING, (uint8_t)strlen(held)};
    memcpy(entry, head, sizeof head);
    memcpy(entry + sizeof head, held, strlen(held));
}

static void set_up(const char *what, uint8_t octets, uint8_t characters, const char *holder, const char *index)
{
    static uint8_t entries[PROPOLISK_CARD_ENTRIES];
    put_entry(entries, HOLDER, PROPOLISK_CARD_LABEL, octets, characters, holder);
    put_entry(entries + PROPOLISK_CARD_ENTRY, INDEX, PROPOLISK_CARD_RAW, 9, 0, index);
    printf("%s: setup %u\n", what,
           propolisk_card_setup(card, PROPOLISK_CARD_MEMORY, address, sizeof address, key, sizeof key, 2, entries));
}

static void display(uint8_t tab)
{
    size_t length = 0;
    uint8_t number = propolisk_card_read(card, PROPOLISK_CARD_MEMORY, tab, data, &length);
    printf("the new meter's display, TAB %02X: %u \"%.*s\"\n", tab, number, (int)length, (const char *)data);
}

int main(void)
{
    uint8_t *const all[] = {tool = lent(PROPOLISK_TOOL_MEMORY), card = lent(PROPOLISK_CARD_MEMORY), frame = lent(128),
                            reply = lent(PROPOLISK_CARD_REPLY), data = lent(PROPOLISK_CARD_DATA), heads = lent(40960),
                            contents = lent(65536), file = lent(65536)};
    propolisk_tool_new(tool);

    set_up("the old card", 40, 40, "R\xC3\xA9sidence Pr\xC3\xA9 Fleuri", "000000042");
    collect(INDEX, PROPOLISK_SWAP_RAW);
    collect(HOLDER, PROPOLISK_SWAP_LABEL);
    collect(UNKNOWN, PROPOLISK_SWAP_RAW);
    collect_curve();
    write_file();
    list_file();
    set_up("the new card", HOLDER_OCTETS, HOLDER_CHARACTERS, "", "");
    try_weak_key();
    program_from_file();
    display(HOLDER);
    display(INDEX);

    for (size_t i = 0; i < sizeof all / sizeof *all; i++)
        free(all[i]);
    return 0;
}
