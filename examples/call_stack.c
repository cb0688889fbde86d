/* How many octets of stack each call of the card, the tool, the swap file and the primitives needs, measured: the stack below the call is painted, and the deepest
 * octet that the call wrote is looked for. The card has 32 labels of 116 octets; every command that it takes is sent, good and bad. The tool makes
 * every request to it, with the most DATA. The exit status is 1 where a call needs more than its header says, or DES more than DES_STACK.
 *
 * With -z now the loader looks for memcpy before the first call, and not on the stack that is measured. With -O1 the program's own frames, which
 * count as the call's, are small:
 *
 *   cc -O1 -pthread -Wl,-z,now -Iinclude examples/call_stack.c -Ltarget/staticlib -ltool_exports -lswap_exports -lcard_exports -lframe_exports \
 *      -lprimitive_exports -o target/call_stack
 */
#include "propolisk_card.h"
#include "propolisk_frame.h"
#include "propolisk_primitives.h"
#include "propolisk_swap.h"
#include "propolisk_tool.h"

#include <pthread.h>
#include <stdio.h>
#include <string.h>

enum { ENQ = 0x01, REC = 0x03, AUT = 0x05, IB = 0x09, TRF = 0x0C, TRB = 0x0D };
enum { STACK = 1 << 20, PAINT = 0xA5, TAB = 31 };
/* The most curves of 4,096 octets that a swap file takes beside 32 labels of 116. */
enum { MOST_CURVES = 14 };

/* DES holds one round key at a time (document 02, E3). With an array of sixteen a block needed 260 octets. */
enum { DES_STACK = 160 };

/* Every call that is measured, with the most stack that it may need: what its header says, and of DES less. */
#define CALLS(CALL)                                                                                                                        \
    CALL(card_setup, PROPOLISK_CARD_STACK)                                                                                                 \
    CALL(card_step_octet, PROPOLISK_CARD_STACK)                                                                                            \
    CALL(card_step_gap, PROPOLISK_CARD_STACK)                                                                                              \
    CALL(card_step_session_end, PROPOLISK_CARD_STACK)                                                                                      \
    CALL(card_meter_write, PROPOLISK_CARD_STACK)                                                                                           \
    CALL(card_read, PROPOLISK_CARD_STACK)                                                                                                  \
    CALL(tool_new, PROPOLISK_TOOL_STACK)                                                                                                   \
    CALL(tool_read, PROPOLISK_TOOL_STACK)                                                                                                  \
    CALL(tool_transfer, PROPOLISK_TOOL_STACK)                                                                                              \
    CALL(tool_program, PROPOLISK_TOOL_STACK)                                                                                               \
    CALL(tool_broadcast, PROPOLISK_TOOL_STACK)                                                                                             \
    CALL(tool_initialise, PROPOLISK_TOOL_STACK)                                                                                            \
    CALL(tool_octet, PROPOLISK_TOOL_STACK)                                                                                                 \
    CALL(tool_gap, PROPOLISK_TOOL_STACK)                                                                                                   \
    CALL(tool_session_end, PROPOLISK_TOOL_STACK)                                                                                           \
    CALL(swap_verdict, PROPOLISK_SWAP_STACK)                                                                                               \
    CALL(swap_start, PROPOLISK_SWAP_STACK)                                                                                                 \
    CALL(swap_next, PROPOLISK_SWAP_STACK)                                                                                                  \
    CALL(swap_next_for, PROPOLISK_SWAP_STACK)                                                                                              \
    CALL(swap_next_to_program, PROPOLISK_SWAP_STACK)                                                                                       \
    CALL(swap_write, PROPOLISK_SWAP_STACK)                                                                                                 \
    CALL(swap_add, PROPOLISK_SWAP_STACK)                                                                                                   \
    CALL(crc_key, PROPOLISK_PRIMITIVES_STACK)                                                                                              \
    CALL(crc_divisible, PROPOLISK_PRIMITIVES_STACK)                                                                                        \
    CALL(des_encipher, DES_STACK)                                                                                                          \
    CALL(des_decipher, DES_STACK)                                                                                                          \
    CALL(label_fit, PROPOLISK_PRIMITIVES_STACK)
#define NAME(name, most) name,
#define ROW(name, most) {"propolisk_" #name, most, 0},

enum { CALLS(NAME) COUNT };
static struct {
    const char *name;
    size_t most, needed;
} calls[COUNT] = {CALLS(ROW)};

static uint8_t stack[STACK] __attribute__((aligned(4096)));
static uint8_t memory[PROPOLISK_CARD_MEMORY], entries[PROPOLISK_CARD_ENTRIES], reply[PROPOLISK_CARD_REPLY], data[PROPOLISK_CARD_DATA];
static uint8_t tool[PROPOLISK_TOOL_MEMORY], frame[128], reading[116], wake, ended;
static uint8_t heads[40960], contents[65536], file[65536], curve[4096], ads[6], tab, kind, block[8];
static const uint8_t *added;
static const uint8_t address[6] = {0x11, 0x22, 0x33, 0x44, 0x55, 0x66}, broadcast[6];
static const uint8_t key[8] = {0x13, 0x34, 0x57, 0x79, 0x9B, 0xBC, 0xDF, 0xF1}, number[8], none[8];
static uint8_t octet;
static size_t length, frame_length, reading_length, records, contents_length, file_length, added_length, offset, at, left, from;
static bool found;

static void make_card(int call)
{
    switch (call) {
    case card_setup: propolisk_card_setup(memory, sizeof memory, address, sizeof address, key, sizeof key, 32, entries); break;
    case card_step_octet: propolisk_card_step_octet(memory, sizeof memory, octet, number, 8, reply, sizeof reply, &length); break;
    case card_step_gap: propolisk_card_step_gap(memory, sizeof memory); break;
    case card_step_session_end: propolisk_card_step_session_end(memory, sizeof memory); break;
    case card_meter_write: propolisk_card_meter_write(memory, sizeof memory, TAB, data, sizeof data); break;
    default: propolisk_card_read(memory, sizeof memory, TAB, data, &length);
    }
}

static void make_tool(int call)
{
    switch (call) {
    case tool_new: propolisk_tool_new(tool); break;
    case tool_read: propolisk_tool_read(tool, address, 6, 1, TAB, frame, 128, &frame_length, &wake, &ended); break;
    case tool_transfer: propolisk_tool_transfer(tool, address, 6, 1, TAB, data, 116, frame, 128, &frame_length, &wake, &ended); break;
    case tool_program:
        propolisk_tool_program(tool, address, 6, 1, TAB, data, 100, key, 8, number, 8, frame, 128, &frame_length, &wake, &ended);
        break;
    case tool_broadcast: propolisk_tool_broadcast(tool, broadcast, 6, 1, TAB, data, 116, frame, 128, &frame_length, &wake, &ended); break;
    case tool_initialise: propolisk_tool_initialise(tool, broadcast, 6, 1, frame, 128, &frame_length, &wake, &ended); break;
    case tool_octet: propolisk_tool_octet(tool, octet, frame, 128, &frame_length, &ended, reading, &reading_length); break;
    case tool_gap: propolisk_tool_gap(tool); break;
    default: propolisk_tool_session_end(tool);
    }
}

static void make_swap(int call)
{
    switch (call) {
    case swap_verdict: propolisk_swap_verdict(file, file_length, &length, &offset); break;
    case swap_start: propolisk_swap_start(file, file_length, &at, &left, &offset); break;
    case swap_next: propolisk_swap_next(file, file_length, &at, &left, &found, ads, &tab, &kind, &from, &length); break;
    case swap_next_for: propolisk_swap_next_for(file, file_length, address, &at, &left, &found, ads, &tab, &kind, &from, &length); break;
    case swap_next_to_program:
        propolisk_swap_next_to_program(file, file_length, address, &at, &left, &found, ads, &tab, &kind, &from, &length);
        break;
    case swap_write: propolisk_swap_write(heads, 10 * records, contents, contents_length, file, sizeof file, &file_length, &offset); break;
    default: propolisk_swap_add(heads, contents, &records, &contents_length, address, tab, kind, added, added_length, &offset);
    }
}

static void make_primitive(int call)
{
    switch (call) {
    case crc_key: propolisk_crc_key(data, sizeof data); break;
    case crc_divisible: propolisk_crc_divisible(data, sizeof data); break;
    case des_encipher: propolisk_des_encipher(key, block); break;
    case des_decipher: propolisk_des_decipher(key, block); break;
    default: propolisk_label_fit(data, sizeof data, 116, 116, &length, &offset);
    }
}

static __attribute__((noinline)) void make(int call)
{
    if (call <= card_read)
        make_card(call);
    else if (call <= tool_session_end)
        make_tool(call);
    else if (call <= swap_add)
        make_swap(call);
    else
        make_primitive(call);
}

static __attribute__((noinline)) void measure(int call)
{
    volatile uint8_t *here, *painted;
    __asm__ volatile("mov %%rsp, %0" : "=r"(here));
    for (painted = stack; painted < here; painted++)
        *painted = PAINT;
    make(call);
    for (painted = stack; painted < here && *painted == PAINT; painted++)
        ;
    if ((size_t)(here - painted) > calls[call].needed)
        calls[call].needed = (size_t)(here - painted);
}

/* The octets of a frame to the card, and the gap after it. */
static void card_hears(const uint8_t *octets, size_t count)
{
    for (size_t i = 0; i < count; i++) {
        octet = octets[i];
        measure(card_step_octet);
    }
    measure(card_step_gap);
}

/* A frame that is built here, its last octet turned by `damage`. */
static void send(uint8_t code, const uint8_t *to, const uint8_t *za2, size_t count, uint8_t damage)
{
    uint8_t sent[128];
    size_t whole = 0;
    propolisk_frame_build(sent, sizeof sent, code, to, 1, none, za2, TAB, none, data, count, &whole);
    sent[whole - 1] ^= damage;
    card_hears(sent, whole);
}

static void measure_card(void)
{
    uint8_t cipher[8];
    memcpy(cipher, number, sizeof cipher);
    propolisk_des_encipher(key, cipher);
    measure(card_setup);
    send(ENQ, address, none, 0, 0);
    send(ENQ, address, none, 0, 1);
    send(REC, address, none, 100, 0);
    send(AUT, address, cipher, 0, 0);
    send(REC, address, none, 100, 0);
    send(AUT, address, none, 0, 0);
    send(TRF, address, none, 116, 0);
    send(TRB, broadcast, none, 116, 0);
    send(IB, broadcast, none, 0, 0);
    octet = 128;
    measure(card_step_octet);
    measure(card_step_gap);
    measure(card_meter_write);
    measure(card_read);
    measure(card_step_session_end);
}

/* A request, the card's replies to its frames, and the end of the session. */
static void request(int call)
{
    frame_length = 0;
    measure(call);
    while (frame_length > 0) {
        card_hears(frame, frame_length);
        const size_t count = length;
        frame_length = 0;
        for (size_t i = 0; i < count; i++) {
            octet = reply[i];
            measure(tool_octet);
        }
        measure(tool_gap);
    }
    measure(tool_session_end);
}

static void measure_tool(void)
{
    measure(tool_new);
    for (int call = tool_read; call <= tool_initialise; call++)
        request(call);
}

static void measure_swap(void)
{
    added = data, added_length = sizeof data, kind = PROPOLISK_SWAP_LABEL;
    for (tab = 0; tab < 32; tab++)
        measure(swap_add);
    added = curve, added_length = sizeof curve, kind = PROPOLISK_SWAP_LONG;
    for (; tab < 32 + MOST_CURVES; tab++)
        measure(swap_add);
    measure(swap_write);
    measure(swap_verdict);
    measure(swap_start);
    measure(swap_next);
    measure(swap_next_for);
    measure(swap_start);
    do
        measure(swap_next_to_program);
    while (found);
}

static void measure_primitives(void)
{
    for (int call = crc_key; call <= label_fit; call++)
        measure(call);
}

static void *run(void *unused)
{
    memset(data, 'e', sizeof data);
    for (uint8_t i = 0; i < 32; i++) {
        uint8_t *entry = entries + i * PROPOLISK_CARD_ENTRY;
        memset(entry, 'e', PROPOLISK_CARD_ENTRY);
        memcpy(entry, (const uint8_t[]){i, PROPOLISK_CARD_LABEL, 116, 116, 7, 116}, 6);
    }
    measure_card();
    measure_tool();
    measure_swap();
    measure_primitives();
    return unused;
}

int main(void)
{
    pthread_attr_t attributes;
    pthread_t thread;
    int too_deep = 0;
    if (pthread_attr_init(&attributes) != 0 || pthread_attr_setstack(&attributes, stack, sizeof stack) != 0 ||
        pthread_create(&thread, &attributes, run, NULL) != 0 || pthread_join(thread, NULL) != 0)
        return 2;
    for (int call = 0; call < COUNT; call++) {
        printf("%s %zu octets of stack\n", calls[call].name, calls[call].needed);
        too_deep |= calls[call].needed > calls[call].most;
    }
    return too_deep;
}
