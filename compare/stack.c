/* How many octets of stack one call needs below its caller, the return address included: the stack below is painted, and the deepest octet
 * that the call wrote is looked for. An octet that a call left in the paint's own colour is not seen, so the caller measures with two colours, and
 * each stays in memory: in a register the call would save it to the stack.
 *
 * Nothing between the painting and the call may use the stack: with -O1 all that these functions hold is in registers or above. For x86-64. */
#include <stddef.h>
#include <stdint.h>

typedef void encipher(const uint8_t *key, uint8_t *block);
typedef uint16_t check_key(const uint8_t *octets, size_t count);

/* As many octets are painted; a call that needs all of them is too deep to be measured. */
enum { DEPTH = 1 << 16 };
const size_t stack_painted = DEPTH;

/* The stack pointer of the function that asks. */
#define HERE(here) __asm__ volatile("mov %%rsp, %0" : "=r"(here))

static volatile uint8_t paint_colour;

static inline __attribute__((always_inline)) void paint(volatile uint8_t *here, uint8_t colour)
{
    paint_colour = colour;
    for (ptrdiff_t below = 1; below <= DEPTH; below++)
        here[-below] = paint_colour;
}

static inline __attribute__((always_inline)) size_t deepest(const volatile uint8_t *here)
{
    ptrdiff_t below = DEPTH;
    while (below > 0 && here[-below] == paint_colour)
        below--;
    return (size_t)below;
}

size_t stack_of_encipher(encipher *call, const uint8_t *key, uint8_t *block, uint8_t colour)
{
    volatile uint8_t *here;
    HERE(here);
    paint(here, colour);
    call(key, block);
    return deepest(here);
}

size_t stack_of_check_key(check_key *call, const uint8_t *octets, size_t count, uint8_t colour)
{
    volatile uint8_t *here;
    HERE(here);
    paint(here, colour);
    call(octets, count);
    return deepest(here);
}
