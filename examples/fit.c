/* Cuts a label to the room of a record, once with each é as one sequence and once with each é as e and U+0301, as some suppliers send it. The room
 * ends inside the second é, which is kept whole or not at all. */
#include <propolisk_primitives.h>
#include <stdio.h>
#include <string.h>

static int fit(const char *label, size_t octet_limit) {
    size_t octets, characters;
    uint8_t number = propolisk_label_fit((const uint8_t *)label, strlen(label), octet_limit, 20, &octets, &characters);
    if (number != 0) {
        printf("refused %u at %zu\n", number, octets);
        return 1;
    }
    printf("%zu octets, %zu characters: %.*s\n", octets, characters, (int)octets, label);
    return 0;
}

int main(void) {
    int failed = fit("R\u00e9sidence Pr\u00e9 Fleuri", 14); /* the 14th octet is the first half of é */
    failed |= fit("Re\u0301sidence Pre\u0301 Fleuri", 15); /* the 15th octet is the bare e */
    return failed;
}
