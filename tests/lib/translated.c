/* Calls each function that tests/translation has translated, with each pair of numbers of standard input, and prints what
 * it returns. */
#include <inttypes.h>
#include <stdio.h>
#include "fontcut.h"

static uint64_t (*const functions[])(uint64_t, uint64_t) = {
#define NAME(name) fontcut_##name,
#include "names.h"
};

int main(void) {
    static uint64_t pairs[1000][2];
    size_t count = 0;
    while (count < 1000 && scanf("%" SCNu64 " %" SCNu64, &pairs[count][0], &pairs[count][1]) == 2) count++;
    for (size_t at = 0; at < sizeof functions / sizeof *functions; at++)
        for (size_t number = 0; number < count; number++)
            printf("%" PRIu64 "\n", functions[at](pairs[number][0], pairs[number][1]));
    return 0;
}
