/* Reads a file into one buffer and prints the sum of its big-endian 32-bit words: what a check cannot do without. */
#include <stdio.h>

#include "files.h"

int main(int count, char **words)
{
    size_t size = 0;
    unsigned char *bytes = count == 2 ? read_file(words[1], &size) : NULL;
    if (bytes == NULL)
        return 1;
    printf("%08x\n", (unsigned)sum_of(bytes, size));
    free(bytes);
    return 0;
}
