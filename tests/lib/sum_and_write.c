/* Reads files into memory, sums their big-endian 32-bit words and writes as many zeros as it is told:
   what a join cannot do without. Words: the file that is written, its size, the files that are read. */
#include <stdio.h>

#include "files.h"

int main(int count, char **words)
{
    uint32_t sum = 0;
    if (count < 4)
        return 1;
    for (int word = 3; word < count; word++) {
        size_t size = 0;
        unsigned char *bytes = read_file(words[word], &size);
        if (bytes == NULL)
            return 1;
        sum += sum_of(bytes, size);
    }
    fprintf(stderr, "%08x\n", (unsigned)sum);
    size_t size = (size_t)strtoul(words[2], NULL, 10);
    unsigned char *zeros = calloc(size, 1);
    return zeros == NULL || write_file(words[1], zeros, size);
}
