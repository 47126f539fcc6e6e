/* What a cut cannot do without: reads a font, copies as many bytes as the cut has into a buffer, sums their big-endian
   32-bit words, and writes them. Words: the font, the file that is written, its size. Where that is more than the font
   has, the copy begins again at its front. */
#include <stdio.h>

#include "copy_and_sum.h"

int main(int count, char **words)
{
    size_t length = 0;
    unsigned char *font = count == 4 ? read_file(words[1], &length) : NULL;
    size_t size = font != NULL ? (size_t)strtoull(words[3], NULL, 10) : 0;
    unsigned char *cut = malloc(size + 4);
    if (font == NULL || length == 0 || cut == NULL)
        return 1;
    printf("%08x\n", (unsigned)copy_and_sum(cut, size, font, length));
    return write_file(words[2], cut, size);
}
