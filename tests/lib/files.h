/* Whole files in memory, and the sum of their words: what the programs share beside which fontcut is timed. */
#ifndef FILES_H
#define FILES_H

#include <fcntl.h>
#include <stdint.h>
#include <stdlib.h>
#include <string.h>
#include <sys/stat.h>
#include <unistd.h>

/* The bytes of a file, filled with zeros to a whole word, or NULL where it cannot be read. size is their number. */
static unsigned char *read_file(const char *path, size_t *size)
{
    struct stat about;
    int file = open(path, O_RDONLY);
    if (file < 0 || fstat(file, &about) != 0)
        return NULL;
    unsigned char *bytes = malloc((size_t)about.st_size + 4);
    size_t length = 0;
    while (bytes != NULL && length < (size_t)about.st_size) {
        ssize_t got = read(file, bytes + length, (size_t)about.st_size - length);
        if (got <= 0)
            return NULL;
        length += (size_t)got;
    }
    close(file);
    if (bytes != NULL)
        memset(bytes + length, 0, 4);
    *size = length;
    return bytes;
}

/* The sum of the big-endian 32-bit words of some bytes, which zeros fill to a whole word. */
static inline uint32_t sum_of(const unsigned char *bytes, size_t size)
{
    uint32_t sum = 0;
    for (size_t at = 0; at < size; at += 4) {
        uint32_t word;
        memcpy(&word, bytes + at, 4);
        sum += __builtin_bswap32(word);
    }
    return sum;
}

/* Writes all bytes to a file, made anew. Returns 0 where that is done. */
static inline int write_file(const char *path, const unsigned char *bytes, size_t size)
{
    int file = open(path, O_WRONLY | O_CREAT | O_TRUNC, 0666);
    size_t done = 0;
    if (file < 0)
        return 1;
    while (done < size) {
        ssize_t took = write(file, bytes + done, size - done);
        if (took <= 0)
            return 1;
        done += (size_t)took;
    }
    return close(file);
}

#endif
