/* Little-endian numbers of the records, read and written byte by byte. */
#ifndef BYTES_H
#define BYTES_H

#include <stddef.h>
#include <stdint.h>

static inline uint32_t get_number(const uint8_t *bytes, size_t width)
{
    uint32_t number = 0;
    for (size_t i = width; i > 0; i--)
        number = number * 256 + bytes[i - 1];
    return number;
}

static inline void put_number(uint8_t *bytes, uint32_t number, size_t width)
{
    for (size_t i = 0; i < width; i++) {
        bytes[i] = (uint8_t)(number % 256);
        number /= 256;
    }
}

#endif
