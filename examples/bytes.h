/* Big-endian numbers in bytes: on the wire and in the object's file all numbers are so. */
#ifndef BYTES_H
#define BYTES_H

#include <stddef.h>
#include <stdint.h>

/* The number of `size` bytes, at most 8. */
uint64_t number_at(const uint8_t *from, size_t size);

/* Puts the number into `size` bytes, and returns where they end. */
uint8_t *put_number(uint8_t *to, uint64_t number, size_t size);

#endif
