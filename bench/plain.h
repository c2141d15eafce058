/* The desk of docs/RULES.md in plain C, written from the rules alone: an ordinary fast program to
 * measure the proved one against. Each function means what the function of include/vastrudhil.h
 * means that has the same name after vas_. */
#ifndef PLAIN_H
#define PLAIN_H

#include <stddef.h>
#include <stdint.h>

uint32_t plain_traverse(const uint8_t *tape, size_t tape_len, int64_t *words, size_t words_len, size_t *place,
                        int64_t figures[7]);

uint32_t plain_sheet(const uint8_t *tape, size_t tape_len, uint8_t *out, size_t out_len, size_t *place,
                     size_t *length);

#endif
