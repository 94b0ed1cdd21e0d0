/*
 * What holds of two banks.
 */
#ifndef BANKS_H
#define BANKS_H

#include "memory.h"

/* Reads a text into two banks, as it was read into m with that code and line,
 * and makes the calls in them, each in one bank or the other. */
void hold_banks(const uint8_t *text, size_t length, struct memory m,
                size_t code, size_t line, const uint8_t *calls, size_t count);

#endif
