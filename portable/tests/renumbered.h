/*
 * What holds of members renumbered.
 */
#ifndef RENUMBERED_H
#define RENUMBERED_H

#include "memory.h"

/* Renumbers the members of m in an order made of a call's bytes, and asks for the
 * call of both. */
void hold_renumbered(struct memory m, const uint8_t *call);

#endif
