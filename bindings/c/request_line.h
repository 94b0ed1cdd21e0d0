/*
 * A line of requests, `R` event from to, as the hosts of this folder take it.
 */
#ifndef REQUEST_LINE_H
#define REQUEST_LINE_H

#include "cuckooormolu.h"

/* Reads 1 to 5 digits, leading zeros among them, up to `end`, a tab or line
 * feed, and gives the place after it; NULL where there is no such number. */
static inline const uint8_t *request_number(const uint8_t *at,
                                            const uint8_t *stop, uint8_t end,
                                            uint32_t *value)
{
    const uint8_t *first = at;
    *value = 0;
    while (at < stop && at - first < 6 && *at >= '0' && *at <= '9')
        *value = *value * 10 + (uint32_t)(*at++ - '0');
    size_t digits = (size_t)(at - first);
    if (digits < 1 || digits > 5)
        return NULL;
    return at < stop && *at == end ? at + 1 : NULL;
}

/* Takes a line, up to and with its line feed, as a record. */
static inline bool request_line(const uint8_t *line, const uint8_t *stop,
                                struct cuckooormolu_record *record)
{
    uint32_t event, from, to;
    if (stop - line < 2 || line[0] != 'R' || line[1] != '\t')
        return false;
    const uint8_t *at = request_number(line + 2, stop, '\t', &event);
    if (at != NULL)
        at = request_number(at, stop, '\t', &from);
    if (at != NULL)
        at = request_number(at, stop, '\n', &to);
    if (at != stop)
        return false;
    *record = cuckooormolu_record_of(event, from, to);
    return true;
}

#endif
