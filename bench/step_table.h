/* The step table that the calls on levels are measured with. */
#ifndef STEP_TABLE_H
#define STEP_TABLE_H

#include <stddef.h>
#include <stdint.h>
#include <stdio.h>

/* room for its bytes at any length */
enum { TABLE_ROOM = 64 };

/* Writes its bytes for M coefficients, and returns how many: four lines at every length, for a sixth, a sixth, a third and a third of the
 * coefficients, with odd and even steps of one digit to four. */
static inline size_t write_table(uint8_t *table, size_t m)
{
    static const size_t cuts[] = {0, 1, 2, 4, 6};
    static const int steps[] = {7, 16, 333, 2500};
    size_t length = 0;
    for (size_t i = 0; i < 4; i++)
        length += (size_t)snprintf((char *)table + length, TABLE_ROOM - length, "%zu,%zu,%d\n", m / 6 * cuts[i], m / 6 * cuts[i + 1] - 1,
                                   steps[i]);
    return length;
}

#endif
