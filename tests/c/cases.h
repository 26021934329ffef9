/* What the C tests share: the hall sheet of document 01, with q = 0 in its nodes and P = 1 and no windows at its end, and its plan, the count of
 * cases, and known bytes round a buffer. */
#ifndef CASES_H
#define CASES_H

#include "maps.h"

#include <stdio.h>
#include <string.h>

/* The width of the strips of known bytes before and behind a buffer. */
#define STRIP 16

/* The nodes of the hall sheet. */
#define HALL_NODES \
    0x00, 0x00, 0x00, 0x00, 0x00, 0x00, \
    0x00, 0x00, 0x00, 0x00, 0x00, 0x00, \
    0x00, 0x00, 0x00, 0x00, 0x00, 0x00, \
    0x01, 0x00, 0x01, 0x00, 0x00, 0x02, 0x00, 0x01, \
    0x01, 0x00, 0x01, 0x00, 0x00, 0x02, 0x03, 0x02, \
    0x01, 0x01, 0x01, 0x00, 0x00, 0x02, 0x04, 0x03

static const uint8_t HALL[52] = {0x03, 0x02, 0x04, 0x06, 0x01, HALL_NODES, 0x00, 0x05, 0x02, 0x01, 0x00};

/* The place of w in the hall sheet, and of P. */
#define HALL_WEIGHT 49
#define HALL_PERIOD 50

static const uint8_t HALL_PLAN[29] = {
    0x01,
    0x00, 0x00, 0x01, 0x00,
    0x00, 0x00, 0x01, 0x00,
    0x00, 0x00, 0x01, 0x00,
    0x00, 0x01, 0x01, 0x02, 0x00, 0x01,
    0x00, 0x01, 0x00, 0x00,
    0x01, 0x01, 0x01, 0x02, 0x02, 0x03,
};

static unsigned passed, failed;

/* Counts one case, whose comparisons all hold or not. */
static void check(int holds, const char *name) {
    if (holds) {
        passed++;
    } else {
        failed++;
        printf("FAILED: %s\n", name);
    }
}

/* The byte that stands at a place before the call. */
static uint8_t known(size_t at) { return (uint8_t)(0xa5u ^ (37u * at & 0xffu)); }

static int same(struct maps_answer answer, uint64_t number, uint64_t place) {
    int holds = answer.number == number && answer.place == place && maps_accepted(answer) == (number == 0);
    if (!holds) {
        printf("  %llu %llu (%s)\n", (unsigned long long)answer.number, (unsigned long long)answer.place, maps_text(answer.number));
    }
    return holds;
}

/* Prints the count, and gives the program's status. */
static int counted(void) {
    printf("%u passed, %u failed\n", passed, failed);
    return failed != 0;
}

#endif
