/* A caller in C that has records: the hall sheet of document 01 written byte for byte and planned, memories that deliver after the clock edge, every
 * refusal with its place, the first of several, exact and short buffers, known bytes round the buffer, ends of operands in every order, and the
 * length of a sheet. It counts cases, each of several comparisons. From the folder that holds include/, tests/ and target/:
 *
 *   gcc -std=c11 -Wall -Wextra -Wpedantic -Werror -Wconversion -Wshadow -Iinclude tests/c/write.c -Ltarget/staticlib -lplanner -o target/write_c
 */
#include "cases.h"

/* The greatest buffer that is lent here. */
#define ROOM MAPS_SHEET_MOST

/* Arrays for records: up to the first counts that are too many. */
static struct maps_node nodes[257];
static uint32_t operands[6 * 257];
static struct maps_difference differences[1025];
static struct maps_window windows[257];
static struct maps_sheet records;

/* Places of numbers in the hall sheet: the first of a node, and of its difference, P, the count of windows and the first of a window. */
enum { NODE_0 = 5, NODE_2 = 17, NODE_3 = 23, NODE_4 = 31, NODE_5 = 39, DIFFERENCE = 47, PERIOD = 50, WINDOWS = 51, WINDOW = 52 };
/* Places in a node. */
enum { KIND, MARK, DELAY, LATENCY, CLOCK_TO_Q, COUNT, OPERANDS };
/* Places in a window. */
enum { BOX, FROM, TO };

/* Sets the records to those of hall; all nodes past it are inputs, all operands 0, all differences (0, 0, 0), all windows (0, 0, 0). */
static void hall(void) {
    static const struct maps_node hall_nodes[6] = {
        {MAPS_INPUT, 0, 0, 0, 0, 0}, {MAPS_INPUT, 0, 0, 0, 0, 0}, {MAPS_INPUT, 0, 0, 0, 0, 0},
        {MAPS_LOGIC, 0, 1, 0, 2, 0}, {MAPS_LOGIC, 0, 1, 0, 4, 0}, {MAPS_LOGIC, 1, 1, 0, 6, 0},
    };
    static const uint32_t hall_operands[6] = {0, 1, 3, 2, 4, 3};
    memset(nodes, 0, sizeof nodes);
    memset(operands, 0, sizeof operands);
    memset(differences, 0, sizeof differences);
    memset(windows, 0, sizeof windows);
    memcpy(nodes, hall_nodes, sizeof hall_nodes);
    memcpy(operands, hall_operands, sizeof hall_operands);
    differences[0] = (struct maps_difference){0, 5, 1};
    records = (struct maps_sheet){3, 2, 4, nodes, 6, operands, 6, differences, 1, 1, NULL, 0};
}

/* Writes the records into `room` bytes between two strips. The number and place are those given; on number 0 the buffer begins with `sheet`, where
 * one is given; all other bytes keep their values. */
static int written(size_t room, uint64_t number, uint64_t place, const uint8_t *sheet) {
    static uint8_t bytes[STRIP + ROOM + STRIP];
    for (size_t i = 0; i < sizeof bytes; i++) {
        bytes[i] = known(i);
    }
    int holds = same(maps_write(&records, bytes + STRIP, room), number, place);
    size_t length = number == MAPS_ACCEPTED ? (size_t)place : 0;
    for (size_t i = 0; i < sizeof bytes; i++) {
        holds = holds && ((i >= STRIP && i < STRIP + length) || bytes[i] == known(i));
    }
    return holds && (sheet == NULL || memcmp(bytes + STRIP, sheet, length) == 0);
}

/* The records in an ample buffer, in none, and asked for the length of their sheet alone. */
static int answered(uint64_t number, uint64_t place, const uint8_t *sheet) {
    int holds = written(ROOM, number, place, sheet);
    holds = written(0, number == MAPS_ACCEPTED ? (uint64_t)MAPS_BUFFER_SHORT : number, place, NULL) && holds;
    return same(maps_write_length(&records), number, place) && holds;
}

/* One case of the records as they are. */
static void expect(const char *name, uint64_t number, uint64_t place, const uint8_t *sheet) { check(answered(number, place, sheet), name); }

/* One case: the records with one number changed, to the two values given and to others that no sheet has there, are refused there. Only H may have
 * three bytes. */
static void wrong(const char *name, uint32_t *field, uint32_t one, uint32_t other, uint64_t number, uint64_t place) {
    const uint32_t right = *field;
    const uint32_t of_three = field == &records.horizon ? 65536 : 16384;
    const uint32_t values[] = {one, other, of_three, 2097151, 2097152, right + 0x10000, right + 0x80000000u, UINT32_MAX};
    int holds = 1;
    for (size_t i = 0; i < sizeof values / sizeof *values; i++) {
        *field = values[i];
        holds = answered(number, place, NULL) && holds;
    }
    *field = right;
    check(holds, name);
}

/* The hall sheet, its plan and its buffers. */
static void the_hall(void) {
    hall();
    size_t length = sizeof HALL;
    expect("hall", MAPS_ACCEPTED, length, HALL);
    check(written(length, MAPS_ACCEPTED, length, HALL), "hall, exact buffer");
    check(written(length + 1, MAPS_ACCEPTED, length, HALL), "hall, one byte more");
    int holds = 1;
    for (size_t room = 0; room < length; room++) {
        holds = written(room, MAPS_BUFFER_SHORT, length, NULL) && holds;
    }
    check(holds, "8: hall, every shorter buffer");
    uint8_t sheet[sizeof HALL];
    struct maps_answer asked = maps_write_length(&records);
    holds = asked.place == sizeof sheet && same(maps_write(&records, sheet, (size_t)asked.place), MAPS_ACCEPTED, asked.place);
    check(holds, "hall, written into as many bytes as its sheet's length");
    uint8_t plan[MAPS_PLAN_MOST];
    struct maps_answer planned = maps_plan(sheet, (size_t)asked.place, plan, sizeof plan);
    check(same(planned, MAPS_ACCEPTED, sizeof HALL_PLAN) && memcmp(plan, HALL_PLAN, sizeof HALL_PLAN) == 0, "the plan of what was written");
}

/* Ground 3 at every field. */
static void values(void) {
    hall();
    wrong("3: K", &records.leaves, 1, 7, MAPS_VALUE, 0);
    wrong("3: T", &records.top, 0, 65, MAPS_VALUE, 1);
    wrong("3: H", &records.horizon, 65537, 131072, MAPS_VALUE, 2);
    wrong("3: kind", &nodes[3].kind, 3, 4, MAPS_VALUE, NODE_3 + KIND);
    wrong("3: mark", &nodes[5].output, 2, 255, MAPS_VALUE, NODE_5 + MARK);
    wrong("3: d of an input", &nodes[0].delay, 1, 2, MAPS_VALUE, NODE_0 + DELAY);
    wrong("3: d of a table", &nodes[3].delay, 0, 3, MAPS_VALUE, NODE_3 + DELAY);
    wrong("3: lat of an input", &nodes[0].latency, 1, 255, MAPS_VALUE, NODE_0 + LATENCY);
    wrong("3: lat of a table", &nodes[4].latency, 1, 255, MAPS_VALUE, NODE_4 + LATENCY);
    wrong("3: q of an input, number 9", &nodes[0].clock_to_q, 1, 2, MAPS_VALUE, 9);
    wrong("3: q of a table", &nodes[4].clock_to_q, 1, 64, MAPS_VALUE, NODE_4 + CLOCK_TO_Q);
    wrong("3: u", &differences[0].from, 6, 255, MAPS_VALUE, DIFFERENCE);
    wrong("3: v", &differences[0].to, 6, 256, MAPS_VALUE, DIFFERENCE + 1);
    nodes[4].kind = MAPS_BOX;
    wrong("3: d of a box", &nodes[4].delay, 3, 64, MAPS_VALUE, NODE_4 + DELAY);
    wrong("3: lat of a box", &nodes[4].latency, 256, 257, MAPS_VALUE, NODE_4 + LATENCY);
    wrong("3: q of a box with lat = 0", &nodes[4].clock_to_q, 1, 2, MAPS_VALUE, NODE_4 + CLOCK_TO_Q);
    nodes[4].latency = 1;
    wrong("3: q of a box with lat = 1", &nodes[4].clock_to_q, 3, 64, MAPS_VALUE, NODE_4 + CLOCK_TO_Q);
    nodes[4].clock_to_q = 2;
    wrong("3: q = T of a box with lat = 1", &nodes[4].clock_to_q, 3, 65, MAPS_VALUE, NODE_4 + CLOCK_TO_Q);
    static const int32_t weights[] = {65536, -65536, 131071, -131072, 1048576, -1048576, INT32_MAX, INT32_MIN};
    int holds = 1;
    for (size_t i = 0; i < sizeof weights / sizeof *weights; i++) {
        differences[0].weight = weights[i];
        holds = answered(MAPS_VALUE, DIFFERENCE + 2, NULL) && holds;
    }
    check(holds, "3: w");
}

/* H and w at the ends of one, two and three bytes, as they stand in the sheet. */
static void stored(void) {
    static const struct {
        uint32_t value;
        size_t length;
        uint8_t bytes[3];
    } horizons[] = {
        {0, 1, {0}},
        {127, 1, {0x7f}},
        {128, 2, {0x80, 0x01}},
        {4095, 2, {0xff, 0x1f}},
        {4096, 2, {0x80, 0x20}},
        {16383, 2, {0xff, 0x7f}},
        {16384, 3, {0x80, 0x80, 0x01}},
        {65535, 3, {0xff, 0xff, 0x03}},
    };
    static const struct {
        int32_t value;
        size_t length;
        uint8_t bytes[3];
    } weights[] = {
        {-64, 1, {0x7f}},
        {64, 2, {0x80, 0x01}},
        {4096, 2, {0x80, 0x40}},
        {-4096, 2, {0xff, 0x3f}},
        {-8192, 2, {0xff, 0x7f}},
        {8192, 3, {0x80, 0x80, 0x01}},
        {65535, 3, {0xfe, 0xff, 0x07}},
        {-65535, 3, {0xfd, 0xff, 0x07}},
    };
    uint8_t sheet[sizeof HALL + 4];
    int holds = 1;
    hall();
    for (size_t i = 0; i < sizeof horizons / sizeof *horizons; i++) {
        size_t length = horizons[i].length;
        records.horizon = horizons[i].value;
        memcpy(sheet, HALL, 2);
        memcpy(sheet + 2, horizons[i].bytes, length);
        memcpy(sheet + 2 + length, HALL + 3, sizeof HALL - 3);
        holds = answered(MAPS_ACCEPTED, sizeof HALL - 1 + length, sheet) && holds;
    }
    check(holds, "H of one, two and three bytes");
    holds = 1;
    hall();
    for (size_t i = 0; i < sizeof weights / sizeof *weights; i++) {
        size_t length = weights[i].length;
        differences[0].weight = weights[i].value;
        memcpy(sheet, HALL, HALL_WEIGHT);
        memcpy(sheet + HALL_WEIGHT, weights[i].bytes, length);
        memcpy(sheet + HALL_WEIGHT + length, HALL + HALL_PERIOD, sizeof HALL - HALL_PERIOD);
        holds = answered(MAPS_ACCEPTED, sizeof HALL - 1 + length, sheet) && holds;
    }
    check(holds, "w of one, two and three bytes");
    /* The plan of what was written: node 5 at the greatest step. */
    hall();
    records.horizon = 65535;
    differences[0].weight = 65535;
    static const uint8_t step[3] = {0xff, 0xff, 0x03};
    uint8_t plan[MAPS_PLAN_MOST];
    holds = same(maps_write(&records, sheet, sizeof sheet), MAPS_ACCEPTED, sizeof sheet);
    holds = same(maps_plan(sheet, sizeof sheet, plan, sizeof plan), MAPS_ACCEPTED, sizeof HALL_PLAN + 4) && holds;
    holds = memcmp(plan, step, sizeof step) == 0 && memcmp(plan + 25, step, sizeof step) == 0 && holds;
    check(holds, "the greatest H and w, written and planned");
}

/* Ground 3 at the counts, which are how many were given. */
static void counts(void) {
    hall();
    nodes[2].operands_end = 1;
    expect("3: an input with an operand", MAPS_VALUE, NODE_2 + COUNT, NULL);
    hall();
    nodes[3].operands_end = 0;
    expect("3: a table without operands", MAPS_VALUE, NODE_3 + COUNT, NULL);
    hall();
    records.operand_count = 13;
    nodes[5].operands_end = 11;
    operands[4] = UINT32_MAX;
    expect("3: a table with seven operands, before the operands", MAPS_VALUE, NODE_5 + COUNT, NULL);
    nodes[5].kind = MAPS_BOX;
    expect("3: a box with seven operands", MAPS_VALUE, NODE_5 + COUNT, NULL);
    nodes[5].operands_end = 13;
    expect("3: a box with nine operands", MAPS_VALUE, NODE_5 + COUNT, NULL);
    hall();
    records.node_count = 0;
    expect("3: no nodes", MAPS_VALUE, 3, NULL);
    records.node_count = 257;
    expect("3: 257 nodes", MAPS_VALUE, 3, NULL);
    hall();
    records.difference_count = 1025;
    expect("3: 1,025 differences", MAPS_VALUE, 4, NULL);
}

/* Ground 4, and which of several grounds is given. */
static void order(void) {
    hall();
    wrong("4: node 3 reads itself or node 4", &operands[1], 3, 4, MAPS_OPERAND, NODE_3 + OPERANDS + 1);
    wrong("4: node 5 reads itself or node 255", &operands[4], 5, 255, MAPS_OPERAND, NODE_5 + OPERANDS);
    nodes[0] = (struct maps_node){MAPS_BOX, 0, 0, 0, 1, 0};
    wrong("4: node 0 reads itself", &operands[0], 0, 1, MAPS_OPERAND, NODE_0 + OPERANDS);
    /* From the last number to the first. */
    hall();
    int holds = 1;
    differences[0].weight = 70000;
    holds = answered(MAPS_VALUE, DIFFERENCE + 2, NULL) && holds;
    differences[0].to = 6;
    holds = answered(MAPS_VALUE, DIFFERENCE + 1, NULL) && holds;
    operands[5] = 6;
    holds = answered(MAPS_OPERAND, NODE_5 + OPERANDS + 1, NULL) && holds;
    nodes[5].clock_to_q = 1;
    holds = answered(MAPS_VALUE, NODE_5 + CLOCK_TO_Q, NULL) && holds;
    nodes[5].delay = 0;
    holds = answered(MAPS_VALUE, NODE_5 + DELAY, NULL) && holds;
    operands[0] = UINT32_MAX;
    holds = answered(MAPS_OPERAND, NODE_3 + OPERANDS, NULL) && holds;
    nodes[3].output = 2;
    holds = answered(MAPS_VALUE, NODE_3 + MARK, NULL) && holds;
    records.difference_count = 1025;
    holds = answered(MAPS_VALUE, 4, NULL) && holds;
    records.node_count = 0;
    holds = answered(MAPS_VALUE, 3, NULL) && holds;
    records.horizon = 65536;
    holds = answered(MAPS_VALUE, 2, NULL) && holds;
    records.leaves = 7;
    holds = answered(MAPS_VALUE, 0, NULL) && holds;
    check(holds, "3 and 4: the first number in the sheet's order");
    /* H and w have two bytes: the place is no byte of the sheet. */
    hall();
    records.horizon = 300;
    differences[0].weight = 100;
    differences[1].from = 6;
    records.difference_count = 2;
    expect("3: a number after numbers of two bytes", MAPS_VALUE, DIFFERENCE + 3, NULL);
    records.horizon = 30000;
    differences[0].weight = -10000;
    expect("3: a number after numbers of three bytes", MAPS_VALUE, DIFFERENCE + 3, NULL);
}

/* Ends of operands that fall or lie past the array, pointers that are null, and rows that are not complete. */
static void rows(void) {
    hall();
    nodes[5].operands_end = UINT32_MAX;
    expect("hall with an end past the array", MAPS_ACCEPTED, sizeof HALL, HALL);
    static const struct maps_node falling[4] = {
        {MAPS_INPUT, 0, 0, 0, 0, 0}, {MAPS_BOX, 0, 0, 0, 1, 0}, {MAPS_BOX, 0, 0, 0, 0, 0}, {MAPS_BOX, 1, 0, 0, 3, 0}};
    static const uint32_t three[3] = {0, 1, 2};
    static const uint8_t falling_sheet[] = {2, 1, 0, 4, 0, 0, 0, 0, 0, 0, 0, 2, 0, 0, 0, 0, 1, 0, 2, 0, 0, 0, 0, 0, 2, 1, 0, 0, 0, 3, 0, 1, 2, 1, 0};
    records = (struct maps_sheet){2, 1, 0, falling, 4, three, 3, NULL, 0, 1, NULL, 0};
    expect("an end that falls: no operands, and the next from there", MAPS_ACCEPTED, sizeof falling_sheet, falling_sheet);
    static const struct maps_node past[4] = {
        {MAPS_INPUT, 0, 0, 0, 0, 0}, {MAPS_BOX, 0, 0, 0, 4, 0}, {MAPS_BOX, 0, 0, 0, 9, 0}, {MAPS_BOX, 1, 0, 0, 2, 0}};
    static const uint32_t zeros[3] = {0, 0, 0};
    static const uint8_t past_sheet[] = {2, 1, 0, 4, 0, 0, 0, 0, 0, 0, 0, 2, 0, 0, 0, 0, 3, 0, 0, 0, 2, 0, 0, 0, 0, 0, 2, 1, 0, 0, 0, 0, 1, 0};
    records = (struct maps_sheet){2, 1, 0, past, 4, zeros, 3, NULL, 0, 1, NULL, 0};
    expect("ends past the array, and one that falls after them", MAPS_ACCEPTED, sizeof past_sheet, past_sheet);
    static const uint8_t one_input[] = {2, 1, 0, 1, 0, 0, 0, 0, 0, 0, 0, 1, 0};
    records = (struct maps_sheet){2, 1, 0, falling, 1, NULL, 0, NULL, 0, 1, NULL, 0};
    expect("one input, no operands, differences and windows, null", MAPS_ACCEPTED, sizeof one_input, one_input);
    records = (struct maps_sheet){2, 1, 0, NULL, 0, NULL, 0, NULL, 0, 1, NULL, 0};
    expect("3: no nodes, null", MAPS_VALUE, 3, NULL);
    static const uint32_t pair[17] = {0, 0, 0, 0, 0, 0, 2, 0, 0, 0, 0, 0, 9, 9, 9, 9, 9};
    static const uint32_t equal[5] = {0, 1, UINT32_MAX, 9, 9};
    static const uint32_t slot[5] = {1, 2, 4, 9, 9};
    static const uint8_t pair_sheet[] = {2, 1, 0, 2, 1, 0, 0, 0, 0, 0, 0, 2, 0, 0, 0, 0, 0, 0, 1, 1, 8, 1, 1, 2, 4};
    uint8_t sheet[sizeof pair_sheet];
    int holds = 1;
    for (size_t more = 0; more < 6; more++) {
        size_t few = more < 3 ? more : 2;
        memset(sheet, 0xa5, sizeof sheet);
        struct maps_answer answer = maps_write_rows(2, 1, 0, pair, 12 + more, three, 0, equal, 3 + few, 8, slot, 3 + few, sheet, sizeof sheet);
        holds = same(answer, MAPS_ACCEPTED, sizeof sheet) && holds;
        holds = memcmp(sheet, pair_sheet, sizeof sheet) == 0 && holds;
        holds = same(maps_write_rows(2, 1, 0, pair, more, three, 0, equal, 0, 8, slot, few, sheet, sizeof sheet), MAPS_VALUE, 3) && holds;
    }
    check(holds, "rows that are not complete are ignored");
}

/* An input, a box on it with d = 0 and lat = 2, and a table on the box: the sheet of the records and its plan are these. */
static int written_and_planned(const struct maps_node three[3], const uint8_t *sheet, size_t length, const uint8_t *plan, size_t plan_length) {
    static const uint32_t reads[2] = {0, 1};
    uint8_t written_sheet[32], written_plan[32];
    records = (struct maps_sheet){2, 4, 9, three, 3, reads, 2, NULL, 0, 1, NULL, 0};
    int holds = answered(MAPS_ACCEPTED, length, sheet);
    holds = same(maps_write(&records, written_sheet, sizeof written_sheet), MAPS_ACCEPTED, length) && holds;
    holds = same(maps_plan(written_sheet, length, written_plan, sizeof written_plan), MAPS_ACCEPTED, plan_length) && holds;
    return holds && memcmp(written_plan, plan, plan_length) == 0;
}

/* One case: with this q of the box and d of the table the table is at this step and level. */
static void read_at(const char *name, uint8_t q, uint8_t delay, uint8_t step, uint8_t level) {
    const struct maps_node three[3] = {{MAPS_INPUT, 0, 0, 0, 0, 0}, {MAPS_BOX, 0, 0, 2, 1, q}, {MAPS_LOGIC, 1, delay, 0, 2, 0}};
    const uint8_t sheet[] = {2, 4, 9, 3, 0, 0, 0, 0, 0, 0, 0, 2, 0, 0, 2, q, 1, 0, 1, 1, delay, 0, 0, 1, 1, 1, 0};
    const uint8_t plan[] = {step, 0, 0, 1, 0, 0, 0, 1, 0, step, level, 1, 1, 1};
    check(written_and_planned(three, sheet, sizeof sheet, plan, sizeof plan), name);
}

/* Memories that deliver some levels into the step: the box with lat = 2 is ready at (2, q). */
static void memories(void) {
    read_at("q = 3, d = 1: in the same step", 3, 1, 2, 4);
    read_at("q = 3, d = 2: in the next step", 3, 2, 3, 2);
    read_at("q = 0", 0, 1, 2, 1);
    read_at("q = T", 4, 1, 3, 1);
    /* A member that is left out is 0. */
    static const struct maps_node left_out[3] = {
        {.kind = MAPS_INPUT},
        {.kind = MAPS_BOX, .latency = 2, .operands_end = 1},
        {.kind = MAPS_LOGIC, .output = 1, .delay = 1, .operands_end = 2},
    };
    static const uint8_t sheet[] = {2, 4, 9, 3, 0, 0, 0, 0, 0, 0, 0, 2, 0, 0, 2, 0, 1, 0, 1, 1, 1, 0, 0, 1, 1, 1, 0};
    static const uint8_t plan[] = {2, 0, 0, 1, 0, 0, 0, 1, 0, 2, 1, 1, 1, 1};
    check(written_and_planned(left_out, sheet, sizeof sheet, plan, sizeof plan), "an initializer without the last member: q = 0");
    /* A table with d = 1 hides one with d = 2, which is (3, 2): its step is waited for, and its level is not. */
    static const struct maps_node hiding[4] = {
        {MAPS_INPUT, 0, 0, 0, 0, 0}, {MAPS_BOX, 0, 0, 2, 1, 3}, {MAPS_LOGIC, 0, 2, 0, 2, 0}, {MAPS_LOGIC, 1, 1, 0, 3, 0}};
    static const uint32_t chain[3] = {0, 1, 2};
    static const uint8_t hiding_sheet[] = {2, 4, 9, 4, 0, 0, 0, 0, 0, 0, 0, 2, 0, 0, 2, 3, 1, 0, 1, 0, 2, 0, 0, 1, 1, 1, 1, 1, 0, 0, 1, 2, 1, 0};
    static const uint8_t hiding_plan[] = {3, 0, 0, 1, 0, 0, 0, 1, 0, 3, 2, 0, 0, 3, 1, 1, 1, 1};
    uint8_t written_plan[32];
    records = (struct maps_sheet){2, 4, 9, hiding, 4, chain, 3, NULL, 0, 1, NULL, 0};
    int holds = answered(MAPS_ACCEPTED, sizeof hiding_sheet, hiding_sheet);
    holds = same(maps_plan(hiding_sheet, sizeof hiding_sheet, written_plan, sizeof written_plan), MAPS_ACCEPTED, sizeof hiding_plan) && holds;
    check(holds && memcmp(written_plan, hiding_plan, sizeof hiding_plan) == 0, "a hidden reader");
}

/* Sets the records to hall with node 4 a box, P = 8 and, for it, the window from 2 to 4; node 5 reads it there. */
static void hall_with_window(void) {
    hall();
    nodes[4].kind = MAPS_BOX;
    windows[0] = (struct maps_window){4, 2, 4};
    records.period = 8;
    records.windows = windows;
    records.window_count = 1;
}

/* One case: these records have this sheet, which has this plan. */
static void window_planned(const char *name, const uint8_t *sheet, size_t length, const uint8_t *plan, size_t plan_length) {
    uint8_t written_plan[64];
    int holds = answered(MAPS_ACCEPTED, length, sheet);
    holds = written(length, MAPS_ACCEPTED, length, sheet) && written(length - 1, MAPS_BUFFER_SHORT, length, NULL) && holds;
    holds = same(maps_plan(sheet, length, written_plan, sizeof written_plan), MAPS_ACCEPTED, plan_length) && holds;
    check(holds && memcmp(written_plan, plan, plan_length) == 0, name);
}

/* P and windows: written and planned, and refused at each wrong number. */
static void slots(void) {
    /* Box 4 on table 3, which is (0, 1), waits for step 2, where it is at level d, and so does table 5. */
    static const uint8_t sheet[] = {
        3, 2, 4, 6, 1,
        0, 0, 0, 0, 0, 0, 0, 0, 0, 0, 0, 0, 0, 0, 0, 0, 0, 0,
        1, 0, 1, 0, 0, 2, 0, 1, 2, 0, 1, 0, 0, 2, 3, 2, 1, 1, 1, 0, 0, 2, 4, 3,
        0, 5, 2, 8, 1, 4, 2, 4,
    };
    static const uint8_t plan[] = {2, 0, 0, 1, 0, 0, 0, 1, 0, 0, 0, 1, 0, 0, 1, 1, 2, 0, 1, 2, 1, 1, 0, 2, 2, 1, 2, 3, 4};
    hall_with_window();
    window_planned("a window, written and planned", sheet, sizeof sheet, plan, sizeof plan);
    wrong("3: P", &records.period, 0, 65, MAPS_VALUE, PERIOD);
    wrong("3: the window of a table or of no node", &windows[0].box, 3, 6, MAPS_VALUE, WINDOW + BOX);
    wrong("3: the window of an input", &windows[0].box, 0, 255, MAPS_VALUE, WINDOW + BOX);
    wrong("3: from", &windows[0].from, 8, 64, MAPS_VALUE, WINDOW + FROM);
    wrong("3: to, not above from", &windows[0].to, 0, 2, MAPS_VALUE, WINDOW + TO);
    wrong("3: to, above P", &windows[0].to, 9, 64, MAPS_VALUE, WINDOW + TO);
    windows[0] = (struct maps_window){3, 9, 0};
    expect("3: the id before from and to", MAPS_VALUE, WINDOW + BOX, NULL);
    windows[0] = (struct maps_window){4, 9, 0};
    expect("3: from before to", MAPS_VALUE, WINDOW + FROM, NULL);
    records.window_count = 7;
    expect("3: seven windows of six nodes", MAPS_VALUE, WINDOWS, NULL);
    records.period = 0;
    expect("3: P = 0 before the count", MAPS_VALUE, PERIOD, NULL);
    records.windows = NULL;
    records.window_count = 0;
    expect("3: P = 0 without windows", MAPS_VALUE, PERIOD, NULL);
    records.period = 1;
    check(answered(MAPS_ACCEPTED, sizeof HALL, NULL), "P = 1, no windows, null");
    records.period = 64;
    check(answered(MAPS_ACCEPTED, sizeof HALL, NULL), "P = 64, no windows, null");
    differences[0].weight = 70000;
    records.period = 0;
    expect("3: w before P", MAPS_VALUE, DIFFERENCE + 2, NULL);
    /* A second window: its box is not above the first one's. */
    hall_with_window();
    nodes[5].kind = MAPS_BOX;
    windows[1] = (struct maps_window){5, 7, 8};
    records.window_count = 2;
    check(answered(MAPS_ACCEPTED, sizeof sheet + 3, NULL), "two windows");
    wrong("3: the second window of the same box or of one below", &windows[1].box, 4, 2, MAPS_VALUE, WINDOW + 3 + BOX);
    wrong("3: from of the second window", &windows[1].from, 8, 9, MAPS_VALUE, WINDOW + 3 + FROM);
    wrong("3: to of the second window", &windows[1].to, 7, 9, MAPS_VALUE, WINDOW + 3 + TO);
    /* Members that are left out are 0: the period is to be given. */
    static const struct maps_node one[1] = {{.kind = MAPS_BOX}};
    records = (struct maps_sheet){.leaves = 2, .top = 1, .nodes = one, .node_count = 1};
    expect("3: an initializer without a period", MAPS_VALUE, 11, NULL);
    static const uint8_t one_sheet[] = {2, 1, 0, 1, 0, 2, 0, 0, 0, 0, 0, 1, 0};
    records.period = 1;
    expect("the same with period = 1", MAPS_ACCEPTED, sizeof one_sheet, one_sheet);
}

/* The longest sheet: 256 nodes, boxes of six operands past node 0, 1,024 differences, 256 windows, as many bytes as a number may have. */
static void longest(void) {
    hall();
    for (uint32_t v = 0; v < 256; v++) {
        nodes[v] = (struct maps_node){MAPS_BOX, 1, 64, 255, 6 * v, 64};
        for (uint32_t i = 0; i < 6 && v > 0; i++) {
            operands[6 * (v - 1) + i] = v - 1;
        }
    }
    for (size_t i = 0; i < 1024; i++) {
        differences[i] = (struct maps_difference){255, 128, i % 2 == 0 ? 65535 : -65535};
    }
    for (uint32_t v = 0; v < 256; v++) {
        windows[v] = (struct maps_window){v, 0, 64};
    }
    records = (struct maps_sheet){6, 64, 65535, nodes, 256, operands, 6 * 255, differences, 1024, 64, windows, 256};
    /* Node 0 has 7 bytes, nodes 1 to 128 have 13 and the others 19; half of the windows have 3 bytes and half have 4. */
    size_t length = 9 + 7 + 128 * 13 + 127 * 19 + 1024 * 7 + 3 + 128 * 3 + 128 * 4;
    expect("the longest sheet", MAPS_ACCEPTED, length, NULL);
    check(length <= MAPS_SHEET_MOST && written(length, MAPS_ACCEPTED, length, NULL), "the longest sheet, exact buffer");
    check(written(length - 1, MAPS_BUFFER_SHORT, length, NULL), "8: the longest sheet, one byte short");
    uint8_t sheet[MAPS_SHEET_MOST];
    struct maps_answer answer = maps_write(&records, sheet, sizeof sheet);
    check(maps_accepted(answer) && same(maps_plan_length(sheet, (size_t)answer.place), MAPS_LATE, 0), "the longest sheet reads");
    /* Without a w that is above 0 box v is at step 256 v, since q leaves no level for a reader: one byte at node 0, two up to node 63, three from
     * there. The last box is ready at H. */
    for (size_t i = 0; i < 1024; i += 2) {
        differences[i].weight = -65535;
    }
    size_t plan_length = 3 + 4 + 63 * 5 + 192 * 6;
    answer = maps_write(&records, sheet, sizeof sheet);
    int holds = same(answer, MAPS_ACCEPTED, length);
    check(same(maps_plan_length(sheet, (size_t)answer.place), MAPS_ACCEPTED, plan_length) && holds, "the longest sheet, planned");
    records.window_count = 257;
    expect("3: 257 windows", MAPS_VALUE, 5 + 256 * 12 - 6 + 1024 * 3 + 1, NULL);
}

int main(void) {
    the_hall();
    values();
    stored();
    counts();
    order();
    rows();
    memories();
    slots();
    longest();
    return counted();
}
