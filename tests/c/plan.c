/* A caller in C: the hall sheet of document 01 byte for byte, every number from 0 to 8 and 12 with its place, numbers of three bytes, sheets that no
 * horizon satisfies, memories that deliver after the clock edge, latencies that end at the last output, boxes with windows, exact and short buffers,
 * known bytes round the buffer, and the length of a plan. It counts cases, each of several comparisons. From the folder that holds include/, tests/ and
 * target/:
 *
 *   gcc -std=c11 -Wall -Wextra -Wpedantic -Werror -Wconversion -Wshadow -Iinclude tests/c/plan.c -Ltarget/staticlib -lplanner -o target/plan_c
 */
#include "cases.h"

/* The greatest buffer that is lent here. */
#define ROOM 64

/* Plans `sheet` into `room` bytes between two strips. The number and place are those given; on number 0 the buffer begins with `plan`, where one
 * is given; all other bytes keep their values. */
static int planned(const uint8_t *sheet, size_t length, size_t room, uint64_t number, uint64_t place, const uint8_t *plan) {
    uint8_t bytes[STRIP + ROOM + STRIP];
    for (size_t i = 0; i < sizeof bytes; i++) {
        bytes[i] = known(i);
    }
    int holds = same(maps_plan(sheet, length, bytes + STRIP, room), number, place);
    size_t written = number == MAPS_ACCEPTED ? (size_t)place : 0;
    for (size_t i = 0; i < sizeof bytes; i++) {
        holds = holds && ((i >= STRIP && i < STRIP + written) || bytes[i] == known(i));
    }
    return holds && (plan == NULL || memcmp(bytes + STRIP, plan, written) == 0);
}

/* A sheet has this plan: in an ample buffer, in an exact one, in one that is a byte short, and asked for its length alone. */
static int accepted(const uint8_t *sheet, size_t length, const uint8_t *plan, size_t plan_length) {
    int holds = planned(sheet, length, ROOM, MAPS_ACCEPTED, plan_length, plan);
    holds = planned(sheet, length, plan_length, MAPS_ACCEPTED, plan_length, plan) && holds;
    holds = planned(sheet, length, plan_length - 1, MAPS_BUFFER_SHORT, plan_length, NULL) && holds;
    return same(maps_plan_length(sheet, length), MAPS_ACCEPTED, plan_length) && holds;
}

/* One case: a sheet in an ample buffer, in none, and asked for its plan's length alone. */
static void expect(const char *name, const uint8_t *sheet, size_t length, uint64_t number, uint64_t place, const uint8_t *plan) {
    int holds = planned(sheet, length, ROOM, number, place, plan);
    holds = planned(sheet, length, 0, number == MAPS_ACCEPTED ? (uint64_t)MAPS_BUFFER_SHORT : number, place, NULL) && holds;
    check(same(maps_plan_length(sheet, length), number, place) && holds, name);
}

/* The hall sheet with one byte changed. */
static void changed(const char *name, size_t at, uint8_t value, uint64_t number, uint64_t place) {
    uint8_t sheet[sizeof HALL];
    memcpy(sheet, HALL, sizeof HALL);
    sheet[at] = value;
    expect(name, sheet, sizeof sheet, number, place, NULL);
}

/* The hall sheet and its buffers. */
static void hall(void) {
    size_t length = sizeof HALL_PLAN;
    expect("hall", HALL, sizeof HALL, MAPS_ACCEPTED, length, HALL_PLAN);
    check(planned(HALL, sizeof HALL, length, MAPS_ACCEPTED, length, HALL_PLAN), "hall, exact buffer");
    check(planned(HALL, sizeof HALL, length + 1, MAPS_ACCEPTED, length, HALL_PLAN), "hall, one byte more");
    int holds = 1;
    for (size_t room = 0; room < length; room++) {
        holds = planned(HALL, sizeof HALL, room, MAPS_BUFFER_SHORT, length, NULL) && holds;
    }
    check(holds, "8: hall, every shorter buffer");
    uint8_t one_step[sizeof HALL];
    memcpy(one_step, HALL, sizeof HALL);
    one_step[2] = 1;
    expect("hall with H = 1", one_step, sizeof one_step, MAPS_ACCEPTED, length, HALL_PLAN);
}

/* Every ground with its place. */
static void grounds(void) {
    int holds = 1;
    for (size_t length = 0; length < sizeof HALL; length++) {
        holds = planned(HALL, length, ROOM, MAPS_SHEET_ENDS, length, NULL) && holds;
        holds = planned(HALL, length, 0, MAPS_SHEET_ENDS, length, NULL) && holds;
    }
    check(holds, "1: every part of hall");
    static const uint8_t half[] = {0x80};
    expect("1: 80 at the end", half, sizeof half, MAPS_SHEET_ENDS, 1, NULL);
    static const uint8_t two_thirds[] = {0x80, 0x80};
    expect("1: 80 80 at the end", two_thirds, sizeof two_thirds, MAPS_SHEET_ENDS, 2, NULL);
    static const uint8_t late_end[] = {0x03, 0x02, 0xff, 0xff};
    expect("1: ff ff at the end, the third number", late_end, sizeof late_end, MAPS_SHEET_ENDS, 4, NULL);
    static const uint8_t zero_second[] = {0x80, 0x00};
    expect("2: 80 00", zero_second, sizeof zero_second, MAPS_SPELLING, 0, NULL);
    static const uint8_t zero_third[] = {0x80, 0x80, 0x00};
    expect("2: 80 80 00", zero_third, sizeof zero_third, MAPS_SPELLING, 0, NULL);
    static const uint8_t great_third[] = {0x80, 0x80, 0x80};
    expect("2: 80 80 80", great_third, sizeof great_third, MAPS_SPELLING, 0, NULL);
    static const uint8_t four_bytes[] = {0x80, 0x80, 0x80, 0x01};
    expect("2: 80 80 80 01", four_bytes, sizeof four_bytes, MAPS_SPELLING, 0, NULL);
    static const uint8_t spelling_first[] = {0x81, 0x80, 0x00};
    expect("2: 81 80 00 as K, before its value", spelling_first, sizeof spelling_first, MAPS_SPELLING, 0, NULL);
    static const uint8_t greatest_of_two[] = {0xff, 0x7f};
    expect("3: ff 7f as K", greatest_of_two, sizeof greatest_of_two, MAPS_VALUE, 0, NULL);
    static const uint8_t least_of_three[] = {0x80, 0x80, 0x01};
    expect("3: 80 80 01 as K", least_of_three, sizeof least_of_three, MAPS_VALUE, 0, NULL);
    static const uint8_t greatest_number[] = {0xff, 0xff, 0x7f};
    expect("3: ff ff 7f as K", greatest_number, sizeof greatest_number, MAPS_VALUE, 0, NULL);
    static const uint8_t late_spelling[] = {0x03, 0x02, 0x84, 0x00};
    expect("2: the third number", late_spelling, sizeof late_spelling, MAPS_SPELLING, 2, NULL);
    static const uint8_t late_third[] = {0x03, 0x02, 0x84, 0x80, 0x00};
    expect("2: a third byte of the third number", late_third, sizeof late_third, MAPS_SPELLING, 2, NULL);
    changed("3: K = 7", 0, 7, MAPS_VALUE, 0);
    changed("3: T = 0", 1, 0, MAPS_VALUE, 1);
    changed("3: kind 3", 5, 3, MAPS_VALUE, 5);
    changed("3: q of an input", 9, 1, MAPS_VALUE, 9);
    changed("3: q of a table", 27, 1, MAPS_VALUE, 27);
    changed("3: u = 6", 47, 6, MAPS_VALUE, 47);
    changed("3: v = 6", 48, 6, MAPS_VALUE, 48);
    changed("4: node 3 reads itself", 30, 3, MAPS_OPERAND, 30);
    changed("4: node 5 reads 127", 46, 127, MAPS_OPERAND, 46);
    uint8_t longer[sizeof HALL + 2] = {0};
    memcpy(longer, HALL, sizeof HALL);
    expect("5: one byte more", longer, sizeof HALL + 1, MAPS_BYTES_FOLLOW, sizeof HALL, NULL);
    expect("5: two bytes more", longer, sizeof HALL + 2, MAPS_BYTES_FOLLOW, sizeof HALL, NULL);
    changed("3: P = 0", HALL_PERIOD, 0, MAPS_VALUE, HALL_PERIOD);
    changed("3: P = 65", HALL_PERIOD, 65, MAPS_VALUE, HALL_PERIOD);
    changed("3: seven windows of six nodes", HALL_PERIOD + 1, 7, MAPS_VALUE, HALL_PERIOD + 1);
    changed("1: a window that is missing", HALL_PERIOD + 1, 6, MAPS_SHEET_ENDS, sizeof HALL);
    static const uint8_t wide[] = {2, 1, 0, 4, 0, 0, 0, 0, 0, 0, 0, 0, 0, 0, 0, 0, 0, 0, 0, 0, 0, 0, 0, 1, 1, 1, 0, 0, 3, 0, 1, 2, 1, 0};
    expect("6: node 3 reads three inputs, K = 2", wide, sizeof wide, MAPS_NO_CUT, 3, NULL);
    changed("7: hall with H = 0", 2, 0, MAPS_LATE, 0);
}

/* A number of three bytes. */
struct three {
    uint8_t bytes[3];
};

/* The place of w behind an H of three bytes. */
#define STRETCHED_WEIGHT (HALL_WEIGHT + 2)

/* The hall sheet with the three bytes of H, and of its w. */
static void stretch(uint8_t sheet[sizeof HALL + 4], struct three h, struct three w) {
    memcpy(sheet, HALL, 2);
    memcpy(sheet + 2, h.bytes, 3);
    memcpy(sheet + 5, HALL + 3, HALL_WEIGHT - 3);
    memcpy(sheet + STRETCHED_WEIGHT, w.bytes, 3);
    memcpy(sheet + STRETCHED_WEIGHT + 3, HALL + HALL_PERIOD, sizeof HALL - HALL_PERIOD);
}

/* One case: the hall sheet with this H and w is refused. */
static void refused(const char *name, struct three h, struct three w, uint64_t number, uint64_t place) {
    uint8_t sheet[sizeof HALL + 4];
    stretch(sheet, h, w);
    expect(name, sheet, sizeof sheet, number, place, NULL);
}

/* One case: the hall sheet with this H and w has its plan but for the latency and the step of node 5, which are given. */
static void stretched(const char *name, struct three h, struct three w, struct three step) {
    uint8_t sheet[sizeof HALL + 4], plan[sizeof HALL_PLAN + 4];
    stretch(sheet, h, w);
    memcpy(plan, step.bytes, 3);
    memcpy(plan + 3, HALL_PLAN + 1, 22);
    memcpy(plan + 25, step.bytes, 3);
    memcpy(plan + 28, HALL_PLAN + 24, 5);
    check(accepted(sheet, sizeof sheet, plan, sizeof plan), name);
}

/* H and w of three bytes, and plans with such a latency and step. */
static void horizons(void) {
    static const struct three h_16384 = {{0x80, 0x80, 0x01}}, h_65534 = {{0xfe, 0xff, 0x03}}, h_65535 = {{0xff, 0xff, 0x03}};
    static const struct three h_65536 = {{0x80, 0x80, 0x04}}, greatest = {{0xff, 0xff, 0x7f}};
    static const struct three w_16384 = {{0x80, 0x80, 0x02}}, w_65535 = {{0xfe, 0xff, 0x07}}, w_65536 = {{0x80, 0x80, 0x08}};
    static const struct three w_minus_65535 = {{0xfd, 0xff, 0x07}}, w_minus_65536 = {{0xff, 0xff, 0x07}};
    stretched("H = w = 16,384", h_16384, w_16384, h_16384);
    stretched("H = 65,535, w = 16,384", h_65535, w_16384, h_16384);
    stretched("H = w = 65,535", h_65535, w_65535, h_65535);
    refused("7: H = 65,534, w = 65,535", h_65534, w_65535, MAPS_LATE, 0);
    refused("7: H = 16,384, w = 65,535", h_16384, w_65535, MAPS_LATE, 0);
    refused("3: H = 65,536", h_65536, w_16384, MAPS_VALUE, 2);
    refused("3: H = 2,097,151", greatest, w_16384, MAPS_VALUE, 2);
    refused("3: w = 65,536", h_65535, w_65536, MAPS_VALUE, STRETCHED_WEIGHT);
    refused("3: w = -65,536", h_65535, w_minus_65536, MAPS_VALUE, STRETCHED_WEIGHT);
    refused("3: w, the greatest number", h_65535, greatest, MAPS_VALUE, STRETCHED_WEIGHT);
    /* Node 5 is (0, 1) with leaves 0 1 2, as without the difference. */
    static const uint8_t early[] = {0, 0, 0, 1, 0, 0, 0, 1, 0, 0, 0, 1, 0, 0, 1, 0, 0, 0, 1, 0, 0, 0, 1, 1, 3, 0, 1, 2};
    uint8_t sheet[sizeof HALL + 4];
    stretch(sheet, h_65535, w_minus_65535);
    expect("H = 65,535, w = -65,535", sheet, sizeof sheet, MAPS_ACCEPTED, sizeof early, early);
    /* The hall sheet with three bytes for H alone. */
    static const struct three padded = {{0x84, 0x80, 0x00}};
    stretch(sheet, h_65535, w_65535);
    memcpy(sheet + STRETCHED_WEIGHT, HALL + HALL_WEIGHT, sizeof HALL - HALL_WEIGHT);
    expect("hall with H = 65,535", sheet, sizeof HALL + 2, MAPS_ACCEPTED, sizeof HALL_PLAN, HALL_PLAN);
    memcpy(sheet + 2, padded.bytes, 3);
    expect("2: 84 80 00 as H", sheet, sizeof HALL + 2, MAPS_SPELLING, 2, NULL);
}

/* One case: the hall sheet with this H and a second difference is refused for time, in an ample buffer, in every short one and in none. */
static void second(const char *name, uint8_t h, uint8_t u, uint8_t v, uint8_t w_code, uint64_t number) {
    const uint8_t sheet[] = {0x03, 0x02, h, 0x06, 0x02, HALL_NODES, 0x00, 0x05, 0x02, u, v, w_code, 0x01, 0x00};
    int holds = planned(sheet, sizeof sheet, ROOM, number, 0, NULL) && same(maps_plan_length(sheet, sizeof sheet), number, 0);
    for (size_t room = 0; room < ROOM; room++) {
        holds = planned(sheet, sizeof sheet, room, number, 0, NULL) && holds;
    }
    check(holds, name);
}

/* Sheets that no horizon satisfies, and sheets that a horizon past H would. */
static void never(void) {
    second("12: hall with (5, 0, 0)", 4, 5, 0, 0, MAPS_NEVER);
    second("12: hall with (5, 0, 0), H = 0", 0, 5, 0, 0, MAPS_NEVER);
    second("12: hall with (5, 0, 0), H = 127", 127, 5, 0, 0, MAPS_NEVER);
    second("7: hall with (5, 0, -1), H = 0", 0, 5, 0, 1, MAPS_LATE);
    second("12: hall with (2, 2, 1)", 4, 2, 2, 2, MAPS_NEVER);
    second("12: hall with (2, 2, 1), H = 0", 0, 2, 2, 2, MAPS_NEVER);
    second("7: hall with (2, 2, 0), H = 0", 0, 2, 2, 0, MAPS_LATE);
    second("7: hall with (0, 5, 5), H = 4", 4, 0, 5, 10, MAPS_LATE);
    /* T = 1: a box with d = 1 and a table with d = 1 on it are never in one step; T = 2: they are. */
    static const uint8_t pair[] = {2, 1, 1, 2, 1, 2, 0, 1, 0, 0, 0, 1, 1, 1, 0, 0, 1, 0, 1, 0, 0, 1, 0};
    static const uint8_t next_step[] = {1, 0, 1, 1, 0, 1, 1, 1, 1, 0}, same_step[] = {0, 0, 1, 1, 0, 0, 2, 1, 1, 0};
    uint8_t sheet[sizeof pair];
    memcpy(sheet, pair, sizeof sheet);
    expect("12: levels alone", sheet, sizeof sheet, MAPS_NEVER, 0, NULL);
    sheet[20] = 1;
    expect("levels alone, w = -1", sheet, sizeof sheet, MAPS_ACCEPTED, sizeof next_step, next_step);
    sheet[2] = 0;
    expect("7: levels alone, w = -1, H = 0", sheet, sizeof sheet, MAPS_LATE, 0, NULL);
    memcpy(sheet, pair, sizeof sheet);
    sheet[1] = 2;
    expect("levels alone, T = 2", sheet, sizeof sheet, MAPS_ACCEPTED, sizeof same_step, same_step);
    /* Three inputs, 65,535 steps from each to the next: past every H; with a difference from the last to itself there is no horizon. */
    static const uint8_t far[] = {2, 1, 0xff, 0xff, 0x03, 3, 3, 0, 0, 0, 0, 0, 0, 0, 0, 0, 0, 0, 0, 0, 0, 0, 0, 0, 0,
                                  0, 1, 0xfe, 0xff, 0x07, 1, 2, 0xfe, 0xff, 0x07, 2, 2, 0, 1, 0};
    uint8_t further[sizeof far];
    memcpy(further, far, sizeof further);
    expect("7: labels past 65,535", further, sizeof further, MAPS_LATE, 0, NULL);
    further[sizeof far - 3] = 2;
    expect("12: a ring past 65,535", further, sizeof further, MAPS_NEVER, 0, NULL);
    /* Node 3 has no fitting cut and a difference with itself; a latency is past H in a sheet that no horizon satisfies. */
    static const uint8_t wide[] = {2, 1, 0, 4, 1, 0, 0, 0, 0, 0, 0, 0, 0, 0, 0, 0, 0, 0, 0, 0, 0, 0, 0, 1, 1, 1, 0, 0, 3, 0, 1, 2, 3, 3, 2, 1, 0};
    expect("6: before 12", wide, sizeof wide, MAPS_NO_CUT, 3, NULL);
    static const uint8_t slow[] = {2, 1, 8, 2, 1, 2, 0, 0, 9, 0, 0, 0, 0, 0, 0, 0, 0, 1, 1, 2, 1, 0};
    expect("12: before 7", slow, sizeof slow, MAPS_NEVER, 0, NULL);
    expect("1: before 12", slow, sizeof slow - 1, MAPS_SHEET_ENDS, sizeof slow - 1, NULL);
    uint8_t longer[sizeof slow + 1] = {0};
    memcpy(longer, slow, sizeof slow);
    expect("5: before 12", longer, sizeof longer, MAPS_BYTES_FOLLOW, sizeof slow, NULL);
}

/* K = 2, T = 4, H = 9: an input, a box with d = 0 on it that has this lat and q, and a reader of the box. */
static void memory(uint8_t sheet[27], uint8_t lat, uint8_t q, uint8_t kind, uint8_t delay) {
    const uint8_t bytes[27] = {2, 4, 9, 3, 0, 0, 0, 0, 0, 0, 0, 2, 0, 0, lat, q, 1, 0, kind, 1, delay, 0, 0, 1, 1, 1, 0};
    memcpy(sheet, bytes, sizeof bytes);
}

/* One case: the reader of the box with lat = 2 is at this step and level, as a table whose leaf the box is and as a box. */
static void read_at(const char *name, uint8_t q, uint8_t delay, uint8_t step, uint8_t level) {
    uint8_t sheet[27];
    const uint8_t table[] = {step, 0, 0, 1, 0, 0, 0, 1, 0, step, level, 1, 1, 1};
    const uint8_t box[] = {step, 0, 0, 1, 0, 0, 0, 1, 0, step, level, 1, 0};
    memory(sheet, 2, q, MAPS_LOGIC, delay);
    int holds = planned(sheet, sizeof sheet, ROOM, MAPS_ACCEPTED, sizeof table, table);
    holds = planned(sheet, sizeof sheet, sizeof table - 1, MAPS_BUFFER_SHORT, sizeof table, NULL) && holds;
    memory(sheet, 2, q, MAPS_BOX, delay);
    holds = planned(sheet, sizeof sheet, sizeof box, MAPS_ACCEPTED, sizeof box, box) && holds;
    check(same(maps_plan_length(sheet, sizeof sheet), MAPS_ACCEPTED, sizeof box) && holds, name);
}

/* One case: a box with this lat and q is refused at its q, which is byte 15. */
static void wrong_q(const char *name, uint8_t lat, uint8_t q) {
    uint8_t sheet[27];
    memory(sheet, lat, q, MAPS_LOGIC, 1);
    expect(name, sheet, sizeof sheet, MAPS_VALUE, 15, NULL);
}

/* Memories that deliver some levels into the step: a box with lat = 2 and q is ready at (2, q). */
static void memories(void) {
    read_at("q = 3, d = 1: in the same step", 3, 1, 2, 4);
    read_at("q = 3, d = 2: in the next step", 3, 2, 3, 2);
    read_at("q = 0, d = 1", 0, 1, 2, 1);
    read_at("q = 0, d = T", 0, 4, 2, 4);
    read_at("q = T, d = 1", 4, 1, 3, 1);
    read_at("q = T, d = T", 4, 4, 3, 4);
    wrong_q("3: q = T + 1", 2, 5);
    wrong_q("3: q = 127", 2, 127);
    wrong_q("3: q = 1 of a box with lat = 0", 0, 1);
    /* A table with d = 1 hides one with d = 2, which is (3, 2): its step is waited for, and its level is not. */
    static const uint8_t hiding[] = {2, 4, 9, 4, 0, 0, 0, 0, 0, 0, 0, 2, 0, 0, 2, 3, 1, 0, 1, 0, 2, 0, 0, 1, 1, 1, 1, 1, 0, 0, 1, 2, 1, 0};
    static const uint8_t hiding_plan[] = {3, 0, 0, 1, 0, 0, 0, 1, 0, 3, 2, 0, 0, 3, 1, 1, 1, 1};
    expect("a hidden reader", hiding, sizeof hiding, MAPS_ACCEPTED, sizeof hiding_plan, hiding_plan);
    /* The reader is in step 3 for its level alone, past H = 2. */
    uint8_t late[27];
    memory(late, 2, 3, MAPS_LOGIC, 2);
    late[2] = 2;
    expect("7: late by q", late, sizeof late, MAPS_LATE, 0, NULL);
}

/* One case: a sheet whose H is byte 2 has this plan within `end` steps and is refused 7 within each number of steps below that. */
static void ends_at(const char *name, const uint8_t *sheet, size_t length, uint8_t end, const uint8_t *plan, size_t plan_length) {
    uint8_t bytes[ROOM];
    memcpy(bytes, sheet, length);
    bytes[2] = end;
    int holds = accepted(bytes, length, plan, plan_length);
    while (bytes[2] > 0) {
        bytes[2]--;
        holds = planned(bytes, length, ROOM, MAPS_LATE, 0, NULL) && holds;
    }
    check(holds, name);
}

/* One case: an input, a table on it in step 2 and a box with lat = 3 on the table, with these marks. The box ends in step 5. */
static void box_after(const char *name, uint8_t table_mark, uint8_t box_mark, uint8_t latency) {
    const uint8_t sheet[] = {2, 4, 0, 3, 1, 0, 0, 0, 0, 0, 0, 1, table_mark, 1, 0, 0, 1, 0, 2, box_mark, 0, 3, 0, 1, 1, 0, 1, 4, 1, 0};
    const uint8_t plan[] = {latency, 0, 0, 1, 0, 2, 1, 1, 1, 0, 2, 1, 1, 0};
    ends_at(name, sheet, sizeof sheet, 5, plan, sizeof plan);
}

/* One case: an input and a box on it in this step with these d, lat and q, which is the output. */
static void box_output(const char *name, uint8_t step, uint8_t delay, uint8_t lat, uint8_t q) {
    const uint8_t sheet[] = {2, 4, 0, 2, 1, 0, 0, 0, 0, 0, 0, 2, 1, delay, lat, q, 1, 0, 0, 1, (uint8_t)(2 * step), 1, 0};
    const uint8_t plan[] = {(uint8_t)(step + lat), 0, 0, 1, 0, step, delay, 1, 0};
    ends_at(name, sheet, sizeof sheet, (uint8_t)(step + lat), plan, sizeof plan);
}

/* One case: three inputs with these marks, of which node 1 is in step `second` and node 2 in step `third`. */
static void three_inputs(const char *name, const uint8_t marks[3], uint8_t second, uint8_t third, uint8_t latency) {
    const uint8_t sheet[] = {
        2, 4, 0, 3, 2,
        0, marks[0], 0, 0, 0, 0,
        0, marks[1], 0, 0, 0, 0,
        0, marks[2], 0, 0, 0, 0,
        0, 1, (uint8_t)(2 * second), 0, 2, (uint8_t)(2 * third),
        1, 0,
    };
    const uint8_t plan[] = {latency, 0, 0, marks[0], 0, second, 0, marks[1], 0, third, 0, marks[2], 0};
    ends_at(name, sheet, sizeof sheet, second > third ? second : third, plan, sizeof plan);
}

/* One case: two inputs, 65,535 steps from the first to the second, which has this mark. */
static void far_apart(const char *name, uint8_t mark, const uint8_t *plan, size_t length) {
    uint8_t sheet[] = {2, 1, 0xff, 0xff, 0x03, 2, 1, 0, 0, 0, 0, 0, 0, 0, mark, 0, 0, 0, 0, 0, 1, 0xfe, 0xff, 0x07, 1, 0};
    int holds = accepted(sheet, sizeof sheet, plan, length);
    sheet[2] = 0xfe;
    check(planned(sheet, sizeof sheet, ROOM, MAPS_LATE, 0, NULL) && holds, name);
}

/* The latency is the greatest ready step among outputs, and the horizon binds every node. */
static void outputs(void) {
    box_after("a box that ends after the last output", 1, 0, 2);
    box_after("a box that ends last and is an output", 1, 1, 5);
    box_after("a box that ends last and is the output", 0, 1, 5);
    box_after("no output", 0, 0, 0);
    static const uint8_t without[] = {0, 0, 0, 0, 0, 0xff, 0xff, 0x03, 0, 0, 0};
    static const uint8_t with[] = {0xff, 0xff, 0x03, 0, 0, 0, 0, 0xff, 0xff, 0x03, 0, 1, 0};
    far_apart("no output, a label at 65,535", 0, without, sizeof without);
    far_apart("an output at 65,535", 1, with, sizeof with);
    box_output("an output with lat = 0", 3, 2, 0, 0);
    box_output("an output with lat", 0, 1, 3, 0);
    box_output("an output with lat, in a step of its own", 2, 0, 3, 0);
    box_output("an output with lat and q = T", 2, 4, 3, 4);
    box_output("an output with lat = 1 and q", 0, 0, 1, 2);
    box_output("an output with lat = 100", 20, 4, 100, 1);
    static const uint8_t all[] = {1, 1, 1}, none[] = {0, 0, 0}, first[] = {1, 0, 0}, second[] = {0, 1, 0}, third[] = {0, 0, 1};
    three_inputs("an input as output, in a later step", second, 6, 0, 6);
    three_inputs("an input in a later step that is no output", third, 6, 0, 0);
    three_inputs("three outputs, the greatest step between them", all, 6, 2, 6);
    three_inputs("three outputs, the greatest step at the end", all, 2, 6, 6);
    three_inputs("three outputs in one step", all, 0, 0, 0);
    three_inputs("the first is the output", first, 2, 6, 0);
    three_inputs("the second is the output", second, 2, 6, 2);
    three_inputs("the last is the output", third, 2, 6, 6);
    three_inputs("none is the output", none, 2, 6, 0);
    /* The first of them is the last in time. */
    static const uint8_t falling[] = {2, 4, 0, 3, 2, 0, 1, 0, 0, 0, 0, 0, 1, 0, 0, 0, 0, 0, 1, 0, 0, 0, 0, 2, 1, 4, 1, 0, 6, 1, 0};
    static const uint8_t falling_plan[] = {5, 5, 0, 1, 0, 2, 0, 1, 0, 0, 0, 1, 0};
    ends_at("three outputs, the greatest step at the start", falling, sizeof falling, 5, falling_plan, sizeof falling_plan);
    /* Box 0 starts before input 1 and ends after it: steps 0 to 5, and step 3. */
    static const uint8_t longer[] = {2, 4, 0, 2, 1, 2, 1, 0, 5, 0, 0, 0, 1, 0, 0, 0, 0, 0, 1, 6, 1, 0};
    static const uint8_t longer_plan[] = {5, 0, 0, 1, 0, 3, 0, 1, 0};
    ends_at("an output that starts first and ends last", longer, sizeof longer, 5, longer_plan, sizeof longer_plan);
    /* Input 1 is the output, in step 1. In step 4: input 2, a leaf of table 3, which box 4 reads. */
    static const uint8_t used[] = {
        2, 4, 0, 5, 2,
        0, 0, 0, 0, 0, 0,
        0, 1, 0, 0, 0, 0,
        0, 0, 0, 0, 0, 0,
        1, 0, 1, 0, 0, 1, 2,
        2, 0, 0, 0, 0, 1, 3,
        0, 1, 2, 0, 2, 8,
        1, 0,
    };
    static const uint8_t used_plan[] = {1, 0, 0, 0, 0, 1, 0, 1, 0, 4, 0, 1, 0, 4, 1, 1, 1, 2, 4, 1, 1, 0};
    ends_at("used nodes after the last output", used, sizeof used, 4, used_plan, sizeof used_plan);
    /* Table 1 is the output, in step 3. Table 2 hides it, two steps on, and box 3 reads table 2. */
    static const uint8_t hidden[] = {
        2, 4, 0, 4, 2,
        0, 0, 0, 0, 0, 0,
        1, 1, 1, 0, 0, 1, 0,
        1, 0, 1, 0, 0, 1, 1,
        2, 0, 0, 0, 0, 1, 2,
        0, 1, 6, 1, 2, 4,
        1, 0,
    };
    static const uint8_t hidden_plan[] = {3, 0, 0, 1, 0, 3, 1, 1, 1, 0, 5, 1, 1, 1, 0, 5, 1, 1, 0};
    ends_at("an output that is hidden", hidden, sizeof hidden, 5, hidden_plan, sizeof hidden_plan);
}

/* K = 2, T = 4, P = 8: an input, a table with d = 1 on it and a box on the table with these d and lat, which starts no earlier than step `asked`. The
 * box has the window from 2 to 4. */
static void slot(uint8_t sheet[33], uint8_t delay, uint8_t lat, uint8_t asked) {
    const uint8_t bytes[33] = {
        2, 4, 0, 3, 1,
        0, 0, 0, 0, 0, 0,
        1, 0, 1, 0, 0, 1, 0,
        2, 1, delay, lat, 0, 1, 1,
        0, 2, (uint8_t)(2 * asked),
        8, 1, 2, 2, 4,
    };
    memcpy(sheet, bytes, sizeof bytes);
}

/* One case: the box starts in this step at this level and is ready after its lat. */
static void starts_at(const char *name, uint8_t delay, uint8_t lat, uint8_t asked, uint8_t step, uint8_t level) {
    uint8_t sheet[33];
    const uint8_t plan[] = {(uint8_t)(step + lat), 0, 0, 1, 0, 0, 1, 1, 1, 0, step, level, 1, 0};
    slot(sheet, delay, lat, asked);
    ends_at(name, sheet, sizeof sheet, (uint8_t)(step + lat), plan, sizeof plan);
}

/* One case: the same sheet within 9 steps with one byte of P, the count and the window changed is refused there. P is byte 28. */
static void wrong_window(const char *name, size_t at, uint8_t value, uint64_t number, uint64_t place) {
    uint8_t sheet[33];
    slot(sheet, 1, 0, 0);
    sheet[2] = 9;
    sheet[at] = value;
    expect(name, sheet, sizeof sheet, number, place, NULL);
}

/* Boxes that start in their windows. */
static void windows(void) {
    starts_at("step 2 is open", 1, 0, 2, 2, 1);
    starts_at("step 3 is open", 1, 0, 3, 3, 1);
    starts_at("step 10 is open", 1, 0, 10, 10, 1);
    starts_at("step 1 is closed", 1, 0, 1, 2, 1);
    starts_at("step 4 is closed", 1, 0, 4, 10, 1);
    starts_at("step 9 is closed", 1, 0, 9, 10, 1);
    starts_at("a moved box begins at level d", 3, 0, 0, 2, 3);
    starts_at("the ready step is closed", 0, 5, 0, 2, 0);
    starts_at("the ready step alone is open", 0, 2, 0, 2, 0);
    wrong_window("3: P = 0", 28, 0, MAPS_VALUE, 28);
    wrong_window("3: P = 65", 28, 65, MAPS_VALUE, 28);
    wrong_window("3: four windows of three nodes", 29, 4, MAPS_VALUE, 29);
    wrong_window("5: no window, and its bytes", 29, 0, MAPS_BYTES_FOLLOW, 30);
    wrong_window("1: a second window that is missing", 29, 2, MAPS_SHEET_ENDS, 33);
    wrong_window("3: the window of a table", 30, 1, MAPS_VALUE, 30);
    wrong_window("3: the window of an input", 30, 0, MAPS_VALUE, 30);
    wrong_window("3: the window of no node", 30, 3, MAPS_VALUE, 30);
    wrong_window("3: from = P", 31, 8, MAPS_VALUE, 31);
    wrong_window("3: to = from", 32, 2, MAPS_VALUE, 32);
    wrong_window("3: to below from", 32, 0, MAPS_VALUE, 32);
    wrong_window("3: to above P", 32, 9, MAPS_VALUE, 32);
    wrong_window("3: P below to", 28, 3, MAPS_VALUE, 32);
    /* Two boxes with windows: the second id is not above the first, whatever from and to are. */
    uint8_t pair[] = {2, 1, 9, 2, 0, 2, 0, 0, 0, 0, 0, 2, 0, 0, 0, 0, 0, 8, 2, 0, 2, 4, 1, 7, 8};
    static const uint8_t pair_plan[] = {0, 2, 0, 1, 0, 7, 0, 1, 0};
    check(accepted(pair, sizeof pair, pair_plan, sizeof pair_plan), "two windows");
    pair[22] = 0;
    expect("3: two windows of one box", pair, sizeof pair, MAPS_VALUE, 22, NULL);
    pair[19] = 1;
    pair[23] = 9;
    expect("3: windows in falling order, before from", pair, sizeof pair, MAPS_VALUE, 22, NULL);
    /* A box with a difference with itself: 12 without windows, and 7 with one that closes nothing; then a ring that drifts through its windows. */
    uint8_t never[] = {2, 1, 9, 1, 1, 2, 0, 0, 0, 0, 0, 0, 0, 2, 1, 1, 0, 0, 1};
    expect("7: never, with a window that closes nothing", never, sizeof never, MAPS_LATE, 0, NULL);
    never[15] = 0;
    expect("12: never, without a window", never, sizeof never - 3, MAPS_NEVER, 0, NULL);
    static const uint8_t ring[] = {2, 1, 0xff, 0xff, 0x03, 2, 2, 2, 0, 0, 0, 0, 0, 2, 0, 0, 0, 0, 0, 0, 1, 2, 1, 0, 1, 64, 2, 0, 0, 1, 1, 0, 1};
    expect("7: a ring that drifts up to 65,535", ring, sizeof ring, MAPS_LATE, 0, NULL);
}

/* Sheets and buffers of length 0, and a plan's length. */
static void lengths(void) {
    static const uint8_t none[1] = {0};
    expect("no sheet", none, 0, MAPS_SHEET_ENDS, 0, NULL);
    check(same(maps_plan_length(NULL, 0), MAPS_SHEET_ENDS, 0), "the length for no sheet, null");
    static const uint8_t one_input[] = {2, 1, 0, 1, 0, 0, 0, 0, 0, 0, 0, 1, 0};
    static const uint8_t one_input_plan[] = {0, 0, 0, 0, 0};
    expect("one input", one_input, sizeof one_input, MAPS_ACCEPTED, 5, one_input_plan);
    check(planned(one_input, sizeof one_input, 5, MAPS_ACCEPTED, 5, one_input_plan), "one input, exact buffer");
    uint8_t plan[ROOM];
    struct maps_answer length = maps_plan_length(HALL, sizeof HALL);
    check(maps_accepted(length) && length.place <= sizeof plan && same(maps_plan(HALL, sizeof HALL, plan, (size_t)length.place), 0, length.place),
          "hall, planned into as many bytes as its plan's length");
}

/* The words for the numbers are there and differ. */
static void words(void) {
    int differ = 1;
    for (uint64_t a = 0; a <= 13; a++) {
        for (uint64_t b = 0; b < a; b++) {
            differ = strcmp(maps_text(a), maps_text(b)) != 0 && differ;
        }
    }
    check(differ, "words that differ");
    check(strcmp(maps_text(MAPS_LATE), "no legal labelling within H") == 0, "words of 7");
    check(MAPS_NEVER == 12 && strcmp(maps_text(12), "no legal labelling under any horizon") == 0, "words of 12");
    check(strcmp(maps_text(13), "no number of the documents") == 0, "no words of 13");
    check(strcmp(maps_text(MAPS_SPELLING), "the last byte of several is 0, or a third byte is above 127") == 0, "words of 2");
}

int main(void) {
    hall();
    grounds();
    horizons();
    never();
    memories();
    outputs();
    windows();
    lengths();
    words();
    return counted();
}
