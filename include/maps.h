/* The calls of the MAPS planner: planning a sheet, writing a sheet from records, and importing a BLIF model as a sheet.
 *
 * maps_plan reads one sheet and writes one plan; maps_write reads the records of a circuit and writes their sheet; maps_import reads the text of one
 * BLIF model and writes its sheet. Sheets, plans and the subset of BLIF are as documents 01 and 02 define them.
 *
 * Promised of each, on every input:
 *  - The answer's number is 0 exactly if what is given is accepted and what is to be written fits the buffer. Then it stands at the front of
 *    the buffer, place is its length in bytes, and the bytes of the buffer after it keep their values.
 *  - Otherwise the number is the ground for refusing, place is that ground's place, and no byte of the buffer changes.
 *  - The sheet, the records or the text are only read. Nothing else of the caller's memory is read or written.
 *
 * Promised of maps_plan:
 *  - It refuses with 1 to 8 and 12. If several grounds hold: 1 to 4 at the first number in the sheet that fails, spelling before value; then 5, 6,
 *    12, 7, 8.
 *  - Refused for time, by 7 or 12, is exactly the sheet that has no legal labels within H. Of a sheet without windows 7 says that a larger H would do,
 *    or would if H could be larger than 65,535, and 12 that no horizon would: some wishes of the sheet clash, and raising H never helps. A sheet with
 *    windows, one or more, whatever they close, gets 7 in both cases and never 12.
 *  - A box with a window starts in an open step: the step of its label is held to the window, not that of its ready label.
 *  - The labels of a plan are the least legal ones, and the cuts are the chosen ones under those labels.
 *  - The first number of a plan, its latency, is the greatest ready step among outputs, of any kind, and 0 where there is none; no legal labels have a
 *    smaller one. A node that is no output may be ready later, within H.
 *
 * Promised of maps_write:
 *  - It refuses with 3, 4 and 8: 3 or 4 at the first number of the sheet that a reader would refuse, and place is which number of the sheet that
 *    is, from 0; then 8. n, m, operand counts and the count of windows are how many were given, and are judged as the other numbers are.
 *  - Reading the sheet that was written gives the records again, and the records of a sheet that reads give the bytes of that sheet.
 *
 * Promised of maps_import:
 *  - It refuses with 8 to 11. First the caller's numbers and a text longer than MAPS_TEXT_MOST, 11 at place 0; then the first faulty line decides,
 *    and on one line 9, 10, 11 in that order; then an output without definition, 10 at its line; then 8.
 *  - The nodes of the sheet are the model's, in the order in which their names are defined, with the outputs marked, without differences and windows,
 *    and with P = 1: a .names is logic, or an input if it reads nothing; a .latch is a box with d = 0, lat = 1 and q = 0. The d of logic is
 *    table_ps / level_ps, rounded up.
 *  - The sheet reads: maps_plan refuses it with none of 1 to 5.
 *
 * Asked of the caller: `sheet` of maps_plan, what the records of maps_write point to and `text` of maps_import are readable and the buffer is
 * writable, each in its whole length; the buffer overlaps none of them; and neither the sheet's, the text's nor the buffer's pointer is null, also
 * where its length is 0. A buffer of MAPS_PLAN_MOST bytes is long enough for every plan and one of MAPS_SHEET_MOST bytes for every sheet;
 * maps_plan_length, maps_write_length and maps_import_length give the length of one plan and of one sheet.
 *
 * The calls have no global state and allocate nothing: several threads may call them at the same time. Give a thread that
 * calls one of them MAPS_STACK bytes of stack.
 */
#ifndef MAPS_H
#define MAPS_H

#include <assert.h>
#include <stddef.h>
#include <stdint.h>

#ifdef __cplusplus
extern "C" {
#endif

/* Bytes that no plan exceeds: 3 for the latency, 18 for each of 256 nodes (3 for the step, 1 each for level, mark and leaf count, 2 for each
 * of 6 leaves). */
#define MAPS_PLAN_MOST 4611

/* Bytes that no sheet exceeds: 9 for the header (1 each for K and T, 3 for H, 2 each for n and m), 19 for each of 256 nodes (1 each for kind, mark,
 * d, q and operand count, 2 for lat, 2 for each of 6 operands), 7 for each of 1,024 differences (2 each for u and v, 3 for w), 1 for P, 2 for the
 * count of windows, 4 for each of 256 windows (2 for the box, 1 each for from and to). */
#define MAPS_SHEET_MOST 13068

/* Bytes of the longest text that maps_import takes. */
#define MAPS_TEXT_MOST 65536

/* Bytes of stack to give a calling thread. It is a bound: a test (tests/tests/stack.rs) reads the frame of each function from the archive, counts
 * a recursive function as often as it can be active at once, adds up the deepest path of calls and holds this number to be no less. */
#define MAPS_STACK 524288

/* What a call answers. */
struct maps_answer {
    uint64_t number; /* 0, or the ground for refusing */
    uint64_t place;  /* the length of what was written, or the ground's place */
};

/* The numbers, each with its place. For 3 and 4 that is the number's first byte in the sheet that maps_plan reads, and which number it is, from 0, of
 * the sheet that maps_write is to write. */
enum maps_number {
    MAPS_ACCEPTED = 0,     /* accepted; place: the length of what was written */
    MAPS_SHEET_ENDS = 1,   /* the sheet ends before a number is complete or present; place: the sheet's length */
    MAPS_SPELLING = 2,     /* the last byte of several is 0, or a third byte is above 127; place: the number's first byte */
    MAPS_VALUE = 3,        /* a value, u and v included, is outside its range; place: that number */
    MAPS_OPERAND = 4,      /* an operand id is not below the node's own; place: that number */
    MAPS_BYTES_FOLLOW = 5, /* bytes follow the last number; place: the first of them */
    MAPS_NO_CUT = 6,       /* a logic node has no fitting cut; place: the lowest such id */
    MAPS_LATE = 7,         /* no legal labelling within H; of a sheet without windows: but within a larger horizon; place: 0 */
    MAPS_BUFFER_SHORT = 8, /* the buffer is shorter than what would be written; place: that length */
    MAPS_SUBSET = 9,       /* a line outside the subset or a row of wrong width; place: the line, from 1, and of joined lines the first; a missing
                            * .end: one line past the last */
    MAPS_NAME = 10,        /* a name read before it is defined, defined twice or put out without definition; place: the line */
    MAPS_LIMIT = 11,       /* a limit; place: the line, 0 for the caller's numbers and for a text longer than MAPS_TEXT_MOST */
    MAPS_NEVER = 12        /* no legal labelling under any horizon, of a sheet without windows; place: 0 */
};

/* Plans a sheet into a buffer. */
struct maps_answer maps_plan(const uint8_t *sheet, size_t sheet_len, uint8_t *plan, size_t plan_len);

/* Asks for the length of a sheet's plan and writes none: number 0 and, as place, the length in bytes where the sheet has a plan, otherwise the
 * refusal, never 8. `sheet` may be null where sheet_len is 0. */
static inline struct maps_answer maps_plan_length(const uint8_t *sheet, size_t sheet_len) {
    const uint8_t no_sheet = 0;
    uint8_t no_plan = 0;
    struct maps_answer answer = maps_plan(sheet_len == 0 ? &no_sheet : sheet, sheet_len, &no_plan, 0);
    if (answer.number == MAPS_BUFFER_SHORT) {
        answer.number = MAPS_ACCEPTED;
    }
    return answer;
}

/* The kinds of nodes. */
enum maps_kind {
    MAPS_INPUT = 0,
    MAPS_LOGIC = 1,
    MAPS_BOX = 2
};

/* A node. Its operands are those of the array `operands` of the records from the end of the node before it, for node 0 from the first, up to its own
 * end: the number of operands of all nodes up to and with this one. An end past the array counts as the array's length. An end that is not after
 * the start gives no operands, and the next node starts there. In the sheet q stands after lat; here `clock_to_q` is the last member, and one that an
 * initializer leaves out is 0. */
struct maps_node {
    uint32_t kind;         /* a number of maps_kind */
    uint32_t output;       /* 1 if the node is an output, otherwise 0 */
    uint32_t delay;        /* d, in levels */
    uint32_t latency;      /* lat, in steps */
    uint32_t operands_end; /* the index in `operands` behind the last of this node's */
    uint32_t clock_to_q;   /* q, the clock-to-Q level: a box with a latency delivers at it, `latency` steps on; 0 for every other node */
};

/* A difference: step of `to` >= step of `from` + `weight`. */
struct maps_difference {
    uint32_t from;  /* u */
    uint32_t to;    /* v */
    int32_t weight; /* w */
};

/* A window: the box may start in step s only if the remainder of s by the period is at least `from` and below `to`. Windows stand in rising order of
 * their boxes, one for a box; `from` is 0 to P - 1, `to` is from + 1 to P. */
struct maps_window {
    uint32_t box;  /* the box's id */
    uint32_t from; /* the first open remainder */
    uint32_t to;   /* the first closed one after it, or P */
};

/* The records of a sheet. A node's id is its index in `nodes`. A pointer whose count is 0 may be null. The period is judged also where there are no
 * windows, and 0 is out of its range: records from before there were windows need `period = 1`. */
struct maps_sheet {
    uint32_t leaves;  /* K */
    uint32_t top;     /* T */
    uint32_t horizon; /* H */
    const struct maps_node *nodes;
    size_t node_count; /* n */
    const uint32_t *operands;
    size_t operand_count; /* of all nodes */
    const struct maps_difference *differences;
    size_t difference_count; /* m */
    uint32_t period;         /* P, 1 to 64 */
    const struct maps_window *windows;
    size_t window_count; /* at most n */
};

/* The call that maps_write makes: the records as rows of 32-bit numbers, six for a node (kind, output, delay, latency, operands_end, clock_to_q),
 * three for a difference, with w as the 32 bits of a signed number, and three for a window (box, from, to). The lengths count numbers; an incomplete
 * row at the end is ignored. No pointer may be null. */
struct maps_answer maps_write_rows(uint32_t leaves, uint32_t top, uint32_t horizon, const uint32_t *nodes, size_t nodes_len,
                                   const uint32_t *operands, size_t operands_len, const uint32_t *differences, size_t differences_len,
                                   uint32_t period, const uint32_t *windows, size_t windows_len, uint8_t *sheet, size_t sheet_len);

static_assert(sizeof(struct maps_node) == 6 * sizeof(uint32_t), "a node is a row of six numbers");
static_assert(sizeof(struct maps_difference) == 3 * sizeof(uint32_t), "a difference is a row of three numbers");
static_assert(sizeof(struct maps_window) == 3 * sizeof(uint32_t), "a window is a row of three numbers");

/* Writes the sheet of records into a buffer. The records are handed over where they stand. */
static inline struct maps_answer maps_write(const struct maps_sheet *records, uint8_t *sheet, size_t sheet_len) {
    const uint32_t none = 0;
    const uint32_t *nodes = records->node_count == 0 ? &none : (const uint32_t *)records->nodes;
    const uint32_t *operands = records->operand_count == 0 ? &none : records->operands;
    const uint32_t *differences = records->difference_count == 0 ? &none : (const uint32_t *)records->differences;
    const uint32_t *windows = records->window_count == 0 ? &none : (const uint32_t *)records->windows;
    return maps_write_rows(records->leaves, records->top, records->horizon, nodes, 6 * records->node_count, operands, records->operand_count,
                           differences, 3 * records->difference_count, records->period, windows, 3 * records->window_count, sheet, sheet_len);
}

/* Asks for the length of the sheet of records and writes none: number 0 and, as place, the length in bytes where the records have a sheet, otherwise
 * the refusal, never 8. */
static inline struct maps_answer maps_write_length(const struct maps_sheet *records) {
    uint8_t no_sheet = 0;
    struct maps_answer answer = maps_write(records, &no_sheet, 0);
    if (answer.number == MAPS_BUFFER_SHORT) {
        answer.number = MAPS_ACCEPTED;
    }
    return answer;
}

/* Imports the BLIF model of a text as a sheet into a buffer. `leaves`, `top` and `horizon` are K, T and H; `table_ps` and `level_ps` are a table's
 * picoseconds and a level's, both at least 1. 11 is given for more than 256 nodes or none, more than 6 operands, names of more than 31 bytes, d above
 * T and caller's numbers out of range. */
struct maps_answer maps_import(const uint8_t *text, size_t text_len, uint32_t leaves, uint32_t top, uint32_t horizon, uint32_t table_ps,
                               uint32_t level_ps, uint8_t *sheet, size_t sheet_len);

/* Asks for the length of the sheet of a text and writes none: number 0 and, as place, the length in bytes where the text has a sheet, otherwise the
 * refusal, never 8. `text` may be null where text_len is 0. */
static inline struct maps_answer maps_import_length(const uint8_t *text, size_t text_len, uint32_t leaves, uint32_t top, uint32_t horizon,
                                                    uint32_t table_ps, uint32_t level_ps) {
    const uint8_t no_text = 0;
    uint8_t no_sheet = 0;
    struct maps_answer answer =
        maps_import(text_len == 0 ? &no_text : text, text_len, leaves, top, horizon, table_ps, level_ps, &no_sheet, 0);
    if (answer.number == MAPS_BUFFER_SHORT) {
        answer.number = MAPS_ACCEPTED;
    }
    return answer;
}

/* 1 if the number is 0: the plan or sheet is written or, where its length alone was asked, there is one. Otherwise 0. */
static inline int maps_accepted(struct maps_answer answer) { return answer.number == MAPS_ACCEPTED; }

/* The documents' words for a number. */
static inline const char *maps_text(uint64_t number) {
    switch (number) {
    case MAPS_ACCEPTED: return "accepted";
    case MAPS_SHEET_ENDS: return "the sheet ends before a number is complete or present";
    case MAPS_SPELLING: return "the last byte of several is 0, or a third byte is above 127";
    case MAPS_VALUE: return "a value, u and v included, is outside its range";
    case MAPS_OPERAND: return "an operand id is not below the node's own";
    case MAPS_BYTES_FOLLOW: return "bytes follow the last number";
    case MAPS_NO_CUT: return "a logic node has no fitting cut";
    case MAPS_LATE: return "no legal labelling within H";
    case MAPS_BUFFER_SHORT: return "the buffer is shorter than what would be written";
    case MAPS_SUBSET: return "a line outside the subset or a row of wrong width";
    case MAPS_NAME: return "a name read before it is defined, defined twice or put out without definition";
    case MAPS_LIMIT: return "a limit (256 nodes, 6 operands, names of 31 bytes, d above T, caller's numbers out of range)";
    case MAPS_NEVER: return "no legal labelling under any horizon";
    default: return "no number of the documents";
    }
}

#ifdef __cplusplus
}
#endif

#endif
