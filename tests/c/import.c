/* A caller in C that has BLIF texts: the circuit of document 01's hall sheet imported byte for byte and planned, the numbers 8 to 11 with their
 * places, the first of several, the caller's numbers, exact and short buffers, known bytes round the buffer, and the length of a sheet. It counts
 * cases, each of several comparisons. From the folder that holds include/, tests/ and target/:
 *
 *   gcc -std=c11 -Wall -Wextra -Wpedantic -Werror -Wconversion -Wshadow -Iinclude tests/c/import.c -Ltarget/staticlib -lplanner -o target/import_c
 */
#include "cases.h"

/* The greatest buffer that is lent here. */
#define ROOM MAPS_SHEET_MOST

/* What the caller gives beside the text. */
struct caller {
    uint32_t leaves, top, horizon, table_ps, level_ps;
};

/* K, T and H of hall, and d = 1. */
static const struct caller PLAIN = {3, 2, 4, 900, 1000};

/* The circuit of the hall sheet, which has no differences here, and its sheet. */
static const char HALL_TEXT[] =
    "# hall\n"
    ".model hall\n"
    ".inputs a b \\\n"
    " c\n"
    ".outputs out\n"
    ".names a b ab\n"
    "11 1\n"
    ".names ab c abc\n"
    "1- 1\n"
    "-1 1\n"
    ".names abc ab out\n"
    "10 0\n"
    ".end\n";

static const uint8_t HALL_SHEET[49] = {0x03, 0x02, 0x04, 0x06, 0x00, HALL_NODES, 0x01, 0x00};

/* A text that is made here. */
static char made[2 * MAPS_TEXT_MOST];
static size_t made_length;

/* Imports a text into `room` bytes between two strips. The number and place are those given; on number 0 the buffer begins with `sheet`, where one
 * is given; all other bytes keep their values. */
static int imported(const char *text, size_t length, const struct caller *c, size_t room, uint64_t number, uint64_t place, const uint8_t *sheet) {
    static uint8_t bytes[STRIP + ROOM + STRIP];
    for (size_t i = 0; i < sizeof bytes; i++) {
        bytes[i] = known(i);
    }
    struct maps_answer answer =
        maps_import((const uint8_t *)text, length, c->leaves, c->top, c->horizon, c->table_ps, c->level_ps, bytes + STRIP, room);
    int holds = same(answer, number, place);
    size_t written = number == MAPS_ACCEPTED ? (size_t)place : 0;
    for (size_t i = 0; i < sizeof bytes; i++) {
        holds = holds && ((i >= STRIP && i < STRIP + written) || bytes[i] == known(i));
    }
    return holds && (sheet == NULL || memcmp(bytes + STRIP, sheet, written) == 0);
}

/* A text in an ample buffer, in none, and asked for the length of its sheet alone. */
static int answered(const char *text, size_t length, const struct caller *c, uint64_t number, uint64_t place, const uint8_t *sheet) {
    int holds = imported(text, length, c, ROOM, number, place, sheet);
    holds = imported(text, length, c, 0, number == MAPS_ACCEPTED ? (uint64_t)MAPS_BUFFER_SHORT : number, place, NULL) && holds;
    struct maps_answer asked = maps_import_length((const uint8_t *)text, length, c->leaves, c->top, c->horizon, c->table_ps, c->level_ps);
    return same(asked, number, place) && holds;
}

/* One case of a text that is refused. */
static void refused(const char *name, const char *text, uint64_t number, uint64_t place) {
    check(answered(text, strlen(text), &PLAIN, number, place, NULL), name);
}

/* One case of a text whose nodes, between the header 3, 2, 4, n, 0 and the end 1, 0, are these bytes; also in an exact buffer, with one byte more and
 * with one less. */
static void taken(const char *name, const char *text, uint8_t n, const uint8_t *nodes, size_t nodes_length) {
    uint8_t sheet[256] = {3, 2, 4, n, 0};
    memcpy(sheet + 5, nodes, nodes_length);
    sheet[5 + nodes_length] = 1;
    size_t length = strlen(text), sheet_length = 5 + nodes_length + 2;
    int holds = answered(text, length, &PLAIN, MAPS_ACCEPTED, sheet_length, sheet);
    holds = imported(text, length, &PLAIN, sheet_length, MAPS_ACCEPTED, sheet_length, sheet) && holds;
    holds = imported(text, length, &PLAIN, sheet_length + 1, MAPS_ACCEPTED, sheet_length, sheet) && holds;
    check(imported(text, length, &PLAIN, sheet_length - 1, MAPS_BUFFER_SHORT, sheet_length, NULL) && holds, name);
}

/* Begins a made text. */
static void make(const char *text) {
    made_length = strlen(text);
    memcpy(made, text, made_length);
}

/* Goes on with it, so many times. */
static void add(const char *text, size_t times) {
    size_t length = strlen(text);
    for (size_t i = 0; i < times; i++) {
        memcpy(made + made_length, text, length);
        made_length += length;
    }
}

/* Goes on with `count` different names of three bytes, each after a blank. */
static void add_names(unsigned count) {
    for (unsigned i = 0; i < count; i++) {
        const char name[] = {' ', 'n', (char)('A' + i / 26), (char)('a' + i % 26), 0};
        add(name, 1);
    }
}

/* One case of the made text. */
static void made_is(const char *name, uint64_t number, uint64_t place) {
    check(answered(made, made_length, &PLAIN, number, place, NULL), name);
}

/* The hall circuit, its sheet, its buffers and its plan. */
static void the_hall(void) {
    const size_t text_length = sizeof HALL_TEXT - 1, length = sizeof HALL_SHEET;
    check(answered(HALL_TEXT, text_length, &PLAIN, MAPS_ACCEPTED, length, HALL_SHEET), "hall");
    check(imported(HALL_TEXT, text_length, &PLAIN, length, MAPS_ACCEPTED, length, HALL_SHEET), "hall, exact buffer");
    check(imported(HALL_TEXT, text_length, &PLAIN, length + 1, MAPS_ACCEPTED, length, HALL_SHEET), "hall, one byte more");
    int holds = 1;
    for (size_t room = 0; room < length; room++) {
        holds = imported(HALL_TEXT, text_length, &PLAIN, room, MAPS_BUFFER_SHORT, length, NULL) && holds;
    }
    check(holds, "8: hall, every shorter buffer");
    check(answered(HALL_TEXT, text_length - 1, &PLAIN, MAPS_ACCEPTED, length, HALL_SHEET), "hall without the last byte 10");
    /* Node 5 is (0, 1) with leaves 0 1 2. */
    static const uint8_t hall_plan[] = {0, 0, 0, 1, 0, 0, 0, 1, 0, 0, 0, 1, 0, 0, 1, 0, 0, 0, 1, 0, 0, 0, 1, 1, 3, 0, 1, 2};
    uint8_t sheet[MAPS_SHEET_MOST], plan[MAPS_PLAN_MOST];
    struct maps_answer answer = maps_import((const uint8_t *)HALL_TEXT, text_length, 3, 2, 4, 900, 1000, sheet, sizeof sheet);
    holds = same(answer, MAPS_ACCEPTED, length);
    answer = maps_plan(sheet, (size_t)answer.place, plan, sizeof plan);
    check(same(answer, MAPS_ACCEPTED, sizeof hall_plan) && memcmp(plan, hall_plan, sizeof hall_plan) == 0 && holds, "hall, imported and planned");
    struct maps_answer asked = maps_import_length((const uint8_t *)HALL_TEXT, text_length, 3, 2, 4, 900, 1000);
    holds = maps_accepted(asked) && asked.place <= sizeof sheet;
    answer = maps_import((const uint8_t *)HALL_TEXT, text_length, 3, 2, 4, 900, 1000, sheet, (size_t)asked.place);
    check(same(answer, MAPS_ACCEPTED, asked.place) && holds, "hall, imported into as many bytes as its sheet's length");
}

/* A latch has q = 0: what reads it is at level d of its last step. */
static void a_latch(void) {
    static const char text[] = ".model m\n.inputs a\n.outputs c\n.latch a b\n.names b c\n1 1\n.end\n";
    static const uint8_t latch_sheet[] = {3, 2, 4, 3, 0, 0, 0, 0, 0, 0, 0, 2, 0, 0, 1, 0, 1, 0, 1, 1, 1, 0, 0, 1, 1, 1, 0};
    static const uint8_t latch_plan[] = {1, 0, 0, 1, 0, 0, 0, 1, 0, 1, 1, 1, 1, 1};
    uint8_t plan[MAPS_PLAN_MOST];
    int holds = answered(text, sizeof text - 1, &PLAIN, MAPS_ACCEPTED, sizeof latch_sheet, latch_sheet);
    holds = same(maps_plan(latch_sheet, sizeof latch_sheet, plan, sizeof plan), MAPS_ACCEPTED, sizeof latch_plan) && holds;
    check(holds && memcmp(plan, latch_plan, sizeof latch_plan) == 0, "a latch, imported and planned");
}

/* What is of the subset. */
static void subset(void) {
    static const uint8_t one[] = {0, 0, 0, 0, 0, 0};
    static const uint8_t marked[] = {0, 1, 0, 0, 0, 0};
    static const uint8_t both[] = {0, 0, 0, 0, 0, 0, 0, 1, 0, 0, 0, 0};
    static const uint8_t latches[] = {0, 0, 0, 0, 0, 0, 2, 0, 0, 1, 0, 1, 0, 2, 1, 0, 1, 0, 1, 1};
    static const uint8_t table[] = {0, 0, 0, 0, 0, 0, 1, 0, 1, 0, 0, 2, 0, 0};
    static const uint8_t constants[] = {0, 0, 0, 0, 0, 0, 0, 0, 0, 0, 0, 0};
    taken("one input", ".model m\n.inputs a\n.end", 1, one, sizeof one);
    taken("lines without a word, blanks and tabs", "\n \t\n\t.model \t m\n\n .inputs a\n.end\t\n\n", 1, one, sizeof one);
    taken("comments, also inside a word and with a backslash", ".model m#\\\n.inputs a#b \\\n.end#", 1, one, sizeof one);
    taken("a name in two lines", ".model m\n.inputs a\\\nb\n.outputs ab\n.end", 1, marked, sizeof marked);
    taken("a directive in two lines", ".model m\n.inp\\\nuts a\n.end\\", 1, one, sizeof one);
    taken("two backslashes", ".model m\n.inputs a\\\\\nb\n.outputs a\\b\n.end", 1, marked, sizeof marked);
    taken("a backslash before a comment and a blank", ".model m\n.inputs a\\ \n.outputs a\\# x\n.end", 1, marked, sizeof marked);
    taken("names that are directives", ".model .end\n.inputs .end .names\n.outputs .names\n.end", 2, both, sizeof both);
    taken("latches", ".model m\n.outputs c\n.inputs a\n.latch a b\n.latch b c 3\n.end", 3, latches, sizeof latches);
    taken("a repeated operand and rows", ".model m\n.inputs a\n.names a a b\n\n01 1\n-- 0\n.end", 2, table, sizeof table);
    taken("constants", ".model m\n.names a\n 1\n.names b\n.end", 2, constants, sizeof constants);
}

/* Ground 9. */
static void lines(void) {
    refused("9: no text", "", MAPS_SUBSET, 1);
    refused("9: .model alone has no .end", ".model m", MAPS_SUBSET, 2);
    refused("9: a missing .end after joined lines", ".model m\n.inputs a\\\n b\\\n", MAPS_SUBSET, 4);
    refused("9: .inputs first", "\n.inputs a\n.model m\n.end", MAPS_SUBSET, 2);
    refused("9: .model with two names", ".model m n\n.inputs a\n.end", MAPS_SUBSET, 1);
    refused("9: a second .model", ".model m\n.inputs a\n.model m\n.end", MAPS_SUBSET, 3);
    refused("9: .inputs after .names, without names", ".model m\n.names a\n.inputs\n.end", MAPS_SUBSET, 3);
    refused("9: .outputs after .latch", ".model m\n.inputs a\n.latch a b\n.outputs b\n.end", MAPS_SUBSET, 4);
    refused("9: .names without a word", ".model m\n.inputs a\n.names\n.end", MAPS_SUBSET, 3);
    refused("9: a row of wrong width", ".model m\n.inputs a\n.names a b\n11 1\n.end", MAPS_SUBSET, 4);
    refused("9: a row in three words", ".model m\n.inputs a\n.names a a b\n1 1 1\n.end", MAPS_SUBSET, 4);
    refused("9: a row without inputs of two words", ".model m\n.names a\n1 1\n.end", MAPS_SUBSET, 3);
    refused("9: a row after a latch", ".model m\n.inputs a\n.latch a b\n1 1\n.end", MAPS_SUBSET, 4);
    refused("9: an initial value of 4", ".model m\n.inputs a\n.latch a b 4\n.end", MAPS_SUBSET, 3);
    refused("9: a latch with a clock", ".model m\n.inputs a c\n.latch a b re c 0\n.end", MAPS_SUBSET, 3);
    refused("9: .end with a word", ".model m\n.inputs a\n.end x", MAPS_SUBSET, 3);
    refused("9: a word after .end", ".model m\n.inputs a\n.end\n\n.end", MAPS_SUBSET, 5);
    refused("9: .end with a byte 13", ".model m\n.inputs a\n.end\r\n", MAPS_SUBSET, 3);
    refused("9: another directive, on joined lines", ".model m\n.inputs a\n\\\n.clock\\\n c\n.end", MAPS_SUBSET, 3);
}

/* Ground 10. */
static void names(void) {
    refused("10: read before it is defined", ".model m\n.inputs a\n.names b c\n.names a b\n.end", MAPS_NAME, 3);
    refused("10: a latch that reads itself", ".model m\n.inputs a\n.latch b b\n.end", MAPS_NAME, 3);
    refused("10: defined twice on a line", ".model m\n.inputs a \\\n a\n.end", MAPS_NAME, 2);
    refused("10: defined twice", ".model m\n.inputs a\n.names a b\n.latch a b\n.end", MAPS_NAME, 4);
    refused("10: put out without definition", ".model m\n.outputs a\n.outputs \\\n b\n.inputs a\n.end", MAPS_NAME, 3);
    refused("9: a later line before an undefined output", ".model m\n.outputs b\n.inputs a\n.end\nx", MAPS_SUBSET, 5);
    refused("10: seven operands, one undefined", ".model m\n.inputs a\n.names a a a a a a x b\n.end", MAPS_NAME, 3);
}

/* Ground 11 at a line. */
static void limits(void) {
    refused("11: no nodes", ".model m\n.outputs x\n.end\nx", MAPS_LIMIT, 3);
    refused("11: seven operands", ".model m\n.inputs a\n.names a a a a a a a b\n.end", MAPS_LIMIT, 3);
    make(".model ");
    add("x", 32);
    add("\n.inputs a\n.end", 1);
    made_is("11: the model's name of 32 bytes", MAPS_LIMIT, 1);
    make(".model m\n.inputs a\n.outputs ");
    add("x", 32);
    add("\n.end", 1);
    made_is("11: an output's name of 32 bytes", MAPS_LIMIT, 3);
    make(".model ");
    add("x", 31);
    add("\n.inputs ", 1);
    add("y", 31);
    add("\n.end", 1);
    made_is("names of 31 bytes", MAPS_ACCEPTED, 13);
    make(".model m\n.inputs");
    add_names(256);
    add("\n.end", 1);
    made_is("256 nodes", MAPS_ACCEPTED, 6 + 256 * 6 + 2);
    make(".model m\n.inputs");
    add_names(257);
    add("\n.end", 1);
    made_is("11: 257 inputs", MAPS_LIMIT, 2);
    make(".model m\n.inputs");
    add_names(256);
    add("\n.latch nAa z\n.end", 1);
    made_is("11: the 257th node a latch", MAPS_LIMIT, 3);
    make(".model m\n.inputs");
    add_names(256);
    add(" nAa\n.end", 1);
    made_is("10: 257 inputs, the last repeats the first", MAPS_NAME, 2);
}

/* The caller's numbers and the text's length, before any line. */
static void caller(void) {
    static const char text[] = ".model m\n.inputs a\n.names a b\n.end";
    static const struct {
        struct caller caller;
        uint32_t delay; /* 0 where the caller is refused */
    } cases[] = {
        {{2, 1, 0, 1, 1}, 1},
        {{6, 64, 0, 64, 1}, 64},
        {{3, 2, 4, 1000, 1000}, 1},
        {{3, 2, 4, 1001, 1000}, 2},
        {{3, 2, 4, 2000, 1000}, 2},
        {{3, 64, 4, UINT32_MAX, 67108864}, 64},
        {{3, 1, 4, UINT32_MAX, UINT32_MAX}, 1},
        {{3, 2, 4, UINT32_MAX, UINT32_MAX - 1}, 2},
        {{1, 2, 4, 1, 1}, 0},
        {{7, 2, 4, 1, 1}, 0},
        {{3, 0, 4, 1, 1}, 0},
        {{3, 65, 4, 1, 1}, 0},
        {{3, 2, 65536, 1, 1}, 0},
        {{3, 2, UINT32_MAX, 1, 1}, 0},
        {{3, 2, 4, 0, 1}, 0},
        {{3, 2, 4, 1, 0}, 0},
        {{3, 2, 4, 2001, 1000}, 0},
        {{3, 1, 4, UINT32_MAX, UINT32_MAX - 1}, 0},
        {{3, 64, 4, UINT32_MAX, 67108863}, 0},
        {{3, 64, 4, UINT32_MAX, 1}, 0},
    };
    for (size_t i = 0; i < sizeof cases / sizeof *cases; i++) {
        const struct caller *c = &cases[i].caller;
        char name[64];
        snprintf(name, sizeof name, "caller's numbers, row %u", (unsigned)i);
        if (cases[i].delay == 0) {
            int holds = answered(text, strlen(text), c, MAPS_LIMIT, 0, NULL);
            check(answered("x", 1, c, MAPS_LIMIT, 0, NULL) && holds, name);
        } else {
            const uint8_t header[] = {(uint8_t)c->leaves, (uint8_t)c->top, (uint8_t)c->horizon, 2, 0};
            uint8_t sheet[20] = {0, 0, 0, 0, 0, 0, 0, 0, 0, 0, 0, 1, 0, (uint8_t)cases[i].delay, 0, 0, 1, 0, 1, 0};
            memcpy(sheet, header, sizeof header);
            check(answered(text, strlen(text), c, MAPS_ACCEPTED, sizeof sheet, sheet), name);
        }
    }
    static const struct caller far = {3, 2, 65535, 1, 1};
    static const uint8_t far_sheet[] = {3, 2, 0xff, 0xff, 0x03, 2, 0, 0, 0, 0, 0, 0, 0, 1, 0, 1, 0, 0, 1, 0, 1, 0};
    check(answered(text, strlen(text), &far, MAPS_ACCEPTED, sizeof far_sheet, far_sheet), "H = 65,535");
    make(".model m\n.inputs a\n.end\n");
    add("\n", MAPS_TEXT_MOST - made_length);
    made_is("a text of 65,536 bytes", MAPS_ACCEPTED, 13);
    add("\n", 1);
    made_is("11: a text of 65,537 bytes", MAPS_LIMIT, 0);
    make("x");
    add("\n", MAPS_TEXT_MOST);
    made_is("11: a longer text before its first line", MAPS_LIMIT, 0);
    check(same(maps_import_length(NULL, 0, 3, 2, 4, 1, 1), MAPS_SUBSET, 1), "the length for no text, null");
}

/* The words for the numbers are there and differ. */
static void words(void) {
    int differ = 1;
    for (uint64_t a = 0; a <= 12; a++) {
        for (uint64_t b = 0; b < a; b++) {
            differ = strcmp(maps_text(a), maps_text(b)) != 0 && differ;
        }
    }
    check(differ, "words that differ");
    check(strcmp(maps_text(MAPS_SUBSET), "a line outside the subset or a row of wrong width") == 0, "words of 9");
}

int main(void) {
    the_hall();
    a_latch();
    subset();
    lines();
    names();
    limits();
    caller();
    words();
    return counted();
}
