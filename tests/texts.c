/* What is printed and read: sheets, lists of links, and drawings (#106). */
#include "examples.h"

typedef uint32_t program(const uint8_t *, size_t, uint8_t *, size_t, uint64_t[2]);

/* What a program prints for a line and the mesh: into an output that is one byte too short, exact and longer. */
static void prints(const char *what, program *program, const char *line, const char *due) {
    uint8_t input[200], output[NOLKISEI_SHEET];
    size_t start = strlen(line), length = strlen(due);
    memcpy(input, line, start);
    is(what, nolkisei_write(5, TABLE(mesh), input + start, sizeof input - start, answer), NOLKISEI_DONE);
    size_t end = start + (size_t)answer[0];
    for (size_t room = length - 1; room < length + 3; room++) {
        memset(output, 7, sizeof output);
        is(what, program(input, end, output, room, answer), room < length ? NOLKISEI_ROOM : NOLKISEI_DONE);
        size_t printed = room < length ? 0 : length;
        is(what, answer[0], printed);
        is(what, answer[1], 0);
        is(what, memcmp(output, due, printed), 0);
        for (size_t i = printed; i < sizeof output; i++) {
            is(what, output[i], 7);
        }
    }
}

static void programs(void) {
    prints("P6", nolkisei_plan, "(want 4 1 2)\n",
           "(sheet (from 4) (to 1) (k 2))\n(route 4 2 1)\n(over 5 2)\n(route 4 3 1)\n(over 6 3)\n(kept 7)\n(end)\n");
    prints("P9 as a list", nolkisei_keep, "(keep 1)\n",
           "(lease (k 1))\n(drop 0 0 1)\n(keep 1 0 2)\n(keep 2 1 2)\n(drop 3 1 3)\n(keep 4 2 3)\n(keep 5 2 4)\n(drop 6 3 4)\n"
           "(kept 4)\n(dropped 3)\n(withdrawn 0)\n(end)\n");
    prints("no wish", nolkisei_plan, "", "(refused 1 1)\n");
    prints("no keep line", nolkisei_keep, "(keep)\n", "(refused 1 5)\n");
    prints("k 33", nolkisei_keep, "(keep 33)\n", "(refused 9 0)\n");
}

/* What is said of a sheet for the mesh. */
static uint32_t verify(const char *sheet) {
    return nolkisei_verify(5, TABLE(mesh), (const uint8_t *)sheet, strlen(sheet), answer);
}

static void sheets(void) {
    is("P6 read back", verify("(sheet (from 4) (to 1) (k 2))\n(route 4 2 1)\n(over 5 2)\n(route 4 3 1)\n(over 6 3)\n(kept 7)\n(end)\n"), 0);
    is("P6 holds", answer[0], 1);
    is("circuits exchanged",
       verify("(sheet (from 4) (to 1) (k 2))\n(route 4 2 1)\n(over 5 2)\n(route 4 3 1)\n(over 3 6)\n(kept 7)\n(end)\n"), 0);
    is("circuits exchanged: fails", answer[0], 0);
    is("no circuits", verify("(sheet (from 4) (to 1) (k 1))\n(route 4 2 1)\n(kept 4)\n(end)\n"), NOLKISEI_SHEET_FORM);
    is("no circuits at", answer[0], 45);
    is("k 33 on a sheet", verify("(sheet (from 4) (to 1) (k 33))\n(kept 4)\n(end)\n"), NOLKISEI_SHEET_COUNT);
    is("no sheet", verify(""), NOLKISEI_SHEET_FORM);
    is("no sheet at", answer[0], 0);
}

/* What the import says of a drawing. */
static uint64_t import_text(const char *text) {
    return nolkisei_import((const uint8_t *)text, strlen(text), LENT(lent.lows), LENT(lent.highs), LENT(lent.states), answer);
}

/* A drawing that is refused with this number, at this place, and leaves zeros. */
static void undrawn(const char *what, const char *text, uint64_t number, uint64_t place) {
    lent.lows[0] = lent.highs[0] = lent.states[0] = 7;
    is(what, import_text(text), number);
    is(what, answer[0], place);
    is(what, answer[1] | lent.lows[0] | lent.highs[0] | lent.states[0], 0);
}

/* The mesh as a drawing, and drawings that are refused (#106). */
static void drawings(void) {
    const char *mesh = "c the mesh\np edge 5 7\ne 1 2\nc\ne 3 1\ne 2 3\ne 4 2\ne 3 4\ne 5 3\nc \ne 4 5\nc end\n";
    is("a drawing", import_text(mesh), 0);
    is("a drawing, n", answer[0], 5);
    is("a drawing, m", answer[1], 7);
    list("a drawing, lows", lent.lows, (const uint16_t[]){0, 0, 1, 1, 2, 2, 3, 0}, 8);
    list("a drawing, highs", lent.highs, (const uint16_t[]){1, 2, 2, 3, 3, 4, 4, 0}, 8);
    list("a drawing, states", lent.states, (const uint16_t[]){1, 1, 1, 1, 1, 0}, 6);
    is("a drawing, 6 lows", nolkisei_import((const uint8_t *)mesh, strlen(mesh), lent.lows, 6, LENT(lent.highs), LENT(lent.states), answer),
       NOLKISEI_TABLE_ROOM);
    is("a drawing, 4 states", nolkisei_import((const uint8_t *)mesh, strlen(mesh), LENT(lent.lows), LENT(lent.highs), lent.states, 4, answer),
       NOLKISEI_TABLE_ROOM);
    undrawn("no drawing", "", NOLKISEI_DRAWING_FORM, 0);
    undrawn("cx", "cx\n", NOLKISEI_DRAWING_FORM, 1);
    undrawn("p col", "c\np col 3 1\n", NOLKISEI_DRAWING_FORM, 4);
    undrawn("e 01 2", "p edge 3 1\ne 01 2\n", NOLKISEI_DRAWING_FORM, 14);
    undrawn("an e line too many", "p edge 3 1\ne 1 2\ne 1 3\n", NOLKISEI_DRAWING_FORM, 17);
    undrawn("drawn, n 0", "p edge 0 3001\n", NOLKISEI_RELAY_COUNT, 0);
    undrawn("drawn, m 3,001", "p edge 1 3001\n", NOLKISEI_LINK_COUNT, 0);
    undrawn("e 0 1", "p edge 3 2\ne 3 2\ne 0 1\n", NOLKISEI_RELAY_RANGE, 1);
    undrawn("e 2 2", "p edge 3 2\ne 3 2\nc\ne 2 2\n", NOLKISEI_NOT_BELOW, 1);
    undrawn("e 2 3", "p edge 3 2\ne 3 2\ne 2 3\n", NOLKISEI_REPEATED, 1);
}

int main(void) {
    programs();
    sheets();
    drawings();
    return finish("printed texts");
}
