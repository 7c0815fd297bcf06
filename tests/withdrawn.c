/* Relays withdrawn (#105): the mesh without relay 2, states that are refused and texts with out lines. */
#include "examples.h"

static const uint16_t without_2[] = {1, 1, 0, 1, 1};

static uint64_t read_text(const char *text) {
    return nolkisei_read((const uint8_t *)text, strlen(text), LENT(lent.lows), LENT(lent.highs), LENT(lent.states), answer);
}

/* The mesh with relay 2 withdrawn. */
#define WITHOUT_2 5, LINKS(mesh), LENT(without_2)

static void withdrawn(void) {
    memset(lent.relays, 9, sizeof lent.relays);
    is("without 2", nolkisei_order(WITHOUT_2, LENT(lent.relays), LENT(lent.places), answer), 0);
    list("without 2, order", lent.relays, (const uint16_t[]){1, 0, 3, 4, 0x909}, 5);
    list("without 2, places", lent.places, (const uint16_t[]){2, 1, 0, 3, 4}, 5);
    is("without 2", nolkisei_split(WITHOUT_2, LENT(lent.marks), answer), 0);
    list("without 2, forests", lent.marks, (const uint16_t[]){1, 0, 0, 1, 0, 0, 1}, 7);
    is("without 2, highest", answer[0], 1);
    is("without 2", nolkisei_cut(WITHOUT_2, 32, LENT(lent.marks), answer), 0);
    list("without 2, marks", lent.marks, (const uint16_t[]){1, 0, 0, 1, 0, 0, 1}, 7);
    is("without 2, count", answer[0], 3);
    is("without 2, to 2", nolkisei_route(WITHOUT_2, 1, 4, 2, LENT(lent.counts), LENT(lent.relays), LENT(lent.scratch), answer), NOLKISEI_WITHDRAWN);
    is("without 2, to 2 at", answer[0], 0);
    is("without 2, no room", nolkisei_route(WITHOUT_2, 1, 2, 4, lent.counts, 0, lent.relays, 0, lent.scratch, 0, answer), NOLKISEI_WITHDRAWN);
    is("without 2, equal ends", nolkisei_route(WITHOUT_2, 1, 2, 2, LENT(lent.counts), LENT(lent.relays), LENT(lent.scratch), answer), NOLKISEI_SAME_ENDS);
    is("without 2, k 2", nolkisei_route(WITHOUT_2, 2, 4, 1, LENT(lent.counts), LENT(lent.relays), LENT(lent.scratch), answer), NOLKISEI_NOT_ONE_TREE);
    is("without 2", nolkisei_route_links(WITHOUT_2, 1, 4, 1, LENT(lent.counts), LENT(lent.relays), LENT(lent.links), LENT(lent.scratch), answer), 0);
    list("without 2, route", lent.relays, (const uint16_t[]){4, 3, 1}, 3);
    list("without 2, links", lent.links, (const uint16_t[]){6, 3}, 2);
    const char *sheet = "(sheet (from 4) (to 1) (k 1))\n(route 4 2 1)\n(over 5 2)\n(kept 3)\n(end)\n";
    is("a sheet over 2", nolkisei_verify(WITHOUT_2, (const uint8_t *)sheet, strlen(sheet), answer), 0);
    is("a sheet over 2 fails", answer[0], 0);
    sheet = "(sheet (from 4) (to 1) (k 1))\n(route 4 3 1)\n(over 6 3)\n(kept 3)\n(end)\n";
    is("a sheet without 2", nolkisei_verify(WITHOUT_2, (const uint8_t *)sheet, strlen(sheet), answer), 0);
    is("a sheet without 2 holds", answer[0], 1);
}

/* State lists that are refused, and texts with out lines. */
static void refused_states(void) {
    is("4 states", nolkisei_check(5, LINKS(mesh), ones, 4, answer), NOLKISEI_STATES);
    is("6 states", nolkisei_check(5, LINKS(mesh), ones, 6, answer), NOLKISEI_STATES);
    is("a state 2", nolkisei_check(5, LINKS(mesh), (const uint16_t[]){1, 1, 2, 1, 1}, 5, answer), NOLKISEI_STATES);
    is("all withdrawn", nolkisei_check(5, LINKS(mesh), (const uint16_t[]){0, 0, 0, 0, 0}, 5, answer), 0);
    is("out", read_text("(net (relays 3) (links 1))\n(link 0 2)\n(out 1)\n(end)\n"), 0);
    list("out, states", lent.states, (const uint16_t[]){1, 0, 1, 0}, 4);
    is("falling", read_text("(net (relays 3) (links 0))\n(out 1)\n(out 0)\n(end)\n"), NOLKISEI_STATES);
    is("falling at", answer[0], 0);
    list("falling, states", lent.states, (const uint16_t[]){0, 0, 0}, 3);
    is("no relay 3", read_text("(net (relays 3) (links 0))\n(out 3)\n"), NOLKISEI_STATES);
    is("off", read_text("(net (relays 3) (links 0))\n(off 1)\n"), NOLKISEI_FORM);
    is("off at", answer[0], 29);
    is("2 states to read", nolkisei_read((const uint8_t *)"(net (relays 3) (links 0))\n(end)\n", 33, lent.lows, 0, lent.highs, 0, lent.states, 2, answer),
       NOLKISEI_TABLE_ROOM);
}

int main(void) {
    all_in_service();
    withdrawn();
    refused_states();
    return finish("the examples of withdrawn relays");
}
