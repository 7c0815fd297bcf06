/* Document 01's examples: P1 to P12 as they are since #104 of document 02, with the links that #101 asks for, and the others; and the
 * mesh's last two relays (#107). */
#include "examples.h"

static uint64_t read_text(const char *text) {
    return nolkisei_read((const uint8_t *)text, strlen(text), LENT(lent.lows), LENT(lent.highs), LENT(lent.states), answer);
}

static void marked(void) {
    is("P1", nolkisei_order(4, TABLE(square), LENT(lent.relays), LENT(lent.places), answer), 0);
    list("P1 order", lent.relays, (const uint16_t[]){0, 1, 2, 3}, 4);
    is("P1", nolkisei_split(4, TABLE(square), LENT(lent.marks), answer), 0);
    list("P1 forests", lent.marks, (const uint16_t[]){1, 1, 2, 1}, 4);
    is("P2", nolkisei_route(4, TABLE(square), 2, 3, 2, LENT(lent.counts), LENT(lent.relays), LENT(lent.scratch), answer), 0);
    list("P2 counts", lent.counts, (const uint16_t[]){4, 2}, 2);
    list("P2 routes", lent.relays, (const uint16_t[]){3, 0, 1, 2, 3, 2}, 6);
    is("P2 written", answer[0], 6);
    is("P3", nolkisei_route(4, TABLE(square), 2, 0, 2, LENT(lent.counts), LENT(lent.relays), LENT(lent.scratch), answer), NOLKISEI_NOT_ONE_TREE);
    is("P4", nolkisei_route(4, TABLE(full), 3, 3, 2, LENT(lent.counts), LENT(lent.relays), LENT(lent.scratch), answer), 0);
    list("P4 routes", lent.relays, (const uint16_t[]){3, 0, 2, 3, 1, 2, 3, 2}, 8);
    is("P5", nolkisei_order(5, TABLE(mesh), LENT(lent.relays), LENT(lent.places), answer), 0);
    list("P5 order", lent.relays, (const uint16_t[]){2, 0, 1, 3, 4}, 5);
    list("P5 places", lent.places, (const uint16_t[]){2, 3, 1, 4, 5}, 5);
    is("P5", nolkisei_split(5, TABLE(mesh), LENT(lent.marks), answer), 0);
    list("P5 forests", lent.marks, (const uint16_t[]){2, 1, 1, 2, 1, 1, 2}, 7);
    is("P7", nolkisei_route(5, TABLE(mesh), 2, 1, 4, LENT(lent.counts), LENT(lent.relays), LENT(lent.scratch), answer), 0);
    list("P7 routes", lent.relays, (const uint16_t[]){1, 2, 4, 1, 3, 4}, 6);
    is("P8", nolkisei_route(5, TABLE(mesh), 1, 4, 1, LENT(lent.counts), LENT(lent.relays), LENT(lent.scratch), answer), 0);
    list("P8 routes", lent.relays, (const uint16_t[]){4, 2, 1}, 3);
    is("P8 written", answer[0], 3);
    is("P9", nolkisei_cut(5, TABLE(mesh), 1, LENT(lent.marks), answer), 0);
    list("P9 marks", lent.marks, (const uint16_t[]){0, 1, 1, 0, 1, 1, 0}, 7);
    is("P9 count", answer[0], 4);
    is("P10", nolkisei_cut(1, EMPTY(1), 32, LENT(lent.marks), answer), 0);
    is("P10 count", answer[0], 0);
    is("P10", nolkisei_split(1, EMPTY(1), LENT(lent.marks), answer), 0);
    is("P10 highest", answer[0], 0);
    is("P11", nolkisei_route(2, EMPTY(2), 1, 0, 1, LENT(lent.counts), LENT(lent.relays), LENT(lent.scratch), answer), NOLKISEI_NOT_ONE_TREE);
    is("P12", nolkisei_pair(0, 1, answer), 0);
    is("P12 first", answer[0], 0);
    is("P12", nolkisei_pair(998, 999, answer), 0);
    is("P12 last", answer[0], 499499);
}

/* Two routes from 4 to 1 of the mesh, with room for so many links. */
static uint32_t mesh_links(size_t room) {
    return nolkisei_route_links(5, TABLE(mesh), 2, 4, 1, LENT(lent.counts), LENT(lent.relays), lent.links, room, LENT(lent.scratch), answer);
}

static void with_links(void) {
    is("P6", mesh_links(5), 0);
    is("P6 written", answer[0], 6);
    list("P6 counts", lent.counts, (const uint16_t[]){3, 3}, 2);
    list("P6 routes", lent.relays, (const uint16_t[]){4, 2, 1, 4, 3, 1}, 6);
    list("P6 links", lent.links, (const uint16_t[]){5, 2, 6, 3, 0}, 5);
    is("P6, too few links", mesh_links(4), NOLKISEI_ROOM);
    is("P2", nolkisei_route_links(4, TABLE(square), 2, 3, 2, LENT(lent.counts), LENT(lent.relays), LENT(lent.links), LENT(lent.scratch), answer), 0);
    list("P2 links", lent.links, (const uint16_t[]){3, 0, 1, 2}, 4);
    is("P3", nolkisei_route_links(4, TABLE(square), 2, 0, 2, LENT(lent.counts), LENT(lent.relays), LENT(lent.links), LENT(lent.scratch), answer),
       NOLKISEI_NOT_ONE_TREE);
    is("P4", nolkisei_route_links(4, TABLE(full), 3, 3, 2, LENT(lent.counts), LENT(lent.relays), LENT(lent.links), LENT(lent.scratch), answer), 0);
    list("P4 links", lent.links, (const uint16_t[]){3, 1, 4, 2, 5}, 5);
    is("P7", nolkisei_route_links(5, TABLE(mesh), 2, 1, 4, LENT(lent.counts), LENT(lent.relays), LENT(lent.links), LENT(lent.scratch), answer), 0);
    list("P7 links", lent.links, (const uint16_t[]){2, 5, 3, 6}, 4);
    is("P8", nolkisei_route_links(5, TABLE(mesh), 1, 4, 1, LENT(lent.counts), LENT(lent.relays), LENT(lent.links), LENT(lent.scratch), answer), 0);
    list("P8 links", lent.links, (const uint16_t[]){5, 2}, 2);
}

static void others(void) {
    is("n 0", nolkisei_check(0, EMPTY(0), answer), 3);
    is("n 1,001", nolkisei_check(1001, EMPTY(1001), answer), 3);
    is("n 1,000", nolkisei_check(1000, EMPTY(1000), answer), 0);
    is("m 3,001", nolkisei_check(1000, none, 3001, none, 3001, ones, 1000, answer), 4);
    is("k 0", nolkisei_cut(1, EMPTY(1), 0, LENT(lent.marks), answer), 9);
    is("k 33", nolkisei_cut(1, EMPTY(1), 33, LENT(lent.marks), answer), 9);
    is("7 7", read_text("(net (relays 4) (links 1))\n(link 7 7)\n(end)\n"), 5);
    is("2 2", read_text("(net (relays 4) (links 1))\n(link 2 2)\n(end)\n"), 6);
    is("04", read_text("(net (relays 04"), 2);
    is("04 at", answer[0], 14);
    is("no text", read_text(""), 2);
    is("no text at", answer[0], 0);
}

/* The last two relays of the mesh's order, 4 and 3: 4 has two lent.links, so there are two routes both ways, and not three. */
static void last_two(void) {
    is("last two", nolkisei_order(5, TABLE(mesh), LENT(lent.relays), LENT(lent.places), answer), 0);
    list("last two, order", lent.relays + 3, (const uint16_t[]){3, 4}, 2);
    is("last two", nolkisei_route(5, TABLE(mesh), 2, 4, 3, LENT(lent.counts), LENT(lent.relays), LENT(lent.scratch), answer), 0);
    list("last two, routes", lent.relays, (const uint16_t[]){4, 2, 3, 4, 3}, 5);
    is("last two back", nolkisei_route(5, TABLE(mesh), 2, 3, 4, LENT(lent.counts), LENT(lent.relays), LENT(lent.scratch), answer), 0);
    list("last two back, routes", lent.relays, (const uint16_t[]){3, 2, 4, 3, 4}, 5);
    is("three", nolkisei_route(5, TABLE(mesh), 3, 3, 4, LENT(lent.counts), LENT(lent.relays), LENT(lent.scratch), answer), NOLKISEI_NOT_ONE_TREE);
}

int main(void) {
    all_in_service();
    marked();
    with_links();
    others();
    last_two();
    return finish("document 01's examples");
}
