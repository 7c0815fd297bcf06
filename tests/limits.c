/* Every number of the header against the library: each refusal is provoked and compared with its name, and each limit is tested at its
 * own value and one past it. NOLKISEI_STACK is measured by stack.c; what no call can tell, tests/header compares. */
#include "examples.h"

/* So many zeros as links: of a table they are refused only behind the counts. */
static uint32_t check(uint16_t n, size_t lows, size_t highs, size_t states) {
    return nolkisei_check(n, none, lows, none, highs, ones, states, answer);
}

static uint32_t read_text(const char *text, size_t room) {
    return nolkisei_read((const uint8_t *)text, strlen(text), lent.lows, room, LENT(lent.highs), LENT(lent.states), answer);
}

static uint32_t verify(const char *sheet) {
    return nolkisei_verify(5, TABLE(mesh), (const uint8_t *)sheet, strlen(sheet), answer);
}

/* k routes between two relays of the mesh. */
static uint32_t route(uint16_t k, uint16_t from, uint16_t to) {
    return nolkisei_route(5, TABLE(mesh), k, from, to, LENT(lent.counts), LENT(lent.relays), LENT(lent.scratch), answer);
}

static void texts_refused(void) {
    const char *one = "(net (relays 2) (links 1))\n(link 0 1)\n(end)\n", *wish = "(wish 0 1 1)\n";
    uint8_t output[64];
    char due[64];
    int length = sprintf(due, "(refused %d 2)\n", NOLKISEI_WISH);
    is("done", read_text(one, NOLKISEI_LINKS), NOLKISEI_DONE);
    is("no want", nolkisei_plan((const uint8_t *)wish, strlen(wish), LENT(output), answer), NOLKISEI_DONE);
    is("no want, printed", answer[0], (uint64_t)length);
    is("no want, its number", (uint64_t)memcmp(output, due, (size_t)length), 0);
    is("no text", read_text("", NOLKISEI_LINKS), NOLKISEI_FORM);
    is("no room for a link", read_text(one, 0), NOLKISEI_TABLE_ROOM);
    is("no sheet", verify(""), NOLKISEI_SHEET_FORM);
    is("a sheet of 33", verify("(sheet (from 4) (to 1) (k 33))\n(kept 4)\n(end)\n"), NOLKISEI_SHEET_COUNT);
    is("no drawing", nolkisei_import((const uint8_t *)"", 0, LENT(lent.lows), LENT(lent.highs), LENT(lent.states), answer),
       NOLKISEI_DRAWING_FORM);
}

/* A report of relay 4 beside another text. */
static uint32_t stands(const char *other) {
    const char *one = "(report 4 0 (sees 2))\n";
    return nolkisei_stands((const uint8_t *)one, strlen(one), (const uint8_t *)other, strlen(other), answer);
}

static void reports_refused(void) {
    is("no report", stands(""), NOLKISEI_REPORT_FORM);
    is("the highest serial", stands("(report 4 4294967295 (sees))\n"), NOLKISEI_DONE);
    is("a serial more", stands("(report 4 4294967296 (sees))\n"), NOLKISEI_REPORT_FORM);
    is("the highest relay", stands("(report 999 0 (sees))\n"), NOLKISEI_REPORT_RELAYS);
    is("a relay more", stands("(report 1000 0 (sees))\n"), NOLKISEI_REPORT_FORM);
    is("the last serial ahead", stands("(report 4 2147483647 (sees))\n"), NOLKISEI_DONE);
    is("half of the range", stands("(report 4 2147483648 (sees))\n"), NOLKISEI_REPORT_SERIALS);
}

static void tables_refused(void) {
    const uint16_t twice_lows[] = {0, 0}, twice_highs[] = {1, 1}, without_4[] = {1, 1, 1, 1, 0};
    is("no relay", check(0, 0, 0, 0), NOLKISEI_RELAY_COUNT);
    is("unequal lists", check(2, 1, 0, 2), NOLKISEI_LINK_COUNT);
    is("a pair with 1,000", nolkisei_pair(0, NOLKISEI_RELAYS, answer), NOLKISEI_RELAY_RANGE);
    is("a pair of equals", nolkisei_pair(1, 1, answer), NOLKISEI_NOT_BELOW);
    is("a link twice", nolkisei_check(2, LENT(twice_lows), LENT(twice_highs), ones, 2, answer), NOLKISEI_REPEATED);
    is("a state too few", check(2, 0, 0, 1), NOLKISEI_STATES);
    is("no end", route(1, 4, 5), NOLKISEI_END_RANGE);
    is("equal ends", route(1, 4, 4), NOLKISEI_SAME_ENDS);
    is("not one tree", route(3, 4, 1), NOLKISEI_NOT_ONE_TREE);
    is("withdrawn", nolkisei_route(5, LINKS(mesh), LENT(without_4), 1, 4, 1, LENT(lent.counts), LENT(lent.relays), LENT(lent.scratch), answer),
       NOLKISEI_WITHDRAWN);
}

/* The longest lists that Route asks for: between two of NOLKISEI_RELAYS relays with no link, NOLKISEI_ROUTES routes. */
static uint32_t widest(size_t relays, size_t links, size_t scratch) {
    return nolkisei_route_links(NOLKISEI_RELAYS, EMPTY(NOLKISEI_RELAYS), NOLKISEI_ROUTES, 0, 1, LENT(lent.counts), lent.relays, relays,
                                lent.links, links, lent.scratch, scratch, answer);
}

static void limits(void) {
    is("the most relays", check(NOLKISEI_RELAYS, 0, 0, NOLKISEI_RELAYS), NOLKISEI_DONE);
    is("a relay more", check(NOLKISEI_RELAYS + 1, 0, 0, NOLKISEI_RELAYS + 1), NOLKISEI_RELAY_COUNT);
    is("the most links", check(1, NOLKISEI_LINKS, NOLKISEI_LINKS, 1), NOLKISEI_NOT_BELOW);
    is("a link more", check(1, NOLKISEI_LINKS + 1, NOLKISEI_LINKS + 1, 1), NOLKISEI_LINK_COUNT);
    is("the most routes", nolkisei_cut(1, EMPTY(1), NOLKISEI_ROUTES, LENT(lent.marks), answer), NOLKISEI_DONE);
    is("a route more", nolkisei_cut(1, EMPTY(1), NOLKISEI_ROUTES + 1, LENT(lent.marks), answer), NOLKISEI_ROUTE_COUNT);
    size_t relays = NOLKISEI_ROUTE_RELAYS, links = NOLKISEI_ROUTE_LINKS, scratch = NOLKISEI_ROUTE_SCRATCH;
    is("the widest", widest(relays, links, scratch), NOLKISEI_NOT_ONE_TREE);
    is("a relay too few", widest(relays - 1, links, scratch), NOLKISEI_ROOM);
    is("a link too few", widest(relays, links - 1, scratch), NOLKISEI_ROOM);
    is("an entry too few", widest(relays, links, scratch - 1), NOLKISEI_ROOM);
}

/* The longest text: as many links as there can be, whose numbers have three digits, and all relays withdrawn. */
static void longest_text(void) {
    static uint8_t text[NOLKISEI_TEXT + 1];
    size_t m = 0;
    for (uint16_t b = NOLKISEI_RELAYS - 1; m < NOLKISEI_LINKS; b--) {
        for (uint16_t a = 100; a < b && m < NOLKISEI_LINKS; a++, m++) {
            lent.lows[m] = a, lent.highs[m] = b;
        }
    }
    memset(lent.states, 0, sizeof lent.states);
#define LONGEST NOLKISEI_RELAYS, LENT(lent.lows), LENT(lent.highs), LENT(lent.states)
    is("the longest text", nolkisei_write(LONGEST, LENT(text), answer), NOLKISEI_DONE);
    is("its length", answer[0], NOLKISEI_TEXT);
    is("a byte too short", nolkisei_write(LONGEST, text, NOLKISEI_TEXT - 1, answer), NOLKISEI_ROOM);
    is("read back", nolkisei_read(text, NOLKISEI_TEXT, LENT(lent.lows), LENT(lent.highs), LENT(lent.states), answer), NOLKISEI_DONE);
    is("its relays", answer[0], NOLKISEI_RELAYS);
    is("its links", answer[1], NOLKISEI_LINKS);
}

int main(void) {
    all_in_service();
    texts_refused();
    reports_refused();
    tables_refused();
    limits();
    longest_text();
    return finish("numbers and limits");
}
