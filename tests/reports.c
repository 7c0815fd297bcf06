/* Link reports (#108): which of two stands, each refusal, and sets with their networks. */
#include "examples.h"

static uint32_t stands(const char *first, const char *second) {
    return nolkisei_stands((const uint8_t *)first, strlen(first), (const uint8_t *)second, strlen(second), answer);
}

/* Of two texts the second stands, and so it does as the first of the two turned round. */
static void later(const char *first, const char *second) {
    is(second, stands(first, second), NOLKISEI_DONE);
    is(second, answer[0], 1);
    is(second, answer[1], strlen(second));
    is(second, stands(second, first), NOLKISEI_DONE);
    is(second, answer[0], 0);
    is(second, answer[1], strlen(second));
}

/* Neither stands, whichever comes first. */
static void neither(const char *one, const char *other, uint64_t number) {
    is(other, stands(one, other), number);
    is(other, answer[0] | answer[1], 0);
    is(other, stands(other, one), number);
    is(other, answer[0] | answer[1], 0);
}

/* A text that is no report. */
static void out(const char *text) {
    neither("(report 4 0 (sees 2))\n", text, NOLKISEI_REPORT_FORM);
    neither("(report 5 0 (sees 2))\n", text, NOLKISEI_REPORT_FORM);
    neither(text, text, NOLKISEI_REPORT_FORM);
}

static void serials(void) {
    later("(report 4 7 (sees))\n", "(report 4 8 (sees 2 3))\n");
    later("(report 4 4294967295 (sees 2 3))\n", "(report 4 0 (sees))\n");
    later("(report 4 4294967295 (sees 2 3))\n", "(report 4 3 (sees))\n");
    later("(report 4 0 (sees 2))\n", "(report 4 2147483647 (sees))\n");
    neither("(report 4 0 (sees 2))\n", "(report 4 2147483648 (sees))\n", NOLKISEI_REPORT_SERIALS);
    later("(report 4 2147483649 (sees))\n", "(report 4 0 (sees 2))\n");
    neither("(report 4 2147483649 (sees))\n", "(report 4 1 (sees))\n", NOLKISEI_REPORT_SERIALS);
    later("(report 4 4294967290 (sees))\n", "(report 4 4294967295 (sees 0 999))\n");
    neither("(report 4 9 (sees 2))\n", "(report 4 9 (sees 3))\n", NOLKISEI_REPORT_SERIALS);
    is("equal bytes", stands("(report 4 9 (sees 2))\n", "(report 4 9 (sees 2))\n"), NOLKISEI_DONE);
    is("equal bytes, the first", answer[0], 0);
    is("equal bytes, its length", answer[1], 22);
    neither("(report 4 9 (sees 2))\n", "(report 5 9 (sees 2))\n", NOLKISEI_REPORT_RELAYS);
    neither("(report 4 9 (sees 2))\n", "(report 5 2147483657 (sees 2))\n", NOLKISEI_REPORT_RELAYS);
}

static void forms(void) {
    out("");
    out("(report 4 1 (sees))");
    out("(report 4 1 (sees))\n(report 4 1 (sees))\n");
    out("(report 4 1 (sees))\n\n");
    out("(report 4 1 (sees ))\n");
    out("(report 4 1 (seen))\n");
    out("(report 4 4294967296 (sees))\n");
    out("(report 4 9999999999 (sees))\n");
    out("(report 4 10000000000 (sees))\n");
    out("(report 4 00 (sees))\n");
    out("(report 4 01 (sees))\n");
    out("(report 1000 1 (sees))\n");
    out("(report 4 1 (sees 3 1000))\n");
    out("(report 4 1 (sees 3 4))\n");
    out("(report 4 1 (sees 3 2))\n");
    out("(report 4 1 (sees 3 3))\n");
}

/* A set through the library, into lists of so many links and states with something in them before. */
static uint64_t set(uint16_t n, const char *text, size_t links, size_t states) {
    for (size_t i = 0; i < 9; i++) {
        lent.lows[i] = lent.highs[i] = lent.states[i] = 7;
    }
    return nolkisei_reports(n, (const uint8_t *)text, strlen(text), lent.lows, links, lent.highs, links, lent.states, states, answer);
}

/* A set that is refused with this number, at 0, and leaves zeros. */
static void refused(uint16_t n, const char *text, uint64_t number) {
    static const uint16_t zeros[9];
    is(text, set(n, text, 3, 5), number);
    is(text, answer[0] | answer[1], 0);
    list(text, lent.lows, zeros, 3);
    list(text, lent.highs, zeros, 3);
    list(text, lent.states, zeros, 5);
    is(text, lent.lows[3] & lent.highs[3] & lent.states[5], 7);
}

#define FOUR "(report 4 1 (sees 2))\n"
#define STAR "(report 0 0 (sees 1 2 3 4))\n(report 1 0 (sees 0))\n(report 2 0 (sees 0))\n(report 3 0 (sees 0))\n(report 4 0 (sees 0))\n"

static void sets(void) {
    const char *five = "(report 4 1 (sees 2 3))\n(report 2 7 (sees 0 1 3 4))\n(report 3 0 (sees 1 2))\n(report 0 0 (sees 2))\n";
    is("a set", set(5, five, 5, 7), NOLKISEI_DONE);
    is("a set, n", answer[0], 5);
    is("a set, m", answer[1], 3);
    list("a set, lows", lent.lows, (const uint16_t[]){0, 2, 2, 0, 0, 7}, 6);
    list("a set, highs", lent.highs, (const uint16_t[]){2, 3, 4, 0, 0, 7}, 6);
    list("a set, states", lent.states, (const uint16_t[]){1, 0, 1, 1, 1, 0, 0, 7}, 8);
    is("a set, exact", set(5, five, 3, 5), NOLKISEI_DONE);
    is("a set, 2 links", set(5, five, 2, 5), NOLKISEI_TABLE_ROOM);
    is("a set, 4 states", set(5, five, 3, 4), NOLKISEI_TABLE_ROOM);
    is("seen from one end", set(3, "(report 2 0 (sees 0))\n(report 0 0 (sees 1))\n", 1, 3), NOLKISEI_DONE);
    is("seen from one end, m", answer[1], 0);
    list("seen from one end, states", lent.states, (const uint16_t[]){1, 0, 1}, 3);
    is("another seen back", set(4, "(report 3 0 (sees 1))\n(report 0 0 (sees 3))\n", 1, 4), NOLKISEI_DONE);
    is("another seen back, m", answer[1], 0);
    is("none seen", set(2, "(report 1 0 (sees))\n", 0, 2), NOLKISEI_DONE);
    list("none seen, states", lent.states, (const uint16_t[]){0, 1}, 2);
    is("a square", set(4, "(report 2 0 (sees 1 3))\n(report 3 0 (sees 0 2))\n(report 0 0 (sees 1 3))\n(report 1 0 (sees 0 2))\n", 4, 4), NOLKISEI_DONE);
    list("a square, lows", lent.lows, (const uint16_t[]){0, 0, 1, 2}, 4);
    list("a square, highs", lent.highs, (const uint16_t[]){1, 3, 2, 3}, 4);
    is("no report", set(2, "", 0, 2), NOLKISEI_DONE);
    is("no report, n", answer[0], 2);
    is("no report, m", answer[1], 0);
    list("no report, states", lent.states, (const uint16_t[]){0, 0, 7}, 3);
    refused(0, "(report", NOLKISEI_RELAY_COUNT);
    refused(1001, "(report", NOLKISEI_RELAY_COUNT);
    refused(5, FOUR FOUR "(report 900 0 (sees))\n(report 3 0 (sees)\n", NOLKISEI_REPORT_FORM);
    refused(5, FOUR FOUR "(report 900 0 (sees))\n", NOLKISEI_REPORT_RELAYS);
    refused(5, FOUR "(report 3 0 (sees))\n(report 4 2 (sees))\n", NOLKISEI_REPORT_RELAYS);
    refused(5, "(report 4 1 (sees 5))\n", NOLKISEI_RELAY_RANGE);
    refused(5, "(report 4 1 (sees 999))\n", NOLKISEI_RELAY_RANGE);
    refused(5, "(report 5 1 (sees))\n", NOLKISEI_RELAY_RANGE);
    refused(5, STAR, NOLKISEI_TABLE_ROOM);
    refused(6, "(report 0 0 (sees))\n", NOLKISEI_TABLE_ROOM);
}

/* So many relays that all see each other but the last two: their links, and no room for any. */
static uint32_t crowd(unsigned relays, size_t room) {
    static char text[40000];
    char *end = text;
    for (unsigned relay = 0; relay < relays; relay++) {
        end += sprintf(end, "(report %u 0 (sees", relay);
        for (unsigned other = 0; other < relays; other++) {
            int last_two = other + relay == 2 * relays - 3;
            end += other == relay || last_two ? 0 : sprintf(end, " %u", other);
        }
        end += sprintf(end, "))\n");
    }
    return nolkisei_reports(NOLKISEI_RELAYS, (const uint8_t *)text, (size_t)(end - text), lent.lows, room, LENT(lent.highs), LENT(lent.states),
                            answer);
}

static void crowds(void) {
    is("77 relays", crowd(77, NOLKISEI_LINKS), NOLKISEI_DONE);
    is("77 relays, m", answer[1], 2925);
    is("the last link", lent.lows[2924] * 1000u + lent.highs[2924], 74076);
    is("no link behind it", lent.lows[2925] | lent.highs[2925], 0);
    is("77 relays, too little room", crowd(77, 2924), NOLKISEI_TABLE_ROOM);
    is("78 relays", crowd(78, NOLKISEI_LINKS), NOLKISEI_LINK_COUNT);
    is("78 relays, no room", crowd(78, 0), NOLKISEI_LINK_COUNT);
    is("no link is left", lent.highs[0] | lent.states[0], 0);
}

int main(void) {
    serials();
    forms();
    sets();
    crowds();
    return finish("link reports");
}
