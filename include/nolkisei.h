/* Nolkisei for C on x86-64 Linux: checks, reads and writes a network of relays, imports drawings of one and makes one of the relays' own
 * link reports, numbers pairs, orders the relays, splits the links into forests and cuts them down to those worth keeping, finds routes
 * that share only their ends and the links that they run over, prints sheets of such routes and lists of such links, and says whether a
 * sheet holds.
 * Link libnolkisei.a (rt lib, in crates/nolkisei). Of libc it needs memcpy and memset alone; it allocates nothing and keeps nothing between
 * calls.
 *
 * A network has n relays, numbered from 0, and m links, each between two different relays and no two between the same. A table
 * is two lists, lows and highs: link i joins relay lows[i] to relay highs[i], lows[i] below highs[i]. i, counted from 0, is the
 * link's index. A list of n states goes with it: states[r] is 1 where relay r is in service, and 0 where it is withdrawn. A withdrawn
 * relay keeps its number, and its links stay in the table, but no route runs over it: it has no place in the order, and its links are
 * in no forest and are not kept. Any relays may be withdrawn, even all.
 *
 * The relays in service have an order, by the links that have both ends in service. The relay with the most of these is first; next
 * comes always the relay not yet placed that has the most to placed ones; of equals each time the one with the lowest number. A
 * relay's place, counted from 1, is where it stands in the order. A relay's link to the i-th of its neighbours with a lower place, in
 * rising place, belongs to forest i; so each link with both ends in service is in one forest, and the links of a forest close no ring.
 * Two relays are in one tree of a forest if its links lead from one to the other.
 *
 * Cutting down to k keeps the links of forests 1 to k. Live relays are those in service that were not found dead. As long as fewer than
 * k relays in service are dead, two live relays are joined through live relays over the kept links exactly if they are over all links
 * with both ends in service. Between two relays in one tree of forest k there are k routes over kept links that share only their ends;
 * where two are not in one tree of forest k there may be k routes all the same, but none are given.
 * Let d be the number of links that the last relay of the order has to relays in service. Where d is 1 to 32, the last two relays of the
 * order are in one tree of forest d, so nolkisei_route with k = d gives d routes between them, in either direction. No list of routes
 * between them, through relays in service, sharing no link and no relay but the ends, has more than d.
 *
 * Every text here, that of a network, a drawing, a report, a sheet, a list and of a line that asks, has each line ended by byte 10,
 * single spaces, and numbers of one to four digits with no zero in front but in 0 itself; only the serial of a report has up to ten, and
 * PLACE in a refused line as many as it takes. Nothing else stands there, but in a drawing's comments: no byte 13, no space at a line's end, no empty line. A network's text:
 *
 *    (net (relays N) (links M))
 *    (link A B)                     M such lines, A below B
 *    (out R)                        one for each withdrawn relay, in rising order; all others are in service
 *    (end)                          and nothing after it
 *
 * What a caller owes:
 *   - every list goes with its length after it, in entries: as many can be read there, and written where the list is not const;
 *     of `answer` 2 can be written;
 *   - a pointer is not null and is aligned for its type, even where the length is 0;
 *   - a list that is not const overlaps no other list of the call, and nobody else reads or writes it while the call runs;
 *   - nobody writes to a const list while the call runs; others may read it, and const lists of a call may overlap;
 *   - there are NOLKISEI_STACK bytes of stack.
 * Calls may run in several threads at once, as long as each of them is owed this. Any numbers and any lengths are accepted and answered
 * as follows. */

#ifndef NOLKISEI_H
#define NOLKISEI_H

#include <stddef.h>
#include <stdint.h>

#ifdef __cplusplus
extern "C" {
#endif

/* The limits: n is 1 to NOLKISEI_RELAYS, m is 0 to NOLKISEI_LINKS, k is 1 to NOLKISEI_ROUTES. */
#define NOLKISEI_RELAYS 1000
#define NOLKISEI_LINKS 3000
#define NOLKISEI_ROUTES 32

/* Lengths that are enough for every network: of a text, of what nolkisei_plan and nolkisei_keep print, all in bytes, and of the
 * relays, the links and the scratch of nolkisei_route and nolkisei_route_links, in entries.
 * The longest text has just NOLKISEI_TEXT bytes. What is proved of a sheet and of a list is that they fit into NOLKISEI_SHEET and
 * NOLKISEI_LIST; counted, a sheet has at most 9,821 bytes and a list at most 58,955. */
#define NOLKISEI_TEXT 54929
#define NOLKISEI_SHEET 9935
#define NOLKISEI_LIST 66067
#define NOLKISEI_ROUTE_RELAYS 1062
#define NOLKISEI_ROUTE_LINKS 1030
#define NOLKISEI_ROUTE_SCRATCH 32000

/* Enough stack for any call, beside what the caller uses. Measured, not proved: tests/stack.c fills a thread's stack with one byte,
 * calls each function on the largest networks and counts the bytes that changed: nolkisei_plan needs some 202,000, nolkisei_keep
 * 175,000, nolkisei_route and nolkisei_route_links 103,000, and every other function less than that. */
#define NOLKISEI_STACK 262144

/* What a function returns: 0 when it is done, or the number of its refusal. It writes both entries of `answer`: after a refusal its
 * place in the input (the byte offset for 2, 14 and 18, the link's index for 5 to 7, but 0 for a pair and for reports, else 0) and 0; done, the values named
 * with the function, and 0 for what is not named.
 * 'Unchanged' below means every entry of the list. After any other refusal than those named a list is unchanged. */
enum nolkisei_refusal {
    NOLKISEI_DONE = 0,
    NOLKISEI_WISH = 1,         /* the line that asks departs from its form: printed alone, by nolkisei_plan and nolkisei_keep */
    NOLKISEI_FORM = 2,         /* the text departs from its form: at its first byte that does, or at its length */
    NOLKISEI_RELAY_COUNT = 3,  /* n is not 1 to 1,000 */
    NOLKISEI_LINK_COUNT = 4,   /* the lists of a table have unequal lengths, or m is over 3,000; of nolkisei_read and nolkisei_import, whose
                                  lists may be unequal, only that the M of the text is over 3,000; of nolkisei_reports, that the reports make over 3,000 links */
    NOLKISEI_RELAY_RANGE = 5,  /* a relay number is not below n (of a pair: not below 1,000; in a drawing: not 1 to n) */
    NOLKISEI_NOT_BELOW = 6,    /* a link's low relay is not below its high relay; in a drawing, its two relays are equal */
    NOLKISEI_REPEATED = 7,     /* an earlier link has the same pair; in a drawing, in either order */
    NOLKISEI_TABLE_ROOM = 8,   /* a table list is shorter than m, or a state list shorter than n */
    NOLKISEI_ROUTE_COUNT = 9,  /* k is not 1 to 32 */
    NOLKISEI_END_RANGE = 10,   /* `from` or `to` is not below n */
    NOLKISEI_SAME_ENDS = 11,   /* `from` and `to` are equal */
    NOLKISEI_ROOM = 12,        /* a lent list is too short */
    NOLKISEI_NOT_ONE_TREE = 13, /* the two relays are not in one tree of forest k */
    NOLKISEI_SHEET_FORM = 14,  /* a sheet's text departs from its form */
    NOLKISEI_SHEET_COUNT = 15, /* a sheet's k is not 1 to 32 */
    NOLKISEI_STATES = 16,      /* the state list is not n long, or has an entry other than 0 and 1; in a text, the relay of an `out`
                                  line is not below n or not above the one before */
    NOLKISEI_WITHDRAWN = 17,   /* `from` or `to` is withdrawn */
    NOLKISEI_DRAWING_FORM = 18, /* a drawing departs from its form: at its first byte that does, or at its length */
    NOLKISEI_REPORT_FORM = 19, /* a report departs from its form, its serial is over 4,294,967,295, it names a relay over 999 or its own
                                  relay among those seen, or those seen do not rise */
    NOLKISEI_REPORT_RELAYS = 20, /* two reports are of different relays where one is to stand, or of one relay in a set */
    NOLKISEI_REPORT_SERIALS = 21 /* two reports have serials that differ by 2,147,483,648, or equal serials and different bytes */
};

/* The table check: 3, 4, then link by link 5, 6, 7, and last 16. All functions below that take a table begin with it. */
uint32_t nolkisei_check(uint16_t n, const uint16_t *lows, size_t lows_length, const uint16_t *highs, size_t highs_length,
                        const uint16_t *states, size_t states_length, uint64_t answer[2]);

/* The pair number of the link a b: 5, 6. answer: b * (b - 1) / 2 + a, which no other link has. */
uint32_t nolkisei_pair(uint16_t a, uint16_t b, uint64_t answer[2]);

/* Reads a text into a table: 2 where it is met; 3, 4, 8 after the first line; 5, 6, 7 after a link's line; 16, with place 0, after
 * the line of an `out`. answer: n and m.
 * Done, the first m entries of lows and highs are the links and the first n of states the states, and all others are 0; refused, all
 * three lists are all zeros. Each list may be longer than it need be. */
uint32_t nolkisei_read(const uint8_t *text, size_t text_length, uint16_t *lows, size_t lows_length, uint16_t *highs,
                       size_t highs_length, uint16_t *states, size_t states_length, uint64_t answer[2]);

/* Imports a drawing in the DIMACS edge format into a table, with all relays in service. A drawing's text, of any length, each line ended
 * by byte 10, single spaces, numbers as in every text:
 *
 *    c ANYTHING                     a comment: c alone, or c, a space and any or no bytes other than 10; any number of them, anywhere
 *    p edge N M                     one such line
 *    e U V                          M such lines after it, relays counted from 1, in either order
 *
 * The links come in the order of their lines, with numbers one lower, the lower one as the low relay.
 * 18 where it is met; 3, 4, 8 after the line of p; after a line of e 5 where U or V is not 1 to N, 6 where they are equal, 7 where an
 * earlier line has the two in either order. The place of 5 to 7 is the line's index among those of e, from 0. Answer and lists are as of
 * nolkisei_read. */
uint32_t nolkisei_import(const uint8_t *text, size_t text_length, uint16_t *lows, size_t lows_length, uint16_t *highs,
                         size_t highs_length, uint16_t *states, size_t states_length, uint64_t answer[2]);

/* Link reports. In a report a relay tells which others it sees. It is one line, with its line end, and nothing after it:
 *
 *    (report R S (sees A B ..))     R and those that it sees, rising, are 0 to 999; R sees any number of others, or none: (sees)
 *
 * S is its serial, 0 to 4,294,967,295, after which comes 0 again: a serial of one to ten digits, with no zero in front but in 0 itself.
 *
 * Which of two reports of a relay stands: 19 of either, then 20, then 21. answer: 0 where the first stands and 1 where the second does,
 * and the length of its text, which is the report that stands, byte for byte. The second stands where its serial minus the first's,
 * wrapped at 32 bits, is 1 to 2,147,483,647, and the first where that holds the other way; of equal texts the first. No list is lent. */
uint32_t nolkisei_stands(const uint8_t *first, size_t first_length, const uint8_t *second, size_t second_length, uint64_t answer[2]);

/* Makes a table of the reports that stand, at most one a relay, one line after another in any order; the text may have any length, and
 * may be empty. There is a link exactly where each end sees the other; the links come by low and then by high relay. A relay is in
 * service exactly if it has a report, whatever that sees; to see a relay without a report makes no link.
 * 3; then 19 over the whole text; then 20, also for two equal lines; 5 where a relay that reports or is seen is not below n; 4; 8.
 * Answer and lists are as of nolkisei_read. */
uint32_t nolkisei_reports(uint16_t n, const uint8_t *text, size_t text_length, uint16_t *lows, size_t lows_length, uint16_t *highs,
                          size_t highs_length, uint16_t *states, size_t states_length, uint64_t answer[2]);

/* Writes a table's text: the table check, then 12 where the buffer is shorter than the text.
 * answer: the text's length in bytes. Done, the text stands at the buffer's start and the rest is unchanged. */
uint32_t nolkisei_write(uint16_t n, const uint16_t *lows, size_t lows_length, const uint16_t *highs, size_t highs_length,
                        const uint16_t *states, size_t states_length, uint8_t *buffer, size_t buffer_length,
                        uint64_t answer[2]);

/* Orders the relays: the table check, then 12 where a list is shorter than n, however many are in service.
 * Done, relays[p - 1] is the relay at place p, and places[r] the place of relay r, from 1, or 0 where it is withdrawn; past as many
 * entries as relays are in service the relays are unchanged, and past n the places. */
uint32_t nolkisei_order(uint16_t n, const uint16_t *lows, size_t lows_length, const uint16_t *highs, size_t highs_length,
                        const uint16_t *states, size_t states_length, uint16_t *relays, size_t relays_length, uint16_t *places,
                        size_t places_length, uint64_t answer[2]);

/* Splits the links into forests: the table check, then 12 where the list is shorter than m.
 * answer: the highest forest used, 0 where there is none. Done, forests[i] is the forest of link i, from 1, or 0 where an end of it is
 * withdrawn; past m entries the list is unchanged. */
uint32_t nolkisei_split(uint16_t n, const uint16_t *lows, size_t lows_length, const uint16_t *highs, size_t highs_length,
                        const uint16_t *states, size_t states_length, uint16_t *forests, size_t forests_length,
                        uint64_t answer[2]);

/* Cuts down to k: the table check, then 9, then 12 where the list is shorter than m.
 * answer: how many links are kept. Done, marks[i] is 1 where link i is kept and 0 where it is dropped or an end of it is withdrawn;
 * past m entries the list is unchanged. */
uint32_t nolkisei_cut(uint16_t n, const uint16_t *lows, size_t lows_length, const uint16_t *highs, size_t highs_length,
                      const uint16_t *states, size_t states_length, uint16_t k, uint16_t *marks, size_t marks_length,
                      uint64_t answer[2]);

/* Finds k routes through relays in service that share only their ends: the table check, then 9, 10, 11, 17, 12 and 13.
 * 12: counts shorter than k, relays shorter than n - 2 + 2k, or scratch shorter than k * n.
 * answer: how many relays were written. Done, counts[i] is how many relays route i + 1 has, and relays holds the routes one
 * after another, each from `from` to `to`; what stands past k counts and past the relays written is unchanged.
 * After success and after 13 scratch is all zeros, over its whole length. */
uint32_t nolkisei_route(uint16_t n, const uint16_t *lows, size_t lows_length, const uint16_t *highs, size_t highs_length,
                        const uint16_t *states, size_t states_length, uint16_t k, uint16_t from, uint16_t to, uint16_t *counts,
                        size_t counts_length, uint16_t *relays, size_t relays_length, uint16_t *scratch, size_t scratch_length,
                        uint64_t answer[2]);

/* Finds the same k routes and the links that they run over: refusals, answer and the other lists are those of nolkisei_route, and
 * 12 is also given where links is shorter than n - 2 + k.
 * Done, links holds the indices of the links of route 1 in turn, then of route 2, and so on, each one fewer than the route has
 * relays; what stands past them is unchanged. */
uint32_t nolkisei_route_links(uint16_t n, const uint16_t *lows, size_t lows_length, const uint16_t *highs, size_t highs_length,
                              const uint16_t *states, size_t states_length, uint16_t k, uint16_t from, uint16_t to,
                              uint16_t *counts, size_t counts_length, uint16_t *relays, size_t relays_length, uint16_t *links,
                              size_t links_length, uint16_t *scratch, size_t scratch_length, uint64_t answer[2]);

/* Reads a sheet back with its network: the table check, then 14 over the whole text, then 15. answer: 1 where the sheet holds, 0 where
 * it does not. No list is lent. A sheet's text, whoever made it, may have any length, and any number of routes, each with its two
 * lines, one with two relays or more and one with one index or more; line ends, spaces and numbers are as in every text:
 *
 *    (sheet (from FROM) (to TO) (k K))
 *    (route RELAY RELAY ..)
 *    (over INDEX ..)
 *    (kept COUNT)
 *    (end)                          and nothing after it
 *
 * It holds exactly if there are K routes, each from FROM to TO along links of the network and with no relay twice, all relays on them
 * are in service, its indices are those of its links in turn, no two routes share a link or a relay but the ends, and COUNT is what a
 * cut down to K keeps. A relay or an index that the network does not have makes it 0, and so does FROM equal to TO. */
uint32_t nolkisei_verify(uint16_t n, const uint16_t *lows, size_t lows_length, const uint16_t *highs, size_t highs_length,
                         const uint16_t *states, size_t states_length, const uint8_t *text, size_t text_length,
                         uint64_t answer[2]);

/* The two programs. Their input is a line that asks, with line end, spaces and numbers as in every text, and right after it a
 * network's text; what they print goes to the output. The return value is 0 with the number of bytes printed as answer, which stand at
 * the output's start, and the rest of it is unchanged; or 12 where the output is shorter than what is to be printed, and then it is
 * unchanged. For an input that is refused they print one line, and that is a success too:
 *
 *    (refused NUMBER PLACE)
 *
 * with the first refusal met: 1 where the line that asks departs from its form, at the byte; then 2, at the byte counted from the
 * first one after that line, 3, 4, 5, 6, 7, 16; then 9; and of nolkisei_plan then 10, 11, 17, 13. */

/* The planner: routes between two relays. The line is (want FROM TO K), and this is printed, with K lines `route`, each with the
 * relays of a route in turn, after each of them a line `over` with the indices of its links in turn, one fewer than its relays,
 * and the number of links that a cut down to K keeps:
 *
 *    (sheet (from FROM) (to TO) (k K))
 *    (route FROM .. TO)
 *    (over INDEX ..)
 *    (kept COUNT)
 *    (end) */
uint32_t nolkisei_plan(const uint8_t *input, size_t input_length, uint8_t *output, size_t output_length, uint64_t answer[2]);

/* The keeper: the links that a cut down to K keeps. The line is (keep K), and this is printed, with a line `keep` or `drop` for
 * each link, or `idle` where an end of it is withdrawn, with its index and its two relays, in the order of the text, and the numbers
 * of the three:
 *
 *    (lease (k K))
 *    (keep INDEX A B)
 *    (drop INDEX A B)
 *    (idle INDEX A B)
 *    (kept COUNT)
 *    (dropped COUNT)
 *    (withdrawn COUNT)
 *    (end) */
uint32_t nolkisei_keep(const uint8_t *input, size_t input_length, uint8_t *output, size_t output_length, uint64_t answer[2]);

#ifdef __cplusplus
}
#endif

#endif
