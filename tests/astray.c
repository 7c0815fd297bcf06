/* The networks on which planners have gone astray (`definitions/Astray`), and others whose order does not start at relay 0, through
 * the C header. Each list is lent with nines, of which those past what is written are to stay. */
#include "nolkisei.h"
#include <stdio.h>

#define LENT(name) name, sizeof name / sizeof name[0]
#define ROOM 12

static int failed = 0;
static uint64_t answer[2];
static const uint16_t ones[] = {1, 1, 1, 1, 1, 1, 1};

typedef struct {
    const char *name;
    uint16_t n;
    size_t m;
    uint16_t lows[ROOM], highs[ROOM];
} network;

static const network crossing = {"crossing", 6, 10, {4, 2, 1, 3, 0, 0, 0, 2, 1, 0}, {5, 4, 3, 5, 2, 4, 3, 3, 4, 5}};
static const network six = {"six relays", 6, 8, {0, 0, 1, 0, 1, 0, 1, 2}, {1, 2, 2, 3, 3, 4, 5, 5}};
static const network renumbered = {"renumbered", 4, 4, {0, 0, 1, 1}, {1, 2, 2, 3}};
static const network busiest = {"two busiest", 7, 6, {0, 3, 3, 4, 4, 5}, {1, 4, 5, 5, 6, 6}};
static const network parts = {"two parts", 5, 2, {3, 0}, {4, 2}};

#define TABLE(net) (net)->n, (net)->lows, (net)->m, (net)->highs, (net)->m, ones, (net)->n

static void is(const char *name, const char *what, uint64_t found, uint64_t due) {
    if (found != due) {
        failed++;
        printf("%s, %s: %llu, due %llu\n", name, what, (unsigned long long)found, (unsigned long long)due);
    }
}

/* A list of ROOM entries: those due, and nines behind them. */
static void list(const char *name, const char *what, const uint16_t *found, const uint16_t *due, size_t length) {
    for (size_t i = 0; i < ROOM; i++) {
        is(name, what, found[i], i < length ? due[i] : 9);
    }
}

static void nines(uint16_t *list) {
    for (size_t i = 0; i < ROOM; i++) {
        list[i] = 9;
    }
}

static void order(const network *net, const uint16_t *relays_due, const uint16_t *forests_due) {
    uint16_t relays[ROOM], places[ROOM], forests[ROOM], marks[ROOM];
    nines(relays), nines(places), nines(forests), nines(marks);
    is(net->name, "order", nolkisei_order(TABLE(net), LENT(relays), LENT(places), answer), NOLKISEI_DONE);
    list(net->name, "order", relays, relays_due, net->n);
    for (size_t place = 1; place <= net->n; place++) {
        is(net->name, "places", places[relays_due[place - 1]], place);
    }
    is(net->name, "split", nolkisei_split(TABLE(net), LENT(forests), answer), NOLKISEI_DONE);
    list(net->name, "forests", forests, forests_due, net->m);
    is(net->name, "cut", nolkisei_cut(TABLE(net), 1, LENT(marks), answer), NOLKISEI_DONE);
    for (size_t link = 0; link < ROOM; link++) {
        is(net->name, "marks", marks[link], link < net->m ? forests_due[link] == 1 : 9);
    }
}

/* Two routes, which have so many relays. */
static void route(const network *net, uint16_t from, uint16_t to, const uint16_t counts_due[2], const uint16_t *due) {
    uint16_t counts[ROOM], relays[ROOM], scratch[ROOM];
    size_t written = (size_t)counts_due[0] + counts_due[1];
    nines(counts), nines(relays), nines(scratch);
    is(net->name, "route", nolkisei_route(TABLE(net), 2, from, to, LENT(counts), LENT(relays), LENT(scratch), answer), NOLKISEI_DONE);
    is(net->name, "written", answer[0], written);
    list(net->name, "counts", counts, counts_due, 2);
    list(net->name, "routes", relays, due, written);
    for (size_t i = 0; i < ROOM; i++) {
        is(net->name, "scratch", scratch[i], 0);
    }
}

int main(void) {
    route(&crossing, 5, 1, (const uint16_t[]){4, 3}, (const uint16_t[]){5, 0, 4, 1, 5, 3, 1});
    route(&six, 5, 3, (const uint16_t[]){4, 3}, (const uint16_t[]){5, 2, 0, 3, 5, 1, 3});
    route(&renumbered, 0, 2, (const uint16_t[]){3, 2}, (const uint16_t[]){0, 1, 2, 0, 2});
    order(&renumbered, (const uint16_t[]){1, 0, 2, 3}, (const uint16_t[]){1, 2, 1, 1});
    order(&busiest, (const uint16_t[]){4, 3, 5, 6, 0, 1, 2}, (const uint16_t[]){1, 1, 2, 1, 1, 2});
    order(&parts, (const uint16_t[]){0, 2, 1, 3, 4}, (const uint16_t[]){1, 1});
    printf("where planners have gone astray: %s\n", failed ? "some differ" : "as due");
    return failed != 0;
}
