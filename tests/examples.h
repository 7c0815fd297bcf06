/* For the C programs beside it: comparing what is found with what is due, the networks of document 01, and lists to lend. */
#include "nolkisei.h"
#include <stdio.h>
#include <string.h>

static int failed = 0;

static inline void is(const char *what, uint64_t found, uint64_t due) {
    if (found != due) {
        failed++;
        printf("%s: %llu, due %llu\n", what, (unsigned long long)found, (unsigned long long)due);
    }
}

static inline void list(const char *what, const uint16_t *found, const uint16_t *due, size_t length) {
    for (size_t i = 0; i < length; i++) {
        is(what, found[i], due[i]);
    }
}

/* Says how it went, for the exit status of main. */
static inline int finish(const char *what) {
    printf("%s through the C header: %s\n", what, failed ? "some differ" : "as printed");
    return failed != 0;
}

#define LENT(name) name, sizeof name / sizeof name[0]
#define LINKS(net) LENT(net##_lows), LENT(net##_highs)
#define TABLE(net) LINKS(net), LENT(net##_states)

static const uint16_t square_lows[] = {0, 1, 2, 0}, square_highs[] = {1, 2, 3, 3};
static const uint16_t full_lows[] = {0, 0, 1, 0, 1, 2}, full_highs[] = {1, 2, 2, 3, 3, 3};
static const uint16_t mesh_lows[] = {0, 0, 1, 1, 2, 2, 3}, mesh_highs[] = {1, 2, 2, 3, 3, 4, 4};
static const uint16_t square_states[] = {1, 1, 1, 1}, full_states[] = {1, 1, 1, 1}, mesh_states[] = {1, 1, 1, 1, 1};

/* n relays with no link, and so many links that are none. */
#define EMPTY(n) none, 0, none, 0, ones, n
static const uint16_t none[NOLKISEI_LINKS + 1];
static uint16_t ones[NOLKISEI_RELAYS + 1];

static inline void all_in_service(void) {
    for (size_t i = 0; i <= NOLKISEI_RELAYS; i++) {
        ones[i] = 1;
    }
}

/* Lists to lend, each long enough for every network. */
static uint64_t answer[2];
static struct {
    uint16_t counts[NOLKISEI_ROUTES], relays[NOLKISEI_ROUTE_RELAYS], links[NOLKISEI_ROUTE_LINKS], scratch[NOLKISEI_ROUTE_SCRATCH];
    uint16_t places[NOLKISEI_RELAYS], marks[NOLKISEI_LINKS];
    uint16_t lows[NOLKISEI_LINKS], highs[NOLKISEI_LINKS], states[NOLKISEI_RELAYS];
} lent;
