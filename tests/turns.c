/* Two versions of the library turn by turn on the same networks, all relays in service, for tests/turns: how long the table check,
 * Read, Write, the pair numbers of all links, one call each, Order, Split, Cut and Route take in the earlier one, whose functions begin
 * with `before_`, and in this one. `before.h` declares them as the earlier header does; where that knows nothing of states (document
 * 02, #105), BEFORE_STATES is not defined and they are called without. Each time is the lower quartile of 25 batches; a line has the
 * network, the operation, and the two times in microseconds, with tabs between. The two may order the relays in another way (document
 * 02, #104): then the same wish has other routes, so behind k stands how many relays each version writes. */
#define _POSIX_C_SOURCE 200112L
#include "nolkisei.h"
#include <stdio.h>
#include <stdlib.h>
#include <string.h>
#include <time.h>

#include "before.h"

#define BATCHES 25
#define LINKS n, lows, m, highs, m
#define TABLE LINKS, states, n
#define ROUTE (uint16_t)k, from, to, counts, NOLKISEI_ROUTES, relays, NOLKISEI_ROUTE_RELAYS, scratch, (size_t)k * n, answer
#define ORDER first, NOLKISEI_RELAYS, second, NOLKISEI_RELAYS, answer
#define SPLIT first, NOLKISEI_LINKS, answer
#define WRITE other_text, sizeof other_text, answer
#define READ text, text_length, first, NOLKISEI_LINKS, second, NOLKISEI_LINKS
#ifdef BEFORE_STATES
#define BEFORE_TABLE TABLE
#define BEFORE_READ READ, third, NOLKISEI_RELAYS
#else
#define BEFORE_TABLE LINKS
#define BEFORE_READ READ
#endif

static uint16_t n, lows[NOLKISEI_LINKS], highs[NOLKISEI_LINKS], states[NOLKISEI_RELAYS], from, to;
static uint16_t first[NOLKISEI_LINKS], second[NOLKISEI_LINKS], third[NOLKISEI_RELAYS];
static uint16_t counts[NOLKISEI_ROUTES], relays[NOLKISEI_ROUTE_RELAYS], scratch[NOLKISEI_ROUTE_SCRATCH];
static uint8_t text[NOLKISEI_TEXT], other_text[NOLKISEI_TEXT];
static uint64_t answer[2], written[2], state = 88172645463325252u;
static size_t m, text_length;
static int k;
static char linked[NOLKISEI_RELAYS][NOLKISEI_RELAYS];

static unsigned random_below(unsigned bound) {
    state ^= state << 13, state ^= state >> 7, state ^= state << 17;
    return (unsigned)((state >> 11) % bound);
}

static void add(unsigned a, unsigned b) {
    unsigned low = a < b ? a : b, high = a < b ? b : a;
    if (low == high || m == NOLKISEI_LINKS || linked[low][high]) return;
    linked[low][high] = 1, lows[m] = (uint16_t)low, highs[m] = (uint16_t)high, m++;
}

/* Three links a relay at random; each relay to the next three; a full network of up to 70 with a tree on it. */
static void make(int kind) {
    memset(linked, 0, sizeof linked), m = 0;
    unsigned core = n < 140 ? n / 2 : 70;
    for (unsigned i = 1; i < n; i++) {
        if (kind == 0) add(i, random_below(i));
        for (unsigned d = 1; kind == 1 && d <= 3 && d <= i; d++) add(i - d, i);
        for (unsigned j = 0; kind == 2 && i < core && j < i; j++) add(j, i);
        if (kind == 2 && i >= core) add(i, random_below(i));
    }
    while (kind == 0 && m < 3u * n && m < NOLKISEI_LINKS) add(random_below(n), random_below(n));
    nolkisei_write(TABLE, text, sizeof text, answer);
    text_length = answer[0];
}

/* One call: of this library or of the earlier one. */
static uint32_t check(int now) { return now ? nolkisei_check(TABLE, answer) : before_nolkisei_check(BEFORE_TABLE, answer); }
static uint32_t read_text(int now) {
    return now ? nolkisei_read(READ, third, NOLKISEI_RELAYS, answer) : before_nolkisei_read(BEFORE_READ, answer);
}
static uint32_t write_text(int now) { return now ? nolkisei_write(TABLE, WRITE) : before_nolkisei_write(BEFORE_TABLE, WRITE); }
static uint32_t pairs(int now) {
    uint32_t refused = 0;
    for (size_t i = 0; i < m; i++) refused |= (now ? nolkisei_pair : before_nolkisei_pair)(lows[i], highs[i], answer);
    return refused;
}
static uint32_t order(int now) { return now ? nolkisei_order(TABLE, ORDER) : before_nolkisei_order(BEFORE_TABLE, ORDER); }
static uint32_t split(int now) { return now ? nolkisei_split(TABLE, SPLIT) : before_nolkisei_split(BEFORE_TABLE, SPLIT); }
static uint32_t cut(int now) { return now ? nolkisei_cut(TABLE, 2, SPLIT) : before_nolkisei_cut(BEFORE_TABLE, 2, SPLIT); }
static uint32_t route(int now) { return now ? nolkisei_route(TABLE, ROUTE) : before_nolkisei_route(BEFORE_TABLE, ROUTE); }

static double microseconds(void) {
    struct timespec t;
    clock_gettime(CLOCK_MONOTONIC, &t);
    return (double)t.tv_sec * 1e6 + (double)t.tv_nsec / 1e3;
}

static int by_size(const void *a, const void *b) {
    double x = *(const double *)a, y = *(const double *)b;
    return (x > y) - (x < y);
}

static void turns(const char *kind, const char *name, uint32_t call(int)) {
    static double times[2][BATCHES];
    int calls = n < 300 ? 200 : 40;
    if (call(0) || call(1)) fprintf(stderr, "%s is refused\n", name), exit(1);
    for (int batch = 0; batch < BATCHES; batch++)
        for (int now = 0; now < 2; now++) {
            double start = microseconds();
            for (int i = 0; i < calls; i++) call(now);
            times[now][batch] = (microseconds() - start) / calls;
        }
    for (int now = 0; now < 2; now++) qsort(times[now], BATCHES, sizeof(double), by_size);
    printf("%s %u %zu\t%s\t%.4f\t%.4f\n", kind, n, m, name, times[0][BATCHES / 4], times[1][BATCHES / 4]);
}

/* The relays that a version writes for the wish; 0 if it is refused. */
static uint64_t relays_of(int now) { return route(now) == NOLKISEI_DONE ? answer[0] : 0; }

/* The longest routes of some at random, by the version with fewer relays; 0 if there are none that both give. */
static int wish(void) {
    uint64_t most = 0;
    uint16_t ends[2] = {0, 0};
    for (int i = 0; i < 2000; i++) {
        from = (uint16_t)random_below(n), to = (uint16_t)random_below(n);
        uint64_t was = relays_of(0), is = relays_of(1), fewer = was < is ? was : is;
        if (fewer > most) most = fewer, ends[0] = from, ends[1] = to, written[0] = was, written[1] = is;
    }
    from = ends[0], to = ends[1];
    return most > 0;
}

int main(void) {
    const char *kinds[] = {"random", "band", "core"};
    const uint16_t sizes[] = {10, 30, 128, 300, 1000};
    const int counts_of_routes[] = {1, 2, 3, 8, 32};
    for (size_t i = 0; i < NOLKISEI_RELAYS; i++) states[i] = 1;
    for (int kind = 0; kind < 3; kind++)
        for (int size = 0; size < 5; size++) {
            const char *of = kinds[kind];
            n = sizes[size], make(kind);
            turns(of, "check", check), turns(of, "read", read_text), turns(of, "write", write_text), turns(of, "pairs", pairs);
            turns(of, "order", order), turns(of, "split", split), turns(of, "cut", cut);
            for (int i = 0; i < 5; i++)
                if (k = counts_of_routes[i], wish()) {
                    char name[32];
                    snprintf(name, sizeof name, "route %d (%d, %d)", k, (int)written[0], (int)written[1]), turns(of, name, route);
                }
        }
    return 0;
}
