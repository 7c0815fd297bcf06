/* How much stack each function of the C header needs on the largest inputs, and that NOLKISEI_STACK is enough.
 * A call runs in a thread whose stack was filled with one byte; what is changed afterwards was used. What a thread uses by itself,
 * with a call that does nothing, is taken off. */
#define _POSIX_C_SOURCE 200112L
#include "nolkisei.h"
#include <limits.h>
#include <pthread.h>
#include <stdio.h>
#include <string.h>

#define LENT(name) name, sizeof name / sizeof name[0]
#define TABLE net->n, net->lows, net->m, net->highs, net->m, net->states, net->n

typedef struct {
    uint16_t n, k, from, to;
    size_t m, length, sheet_length, drawing_length, set_length, report_length;
    uint16_t lows[NOLKISEI_LINKS], highs[NOLKISEI_LINKS], states[NOLKISEI_RELAYS];
    uint8_t text[NOLKISEI_TEXT], sheet[NOLKISEI_SHEET];
    char drawing[NOLKISEI_TEXT], set[2 << 20], report[4 << 10];
} network;

static network large, small, thin;
static uint64_t answer[2];
static uint16_t first[NOLKISEI_LINKS], second[NOLKISEI_LINKS], third[NOLKISEI_RELAYS];
static uint16_t counts[NOLKISEI_ROUTES], relays[NOLKISEI_ROUTE_RELAYS], scratch[NOLKISEI_ROUTE_SCRATCH];
static uint16_t links[NOLKISEI_ROUTE_LINKS];
static uint8_t input[NOLKISEI_TEXT + 22], output[NOLKISEI_LIST];
static uint32_t returned;

static size_t asked(const network *net, const char *line) {
    size_t length = strlen(line);
    memcpy(input, line, length);
    memcpy(input + length, net->text, net->length);
    return length + net->length;
}

static void nothing(const network *net) {
    (void)net;
    returned = 0;
}

static void check(const network *net) { returned = nolkisei_check(TABLE, answer); }

static void pair(const network *net) { returned = nolkisei_pair(net->to, net->from, answer); }

static void read_text(const network *net) {
    returned = nolkisei_read(net->text, net->length, LENT(first), LENT(second), LENT(third), answer);
}

static void import(const network *net) {
    returned = nolkisei_import((const uint8_t *)net->drawing, net->drawing_length, LENT(first), LENT(second), LENT(third), answer);
}

static void stands(const network *net) {
    const uint8_t *report = (const uint8_t *)net->report;
    returned = nolkisei_stands(report, net->report_length, report, net->report_length, answer);
}

static void reports(const network *net) {
    returned = nolkisei_reports(net->n, (const uint8_t *)net->set, net->set_length, LENT(first), LENT(second), LENT(third), answer);
}

static void write_text(const network *net) { returned = nolkisei_write(TABLE, LENT(output), answer); }

static void order(const network *net) { returned = nolkisei_order(TABLE, LENT(first), LENT(second), answer); }

static void split(const network *net) { returned = nolkisei_split(TABLE, LENT(first), answer); }

static void cut(const network *net) { returned = nolkisei_cut(TABLE, net->k, LENT(first), answer); }

static void route(const network *net) {
    returned = nolkisei_route(TABLE, net->k, net->from, net->to, LENT(counts), LENT(relays), LENT(scratch), answer);
}

static void route_links(const network *net) {
    returned = nolkisei_route_links(TABLE, net->k, net->from, net->to, LENT(counts), LENT(relays), LENT(links), LENT(scratch), answer);
}

static void plan(const network *net) {
    char line[40];
    sprintf(line, "(want %u %u %u)\n", (unsigned)net->from, (unsigned)net->to, (unsigned)net->k);
    size_t length = asked(net, line);
    returned = nolkisei_plan(input, length, LENT(output), answer);
}

static void keep(const network *net) {
    char line[40];
    sprintf(line, "(keep %u)\n", (unsigned)net->k);
    size_t length = asked(net, line);
    returned = nolkisei_keep(input, length, LENT(output), answer);
}

static void verify(const network *net) {
    returned = nolkisei_verify(TABLE, net->sheet, net->sheet_length, answer);
}

/* The network as a drawing, with a comment in front of each line and the high relay first. */
static void draw(network *net) {
    char *end = net->drawing + sprintf(net->drawing, "c\np edge %u %zu\n", (unsigned)net->n, net->m);
    for (size_t i = 0; i < net->m; i++) {
        end += sprintf(end, "c \ne %u %u\n", net->highs[i] + 1u, net->lows[i] + 1u);
    }
    net->drawing_length = (size_t)(end - net->drawing);
}

/* A report of the last relay, which sees all others; and one of each relay in service, which sees all higher ones and, of the lower
 * ones, those that it is linked to. */
static void report(network *net) {
    char *end = net->report + sprintf(net->report, "(report %u 4294967295 (sees", net->n - 1u);
    for (unsigned other = 0; other + 1 < net->n; other++) {
        end += sprintf(end, " %u", other);
    }
    net->report_length = (size_t)(end + sprintf(end, "))\n") - net->report);
    end = net->set;
    for (unsigned relay = 0; relay < net->n; relay++) {
        static uint8_t seen[NOLKISEI_RELAYS];
        for (unsigned other = 0; other < net->n; other++) {
            seen[other] = other > relay;
        }
        for (size_t i = 0; i < net->m; i++) {
            seen[net->lows[i]] |= net->highs[i] == relay;
        }
        end += net->states[relay] ? sprintf(end, "(report %u %u (sees", relay, 4294967295u - relay) : 0;
        for (unsigned other = 0; other < net->n && net->states[relay]; other++) {
            end += seen[other] ? sprintf(end, " %u", other) : 0;
        }
        end += net->states[relay] ? sprintf(end, "))\n") : 0;
    }
    net->set_length = (size_t)(end - net->set);
}

/* A path over the relays 100 to `path`, and every pair among the last `core` relays. The others are in service or withdrawn. */
static void make(network *net, uint16_t n, uint16_t path, uint16_t core, uint16_t k, uint16_t others) {
    net->n = n, net->k = k, net->from = n - 1, net->to = n - 2, net->m = 0;
    for (uint16_t relay = 0; relay < n; relay++) {
        net->states[relay] = others || (relay >= 100 && relay <= path) || relay >= n - core;
    }
    for (uint16_t b = 101; b <= path; b++) {
        net->lows[net->m] = b - 1, net->highs[net->m++] = b;
    }
    for (uint16_t b = n - core; b < n; b++) {
        for (uint16_t a = n - core; a < b; a++) {
            net->lows[net->m] = a, net->highs[net->m++] = b;
        }
    }
    nolkisei_write(TABLE, LENT(net->text), answer);
    net->length = answer[0];
    draw(net);
    report(net);
    plan(net);
    net->sheet_length = answer[0];
    memcpy(net->sheet, output, net->sheet_length);
}

enum { SIZE = 4 << 20, FILL = 0xa5 };
static uint8_t stack[SIZE] __attribute__((aligned(4096)));

typedef struct {
    void (*call)(const network *);
    const network *net;
} work;

static void *thread(void *given) {
    const work *work = given;
    work->call(work->net);
    return NULL;
}

/* The bytes of stack that a thread uses for this call. */
static size_t used(void (*call)(const network *), const network *net) {
    work work = {call, net};
    pthread_attr_t attributes;
    pthread_t made;
    memset(stack, FILL, SIZE);
    if (pthread_attr_init(&attributes) || pthread_attr_setstack(&attributes, stack, SIZE) ||
        pthread_create(&made, &attributes, thread, &work) || pthread_join(made, NULL)) {
        returned = UINT_MAX;
    }
    size_t free = 0;
    while (free < SIZE && stack[free] == FILL) {
        free++;
    }
    return SIZE - free;
}

int main(void) {
    static const struct {
        const char *name;
        void (*call)(const network *);
    } calls[] = {{"check", check}, {"pair", pair}, {"read", read_text}, {"import", import},           {"write", write_text},
                 {"order", order}, {"split", split}, {"cut", cut},      {"route", route},             {"route_links", route_links},
                 {"plan", plan},   {"keep", keep}, {"verify", verify},  {"stands", stands},           {"reports", reports}};
    int failed = 0;
    make(&large, 1000, 174, 77, 32, 1);
    make(&small, 28, 0, 28, 27, 1);
    make(&thin, 1000, 174, 77, 32, 0);
    size_t base = used(nothing, &large);
    printf("bytes of stack:");
    for (size_t i = 0; i < sizeof calls / sizeof calls[0]; i++) {
        size_t most = 0;
        for (int turn = 0; turn < 3; turn++) {
            size_t bytes = used(calls[i].call, turn == 0 ? &large : turn == 1 ? &small : &thin);
            most = bytes > most ? bytes : most;
            failed += returned != 0;
        }
        most = most > base ? most - base : 0;
        failed += most > NOLKISEI_STACK;
        printf("%s %s %zu", i ? "," : "", calls[i].name, most);
    }
    printf("; %s\n", failed ? "a call is refused, or NOLKISEI_STACK is too small" : "NOLKISEI_STACK is enough");
    return failed != 0;
}
