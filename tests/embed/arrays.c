/* Opens problems by arrays, and by texts that say the same: what a session answers then is the same byte for byte, and a
 * fault has the number and the place that it has in the text. All in a thread whose stack is as small as mcf.h allows.
 *
 * The C library's malloc and realloc are wrapped by the linker, so that each growth can be refused in turn. */
#define _POSIX_C_SOURCE 200809L
#include "mcf.h"

#include <inttypes.h>
#include <pthread.h>
#include <stdio.h>
#include <stdlib.h>
#include <string.h>

enum { MANY = 50000, DRAWN = 400, MOST = 12, STACK = 256 * 1024 };

/* What stands in a fault before a call. No call writes these numbers. */
static const mcf_array_fault FAULT = {70001, 70002, 203};

static long growths, refused;

void *__real_malloc(size_t size);
void *__real_realloc(void *block, size_t size);
void *__wrap_malloc(size_t size);
void *__wrap_realloc(void *block, size_t size);

void *__wrap_malloc(size_t size) { return ++growths == refused ? NULL : __real_malloc(size); }
void *__wrap_realloc(void *block, size_t size) { return ++growths == refused ? NULL : __real_realloc(block, size); }

static bool is_kept(mcf_array_fault fault) {
    return fault.node == FAULT.node && fault.arc == FAULT.arc && fault.number == FAULT.number;
}

/* A problem in memory of its own. */
struct problem {
    size_t nodes, arcs;
    int64_t *supply, *low, *cap, *cost;
    uint32_t *tail, *head;
};

static void *row(size_t entries, size_t size) {
    void *made = calloc(entries ? entries : 1, size);
    if (!made) exit(2);
    return made;
}

static struct problem make(size_t nodes, size_t arcs) {
    struct problem p = {nodes, arcs, row(nodes, 8), row(arcs, 8), row(arcs, 8), row(arcs, 8), row(arcs, 4), row(arcs, 4)};
    return p;
}

static void drop(struct problem *p) {
    free(p->supply), free(p->low), free(p->cap), free(p->cost), free(p->tail), free(p->head);
}

static void set_arc(struct problem *p, size_t at, uint32_t tail, uint32_t head, int64_t low, int64_t cap, int64_t cost) {
    p->tail[at] = tail, p->head[at] = head, p->low[at] = low, p->cap[at] = cap, p->cost[at] = cost;
}

static mcf_arrays arrays_of(const struct problem *p) {
    size_t arcs = p->arcs;
    mcf_arrays arrays = {p->supply, p->nodes, p->tail, arcs, p->head, arcs, p->low, arcs, p->cap, arcs, p->cost, arcs};
    return arrays;
}

/* A text that says the same: a node line for each entry of supply, and an arc line for each arc. */
static char *text_of(const struct problem *p, size_t *length) {
    char *text = row(64 + p->nodes * 32 + p->arcs * 96, 1);
    size_t at = (size_t)sprintf(text, "p min %zu %zu\n", p->nodes, p->arcs);
    for (size_t v = 0; v < p->nodes; v++) at += (size_t)sprintf(text + at, "n %zu %" PRId64 "\n", v + 1, p->supply[v]);
    for (size_t k = 0; k < p->arcs; k++) {
        at += (size_t)sprintf(text + at, "a %" PRIu32 " %" PRIu32, p->tail[k], p->head[k]);
        at += (size_t)sprintf(text + at, " %" PRId64 " %" PRId64 " %" PRId64 "\n", p->low[k], p->cap[k], p->cost[k]);
    }
    *length = at;
    return text;
}

/* The line of that text where the fault of the arrays is. */
static uint64_t line_of(const struct problem *p, mcf_array_fault fault) {
    return fault.arc ? 1 + p->nodes + fault.arc : 1 + fault.node;
}

static bool is_view(mcf_view a, mcf_view b) {
    return a.worth_high == b.worth_high && a.worth_low == b.worth_low && a.shortage == b.shortage && a.past == b.past
        && a.future == b.future && a.nodes == b.nodes && a.arcs == b.arcs && a.feasible == b.feasible;
}

/* Whether two sessions answer the same: their views, and what is in an array of the list's length after each call. */
static bool is_same(mcf_handle *a, mcf_handle *b) {
    mcf_view view, other;
    if (mcf_look(a, &view) || mcf_look(b, &other) || !is_view(view, other)) return false;
    size_t arcs = view.arcs, nodes = view.nodes;
    int64_t *flow[2], *potentials[2];
    bool *cut[2], same = true;
    for (int i = 0; i < 2; i++) flow[i] = row(arcs, 8), potentials[i] = row(nodes, 8), cut[i] = row(nodes, sizeof **cut);
    same &= mcf_flow(a, flow[0], arcs) == mcf_flow(b, flow[1], arcs) && !memcmp(flow[0], flow[1], 8 * arcs);
    same &= mcf_potentials(a, potentials[0], nodes) == mcf_potentials(b, potentials[1], nodes);
    same &= !memcmp(potentials[0], potentials[1], 8 * nodes);
    same &= mcf_cut(a, cut[0], nodes) == mcf_cut(b, cut[1], nodes) && !memcmp(cut[0], cut[1], nodes * sizeof **cut);
    for (int i = 0; i < 2; i++) free(flow[i]), free(potentials[i]), free(cut[i]);
    return same;
}

static int32_t command(mcf_handle *handle, const char *line) {
    return mcf_command(handle, (const uint8_t *)line, strlen(line));
}

/* Commands that some problem takes and others refuse: each session answers a line as the other does. */
static const char *const LINES[] = {
    "close 1", "cap 2 9", "low 2 1", "supply 1 3", "add 1 2 0 4 -7", "add 2 1 0 4 7", "cost 3 -5", "undo", "redo", NULL};

static bool goes_same(mcf_handle *a, mcf_handle *b) {
    bool same = is_same(a, b);
    for (const char *const *line = LINES; *line; line++) same &= command(a, *line) == command(b, *line) && is_same(a, b);
    return same;
}

/* How a problem opens by its arrays and by its text, with room for an arc more, and whether that is the same. */
struct opening {
    int32_t status;
    mcf_array_fault fault;
    mcf_view view;
    bool same;
};

static struct opening open_both(const struct problem *p) {
    struct opening o = {.fault = FAULT};
    mcf_handle handle = MCF_HANDLE_INIT, other = MCF_HANDLE_INIT;
    mcf_fault fault = {0, 0};
    mcf_arrays arrays = arrays_of(p);
    size_t length;
    char *text = text_of(p, &length);
    o.status = mcf_open_arrays(&handle, &arrays, 1, &o.fault);
    o.same = o.status == mcf_open(&other, (const uint8_t *)text, length, 1, &fault);
    if (o.status == MCF_FAULT) {
        o.same &= o.fault.number == fault.number && line_of(p, o.fault) == fault.line;
    } else {
        o.same &= is_kept(o.fault);
    }
    if (o.status == MCF_DONE) mcf_look(&handle, &o.view);
    if (o.status == MCF_DONE && o.same) o.same = goes_same(&handle, &other);
    mcf_close(&handle);
    mcf_close(&other);
    free(text);
    return o;
}

static void print(const char *name, const struct problem *p) {
    struct opening o = open_both(p);
    printf("%s: %" PRId32, name, o.status);
    if (o.status == MCF_FAULT) {
        printf(", node %" PRIu32 ", arc %" PRIu32 ", fault %d", o.fault.node, o.fault.arc, o.fault.number);
    } else if (o.status == MCF_DONE && o.view.feasible) {
        printf(", worth %" PRId64 " %" PRIu64, o.view.worth_high, o.view.worth_low);
    } else if (o.status == MCF_DONE) {
        printf(", infeasible by %" PRId64, o.view.shortage);
    }
    printf("%s\n", o.same ? ", as by the text" : ", AND OTHERWISE BY THE TEXT");
}

/* The diamond of examples/diamond: its best flow and greatest potentials are in its answer.sol. */
static struct problem diamond(void) {
    struct problem p = make(4, 5);
    p.supply[0] = 4, p.supply[3] = -4;
    set_arc(&p, 0, 1, 2, 0, 4, 2);
    set_arc(&p, 1, 1, 3, 0, 2, 2);
    set_arc(&p, 2, 2, 3, 0, 2, 1);
    set_arc(&p, 3, 2, 4, 0, 3, 3);
    set_arc(&p, 4, 3, 4, 0, 5, 1);
    return p;
}

static void problems(void) {
    struct problem p = diamond();
    print("the diamond", &p);
    p.cap[0] = 1;
    print("with an arc too narrow", &p);
    p.supply[0] = 0;
    print("with a demand that nothing meets", &p);
    drop(&p);

    p = make(3, 4);
    set_arc(&p, 0, 1, 2, 1, 5, 10), set_arc(&p, 1, 2, 3, 0, 5, -30);
    set_arc(&p, 2, 3, 1, 0, 4, 10), set_arc(&p, 3, 2, 2, 2, 3, -1);
    print("circles, lower bounds, costs below 0 and a loop", &p);
    drop(&p);

    p = make(2, 2);
    p.supply[0] = 1000000000, p.supply[1] = -1000000000;
    set_arc(&p, 0, 1, 2, 0, 1000000000, 1000000000000), set_arc(&p, 1, 2, 1, 0, 1000000000, -1000000000000);
    print("the greatest numbers", &p);
    drop(&p);

    p = make(1, 0);
    print("one node and no arcs", &p);
    p.supply[0] = -2;
    print("one node with a demand", &p);
    drop(&p);

    p = make(3, 0);
    p.supply[1] = 5, p.supply[2] = -5;
    print("no arcs", &p);
    drop(&p);
}

/* Puts a number into an array of the diamond, and says what fault that is. */
static void fault_of(const char *name, char array, size_t at, int64_t number) {
    struct problem p = diamond();
    switch (array) {
    case 's': p.supply[at] = number; break;
    case 't': p.tail[at] = (uint32_t)number; break;
    case 'h': p.head[at] = (uint32_t)number; break;
    case 'l': p.low[at] = number; break;
    case 'c': p.cap[at] = number; break;
    default: p.cost[at] = number; break;
    }
    print(name, &p);
    drop(&p);
}

static const int64_t BILLION = 1000000000, TRILLION = 1000000000000, LONG = 1000000000000000000;

static void faults(void) {
    fault_of("supply above its limit", 's', 0, BILLION + 1);
    fault_of("supply below its limit", 's', 3, -BILLION - 1);
    fault_of("supply of 19 digits", 's', 1, LONG);
    fault_of("supply of 19 digits below 0", 's', 2, -LONG);
    fault_of("supply of 18 digits", 's', 2, LONG - 1);
    fault_of("the least supply there is", 's', 2, INT64_MIN);
    fault_of("no tail", 't', 0, 0);
    fault_of("tail above the nodes", 't', 4, 5);
    fault_of("the greatest tail there is", 't', 2, UINT32_MAX);
    fault_of("no head", 'h', 0, 0);
    fault_of("head above the nodes", 'h', 4, 5);
    fault_of("low below 0", 'l', 1, -1);
    fault_of("low above its limit", 'l', 1, BILLION + 1);
    fault_of("low of 19 digits", 'l', 1, LONG);
    fault_of("low above cap", 'l', 3, 4);
    fault_of("cap below 0", 'c', 2, -1);
    fault_of("the least cap there is", 'c', 2, INT64_MIN);
    fault_of("cap above its limit", 'c', 2, BILLION + 1);
    fault_of("cap of 19 digits", 'c', 2, INT64_MAX);
    fault_of("cost above its limit", 'x', 4, TRILLION + 1);
    fault_of("cost below its limit", 'x', 4, -TRILLION - 1);
    fault_of("cost of 19 digits", 'x', 4, -LONG);

    struct problem p = diamond();
    p.cost[4] = LONG, p.head[4] = 0, p.low[3] = 4;
    print("the first arc of two", &p);
    p.low[3] = 0;
    print("the first entry of two", &p);
    p.supply[3] = LONG;
    print("a node and an arc", &p);
    p.supply[1] = LONG;
    print("the first node of two", &p);
    drop(&p);

    p = make(0, 0);
    print("no node", &p);
    drop(&p);
    p = make(0, 1);
    print("no node and an arc", &p);
    drop(&p);
    p = make(MANY + 1, 0);
    print("50,001 nodes", &p);
    drop(&p);
    p = make(2, 100001);
    print("100,001 arcs", &p);
    drop(&p);
}

/* Each array of arcs an entry shorter than the others, and longer. */
static void lengths(void) {
    struct problem p = diamond();
    printf("arrays of other lengths:");
    for (int which = 0; which < 5; which++) {
        for (int longer = 0; longer < 2; longer++) {
            mcf_handle handle = MCF_HANDLE_INIT;
            mcf_array_fault fault = FAULT;
            mcf_arrays arrays = arrays_of(&p);
            size_t *lengths[] = {
                &arrays.tail_length, &arrays.head_length, &arrays.low_length, &arrays.cap_length, &arrays.cost_length};
            /* All are an entry shorter but for this one; or this one alone is. */
            for (int i = 0; i < 5; i++) *lengths[i] -= (i == which) != longer;
            printf(" %" PRId32, mcf_open_arrays(&handle, &arrays, 0, &fault));
            if (!is_kept(fault) || mcf_undo(&handle) != MCF_CLOSED) printf(" and written");
        }
    }
    printf("\n");

    mcf_handle handle = MCF_HANDLE_INIT;
    mcf_array_fault fault = FAULT;
    mcf_arrays arrays = arrays_of(&p);
    printf("opened: %" PRId32, mcf_open_arrays(&handle, &arrays, 0, &fault));
    p.cap[0] = -1;
    printf(", again: %" PRId32, mcf_open_arrays(&handle, &arrays, 0, &fault));
    printf(", no room for an arc: %" PRId32 "\n", command(&handle, "add 1 2 0 1 1"));
    mcf_close(&handle);
    printf("closed, and a fault: %" PRId32, mcf_open_arrays(&handle, &arrays, 0, &fault));
    printf(", then %" PRId32 "\n", mcf_undo(&handle));
    drop(&p);
}

/* Opens the diamond with each growth refused in turn, until there are no more. */
static void refuse(void) {
    struct problem p = diamond();
    mcf_arrays arrays = arrays_of(&p);
    int32_t status = MCF_MEMORY;
    long told = 0;
    for (long at = 1; status == MCF_MEMORY; at++) {
        mcf_handle handle = MCF_HANDLE_INIT;
        mcf_array_fault fault = FAULT;
        growths = 0;
        refused = at;
        status = mcf_open_arrays(&handle, &arrays, 0, &fault);
        refused = 0;
        told += status == MCF_MEMORY;
        if (!is_kept(fault)) printf("growth %ld: a fault was written\n", at);
        if (status == MCF_MEMORY && mcf_undo(&handle) != MCF_CLOSED) printf("growth %ld: opened\n", at);
        mcf_close(&handle);
    }
    printf("growths refused: %s, and then %" PRId32 "\n", told > 0 ? "each told" : "none", status);
    drop(&p);
}

/* A number below a bound, by a generator that gives the same numbers everywhere. */
static uint64_t drawn(uint64_t bound) {
    static uint64_t state = 1;
    state = state * 6364136223846793005u + 1442695040888963407u;
    return (state >> 33) % bound;
}

/* A number that may be a little or far beyond its limit. */
static int64_t odd_number(void) {
    static const int64_t NUMBERS[] = {0, 1, -1, 1000000000, 1000000001, -1000000001, 1000000000000, 1000000000001,
        -1000000000001, 999999999999999999, 1000000000000000000, -999999999999999999, -1000000000000000000, INT64_MAX,
        INT64_MIN};
    return NUMBERS[drawn(sizeof NUMBERS / sizeof *NUMBERS)];
}

/* Draws small problems; every other one has an odd number or two somewhere. */
static void draw(void) {
    int same = 0, kinds[3] = {0, 0, 0};
    for (int i = 0; i < DRAWN; i++) {
        struct problem p = make(1 + drawn(MOST), drawn(2 * MOST));
        for (size_t v = 1; v < p.nodes; v++) {
            int64_t units = (int64_t)drawn(4);
            p.supply[v] += units, p.supply[v - 1] -= units;
        }
        for (size_t k = 0; k < p.arcs; k++) {
            uint32_t tail = 1 + (uint32_t)drawn(p.nodes), head = 1 + (uint32_t)drawn(p.nodes);
            int64_t low = drawn(4) ? 0 : 1;
            set_arc(&p, k, tail, head, low, low + (int64_t)drawn(9), (int64_t)drawn(20) - 5);
        }
        for (uint64_t odd = i % 2 ? 1 + drawn(2) : 0; odd > 0; odd--) {
            size_t at = p.arcs ? drawn(p.arcs) : 0;
            switch (p.arcs ? drawn(6) : 0) {
            case 0: p.supply[drawn(p.nodes)] = odd_number(); break;
            case 1: p.tail[at] = (uint32_t)odd_number(); break;
            case 2: p.head[at] = (uint32_t)odd_number(); break;
            case 3: p.low[at] = odd_number(); break;
            case 4: p.cap[at] = odd_number(); break;
            default: p.cost[at] = odd_number(); break;
            }
        }
        struct opening o = open_both(&p);
        same += o.same;
        kinds[o.status == MCF_FAULT ? 2 : o.view.feasible ? 0 : 1]++;
        drop(&p);
    }
    printf("%d problems drawn, of which some are feasible, infeasible and faulty: %s, %d as by the text\n", DRAWN,
        kinds[0] > 20 && kinds[1] > 20 && kinds[2] > 20 ? "yes" : "no", same);
}

/* A path of 50,000 nodes with as many arcs back, along which one unit goes. */
static void many(void) {
    struct problem p = make(MANY, 2 * (MANY - 1));
    p.supply[0] = 1, p.supply[MANY - 1] = -1;
    for (uint32_t v = 1; v < MANY; v++) {
        set_arc(&p, v - 1, v, v + 1, 0, 1, 1);
        set_arc(&p, MANY - 2 + v, v + 1, v, 0, 1, 2);
    }
    print("50,000 nodes", &p);
    p.cap[2 * MANY - 3] = -1;
    print("its last arc with a fault", &p);
    p.supply[MANY - 1] = BILLION + 1;
    print("its last node with one", &p);
    drop(&p);
}

static void *all(void *nothing) {
    problems();
    faults();
    lengths();
    refuse();
    draw();
    many();
    return nothing;
}

int main(void) {
    pthread_attr_t small;
    pthread_t thread;
    if (!__builtin_cpu_supports("x86-64-v2")) return 2;
    if (pthread_attr_init(&small) || pthread_attr_setstacksize(&small, STACK)) return 2;
    if (pthread_create(&thread, &small, all, NULL) || pthread_join(thread, NULL)) return 2;
    return 0;
}
