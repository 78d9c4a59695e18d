/* Answers problem texts by mcf_solve, and prints all that it wrote: `-` stands where it wrote nothing.
 *
 * The C library's malloc and realloc are wrapped by the linker, so that each growth can be refused in turn. */
#include "mcf.h"

#include <inttypes.h>
#include <stdio.h>
#include <stdlib.h>
#include <string.h>

enum { MOST = 8 };

/* What stands in the caller's memory before a call. No answer has these numbers. */
static const int64_t NUMBER = 77777;
static const mcf_view VIEW = {70001, 70002, 70003, 70004, 70005, 70006, 70007, true};
static const mcf_fault FAULT = {70008, 208};

static long growths, refused;

void *__real_malloc(size_t size);
void *__real_realloc(void *block, size_t size);
void *__wrap_malloc(size_t size);
void *__wrap_realloc(void *block, size_t size);

void *__wrap_malloc(size_t size) { return ++growths == refused ? NULL : __real_malloc(size); }
void *__wrap_realloc(void *block, size_t size) { return ++growths == refused ? NULL : __real_realloc(block, size); }

/* A caller's memory, with marks of two kinds, since a mark has no value that is never written. */
struct memory {
    int64_t flow[MOST], potentials[MOST];
    bool set[MOST], unset[MOST];
    mcf_answer answer;
};

static void begin(struct memory *memory, bool *cut, bool mark, size_t flow, size_t potentials, size_t marks) {
    for (int i = 0; i < MOST; i++) memory->flow[i] = memory->potentials[i] = NUMBER;
    for (int i = 0; i < MOST; i++) cut[i] = mark;
    memory->answer = (mcf_answer){memory->flow, flow, memory->potentials, potentials, cut, marks, VIEW, FAULT};
}

static void print_numbers(const char *name, const int64_t *numbers) {
    printf("  %s", name);
    for (int i = 0; i < MOST; i++) {
        if (numbers[i] == NUMBER) printf(" -");
        else printf(" %" PRId64, numbers[i]);
    }
    printf("\n");
}

static bool is_view(mcf_view a, mcf_view b) {
    return a.worth_high == b.worth_high && a.worth_low == b.worth_low && a.shortage == b.shortage && a.past == b.past
        && a.future == b.future && a.nodes == b.nodes && a.arcs == b.arcs && a.feasible == b.feasible;
}

static bool is_fault(mcf_fault a, mcf_fault b) { return a.line == b.line && a.number == b.number; }

/* Prints what a call wrote. The text was answered twice, to the same room but for the marks before the call. */
static void print(const struct memory *memory, int32_t status, size_t flow, size_t potentials, size_t marks) {
    const mcf_answer *answer = &memory->answer;
    mcf_view sizes = VIEW;
    printf("  %" PRId32, status);
    sizes.nodes = answer->view.nodes;
    sizes.arcs = answer->view.arcs;
    if (is_view(answer->view, VIEW)) {
        printf(", no view");
    } else if (is_view(answer->view, sizes)) {
        printf(", %" PRIu32 " nodes, %" PRIu32 " arcs", sizes.nodes, sizes.arcs);
    } else {
        const mcf_view *view = &answer->view;
        printf(", %" PRIu32 " nodes, %" PRIu32 " arcs", view->nodes, view->arcs);
        printf(", %s", view->feasible ? "feasible" : "infeasible");
        printf(", worth %" PRId64 " %" PRIu64 ", shortage %" PRId64, view->worth_high, view->worth_low, view->shortage);
        printf(", %" PRIu64 " past, %" PRIu64 " future", view->past, view->future);
    }
    if (!is_fault(answer->fault, FAULT)) {
        printf(", line %" PRIu64 ", fault %d", answer->fault.line, answer->fault.number);
    }
    if (answer->flow != memory->flow || answer->potentials != memory->potentials || answer->cut != memory->unset
        || answer->flow_room != flow || answer->potentials_room != potentials || answer->cut_room != marks) {
        printf(", and other room");
    }
    printf("\n");
    print_numbers("flow", memory->flow);
    print_numbers("potentials", memory->potentials);
    printf("  cut");
    for (int i = 0; i < MOST; i++) {
        if (memory->set[i] == memory->unset[i]) printf(" %d", memory->set[i]);
        else printf(" -");
    }
    printf("\n");
}

/* Answers a text, with room for so many entries. */
static void solve_into(const char *name, const char *text, size_t flow, size_t potentials, size_t marks) {
    struct memory memory;
    printf("%s\n", name);
    begin(&memory, memory.set, true, flow, potentials, marks);
    mcf_solve((const uint8_t *)text, strlen(text), &memory.answer);
    begin(&memory, memory.unset, false, flow, potentials, marks);
    int32_t status = mcf_solve((const uint8_t *)text, strlen(text), &memory.answer);
    print(&memory, status, flow, potentials, marks);
}

static void solve(const char *name, const char *text) { solve_into(name, text, MOST, MOST, MOST); }

/* Answers a text with each growth refused in turn, until there are no more. */
static void refuse(const char *text) {
    long told = 0;
    int32_t status = MCF_MEMORY;
    for (long at = 1; status == MCF_MEMORY; at++) {
        struct memory memory, before;
        begin(&memory, memory.unset, false, MOST, MOST, MOST);
        begin(&before, before.unset, false, MOST, MOST, MOST);
        growths = 0;
        refused = at;
        status = mcf_solve((const uint8_t *)text, strlen(text), &memory.answer);
        refused = 0;
        if (status != MCF_MEMORY) break;
        if (!memcmp(memory.flow, before.flow, sizeof before.flow)
            && !memcmp(memory.potentials, before.potentials, sizeof before.potentials)
            && !memcmp(memory.unset, before.unset, sizeof before.unset)
            && is_view(memory.answer.view, VIEW) && is_fault(memory.answer.fault, FAULT)) {
            told++;
        } else {
            printf("growth %ld: something was written\n", at);
        }
    }
    printf("growths refused\n  %s, and then %" PRId32 "\n", told > 0 ? "each told, nothing written" : "none", status);
}

/* The diamond of examples/diamond: its best flow and greatest potentials are in its answer.sol. */
#define DIAMOND_ARCS "a 1 3 0 2 2\na 2 3 0 2 1\na 2 4 0 3 3\na 3 4 0 5 1\n"
#define DIAMOND "p min 4 5\nn 1 4\nn 4 -4\na 1 2 0 4 2\n" DIAMOND_ARCS
#define STARVED "p min 4 5\nn 1 4\nn 4 -4\na 1 2 0 1 2\n" DIAMOND_ARCS

int main(void) {
    solve("a best flow", DIAMOND);
    solve_into("in room of its lengths", DIAMOND, 5, 4, 4);
    solve("a cut by the first form", STARVED);
    solve_into("in room of its lengths", STARVED, 5, 4, 4);
    solve("a cut by the second form", "p min 3 1\nn 2 -3\na 3 2 0 1 1\n");
    solve("a worth of 10^21", "p min 2 1\nn 1 1000000000\nn 2 -1000000000\na 1 2 0 1000000000 1000000000000\n");
    solve("a worth of -10^21", "p min 2 1\nn 1 1000000000\nn 2 -1000000000\na 1 2 0 1000000000 -1000000000000\n");
    solve("a maximum flow", "p max 3 2\nn 1 s\nn 3 t\na 1 2 5\na 2 3 4\n");
    solve("an assignment", "p asn 2 1\nn 1\na 1 2 7\n");
    solve("no assignment", "p asn 3 1\nn 1\na 1 2 7\n");
    solve_into("no arcs", "p min 1 0\n", 0, 1, 1);
    solve("an empty text", "");
    solve("a faulty line", "p min 2 1\nn 1 1\nn 3 -1\na 1 2 0 1 1\n");
    solve("a text cut off", "p min 4 5\nn 1 4\n");
    solve_into("no room", DIAMOND, 0, 0, 0);
    solve_into("an arc too few", DIAMOND, 4, 4, 4);
    solve_into("a potential too few", DIAMOND, 5, 3, 4);
    solve_into("a mark too few", DIAMOND, 5, 4, 3);
    solve_into("a faulty text and no room", "p min 4\n", 0, 0, 0);
    refuse(DIAMOND);
    refuse(STARVED);
    return 0;
}
