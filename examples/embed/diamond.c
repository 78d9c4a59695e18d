/* Solves the diamond at once; then opens a session on it, asks what if an arc were closed, takes it back, and asks for
 * too much. */
#include "mcf.h"

#include <inttypes.h>
#include <stdio.h>
#include <stdlib.h>
#include <string.h>

static const char problem[] =
    "p min 4 5\n"
    "n 1 4\n"
    "n 4 -4\n"
    "a 1 2 0 4 2\n"
    "a 1 3 0 2 2\n"
    "a 2 3 0 2 1\n"
    "a 2 4 0 3 3\n"
    "a 3 4 0 5 1\n";

enum { ARCS = 5, NODES = 4 };

/* Prints an answer: a best flow with its worth, or the nodes of a cut with the shortage. */
static void print(const mcf_view *view, const int64_t *flow, const bool *cut) {
    if (view->feasible) {
        printf("worth %" PRId64 ", flow", (int64_t)view->worth_low);
        for (uint32_t k = 0; k < view->arcs; k++) printf(" %" PRId64, flow[k]);
    } else {
        printf("infeasible by %" PRId64 ", nodes", view->shortage);
        for (uint32_t v = 0; v < view->nodes; v++) if (cut[v]) printf(" %" PRIu32, v + 1);
    }
    printf("\n");
}

/* Answers a problem text at once: asks for its sizes, makes room, and solves. */
static int32_t solve(const char *text) {
    int64_t number;
    bool mark;
    mcf_answer answer = {.flow = &number, .potentials = &number, .cut = &mark};
    int32_t status = mcf_solve((const uint8_t *)text, strlen(text), &answer);
    if (status == MCF_TOO_SHORT) {
        /* One entry more than needed, so that calloc is never asked for none. */
        size_t arcs = answer.view.arcs, nodes = answer.view.nodes;
        answer.flow = calloc(arcs + 1, sizeof *answer.flow);
        answer.potentials = calloc(nodes + 1, sizeof *answer.potentials);
        answer.cut = calloc(nodes + 1, sizeof *answer.cut);
        answer.flow_room = arcs;
        answer.potentials_room = answer.cut_room = nodes;
        if (answer.flow && answer.potentials && answer.cut) {
            status = mcf_solve((const uint8_t *)text, strlen(text), &answer);
        }
        if (status == MCF_DONE) print(&answer.view, answer.flow, answer.cut);
        free(answer.flow);
        free(answer.potentials);
        free(answer.cut);
    } else if (status == MCF_FAULT) {
        printf("line %" PRIu64 ": fault %d\n", answer.fault.line, answer.fault.number);
    }
    return status;
}

static int32_t command(mcf_handle *session, const char *line) {
    return mcf_command(session, (const uint8_t *)line, strlen(line));
}

/* Prints what stands now. */
static void show(mcf_handle *session) {
    mcf_view view;
    int64_t flow[ARCS] = {0};
    bool cut[NODES] = {false};
    if (mcf_look(session, &view) != MCF_DONE) return;
    int32_t status = view.feasible ? mcf_flow(session, flow, ARCS) : mcf_cut(session, cut, NODES);
    if (status == MCF_DONE) print(&view, flow, cut);
}

int main(void) {
    printf("solve: %d\n", solve(problem));
    printf("solve half of it: %d\n", solve("p min 4 5\nn 1 4\n"));

    mcf_handle session = MCF_HANDLE_INIT;
    mcf_fault fault = {0, 0};
    int32_t status = mcf_open(&session, (const uint8_t *)problem, sizeof problem - 1, 0, &fault);
    if (status != MCF_DONE) {
        fprintf(stderr, "not opened: %d (line %" PRIu64 ", fault %d)\n", status, fault.line, fault.number);
        return 1;
    }
    show(&session);
    printf("close 2: %d\n", command(&session, "close 2"));
    show(&session);
    printf("undo: %d\n", mcf_undo(&session));
    show(&session);
    printf("undo: %d\n", mcf_undo(&session));
    printf("cap 9 1: %d\n", command(&session, "cap 9 1"));
    printf("cap 5 0: %d\n", command(&session, "cap 5 0"));
    show(&session);
    mcf_close(&session);
    printf("after the end: %d\n", mcf_undo(&session));
    return 0;
}
