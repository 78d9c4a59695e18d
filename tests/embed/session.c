/* Makes each call of a session answer each of its statuses, takes odd lines, and solves a problem of 50,000 nodes; all
 * in a thread whose stack is as small as mcf.h allows.
 *
 * The C library's malloc and realloc are wrapped by the linker, so that each growth can be refused in turn. */
#define _POSIX_C_SOURCE 200809L
#include "mcf.h"

#include <inttypes.h>
#include <pthread.h>
#include <stdio.h>
#include <stdlib.h>
#include <string.h>

enum { NODES = 4, ARCS = 5, LINE = 1024, MANY = 50000, STACK = 256 * 1024 };

/* The diamond of examples/diamond: its best flow and greatest potentials are in its answer.sol. */
static const char DIAMOND[] =
    "p min 4 5\nn 1 4\nn 4 -4\na 1 2 0 4 2\na 1 3 0 2 2\na 2 3 0 2 1\na 2 4 0 3 3\na 3 4 0 5 1\n";

/* What stands in an array before a call. No answer has this number. */
static const int64_t NUMBER = 77777;

static long growths, refused;

void *__real_malloc(size_t size);
void *__real_realloc(void *block, size_t size);
void *__wrap_malloc(size_t size);
void *__wrap_realloc(void *block, size_t size);

void *__wrap_malloc(size_t size) { return ++growths == refused ? NULL : __real_malloc(size); }
void *__wrap_realloc(void *block, size_t size) { return ++growths == refused ? NULL : __real_realloc(block, size); }

static int32_t open_text(mcf_handle *handle, const char *text, mcf_fault *fault) {
    return mcf_open(handle, (const uint8_t *)text, strlen(text), 0, fault);
}

static int32_t command(mcf_handle *handle, const char *line) {
    return mcf_command(handle, (const uint8_t *)line, strlen(line));
}

/* Prints what the three lists answer to arrays of these lengths, and what is in them then: `-` stands where nothing was
 * written. Each array holds at first what its list never holds, a mark by its two values in turn. */
static void lists(mcf_handle *handle, size_t arcs, size_t nodes) {
    int64_t flow[ARCS + 1], potentials[NODES + 1];
    bool set[NODES + 1], unset[NODES + 1];
    for (int i = 0; i <= ARCS; i++) flow[i] = NUMBER;
    for (int i = 0; i <= NODES; i++) potentials[i] = NUMBER, set[i] = true, unset[i] = false;
    printf("  flow %" PRId32 ":", mcf_flow(handle, flow, arcs));
    for (int i = 0; i <= ARCS; i++) flow[i] == NUMBER ? printf(" -") : printf(" %" PRId64, flow[i]);
    printf("\n  potentials %" PRId32 ":", mcf_potentials(handle, potentials, nodes));
    for (int i = 0; i <= NODES; i++) potentials[i] == NUMBER ? printf(" -") : printf(" %" PRId64, potentials[i]);
    mcf_cut(handle, set, nodes);
    printf("\n  cut %" PRId32 ":", mcf_cut(handle, unset, nodes));
    for (int i = 0; i <= NODES; i++) set[i] == unset[i] ? printf(" %d", set[i]) : printf(" -");
    printf("\n");
}

static void look(mcf_handle *handle) {
    mcf_view view = {7, 7, 7, 7, 7, 7, 7, true};
    printf("  look %" PRId32 ": ", mcf_look(handle, &view));
    printf("worth %" PRId64 " %" PRIu64 ", shortage %" PRId64, view.worth_high, view.worth_low, view.shortage);
    printf(", past %" PRIu64 ", future %" PRIu64, view.past, view.future);
    printf(", %" PRIu32 " nodes, %" PRIu32 " arcs", view.nodes, view.arcs);
    printf(", %s\n", view.feasible ? "feasible" : "infeasible");
}

/* Each status, at each call that has it. */
static void statuses(void) {
    mcf_handle handle = MCF_HANDLE_INIT;
    mcf_fault fault = {70, 80};
    printf("closed\n  command %" PRId32, command(&handle, "show"));
    printf(", undo %" PRId32 ", redo %" PRId32 "\n", mcf_undo(&handle), mcf_redo(&handle));
    look(&handle);
    lists(&handle, ARCS, NODES);
    printf("opened on a faulty text: %" PRId32, open_text(&handle, "p min 2 1\nn 3 1\n", &fault));
    printf(", line %" PRIu64 ", fault %d\n", fault.line, fault.number);
    printf("opened: %" PRId32 "\n", open_text(&handle, DIAMOND, &fault));
    printf("opened again: %" PRId32, open_text(&handle, DIAMOND, &fault));
    printf(", line %" PRIu64 ", fault %d\n", fault.line, fault.number);
    look(&handle);
    lists(&handle, ARCS, NODES);
    printf("arrays too short\n");
    lists(&handle, ARCS - 1, NODES - 1);
    printf("arrays too long\n");
    lists(&handle, ARCS + 1, NODES + 1);
    printf("cap 5 0: %" PRId32 "\n", command(&handle, "cap 5 0"));
    look(&handle);
    lists(&handle, ARCS, NODES);
    printf("arrays too short\n");
    lists(&handle, ARCS - 1, NODES - 1);
    printf("undo: %" PRId32 "\n", mcf_undo(&handle));
    look(&handle);
    lists(&handle, ARCS, NODES);
    printf("redo: %" PRId32, mcf_redo(&handle));
    printf(", and again: %" PRId32 "\n", mcf_redo(&handle));
    lists(&handle, ARCS, NODES);
    mcf_close(&handle);
    printf("closed: %" PRId32 "\n", mcf_undo(&handle));
}

/* Takes a line that is filled up with blanks to this length. */
static int32_t filled(mcf_handle *handle, const char *line, size_t length) {
    char text[LINE + 1];
    memset(text, ' ', sizeof text);
    memcpy(text, line, strlen(line));
    return mcf_command(handle, (const uint8_t *)text, length);
}

static void odd_lines(void) {
    mcf_handle handle = MCF_HANDLE_INIT;
    mcf_fault fault;
    if (open_text(&handle, DIAMOND, &fault) != MCF_DONE) return;
    printf("an empty line: %" PRId32 ", a blank one: %" PRId32 "\n", command(&handle, ""), command(&handle, " \t\r"));
    printf("of 1,024 bytes: %" PRId32, filled(&handle, "cap 5 4", LINE));
    printf(", blank: %" PRId32 "\n", filled(&handle, "", LINE));
    printf("of 1,025 bytes: %" PRId32, filled(&handle, "cap 5 4", LINE + 1));
    printf(", blank: %" PRId32 "\n", filled(&handle, "", LINE + 1));
    printf("with its carriage return: %" PRId32 "\n", command(&handle, "cap 5 3\r"));
    printf("with its line feed, show: %" PRId32, command(&handle, "show\n"));
    printf(", cap 5 3: %" PRId32 ", undo: %" PRId32 "\n", command(&handle, "cap 5 3\n"), command(&handle, "undo \n"));
    printf("two lines in one: %" PRId32 "\n", command(&handle, "cap 5 3\ncap 4 3"));
    look(&handle);
    mcf_close(&handle);
}

/* Takes lines one after the other, and prints what each answers. */
static void lines(mcf_handle *handle, const char *const *line) {
    printf("  ");
    for (; *line; line++) printf("%s: %" PRId32 "%s", *line, command(handle, *line), line[1] ? ", " : "\n");
}

static void groups(void) {
    mcf_handle handle = MCF_HANDLE_INIT;
    mcf_fault fault;
    if (open_text(&handle, DIAMOND, &fault) != MCF_DONE) return;
    printf("a group\n");
    lines(&handle, (const char *const[]){"end", "group", "cap 1 1", "", "cap 2 3", NULL});
    look(&handle);
    lines(&handle, (const char *const[]){"end", NULL});
    look(&handle);
    printf("  undo: %" PRId32 "\n", mcf_undo(&handle));
    lists(&handle, ARCS, NODES);
    printf("groups that are refused\n");
    lines(&handle, (const char *const[]){"group", "cap 5 3", "cap 9 1", "undo", "end", NULL});
    lines(&handle, (const char *const[]){"group", "group", "end", "group 1", NULL});
    printf("  group: %" PRId32, command(&handle, "group"));
    printf(", of 1,025 bytes: %" PRId32, filled(&handle, "cap 5 4", LINE + 1));
    printf(", end: %" PRId32 "\n", command(&handle, "end"));
    look(&handle);
    printf("a step while a group is open\n");
    lines(&handle, (const char *const[]){"cap 5 0", "group", "cap 5 3", NULL});
    printf("  undo: %" PRId32 "\n", mcf_undo(&handle));
    lines(&handle, (const char *const[]){"end", NULL});
    look(&handle);
    lines(&handle, (const char *const[]){"group", "cap 5 0", NULL});
    mcf_close(&handle);
    printf("opened again: %" PRId32 "\n", open_text(&handle, DIAMOND, &fault));
    lines(&handle, (const char *const[]){"end", NULL});
    mcf_close(&handle);
}

/* Opens a session and takes an edit with each growth refused in turn, until there are no more. */
static void refuse(void) {
    long opens = 0, edits = 0;
    int32_t status = MCF_MEMORY;
    for (long at = 1; status == MCF_MEMORY; at++) {
        mcf_handle handle = MCF_HANDLE_INIT;
        mcf_fault fault = {70, 80};
        growths = 0;
        refused = at;
        status = open_text(&handle, DIAMOND, &fault);
        refused = 0;
        if (status == MCF_MEMORY) {
            opens++;
            if (fault.line != 70 || fault.number != 80) printf("growth %ld: something was written\n", at);
        }
        mcf_close(&handle);
    }
    printf("growths refused to open: %s, and then %" PRId32 "\n", opens > 0 ? "each told" : "none", status);
    mcf_handle handle = MCF_HANDLE_INIT;
    mcf_fault fault;
    status = open_text(&handle, DIAMOND, &fault);
    for (long at = 1; status == MCF_DONE || status == 30; at++) {
        growths = 0;
        refused = at;
        status = command(&handle, "cap 5 3");
        refused = 0;
        if (status != 30) break;
        edits++;
    }
    printf("growths refused to an edit: %s, and then %" PRId32 "\n", edits > 0 ? "each told" : "none", status);
    look(&handle);
    mcf_close(&handle);
}

/* A path of 50,000 nodes, each arc of cost 1 and capacity 1, along which one unit goes. */
static char *path_text(size_t *length) {
    size_t room = 64 + (size_t)MANY * 32, at = 0;
    char *text = malloc(room);
    if (!text) return NULL;
    at += (size_t)sprintf(text + at, "p min %d %d\nn 1 1\nn %d -1\n", MANY, MANY - 1, MANY);
    for (int v = 1; v < MANY; v++) at += (size_t)sprintf(text + at, "a %d %d 0 1 1\n", v, v + 1);
    *length = at;
    return text;
}

/* Whether the flow is 1 everywhere, and the potentials are the greatest: they rise by 1 along the path, up to 0. */
static bool is_path(const int64_t *flow, const int64_t *potentials) {
    for (int k = 0; k < MANY - 1; k++) if (flow[k] != 1) return false;
    for (int v = 0; v < MANY; v++) if (potentials[v] != v + 1 - MANY) return false;
    return true;
}

/* Whether the cut has the first half of the path. */
static bool is_half(const bool *cut) {
    for (int v = 0; v < MANY; v++) if (cut[v] != (v < MANY / 2)) return false;
    return true;
}

static void print_path(mcf_handle *handle, int64_t *flow, int64_t *potentials) {
    memset(flow, 0, MANY * sizeof *flow);
    memset(potentials, 0, MANY * sizeof *potentials);
    printf("  flow %" PRId32, mcf_flow(handle, flow, MANY - 1));
    printf(", potentials %" PRId32, mcf_potentials(handle, potentials, MANY));
    printf(", %s\n", is_path(flow, potentials) ? "the path" : "another flow");
}

static void many(void) {
    size_t length = 0;
    char *text = path_text(&length);
    int64_t *flow = calloc(MANY, sizeof *flow), *potentials = calloc(MANY, sizeof *potentials);
    bool *cut = calloc(MANY, sizeof *cut);
    if (!text || !flow || !potentials || !cut) return;
    mcf_answer answer = {.flow = flow, .potentials = potentials, .cut = cut};
    answer.flow_room = answer.potentials_room = answer.cut_room = MANY;
    printf("50,000 nodes: %" PRId32, mcf_solve((const uint8_t *)text, length, &answer));
    printf(", worth %" PRIu64 ", %s\n", answer.view.worth_low, is_path(flow, potentials) ? "the path" : "another flow");

    mcf_handle handle = MCF_HANDLE_INIT;
    mcf_fault fault;
    printf("opened: %" PRId32 "\n", mcf_open(&handle, (const uint8_t *)text, length, 0, &fault));
    look(&handle);
    print_path(&handle, flow, potentials);
    printf("close %d: %" PRId32 "\n", MANY / 2, command(&handle, "close 25000"));
    look(&handle);
    printf("  cut %" PRId32, mcf_cut(&handle, cut, MANY));
    printf(", %s\n", is_half(cut) ? "the first half" : "other nodes");
    printf("undo: %" PRId32 "\n", mcf_undo(&handle));
    print_path(&handle, flow, potentials);
    mcf_close(&handle);
    free(text);
    free(flow);
    free(potentials);
    free(cut);
}

static void *all(void *nothing) {
    statuses();
    odd_lines();
    groups();
    refuse();
    many();
    return nothing;
}

int main(void) {
    pthread_attr_t small;
    pthread_t thread;
    if (pthread_attr_init(&small) || pthread_attr_setstacksize(&small, STACK)) return 2;
    if (pthread_create(&thread, &small, all, NULL) || pthread_join(thread, NULL)) return 2;
    return 0;
}
