/* A minimum-cost flow solver, for C and for whatever calls C: one call that answers a problem text, and a session of a
 * text or of arrays that answers edits of it.
 *
 * docs/EMBEDDING.md tells how to build the library and what to link it with. Problem texts, the lines of a session's
 * commands, and the numbers of faults and of refusals are those of docs/FORMATS.md. Arcs come in the order of their
 * lines in the text, and then those that were added; nodes in the order of their numbers, so that node 1 has entry 0.
 *
 * Each call is proved, by the contract in crates/mcf_c/src/lib.rt; nothing checks that C keeps the rules below:
 *
 * - A pointer leads to memory of the caller's that holds for the call as many entries as the length says; it is never
 *   null, not even where that is 0, and no two of a call's pointers lead to the same entry. Texts need no byte 0 at
 *   their end, and bools hold true or false.
 * - A handle is made by MCF_HANDLE_INIT, kept as it is, passed to these calls alone, and copied by nobody. One call at
 *   a time has it, always on one thread. mcf_close gives its memory back. Other threads may use other handles and
 *   answers meanwhile.
 * - The program's malloc, realloc and free are one allocator that aligns to 16. No call is made in a signal handler, or
 *   after fork in the child of a process with threads. A thread that makes calls has 256 kB of stack left for them.
 * - The processor is of the level x86-64-v2. The library cannot test it, since nothing in Rattle asks a processor: on an
 *   older one a call may end in SIGILL, so a program asks first, by __builtin_cpu_supports("x86-64-v2") of GCC and Clang.
 */
#ifndef MCF_H
#define MCF_H

#include <stdbool.h>
#include <stddef.h>
#include <stdint.h>

#ifdef __cplusplus
extern "C" {
#endif

/* What a call answers: MCF_DONE, the number of a refused command (1 to 33), or one of these. */
enum {
    MCF_DONE = 0,
    MCF_CLOSED = -1,       /* the handle has no session */
    MCF_OPEN = -2,         /* the handle has a session already */
    MCF_OTHER_LENGTH = -3, /* the array has another length than the list, or than the arrays beside it */
    MCF_NOT_THERE = -4,    /* no flow and no potentials where no flow is legal; no cut where one is */
    MCF_FAULT = -5,        /* the text has a fault, or an entry of the arrays has */
    MCF_MEMORY = -6,       /* memory was refused */
    MCF_TOO_SHORT = -7     /* a list of the answer has no room */
};

/* The first fault of a text: its line, counted from 1, and its number. A fault of the text's end has the last line. */
typedef struct mcf_fault {
    uint64_t line;
    uint8_t number;
} mcf_fault;

/* What is told of a problem. The worth of a best flow is its cost, for max what the source sends out: worth_high * 2^64
 * + worth_low; where it fits 64 bits, it is (int64_t)worth_low. Where no flow is legal, the worth is 0 and the shortage
 * says how many units are missing; else that is 0. */
typedef struct mcf_view {
    int64_t worth_high;
    uint64_t worth_low;
    int64_t shortage;
    uint64_t past;   /* how many moments of the session can be undone */
    uint64_t future; /* how many can be done again */
    uint32_t nodes;
    uint32_t arcs;
    bool feasible; /* whether a legal flow exists */
} mcf_view;

/* ---- a problem, answered at once */

/* Where an answer goes. The caller sets the pointers and how many entries there is room for; a call writes to the start
 * of that room, and changes neither pointers nor lengths. */
typedef struct mcf_answer {
    int64_t *flow; /* one entry an arc: a best flow */
    size_t flow_room;
    int64_t *potentials; /* one entry a node: potentials that prove the flow best */
    size_t potentials_room;
    bool *cut; /* one mark a node: a cut that proves that no flow is legal */
    size_t cut_room;
    mcf_view view;
    mcf_fault fault;
} mcf_answer;

/* Answers a problem text of the DIMACS formats min, max and asn, and keeps nothing. It answers
 *
 * - MCF_DONE: the view is filled in; flow and potentials too where it says feasible, else the cut. Other lists, what is
 *   beyond the end of a list, and the fault stay as they were.
 * - MCF_FAULT: the fault is filled in, and nothing else.
 * - MCF_TOO_SHORT: there is not room for each arc in flow, or for each node in potentials and in cut. view.nodes and
 *   view.arcs say how many there are, and nothing else is written. Nothing was solved yet.
 * - MCF_MEMORY: nothing is written.
 *
 * So a first call with no room asks for the sizes:
 *
 *     int64_t number;
 *     bool mark;
 *     mcf_answer answer = {.flow = &number, .potentials = &number, .cut = &mark};
 *     if (mcf_solve(text, length, &answer) == MCF_TOO_SHORT) ...
 */
int32_t mcf_solve(const uint8_t *text, size_t length, mcf_answer *answer);

/* ---- a session */

/* A session, or none. Both fields are the library's own. */
typedef struct mcf_handle {
    void *pointer;
    bool is_open;
} mcf_handle;

#define MCF_HANDLE_INIT {NULL, false}

/* Opens a session on a problem text, as mcf_solve takes it, and solves it: the present moment has a best flow, or a cut
 * that proves that none is legal. There is room for commands to add `extra` arcs. MCF_OPEN, MCF_FAULT (with the fault)
 * or MCF_MEMORY: the handle is as before. */
int32_t mcf_open(mcf_handle *handle, const uint8_t *text, size_t length, uint32_t extra, mcf_fault *fault);

/* A problem of the kind min, as arrays: one entry a node in supply, and one entry an arc in each of the others. Nodes
 * are counted from 1 in tail and head, and node 1 has the first entry of supply. Beside each pointer is the length of
 * its array. */
typedef struct mcf_arrays {
    const int64_t *supply; /* how much the node sends out; below 0 is what it takes in */
    size_t supply_length;
    const uint32_t *tail; /* the node that the arc leaves */
    size_t tail_length;
    const uint32_t *head; /* the node that it enters */
    size_t head_length;
    const int64_t *low; /* the least flow on it */
    size_t low_length;
    const int64_t *cap; /* the greatest flow on it */
    size_t cap_length;
    const int64_t *cost; /* the cost of a unit of flow on it, which may be below 0 */
    size_t cost_length;
} mcf_arrays;

/* The first fault of a problem's arrays: its number, as docs/FORMATS.md has it for a line of a text with the same numbers,
 * and the node or the arc that has it, each counted from 1; the other of the two is 0. Both are 0 where there are too
 * many nodes or arcs, or no node. Nodes come before arcs, and an arc's numbers in the order tail, head, low, cap, cost.
 *
 *  4: low or cap is below 0, or a number has more than 18 digits
 *  5: a number is beyond its limits: nodes 1 to 50,000, arcs 0 to 100,000, tail and head 1 to the number of nodes, low
 *     and cap 0 to 10^9, supply -10^9 to 10^9, cost -10^12 to 10^12
 * 15: low is above cap */
typedef struct mcf_array_fault {
    uint32_t node;
    uint32_t arc;
    uint8_t number;
} mcf_array_fault;

/* Opens a session on the problem of arrays: exactly the session that mcf_open opens on a text of the kind min with a
 * node line for each entry of supply and an arc line for each arc. It reads the arrays, and does not keep them.
 * MCF_OPEN, MCF_OTHER_LENGTH (the five arrays of arcs differ in length), MCF_FAULT (with the fault) or MCF_MEMORY: the
 * handle is as before.
 *
 *     mcf_arrays arrays = {supply, nodes, tail, arcs, head, arcs, low, arcs, cap, arcs, cost, arcs};
 *     mcf_array_fault fault;
 *     if (mcf_open_arrays(&handle, &arrays, 0, &fault) != MCF_DONE) ...
 */
int32_t mcf_open_arrays(mcf_handle *handle, const mcf_arrays *arrays, uint32_t extra, mcf_array_fault *fault);

/* Takes a line of a session's commands, without its line feed, such as "cap 5 3" (arc 5 may carry 3), and solves again.
 * A refusal by its number, or MCF_CLOSED: nothing has changed. "show" and "proof" change nothing; "mark NAME" names the
 * present moment, and "back NAME" goes there again. A blank line is refused by 2, wherever it comes, and a line of more
 * than 1,024 bytes, blank or not, by 1 if no group is open. A line feed that is left on is a byte of a word, so the line
 * is refused: "show\n" by 2, "cap 5 3\n" by 4.
 *
 * "group" opens a group: it and the lines after it that are not blank are answered by MCF_DONE, whatever they say, and
 * change nothing yet, up to "end". That closes the group and makes its edits together as one step, or refuses it by the
 * number of its first line that is refused; "end\n" does not close it. mcf_undo and mcf_redo in between go back or on at
 * once, and the group stays open. */
int32_t mcf_command(mcf_handle *handle, const uint8_t *line, size_t length);

/* Goes back one moment, or on one: to the very answer that stood there. 25 and 26: there is none. */
int32_t mcf_undo(mcf_handle *handle);
int32_t mcf_redo(mcf_handle *handle);

/* Tells the verdict of the present moment, its sizes, and how many moments are past and future; or MCF_CLOSED. */
int32_t mcf_look(mcf_handle *handle, mcf_view *view);

/* The next three copy a list of the present moment to an array of its length, which the view tells. MCF_NOT_THERE,
 * MCF_OTHER_LENGTH or MCF_CLOSED: nothing is written. Where no flow is legal, there is a cut alone, and elsewhere there
 * are a flow and potentials alone: of what is not there, MCF_NOT_THERE is answered whatever the length. */

/* A best flow, one entry an arc. */
int32_t mcf_flow(mcf_handle *handle, int64_t *flow, size_t arcs);

/* The greatest potentials that prove the flow best, one entry a node. */
int32_t mcf_potentials(mcf_handle *handle, int64_t *potentials, size_t nodes);

/* The cut that proves that no flow is legal and that docs/FORMATS.md chooses, one mark a node. */
int32_t mcf_cut(mcf_handle *handle, bool *cut, size_t nodes);

/* Ends the session and gives its memory back. A closed handle stays closed, and can be opened again. */
void mcf_close(mcf_handle *handle);

#ifdef __cplusplus
}
#endif

#endif
