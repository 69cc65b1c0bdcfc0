/* Prints how deep the stack of each call of mittenhelm.h goes, in bytes from the stack pointer before the call: its return address is
 * among them, arguments that the caller puts on the stack are not. Each call runs on a painted stack of its own, many times, on inputs that lead
 * it as deep as it goes: trees down to level 15, every level of keys, and refusals. A line is `stack NAME BYTES`. Then, as
 * `vertices ROOM NODES COUNT`, the tree of most vertices that fits a room of nodes. It exits 1 if a call answers otherwise than it must. */
#define _GNU_SOURCE
#include "mittenhelm.h"

#include <float.h>
#include <inttypes.h>
#include <math.h>
#include <stdio.h>
#include <stdlib.h>
#include <string.h>
#include <ucontext.h>

enum {
    MOST_NODES = 4096,
    MOST_LEAVES = (7 * MOST_NODES + 1) / 8,
    MOST_VERTICES = 19 * ((MOST_NODES - 1) / 8),
    LIMIT = 15,
    DEEPEST = 21
};

static void expect(bool holds, const char *what)
{
    if (!holds) {
        fprintf(stderr, "memory.c: wrong: %s\n", what);
        exit(1);
    }
}

/* What the calls are given, and what they give back. */

static uint64_t keys[MOST_NODES], leaves[MOST_LEAVES], queue[MOST_LEAVES], state[MITTENHELM_STATE_WORDS];
static float distances[MOST_NODES];
static uint16_t firsts[MOST_NODES];
static uint64_t vertices[MOST_VERTICES];
static uint8_t levels[MOST_VERTICES];
static uint64_t places[8 * MOST_VERTICES];
static uint32_t first_slabs[MOST_LEAVES], last_slabs[MOST_LEAVES], needed[1 << LIMIT];
static uint64_t node_room, leaf_room, node_count, leaf_count, vertex_room, vertex_count, report_room;
static uint32_t bound, level, which, exponent;
static uint64_t given, other;
static float distance;

static uint64_t key_out, place_out, cell_keys[8], cell_places[8];
static float x_out, y_out, z_out, half_out, distance_out, cell_distances[8];
static uint32_t number_out, first_out, last_out, greatest_out;

/* The paint. */

enum { STACK_SIZE = 1 << 16, SET_APART = 4096 };
static unsigned char stack[STACK_SIZE] __attribute__((aligned(64)));
static ucontext_t outside, inside;

/* Where a call goes to: to the library, or to `mark`, which has its place on the stack. */
typedef void (*function)(void);
static function volatile called;
static unsigned char *volatile before_call;

__attribute__((noinline)) static void mark(void)
{
    before_call = __builtin_dwarf_cfa();
}

#define CALLED(name) ((__typeof__(&name))called)

struct call {
    const char *name;
    function called;
    function make;
    size_t deepest;
};
static const struct call *made;

/* What leaves the stack again runs above the room that is set apart here, and so can't be taken for the call's. The room is named in
 * assembly, or a compiler would do without it. */
static void set_apart(void)
{
    unsigned char room[SET_APART];

    __asm__ volatile("" : : "r"(room) : "memory");
    made->make();
    __asm__ volatile("" : : "r"(room) : "memory");
}

static void run_inside(function to)
{
    called = to;
    expect(getcontext(&inside) == 0, "getcontext");
    inside.uc_stack.ss_sp = stack;
    inside.uc_stack.ss_size = sizeof stack;
    inside.uc_link = &outside;
    makecontext(&inside, set_apart, 0);
    expect(swapcontext(&outside, &inside) == 0, "swapcontext");
}

/* Makes a call once, and notes how deep it went. The paint changes, since a call might write it itself. */
static void measure(struct call *call)
{
    static unsigned char paint = 0x5a;
    const unsigned char *lowest = stack;
    size_t depth;

    made = call;
    run_inside(mark);
    paint ^= 0xff;
    memset(stack, paint, sizeof stack);
    run_inside(call->called);
    while (*lowest == paint)
        lowest++;
    expect(lowest > stack + SET_APART, "there is room below");
    expect(before_call > stack && before_call < stack + sizeof stack - SET_APART, "the place of the call");
    /* On Arm a call may need no stack at all. */
    depth = lowest < before_call ? (size_t)(before_call - lowest) : 0;
    if (call->deepest < depth)
        call->deepest = depth;
}

/* The calls. A call of the header that isn't among them is found missing by tools/memory. */

static uint64_t answer;

#define CALL(name, arguments)                                                                                              \
    static void make_##name(void)                                                                                          \
    {                                                                                                                      \
        answer = CALLED(mittenhelm_##name) arguments;                                                                      \
    }                                                                                                                      \
    static struct call call_##name = {"mittenhelm_" #name, (function)mittenhelm_##name, make_##name, 0};

#define BUILDING keys, node_room, distances, node_room, firsts, node_room, leaves, leaf_room, queue, leaf_room
#define REQUEST &key_out, &x_out, &y_out, &z_out, &half_out
#define NODES keys, node_count, distances, node_count, firsts, node_count
#define TREE NODES, leaves, leaf_count
#define WAYS keys, node_count, firsts, node_count
#define LIST 0, vertices, vertex_room, levels, vertex_room, &vertex_count
#define CELLS vertices, vertex_room, levels, vertex_room, places, 8 * vertex_room
#define FOUND &key_out, &distance_out, &place_out, &number_out
#define CELL cell_keys, cell_distances, cell_places, &number_out
#define SLABS given, level, exponent, &first_out, &last_out
#define REPORT exponent, first_slabs, report_room, last_slabs, report_room, needed, 1 << LIMIT, &greatest_out

CALL(level, (given))
CALL(is_cell, (given))
CALL(parent, (given))
CALL(add, (given, other))
CALL(sub, (given, other))
CALL(child, (given, which, &key_out))
CALL(half_size, (given, &half_out))
CALL(centre, (given, &x_out, &y_out, &z_out))
CALL(vertex, (given, level, which, &key_out))
CALL(is_inner, (given, level))
CALL(side, (given, level, which, &key_out))
CALL(should_refine, (level, bound, distance))
CALL(start, (bound, BUILDING, state, MITTENHELM_STATE_WORDS, REQUEST))
CALL(distance, (state, MITTENHELM_STATE_WORDS, BUILDING, distance, REQUEST))
CALL(sound, (TREE))
CALL(look_up, (TREE, given, FOUND))
CALL(list, (TREE, LIST))
CALL(dual_cell, (TREE, given, level, CELL))
CALL(slabs, (TREE, SLABS))
CALL(lifetimes, (TREE, REPORT))
CALL(look_up_trusting, (NODES, given, FOUND))
CALL(list_trusting, (WAYS, LIST))
CALL(cells_trusting, (WAYS, given, CELLS))
CALL(dual_cell_trusting, (NODES, given, level, CELL))
CALL(slabs_trusting, (WAYS, SLABS))
CALL(lifetimes_trusting, (WAYS, REPORT))

static struct call *const calls[] = {&call_level, &call_is_cell, &call_parent, &call_add, &call_sub, &call_child, &call_half_size,
    &call_centre, &call_vertex, &call_is_inner, &call_side, &call_should_refine, &call_start, &call_distance, &call_sound,
    &call_look_up, &call_list, &call_dual_cell, &call_slabs, &call_lifetimes, &call_look_up_trusting, &call_list_trusting,
    &call_cells_trusting, &call_dual_cell_trusting, &call_slabs_trusting, &call_lifetimes_trusting};

/* Inputs. */

static uint64_t first_cell(uint32_t of_level)
{
    return (uint64_t)1 << (3 * of_level);
}

/* Numbers without a pattern (an xorshift). */
static uint64_t any(void)
{
    static uint64_t bits = 88172645463325252u;
    bits ^= bits << 13;
    bits ^= bits >> 7;
    bits ^= bits << 17;
    return bits;
}

/* Every call on keys, of a number. */
static void measure_keys(uint64_t number)
{
    given = number;
    other = any();
    measure(&call_level);
    level = (uint32_t)answer;
    measure(&call_is_cell);
    measure(&call_parent);
    measure(&call_add);
    measure(&call_sub);
    measure(&call_half_size);
    measure(&call_centre);
    for (which = 0; which <= 8; which++) {
        measure(&call_child);
        measure(&call_vertex);
    }
    bound = LIMIT;
    distance = (float)any();
    measure(&call_should_refine);
    distance = 0;
    measure(&call_should_refine);
}

/* Every call on a vertex, of a number at a level. */
static void measure_vertex(uint64_t number, uint32_t at_level)
{
    given = number;
    level = at_level;
    measure(&call_is_inner);
    for (which = 0; which <= 8; which++)
        measure(&call_side);
}

/* Trees, by which cells of level 2 and more are split. Each goes down to level 15, but for the last two. */

static bool has_digits(uint64_t key, unsigned first, unsigned others)
{
    for (; key >= 64; key /= 8)
        if (key % 8 != others)
            return false;
    return key % 8 == first;
}

static bool to_first(uint64_t key)
{
    return has_digits(key, 0, 0);
}

static bool to_last(uint64_t key)
{
    return has_digits(key, 7, 7);
}

/* All eight cells at the middle of the cube. */
static bool to_middle(uint64_t key)
{
    for (unsigned first = 0; first < 8; first++)
        if (has_digits(key, first, 7 - first))
            return true;
    return false;
}

/* The cells on the diagonal, without those that touch the cube's outside. A split adds at most 19 vertices, the middles of the cell, its faces
 * and its edges; two cells of the diagonal share a corner at most, so here each adds all 19. */
static bool on_diagonal(uint64_t key)
{
    uint64_t k = key;

    for (; k > 1; k /= 8)
        if (k % 8 != 0 && k % 8 != 7)
            return false;
    for (k = key; k >= 128; k /= 8)
        ;
    return k == 64 + 7 || k == 64 + 56;
}

static bool none(uint64_t key)
{
    (void)key;
    return false;
}

/* Builds a tree in a room of nodes. What doesn't fit the room is not split. */
static void build(bool (*is_split)(uint64_t), uint32_t depth_bound, uint64_t room)
{
    uint64_t nodes_with_queued = 73;

    node_room = room;
    leaf_room = (7 * room + 1) / 8;
    bound = LIMIT + 1;
    measure(&call_start);
    expect(answer == MITTENHELM_ABOVE_FIFTEEN, "start of a bound above 15");
    bound = depth_bound;
    measure(&call_start);
    expect(answer == MITTENHELM_ACCEPTED, "start");
    distance = NAN;
    measure(&call_distance);
    expect(answer == MITTENHELM_NOT_FINITE, "a distance that is NaN");
    while (state[MITTENHELM_STATE_ASKED] != 0) {
        uint64_t asked = state[MITTENHELM_STATE_ASKED];
        bool splits = asked >= 64 && is_split(asked) && nodes_with_queued + 8 <= room;
        if (splits && asked < first_cell(depth_bound))
            nodes_with_queued += 8;
        distance = splits ? 0.0f : FLT_MAX;
        measure(&call_distance);
        expect(answer == MITTENHELM_ACCEPTED, "distance");
    }
    measure(&call_distance);
    expect(answer == MITTENHELM_NOTHING_ASKED, "distance after the last");
    node_count = state[MITTENHELM_STATE_NODES];
    leaf_count = state[MITTENHELM_STATE_LEAVES];
    expect(node_count == nodes_with_queued, "the number of nodes");
}

/* A call in both its forms, which must answer alike. */
static void measure_both(struct call *checked, struct call *trusting, uint32_t expected, const char *what)
{
    measure(checked);
    expect(answer == expected, what);
    measure(trusting);
    expect(answer == expected, what);
}

/* Refused; with room for all that a tree could have, in one pass; and with room for those that there are, in two. */
static void list(void)
{
    uint64_t count;

    vertex_room = 0;
    measure_both(&call_list, &call_list_trusting, MITTENHELM_LIST_FULL, "list without room");
    vertex_room = MOST_VERTICES;
    measure_both(&call_list, &call_list_trusting, MITTENHELM_ACCEPTED, "list");
    count = vertex_room = vertex_count;
    measure_both(&call_list, &call_list_trusting, MITTENHELM_ACCEPTED, "list in places that are just enough");
    expect(vertex_count == count, "the same list");
}

/* Vertices with their places, in all rooms: none, for one, which is the last of the list that was made before, and for all. */
static void cells(void)
{
    vertex_room = 0;
    given = 0;
    measure(&call_cells_trusting);
    expect(answer == 0, "cells without room");
    vertex_room = 1;
    given = vertices[vertex_count - 1];
    measure(&call_cells_trusting);
    expect(answer == 1 && vertices[0] == given, "the last cell");
    vertex_room = MOST_VERTICES;
    given = 0;
    measure(&call_cells_trusting);
    expect(answer == vertex_count, "as many cells as the list has");
}

/* A list of one who trusts a tree that goes deeper than the limit: the walk ends there, one level deeper than in a sound one. */
static void list_too_deep(void)
{
    /* The first of the last eight nodes is split. */
    const uint64_t parent = node_count - 8;

    expect(keys[parent] == first_cell(LIMIT), "the first cell of level 15");
    for (unsigned child = 0; child < 8; child++) {
        keys[node_count + child] = first_cell(LIMIT + 1) + child;
        firsts[node_count + child] = 0;
    }
    firsts[parent] = (uint16_t)node_count;
    node_count += 8;
    vertex_room = MOST_VERTICES;
    measure(&call_list_trusting);
    expect(answer == MITTENHELM_ACCEPTED, "list of a tree that is too deep");
    given = 0;
    measure(&call_cells_trusting);
    expect(answer == vertex_count, "cells of a tree that is too deep");
    exponent = LIMIT;
    report_room = MOST_LEAVES;
    measure(&call_lifetimes_trusting);
    expect(answer == MITTENHELM_ACCEPTED && greatest_out > 0, "lifetimes in a tree that is too deep");
    node_count -= 8;
    firsts[parent] = 0;
}

static void look_up(uint32_t expected, const char *what)
{
    measure_both(&call_look_up, &call_look_up_trusting, expected, what);
}

static void dual_cell(uint32_t expected, const char *what)
{
    measure_both(&call_dual_cell, &call_dual_cell_trusting, expected, what);
}

static void slabs(uint32_t expected, const char *what)
{
    measure_both(&call_slabs, &call_slabs_trusting, expected, what);
}

/* The slabs of one cell by exponents on both sides of its nodes' levels, and above 15. */
static void slabs_of_exponents(void)
{
    for (exponent = 0; exponent <= LIMIT; exponent += 3) {
        slabs(MITTENHELM_ACCEPTED, "slabs");
        expect(first_out <= last_out && last_out < (uint32_t)1 << exponent, "slabs that there are");
    }
    exponent = LIMIT + 1;
    slabs(MITTENHELM_ABOVE_FIFTEEN, "slabs of an exponent above 15");
}

static void lifetimes(uint32_t expected, const char *what)
{
    measure_both(&call_lifetimes, &call_lifetimes_trusting, expected, what);
}

/* Lifetimes by every exponent, in tables that are just long enough and in such that aren't, and by one above 15. */
static void lifetimes_of_exponents(void)
{
    for (exponent = 0; exponent <= LIMIT; exponent++) {
        report_room = leaf_count;
        lifetimes(MITTENHELM_ACCEPTED, "lifetimes");
        expect((greatest_out > 0) == (leaf_count > 1) && greatest_out <= leaf_count, "a greatest number of leaves");
        report_room = leaf_count - 1;
        lifetimes(MITTENHELM_REPORT_SHORT, "lifetimes without room");
    }
    lifetimes(MITTENHELM_ABOVE_FIFTEEN, "lifetimes of an exponent above 15");
}

/* Every call that reads a tree, of all of its nodes and vertices. */
static void read_all(void)
{
    measure(&call_sound);
    expect(answer == 1, "a finished build is sound");
    list();
    cells();
    lifetimes_of_exponents();
    for (uint64_t i = 0; i < node_count; i++) {
        given = keys[i];
        look_up(MITTENHELM_ACCEPTED, "look_up");
        expect(place_out == i, "the place of a node, or 0 for the root, which no lookup finds");
        given = first_cell(DEEPEST) + any() % first_cell(DEEPEST);
        look_up(MITTENHELM_ACCEPTED, "look_up of level 21");
    }
    for (uint64_t i = 0; i < vertex_count; i++) {
        given = vertices[i];
        level = levels[i];
        dual_cell(MITTENHELM_ACCEPTED, "dual_cell");
        slabs_of_exponents();
        level = LIMIT + 5;
        dual_cell(MITTENHELM_ACCEPTED, "dual_cell of a finer level");
        slabs_of_exponents();
    }
    given = 0;
    dual_cell(MITTENHELM_NOT_A_VERTEX, "dual_cell of no vertex");
    slabs(MITTENHELM_NOT_A_VERTEX, "slabs of no vertex");
    look_up(MITTENHELM_NOT_A_CELL, "look_up of no cell");
}

static void print_most_vertices(uint64_t room)
{
    build(on_diagonal, LIMIT, room);
    list();
    printf("vertices %" PRIu64 " %" PRIu64 " %" PRIu64 "\n", room, node_count, vertex_count);
}

int main(void)
{
    bool (*const rules[])(uint64_t) = {to_first, to_last, to_middle};

    for (uint32_t l = 0; l <= DEEPEST; l++) {
        measure_keys(first_cell(l));
        measure_keys(2 * (first_cell(l) - 1) + 1);
        for (int i = 0; i < 20; i++)
            measure_keys(first_cell(l) + any() % first_cell(l));
    }
    measure_keys(0);
    measure_keys(2);
    for (size_t i = 0; i < sizeof rules / sizeof rules[0]; i++) {
        build(rules[i], LIMIT, MOST_NODES);
        expect(keys[node_count - 1] >= first_cell(LIMIT), "a tree down to level 15");
        if (rules[i] == to_first)
            list_too_deep();
        read_all();
        for (uint64_t v = 0; v < vertex_count; v++)
            measure_vertex(vertices[v], levels[v]);
    }
    measure_vertex(0, 0);
    build(none, 2, MOST_NODES);
    read_all();
    node_count = leaf_count = 1;
    firsts[0] = 0;
    leaves[0] = 1;
    given = (uint64_t)15 << 60;
    level = 1;
    dual_cell(MITTENHELM_NOT_A_VERTEX, "dual_cell of the root alone");
    slabs(MITTENHELM_NOT_A_VERTEX, "slabs of the root alone");
    lifetimes_of_exponents();
    for (size_t i = 0; i < sizeof calls / sizeof calls[0]; i++)
        printf("stack %s %zu\n", calls[i]->name, calls[i]->deepest);
    print_most_vertices(MOST_NODES);
    print_most_vertices(MOST_NODES / 4);
    return 0;
}
