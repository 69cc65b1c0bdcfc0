/* Uses every function of the header, in the language that C and C++ share. Exits 0 if each answers as document 01 says. */
#include "expect.h"
#include "mittenhelm.h"

#include <math.h>
#include <string.h>

/* The tables of a build. */
static uint64_t keys[73], leaves[64], queue[64];
static float distances[73];
static uint16_t firsts[73];

/* A finished tree of bound 2: its nodes, and all of it; and all tables of its build, with a queue of so many places. */
#define NODES keys, 73, distances, 73, firsts, 73
#define TREE NODES, leaves, 64
#define TABLES TREE, queue, queue_length

/* Gives what is no distance while a cell is asked for: it is refused, and the build stands where it stood. */
static void refuse_broken(uint64_t *state, uint64_t queue_length)
{
    const float broken[3] = {INFINITY, -INFINITY, NAN};
    uint64_t state_before[MITTENHELM_STATE_WORDS], keys_before[73], leaves_before[64], queue_before[64], key = 5;
    uint16_t firsts_before[73];
    float distances_before[73], x = 5, y = 5, z = 5, half = 5;
    int i;

    memcpy(state_before, state, sizeof state_before);
    memcpy(keys_before, keys, sizeof keys);
    memcpy(distances_before, distances, sizeof distances);
    memcpy(firsts_before, firsts, sizeof firsts);
    memcpy(leaves_before, leaves, sizeof leaves);
    memcpy(queue_before, queue, sizeof queue);
    for (i = 0; i < 3; i++) {
        expect(mittenhelm_distance(state, MITTENHELM_STATE_WORDS, TABLES, broken[i], &key, &x, &y, &z, &half)
            == MITTENHELM_NOT_FINITE, "a distance that is infinite or NaN");
        expect(memcmp(state_before, state, sizeof state_before) == 0, "the state after a broken distance");
        expect(memcmp(keys_before, keys, sizeof keys) == 0 && memcmp(distances_before, distances, sizeof distances) == 0
            && memcmp(firsts_before, firsts, sizeof firsts) == 0 && memcmp(leaves_before, leaves, sizeof leaves) == 0
            && memcmp(queue_before, queue, sizeof queue) == 0,
            "the tables after a broken distance");
        expect(key == 5 && x == 5 && y == 5 && z == 5 && half == 5, "no request after a broken distance");
    }
}

/* A build of bound 2, with a queue of so many places: the number of the distance that was refused, or 0 where it finishes. */
static unsigned refused_at(uint64_t queue_length, uint32_t *refusal)
{
    uint64_t state[MITTENHELM_STATE_WORDS], key = 5;
    float x = 5, y = 5, z = 5, half = 5;
    unsigned given = 0;

    /* A build writes the first child of each node, a leaf's too. */
    memset(firsts, 0xff, sizeof firsts);
    *refusal = mittenhelm_start(2, TABLES, state, MITTENHELM_STATE_WORDS, &key, &x, &y, &z, &half);
    expect(*refusal == MITTENHELM_ACCEPTED, "start");
    expect(key == 1 && x == 0.5f && y == 0.5f && z == 0.5f && half == 0.5f, "the root is asked for first");
    while (state[MITTENHELM_STATE_ASKED] != 0) {
        expect(state[MITTENHELM_STATE_ASKED] == key && state[MITTENHELM_STATE_NODES] == given, "state");
        refuse_broken(state, queue_length);
        given++;
        *refusal = mittenhelm_distance(state, MITTENHELM_STATE_WORDS, TABLES, (float)given, &key, &x, &y, &z, &half);
        if (*refusal != MITTENHELM_ACCEPTED)
            return given;
    }
    expect(given == 73 && state[MITTENHELM_STATE_NODES] == 73 && state[MITTENHELM_STATE_LEAVES] == 64, "counts");
    expect(keys[0] == 1 && keys[9] == 64 && keys[72] == 127 && leaves[0] == 64 && leaves[63] == 127, "keys and leaves");
    expect(distances[0] == 1.0f && distances[72] == 73.0f, "distances");
    expect(firsts[0] == 1 && firsts[1] == 9 && firsts[8] == 65 && firsts[9] == 0 && firsts[72] == 0, "first children");
    expect(state[MITTENHELM_STATE_FIRSTS_LENGTH] == 73 && state[MITTENHELM_STATE_LEAVES_LENGTH] == 64, "lengths");
    expect(key == 127 && x == 0.875f && y == 0.875f && z == 0.875f && half == 0.125f, "the last cell that was asked for");
    *refusal = mittenhelm_distance(state, MITTENHELM_STATE_WORDS, TABLES, NAN, &key, &x, &y, &z, &half);
    expect(*refusal == MITTENHELM_NOTHING_ASKED, "a distance after the last");
    *refusal = mittenhelm_distance(state, MITTENHELM_STATE_WORDS - 1, TABLES, NAN, &key, &x, &y, &z, &half);
    expect(*refusal == MITTENHELM_NOT_FITTING, "a word too few");
    *refusal = mittenhelm_distance(state, MITTENHELM_STATE_WORDS, keys, 73, distances, 73, firsts, 72, leaves, 64, queue,
        queue_length, 1.0f, &key, &x, &y, &z, &half);
    expect(*refusal == MITTENHELM_NOT_FITTING, "another table");
    return 0;
}

/* What a list needs of it; and the out parameters of a lookup and of a dual cell. */
#define CELLS keys, 73, firsts, 73
#define FOUND &found, &distance, &place, &tried
#define CELL cell_keys, cell_distances, cell_places, &tried

enum { ROOM = 10 };

/* Asks for the vertices with the places of their nodes, ten at a time: those of the list of 27, with the same dual cells. */
static void read_cells(const uint64_t *list)
{
    uint64_t vertices[ROOM], cell_keys[8], from = 0;
    float cell_distances[8];
    uint8_t levels[ROOM];
    uint64_t places[8 * ROOM + 7], cell_places[8], count = ROOM, total = 0, i, entry;
    uint32_t tried;

    while (count == ROOM) {
        count = mittenhelm_cells_trusting(CELLS, from, vertices, ROOM, levels, ROOM, places, 8 * ROOM + 7);
        expect(count == (total < 20 ? ROOM : 7), "cells_trusting");
        if (wrong)
            return;
        for (i = 0; i < count; i++) {
            expect(vertices[i] == list[total + i] && levels[i] == 2, "the vertices in turn");
            expect(mittenhelm_dual_cell(TREE, vertices[i], levels[i], cell_keys, cell_distances, cell_places, &tried)
                == MITTENHELM_ACCEPTED, "dual_cell of each");
            for (entry = 0; entry < 8; entry++) {
                uint64_t place = places[8 * i + entry];
                expect(place < 73 && keys[place] == cell_keys[entry] && distances[place] == cell_distances[entry]
                    && place == cell_places[entry], "the places of a dual cell");
            }
        }
        total += count;
        from = vertices[count - 1] + 1;
    }
    expect(total == 27, "all vertices");
    expect(mittenhelm_cells_trusting(CELLS, 0, vertices, ROOM, levels, ROOM, places, 7) == 0, "no room for eight places");
}

/* Lists with room for all vertices that nine splits could give: nothing is written behind the 27. */
static void list_in_one_pass(void)
{
    uint64_t vertices[19 * 9];
    uint8_t levels[19 * 9];
    uint64_t count = 5;

    vertices[27] = 5;
    levels[27] = 5;
    expect(mittenhelm_list(TREE, 0, vertices, 19 * 9, levels, 19 * 9, &count) == MITTENHELM_ACCEPTED && count == 27, "a long list");
    expect(vertices[27] == 5 && levels[27] == 5, "behind a long list");
    expect(mittenhelm_list_trusting(CELLS, 0, vertices, 19 * 9, levels, 19 * 9, &count) == MITTENHELM_ACCEPTED && count == 27,
        "a long list of a trusted tree");
    expect(vertices[27] == 5 && levels[27] == 5, "behind a long list of a trusted tree");
}

/* The header's example: the root and its eight children, and the vertex in the middle of the cube. */
static void read_nine(uint64_t middle)
{
    const uint64_t nine[9] = {1, 8, 9, 10, 11, 12, 13, 14, 15}, eight[8] = {8, 9, 10, 11, 12, 13, 14, 15};
    const float nine_distances[9] = {0, 1, 2, 3, 4, 5, 6, 7, 8};
    const uint16_t nine_firsts[9] = {1, 0, 0, 0, 0, 0, 0, 0, 0};
    const uint32_t firsts_of_exponents[4] = {0, 0, 1, 2}, lasts_of_exponents[4] = {0, 1, 3, 6};
    uint64_t cell_keys[8], cell_places[8], vertex = 5;
    float cell_distances[8], x = 5, y = 5, z = 5;
    uint32_t tried = 5, entry, exponent, first = 5, last = 7;
    uint32_t first_slabs[9] = {5, 5, 5, 5, 5, 5, 5, 5, 5}, last_slabs[9] = {5, 5, 5, 5, 5, 5, 5, 5, 5}, needed[5] = {5, 5, 5, 5, 5};
    uint32_t greatest = 5;

    expect(mittenhelm_dual_cell(nine, 9, nine_distances, 9, nine_firsts, 9, eight, 8, middle, 1, cell_keys, cell_distances,
        cell_places, &tried) == MITTENHELM_ACCEPTED && tried == 8, "dual_cell of nine nodes");
    for (entry = 0; entry < 8; entry++) {
        expect(cell_keys[entry] == 15 - entry && cell_places[entry] == 8 - entry && cell_distances[entry] == 8.0f - (float)entry,
            "the keys 15 to 8 at the places 8 to 1");
        expect(mittenhelm_vertex(cell_keys[entry], 1, entry, &vertex) == MITTENHELM_ACCEPTED && vertex == middle,
            "an entry has the vertex at its corner of the same number");
    }
    expect(mittenhelm_centre(cell_keys[0], &x, &y, &z) == MITTENHELM_ACCEPTED && x > 0.5f && y > 0.5f && z > 0.5f,
        "entry 0 lies above on all axes");
    expect(mittenhelm_centre(cell_keys[7], &x, &y, &z) == MITTENHELM_ACCEPTED && x < 0.5f && y < 0.5f && z < 0.5f,
        "entry 7 lies below on all axes");

    /* The centres are at the heights 1/4 and 3/4. */
    for (exponent = 0; exponent < 4; exponent++) {
        first = 5;
        last = 7;
        expect(mittenhelm_slabs(nine, 9, nine_distances, 9, nine_firsts, 9, eight, 8, middle, 1, exponent, &first, &last)
            == MITTENHELM_ACCEPTED, "slabs of nine nodes");
        expect(first == firsts_of_exponents[exponent] && last == lasts_of_exponents[exponent], "from 1/4 to 3/4");
        first = 5;
        last = 7;
        expect(mittenhelm_slabs_trusting(nine, 9, nine_firsts, 9, middle, 1, exponent, &first, &last) == MITTENHELM_ACCEPTED,
            "slabs_trusting of nine nodes");
        expect(first == firsts_of_exponents[exponent] && last == lasts_of_exponents[exponent], "from 1/4 to 3/4 of a trusted tree");
    }

    /* Of four slabs each leaf is needed from 1 to 3. */
    expect(mittenhelm_lifetimes(nine, 9, nine_distances, 9, nine_firsts, 9, eight, 8, 2, first_slabs, 9, last_slabs, 8, needed, 4,
        &greatest) == MITTENHELM_ACCEPTED && greatest == 8, "lifetimes of nine nodes");
    for (entry = 0; entry < 8; entry++)
        expect(first_slabs[entry] == 1 && last_slabs[entry] == 3, "each leaf from 1 to 3");
    expect(needed[0] == 0 && needed[1] == 8 && needed[2] == 8 && needed[3] == 8, "leaves needed at four slabs");
    memset(first_slabs, 0, sizeof first_slabs);
    memset(last_slabs, 0, sizeof last_slabs);
    memset(needed, 0, sizeof needed);
    greatest = 5;
    needed[4] = first_slabs[8] = last_slabs[8] = 5;
    expect(mittenhelm_lifetimes_trusting(nine, 9, nine_firsts, 9, 2, first_slabs, 8, last_slabs, 9, needed, 5, &greatest)
        == MITTENHELM_ACCEPTED && greatest == 8, "lifetimes_trusting of nine nodes");
    for (entry = 0; entry < 8; entry++)
        expect(first_slabs[entry] == 1 && last_slabs[entry] == 3, "each leaf from 1 to 3 of a trusted tree");
    expect(needed[0] == 0 && needed[1] == 8 && needed[2] == 8 && needed[3] == 8, "leaves needed at four slabs of a trusted tree");
    expect(needed[4] == 5 && first_slabs[8] == 5 && last_slabs[8] == 5, "behind a report");
}

static void set_all(uint64_t *places, uint64_t number)
{
    int i;

    for (i = 0; i < 8; i++)
        places[i] = number;
}

static bool all_are(const uint64_t *places, uint64_t number)
{
    int i;

    for (i = 0; i < 8; i++)
        if (places[i] != number)
            return false;
    return true;
}

/* The cells on the eight sides of a vertex at level 2, whose 64 cells stand from place 9 on: each at its place, with its distance. */
static void expect_sides(uint64_t vertex, const uint64_t *cell_keys, const float *cell_distances, const uint64_t *cell_places,
    const char *what)
{
    uint64_t cell = 5;
    uint32_t side;

    for (side = 0; side < 8; side++) {
        expect(mittenhelm_side(vertex, 2, side, &cell) == MITTENHELM_ACCEPTED && cell_keys[side] == cell, what);
        expect(cell_places[side] == 9 + (cell - 64) && keys[cell_places[side]] == cell
            && distances[cell_places[side]] == cell_distances[side], what);
    }
}

/* The slabs of cells in the tree that the last build left: refusals in their order, which leave both numbers as they are. */
static void read_slabs(uint64_t middle)
{
    uint32_t first = 5, last = 7;

    expect(mittenhelm_slabs(NODES, leaves, 63, 71, 2, 16, &first, &last) == MITTENHELM_NOT_SOUND, "slabs without a leaf");
    expect(mittenhelm_slabs(NODES, leaves, 63, middle, 2, 16, &first, &last) == MITTENHELM_NOT_SOUND,
        "an unsound tree goes before an exponent of 16");
    expect(mittenhelm_slabs(TREE, 71, 2, 15, &first, &last) == MITTENHELM_NOT_A_VERTEX, "slabs of no vertex");
    expect(mittenhelm_slabs(TREE, 71, 2, 16, &first, &last) == MITTENHELM_NOT_A_VERTEX,
        "no vertex goes before an exponent of 16");
    expect(mittenhelm_slabs(TREE, middle, 2, 16, &first, &last) == MITTENHELM_ABOVE_FIFTEEN, "a slab exponent of 16");
    expect(mittenhelm_slabs_trusting(CELLS, 71, 2, 16, &first, &last) == MITTENHELM_NOT_A_VERTEX, "trust and no vertex");
    expect(mittenhelm_slabs_trusting(keys, 1, firsts, 1, middle, 2, 16, &first, &last) == MITTENHELM_NOT_A_VERTEX,
        "slabs_trusting of the root alone");
    expect(mittenhelm_slabs_trusting(CELLS, middle, 2, 16, &first, &last) == MITTENHELM_ABOVE_FIFTEEN, "trust and an exponent of 16");
    expect(first == 5 && last == 7, "refused slabs");

    /* The centres are at the heights 3/8 and 5/8. */
    expect(mittenhelm_slabs(TREE, middle, 2, 2, &first, &last) == MITTENHELM_ACCEPTED && first == 1 && last == 2, "slabs");
    expect(mittenhelm_slabs(TREE, middle, 2, 15, &first, &last) == MITTENHELM_ACCEPTED && first == 3 << 12 && last == 5 << 12,
        "slabs of the greatest exponent");
    expect(mittenhelm_slabs_trusting(CELLS, middle, 2, 3, &first, &last) == MITTENHELM_ACCEPTED && first == 3 && last == 5,
        "slabs_trusting");
    expect(mittenhelm_slabs_trusting(keys, 73, firsts, 0, middle, 2, 3, &first, &last) == MITTENHELM_ACCEPTED && first == 4
        && last == 4, "without a way down all is at 1/2");
}

/* When the leaves of the tree that the last build left are needed: refusals in their order, which leave all tables as they are. */
static void read_lifetimes(void)
{
    uint32_t first[64], last[64], needed[8], greatest = 5, i;

    for (i = 0; i < 64; i++)
        first[i] = last[i] = needed[i % 8] = 5;
    expect(mittenhelm_lifetimes(NODES, leaves, 63, 16, first, 63, last, 64, needed, 8, &greatest) == MITTENHELM_NOT_SOUND,
        "an unsound tree goes before an exponent of 16 and short tables");
    expect(mittenhelm_lifetimes(TREE, 16, first, 63, last, 64, needed, 8, &greatest) == MITTENHELM_ABOVE_FIFTEEN,
        "an exponent of 16 goes before short tables");
    expect(mittenhelm_lifetimes(TREE, 3, first, 63, last, 64, needed, 8, &greatest) == MITTENHELM_REPORT_SHORT, "63 first slabs");
    expect(mittenhelm_lifetimes(TREE, 3, first, 64, last, 63, needed, 8, &greatest) == MITTENHELM_REPORT_SHORT, "63 last slabs");
    expect(mittenhelm_lifetimes(TREE, 3, first, 64, last, 64, needed, 7, &greatest) == MITTENHELM_REPORT_SHORT, "seven numbers");
    expect(mittenhelm_lifetimes_trusting(CELLS, 16, first, 63, last, 64, needed, 8, &greatest) == MITTENHELM_ABOVE_FIFTEEN,
        "trust and an exponent of 16");
    expect(mittenhelm_lifetimes_trusting(CELLS, 3, first, 63, last, 64, needed, 8, &greatest) == MITTENHELM_REPORT_SHORT,
        "trust and 63 first slabs");
    expect(mittenhelm_lifetimes_trusting(CELLS, 3, first, 64, last, 63, needed, 8, &greatest) == MITTENHELM_REPORT_SHORT,
        "trust and 63 last slabs");
    expect(mittenhelm_lifetimes_trusting(CELLS, 3, first, 64, last, 64, needed, 7, &greatest) == MITTENHELM_REPORT_SHORT,
        "trust and seven numbers");
    for (i = 0; i < 64; i++)
        expect(first[i] == 5 && last[i] == 5 && needed[i % 8] == 5 && greatest == 5, "refused lifetimes");

    /* Of eight slabs the four layers have their centres in 1, 3, 5 and 7; each is needed from the layer below to that above. */
    expect(mittenhelm_lifetimes(TREE, 3, first, 64, last, 64, needed, 8, &greatest) == MITTENHELM_ACCEPTED && greatest == 48,
        "lifetimes");
    expect(first[0] == 1 && last[0] == 3 && first[7] == 1 && last[7] == 5 && first[56] == 3 && last[56] == 7 && first[63] == 5
        && last[63] == 7, "a leaf of each layer");
    expect(needed[0] == 0 && needed[1] == 32 && needed[3] == 48 && needed[4] == 32 && needed[7] == 32, "numbers of leaves");
    expect(mittenhelm_lifetimes_trusting(keys, 1, firsts, 0, 1, first, 1, last, 1, needed, 2, &greatest) == MITTENHELM_ACCEPTED
        && first[0] == 1 && last[0] == 0 && needed[0] == 0 && needed[1] == 0 && greatest == 0, "the root alone is never needed");
    expect(first[1] == 1 && last[1] == 3 && needed[2] == 32, "behind the root's report");
}

/* Reads the tree that the last build left. Its distances are 1 for the root, then 2, 3 and so on, 73 for the last cell. */
static void read_tree(uint64_t middle)
{
    uint64_t vertices[30], cell_keys[8], cell_places[8], found = 5, place = 5, count = 5;
    float cell_distances[8], distance = 5;
    uint8_t levels[30];
    uint32_t tried = 5;
    int i;

    expect(mittenhelm_sound(TREE), "sound");
    expect(!mittenhelm_sound(keys, 73, distances, 72, firsts, 73, leaves, 64), "a distance too few");
    expect(!mittenhelm_sound(keys, 73, distances, 73, firsts, 72, leaves, 64), "a first child too few");
    firsts[8] = 57;
    expect(!mittenhelm_sound(TREE), "the first child of another node");
    firsts[8] = 65;
    distances[72] = -INFINITY;
    expect(!mittenhelm_sound(TREE), "a distance that is infinite");
    expect(mittenhelm_look_up(TREE, 71, FOUND) == MITTENHELM_NOT_SOUND && found == 5 && place == 5, "look_up beside it");
    distances[72] = 73.0f;

    expect(mittenhelm_look_up(TREE, 8 * 71 + 3, FOUND) == MITTENHELM_ACCEPTED, "look_up");
    expect(found == 71 && distance == 17.0f && place == 16 && tried == 2, "the deepest ancestor");
    expect(place < 73 && keys[place] == found && distances[place] == distance && firsts[place] == 0, "what stands at its place");
    expect(mittenhelm_look_up(TREE, 16, FOUND) == MITTENHELM_NOT_A_CELL, "look_up of no cell");
    expect(mittenhelm_look_up(NODES, leaves, 63, 16, FOUND) == MITTENHELM_NOT_SOUND, "look_up without a leaf");
    expect(found == 71 && distance == 17.0f && place == 16 && tried == 2, "refused lookups");
    expect(mittenhelm_look_up(TREE, 1, FOUND) == MITTENHELM_ACCEPTED, "look_up of the root");
    expect(found == 0 && distance == 0.0f && place == 0 && tried == 0, "the root is never tried");

    vertices[2] = 5;
    levels[2] = 5;
    expect(mittenhelm_list(TREE, 4, vertices, 30, levels, 30, &count) == MITTENHELM_LIST_FULL, "list in 26 places");
    expect(count == 5, "a refused list");
    expect(mittenhelm_list(TREE, 3, vertices, 30, levels, 30, &count) == MITTENHELM_ACCEPTED, "list in 27 places");
    expect(count == 27 && vertices[2] == 5 && levels[2] == 5, "before the list");
    for (i = 3; i < 30; i++)
        expect(mittenhelm_is_inner(vertices[i], 2) && levels[i] == 2 && (i == 3 || vertices[i - 1] < vertices[i]), "the list");

    expect(mittenhelm_dual_cell(TREE, middle, 2, CELL) == MITTENHELM_ACCEPTED, "dual_cell");
    expect(cell_keys[0] == 120 && cell_keys[7] == 71 && cell_distances[7] == 17.0f && tried == 8, "the middle's dual cell");
    expect_sides(middle, cell_keys, cell_distances, cell_places, "the nodes of the middle's dual cell");
    set_all(cell_places, 5);
    expect(mittenhelm_dual_cell(TREE, 71, 2, CELL) == MITTENHELM_NOT_A_VERTEX, "no vertex");
    expect(mittenhelm_dual_cell(NODES, leaves, 63, middle, 2, CELL) == MITTENHELM_NOT_SOUND, "dual_cell without a leaf");
    expect(all_are(cell_places, 5), "the places of refused dual cells");

    expect(mittenhelm_look_up_trusting(NODES, 963, FOUND) == MITTENHELM_ACCEPTED, "look_up_trusting");
    expect(found == 120 && distance == 66.0f && place == 65 && tried == 2, "the deepest ancestor in a trusted tree");
    expect(mittenhelm_look_up_trusting(NODES, 16, FOUND) == MITTENHELM_NOT_A_CELL && place == 65, "trust and no cell");
    expect(mittenhelm_look_up_trusting(keys, 73, distances, 0, firsts, 73, 120, FOUND) == MITTENHELM_ACCEPTED,
        "look_up_trusting without distances");
    expect(found == 120 && distance == 0.0f && place == 65 && tried == 1, "0 without a distance");
    expect(mittenhelm_look_up_trusting(keys, 73, distances, 73, firsts, 0, 120, FOUND) == MITTENHELM_ACCEPTED,
        "look_up_trusting without first children");
    expect(found == 0 && distance == 0.0f && place == 0 && tried == 2, "no way down without first children");
    firsts[0] = 65;
    place = 5;
    expect(mittenhelm_look_up_trusting(NODES, 120, FOUND) == MITTENHELM_ACCEPTED && found == 0 && place == 0,
        "no way down to another node's children");
    expect(mittenhelm_dual_cell_trusting(NODES, middle, 2, CELL) == MITTENHELM_ACCEPTED, "dual_cell_trusting without a way down");
    expect(all_are(cell_keys, 0) && cell_distances[7] == 0.0f && all_are(cell_places, 0) && tried == 16, "sides with nothing found");
    firsts[0] = 1;

    count = 5;
    vertices[2] = 5;
    vertices[3] = 5;
    expect(mittenhelm_list_trusting(CELLS, 4, vertices, 30, levels, 30, &count) == MITTENHELM_LIST_FULL,
        "list_trusting in 26 places");
    expect(count == 5 && vertices[3] == 5, "a refused list of a trusted tree");
    expect(mittenhelm_list_trusting(CELLS, 3, vertices, 30, levels, 30, &count) == MITTENHELM_ACCEPTED, "list_trusting");
    expect(count == 27 && vertices[2] == 5 && vertices[22] == middle && levels[22] == 2, "the same list");
    expect(mittenhelm_list_trusting(keys, 0, firsts, 73, 30, vertices, 30, levels, 30, &count) == MITTENHELM_ACCEPTED
        && count == 0, "list_trusting without keys");

    set_all(cell_keys, 5);
    set_all(cell_places, 5);
    expect(mittenhelm_dual_cell_trusting(keys, 1, distances, 1, firsts, 1, middle, 2, CELL) == MITTENHELM_NOT_A_VERTEX,
        "dual_cell_trusting of the root alone");
    expect(all_are(cell_keys, 5) && all_are(cell_places, 5) && tried == 16, "a refused dual cell");
    expect(mittenhelm_dual_cell_trusting(NODES, middle, 2, CELL) == MITTENHELM_ACCEPTED, "dual_cell_trusting");
    expect(cell_keys[0] == 120 && cell_keys[7] == 71 && cell_distances[0] == 66.0f && tried == 8, "the same dual cell");
    expect_sides(middle, cell_keys, cell_distances, cell_places, "the same nodes");

    read_cells(vertices + 3);
    list_in_one_pass();
    read_slabs(middle);
    read_lifetimes();
}

int main(void)
{
    const uint64_t middle = UINT64_C(0xf000000000000000);
    uint64_t number = 5;
    uint32_t refusal;
    float h = 5, x = 5, y = 5, z = 5;

    expect(mittenhelm_level(64) == 2, "level");
    expect(mittenhelm_is_cell(15) && !mittenhelm_is_cell(16), "is_cell");
    expect(mittenhelm_parent(16) == 2, "parent");
    expect(mittenhelm_add(1, 7) == 14, "add");
    expect(mittenhelm_sub(0, 1) == UINT64_C(0x9249249249249249), "sub");

    expect(mittenhelm_child(16, 8, &number) == MITTENHELM_NOT_A_CELL && number == 5, "child of no cell");
    expect(mittenhelm_child(8, 8, &number) == MITTENHELM_ABOVE_SEVEN && number == 5, "child 8");
    expect(mittenhelm_child(UINT64_MAX, 7, &number) == MITTENHELM_WRONG_LEVEL && number == 5, "child of level 21");
    expect(mittenhelm_child(9, 3, &number) == MITTENHELM_ACCEPTED && number == 75, "child");

    expect(mittenhelm_half_size(9, &h) == MITTENHELM_ACCEPTED && h == 0.25f, "half_size");
    expect(mittenhelm_centre(9, &x, &y, &z) == MITTENHELM_ACCEPTED, "centre");
    expect(x == 0.75f && y == 0.25f && z == 0.25f, "centre's coordinates");

    expect(mittenhelm_vertex(71, 2, 7, &number) == MITTENHELM_ACCEPTED && number == middle, "vertex");
    expect(mittenhelm_vertex(8, 1, 0, &number) == MITTENHELM_ACCEPTED && number == 0, "no vertex");
    expect(mittenhelm_is_inner(middle, 1) && !mittenhelm_is_inner(middle, 0), "is_inner");
    expect(mittenhelm_side(middle, 1, 7, &number) == MITTENHELM_ACCEPTED && number == 8, "side");
    expect(mittenhelm_side(8, 1, 7, &number) == MITTENHELM_NOT_A_VERTEX && number == 8, "side of no vertex");

    expect(mittenhelm_should_refine(2, 3, 14529495.0f / 67108864.0f), "should_refine");
    expect(mittenhelm_should_refine(0, 3, 9.0f), "should_refine of the root");
    expect(!mittenhelm_should_refine(0, 3, NAN) && !mittenhelm_should_refine(2, 3, -INFINITY), "should_refine of no distance");

    read_nine(middle);
    expect(refused_at(64, &refusal) == 0, "a queue of 64");
    read_tree(middle);
    expect(refused_at(63, &refusal) == 9 && refusal == MITTENHELM_QUEUE_FULL, "a queue of 63");
    return wrong;
}
