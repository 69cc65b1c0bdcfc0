/* A part from its distance field to its dual cells and the slabs that they reach, as a printer's firmware does it: static tables, no heap.
 * It prints the part in two resins, and keeps which in a table of its own beside the nodes. Written in the language that C and C++ share. It
 * prints its totals, and exits 0 if all that it was given is as the header says. */
#include "expect.h"
#include "mittenhelm.h"

#include <math.h>

/* Places that are enough for every tree of so many nodes; and as many vertices as this part has room for. */
enum { NODES = 4096, LEAVES = (7 * NODES + 1) / 8, VERTICES = 4096 };

/* The part's depth bound, and its slabs. */
enum { BOUND = 5, SLAB_EXPONENT = 3, SLABS = 1 << SLAB_EXPONENT };

static uint64_t keys[NODES], leaves[LEAVES], queue[LEAVES], vertices[VERTICES];
static float distances[NODES];
static uint16_t firsts[NODES];
static uint8_t levels[VERTICES];
static uint32_t cells_in_slab[SLABS];

/* The host's own data: which resin a node is printed in, at the node's place. No call of the library reads or writes it. */
enum { NO_RESIN, SOFT, STIFF, RESINS };
static uint8_t resins[NODES];

/* The tables together, with the state. */
enum {
    NEEDED = sizeof keys + sizeof distances + sizeof firsts + sizeof leaves + sizeof queue + sizeof vertices + sizeof levels
        + sizeof resins + 8 * MITTENHELM_STATE_WORDS
};

static uint64_t nodes, leaf_count;

/* The tables of the build, and the tree that it left. */
#define TABLES keys, NODES, distances, NODES, firsts, NODES, leaves, LEAVES, queue, LEAVES
#define TREE keys, nodes, distances, nodes, firsts, nodes, leaves, leaf_count

/* The distance from a sphere. Coordinates down to level 5 have six binary places, so all is exact up to the root: it makes no
 * difference whether a compiler joins a product and a sum. The root and the last difference are rounded once each. */
static float sphere(float x, float y, float z)
{
    const float dx = x - 0.4375f, dy = y - 0.5f, dz = z - 0.5625f;

    return sqrtf(dx * dx + dy * dy + dz * dz) - 0.21875f;
}

/* Answers each request until the build is finished. */
static void build(void)
{
    uint64_t state[MITTENHELM_STATE_WORDS], key;
    float x, y, z, half;
    uint32_t refusal;

    refusal = mittenhelm_start(BOUND, TABLES, state, MITTENHELM_STATE_WORDS, &key, &x, &y, &z, &half);
    expect(refusal == MITTENHELM_ACCEPTED, "start");
    while (refusal == MITTENHELM_ACCEPTED && state[MITTENHELM_STATE_ASKED] != 0)
        refusal = mittenhelm_distance(state, MITTENHELM_STATE_WORDS, TABLES, sphere(x, y, z), &key, &x, &y, &z, &half);
    expect(refusal == MITTENHELM_ACCEPTED, "every distance has room");
    if (refusal != MITTENHELM_ACCEPTED)
        return;
    nodes = state[MITTENHELM_STATE_NODES];
    leaf_count = state[MITTENHELM_STATE_LEAVES];
}

/* Outside the part nothing is cured; inside, its lower half is soft and its upper half stiff. A printer may have this from a file. */
static uint8_t resin_of(uint64_t key, float distance)
{
    float x = 0, y = 0, z = 0;

    expect(mittenhelm_centre(key, &x, &y, &z) == MITTENHELM_ACCEPTED, "centre");
    return distance > 0 ? NO_RESIN : z < 0.5f ? SOFT : STIFF;
}

/* The slab of a cell's centre. A vertex is the key of a cell of level 21 above it, which lies in the same slab. */
static uint32_t slab_at(uint64_t key)
{
    float x = 0, y = 0, z = 0;

    expect(mittenhelm_centre(key, &x, &y, &z) == MITTENHELM_ACCEPTED, "centre");
    return (uint32_t)(z * SLABS);
}

/* Once the build is finished each node keeps its place, and so its resin is written there. */
static void choose_resins(void)
{
    uint64_t place;

    for (place = 0; place < nodes; place++)
        resins[place] = resin_of(keys[place], distances[place]);
}

/* The resin of a node whose place a call told: one read, and no search. */
static uint8_t resin_at(uint64_t place)
{
    expect(place < nodes, "a place in the node tables");
    return place < nodes ? resins[place] : (uint8_t)NO_RESIN;
}

static bool ascends(const uint64_t *table, uint64_t length)
{
    uint64_t i;

    for (i = 1; i < length; i++)
        if (table[i - 1] >= table[i])
            return false;
    return true;
}

/* The place of a key in an ascending table; the length, where it isn't there. */
static uint64_t place_of(uint64_t key, const uint64_t *table, uint64_t length)
{
    uint64_t from = 0, to = length;

    while (from < to) {
        const uint64_t middle = from + (to - from) / 2;

        if (table[middle] < key)
            from = middle + 1;
        else
            to = middle;
    }
    return from < length && table[from] == key ? from : length;
}

/* The leaves fill the cube: counted in cells of the bound's level, of which a leaf of level L holds 8^(BOUND - L). */
static void check_tree(void)
{
    uint64_t volume = 0, i;

    expect(mittenhelm_sound(TREE), "the tree is sound");
    expect(8 * leaf_count == 7 * nodes + 1, "seven leaves more for each split");
    expect(ascends(keys, nodes) && ascends(leaves, leaf_count), "keys and leaves ascend");
    for (i = 0; i < nodes; i++) {
        const uint64_t first = place_of(8 * keys[i], keys, nodes);

        expect(firsts[i] == (first < nodes ? first : 0), "the place of a first child, or 0");
    }
    for (i = 0; i < leaf_count; i++) {
        expect(mittenhelm_level(leaves[i]) <= BOUND, "no leaf is deeper than the bound");
        volume += (uint64_t)1 << 3 * (BOUND - mittenhelm_level(leaves[i]));
    }
    expect(volume == (uint64_t)1 << 3 * BOUND, "the volumes of the leaves add up to the cube");
}

static uint64_t list(void)
{
    uint64_t count = 0, i;

    expect(mittenhelm_list(TREE, 0, vertices, VERTICES, levels, VERTICES, &count) == MITTENHELM_ACCEPTED, "list");
    expect(ascends(vertices, count), "vertices ascend");
    for (i = 0; i < count; i++)
        expect(mittenhelm_is_inner(vertices[i], levels[i]), "a listed vertex is inner at its level");
    return count;
}

/* An entry is a leaf that stands at its place with its own distance, and its region holds the cell of the level on that side. */
static void check_entry(uint64_t vertex, uint32_t level, uint32_t side, uint64_t entry, float distance, uint64_t place)
{
    uint64_t cell = 0;

    expect(place < nodes && keys[place] == entry && firsts[place] == 0 && distances[place] == distance,
        "an entry is the leaf at its place, with its distance");
    expect(mittenhelm_side(vertex, level, side, &cell) == MITTENHELM_ACCEPTED, "side");
    while (mittenhelm_level(cell) > mittenhelm_level(entry))
        cell = mittenhelm_parent(cell);
    expect(cell == entry, "an entry's region holds the cell on its side");
}

/* What all dual cells have together. Sums of keys and places go modulo 2^64. */
struct totals {
    uint64_t keys, places;
    uint32_t tried, outside, of_resin[RESINS], seams;
};

/* Counts a dual cell in every slab that it reaches: its nodes are needed as long. Who trusts the tree has had it checked. By the centres,
 * whose heights a float holds, the lowest node is in the first of them and the highest in the last. */
static void add_slabs(uint64_t vertex, uint32_t level, const uint64_t *cell_keys)
{
    uint32_t first = 0, last = 0, lowest = SLABS, highest = 0, side, slab;

    if (mittenhelm_slabs_trusting(keys, nodes, firsts, nodes, vertex, level, SLAB_EXPONENT, &first, &last) != MITTENHELM_ACCEPTED
        || first > last || last >= SLABS) {
        expect(false, "every vertex has a cell that reaches slabs");
        return;
    }
    for (side = 0; side < 8; side++) {
        slab = slab_at(cell_keys[side]);
        lowest = slab < lowest ? slab : lowest;
        highest = slab > highest ? slab : highest;
    }
    expect(first == lowest && last == highest, "a cell reaches from its lowest node's centre to its highest");
    slab = slab_at(vertex);
    expect(first <= slab && slab <= last, "a listed cell reaches the slab of its vertex");
    for (slab = first; slab <= last; slab++)
        cells_in_slab[slab]++;
}

/* Counts a dual cell's nodes by their resins. At a seam both resins meet. */
static void add_resins(const uint64_t *cell_places, struct totals *totals)
{
    bool has[RESINS] = { false, false, false };
    uint32_t side;

    for (side = 0; side < 8; side++) {
        const uint8_t resin = resin_at(cell_places[side]);

        has[resin] = true;
        totals->of_resin[resin]++;
    }
    totals->seams += has[SOFT] && has[STIFF];
}

static void add_cell(uint64_t vertex, uint32_t level, struct totals *totals)
{
    uint64_t cell_keys[8], cell_places[8];
    float cell_distances[8];
    uint32_t tried = 0, side;

    if (mittenhelm_dual_cell(TREE, vertex, level, cell_keys, cell_distances, cell_places, &tried) != MITTENHELM_ACCEPTED) {
        expect(false, "every vertex has a dual cell");
        return;
    }
    for (side = 0; side < 8; side++) {
        check_entry(vertex, level, side, cell_keys[side], cell_distances[side], cell_places[side]);
        totals->keys += (side + 1) * cell_keys[side];
        totals->places += (side + 1) * cell_places[side];
        totals->outside += cell_distances[side] > 0;
    }
    add_resins(cell_places, totals);
    totals->tried += tried;
    add_slabs(vertex, level, cell_keys);
}

/* What is cured in the part's middle, from the lowest cell of the bound's level to the highest, by a lookup of each: soft is -, stiff #. */
static void print_column(void)
{
    const char signs[] = ".-#";
    uint64_t key = 1, found = 0, place = 0;
    float distance = 0;
    uint32_t tried = 0, z, bit;

    /* The lowest cell at x 14 and y 16 of 32; 4 is one cell up. */
    for (bit = 1 << BOUND >> 1; bit > 0; bit >>= 1)
        expect(mittenhelm_child(key, (14 & bit ? 1 : 0) + (16 & bit ? 2 : 0), &key) == MITTENHELM_ACCEPTED, "child");
    printf("column ");
    for (z = 0; z < 1 << BOUND; z++, key = mittenhelm_add(key, 4)) {
        expect(mittenhelm_look_up(TREE, key, &found, &distance, &place, &tried) == MITTENHELM_ACCEPTED && place < nodes
            && keys[place] == found && distances[place] == distance, "look_up");
        printf("%c", signs[resin_at(place)]);
    }
    printf("\n");
}

int main(void)
{
    struct totals totals = { 0, 0, 0, 0, { 0, 0, 0 }, 0 };
    uint64_t count, i;
    uint32_t cells = 0, slab;

    expect(NEEDED < 256 * 1024, "a printer has 256 KiB for everything");
    build();
    check_tree();
    choose_resins();
    count = list();
    for (i = 0; i < count; i++)
        add_cell(vertices[i], levels[i], &totals);
    for (slab = 0; slab < SLABS; slab++)
        cells += cells_in_slab[slab];
    expect(cells > count, "every cell reaches a slab, and some reach several");

    printf("%lu nodes, %lu leaves, %lu vertices\n", (unsigned long)nodes, (unsigned long)leaf_count, (unsigned long)count);
    printf("%lu keys tried, %lu entries outside, keys %llu, places %llu\n", (unsigned long)totals.tried,
        (unsigned long)totals.outside, (unsigned long long)totals.keys, (unsigned long long)totals.places);
    printf("%lu entries without resin, %lu soft, %lu stiff; %lu cells at a seam\n", (unsigned long)totals.of_resin[NO_RESIN],
        (unsigned long)totals.of_resin[SOFT], (unsigned long)totals.of_resin[STIFF], (unsigned long)totals.seams);
    print_column();
    for (slab = 0; slab < SLABS; slab++)
        printf("slab %lu: %lu cells reach it\n", (unsigned long)slab, (unsigned long)cells_in_slab[slab]);
    return wrong;
}
