/* A print that keeps the data of a leaf only while it is needed, as a printer's firmware does it: static tables, no heap. It gets the data of a
 * leaf at its first slab and frees it behind its last, in a pool with room for as many as are needed at once. At each slab it reads all eight
 * leaves of every cell that reaches the slab; were one of them freed or not there yet, it would abort. Written in the language that C and C++
 * share. It prints what each slab took, and exits 0 if all that it was given is as the header says. */
#include "expect.h"
#include "mittenhelm.h"

#include <math.h>
#include <stdlib.h>
#include <string.h>

/* Places that are enough for every tree of so many nodes, and how many cells are asked for at a time. */
enum { NODES = 4096, LEAVES = (7 * NODES + 1) / 8, BATCH = 64 };

/* The part's depth bound, and its slabs. */
enum { BOUND = 5, SLAB_EXPONENT = 4, SLABS = 1 << SLAB_EXPONENT };

static uint64_t keys[NODES], leaves[LEAVES];
static float distances[NODES];
static uint16_t firsts[NODES];
static uint32_t needed[SLABS];

/* The queue is free once the build is finished. The report then has exactly the room there: two numbers of four bytes for each leaf. */
static union {
    uint64_t queue[LEAVES];
    struct {
        uint32_t first[LEAVES], last[LEAVES];
    } slabs;
} shared;

static uint64_t nodes, leaf_count;

#define TABLES keys, NODES, distances, NODES, firsts, NODES, leaves, LEAVES, shared.queue, LEAVES
#define TREE keys, nodes, distances, nodes, firsts, nodes, leaves, leaf_count
#define WAYS keys, nodes, firsts, nodes

/* The host's data of a leaf, 32 bytes. */
struct data {
    uint64_t key;
    float distance;
    uint8_t resin[20];
};

/* The pool. Of its room only so many slots are used as leaves are needed at once. */
enum { MOST_SLOTS = 1024, NONE = 0xffff };
static struct data pool[MOST_SLOTS];
static uint16_t free_slots[MOST_SLOTS], slot_of[LEAVES];
static uint32_t slots, free_count;

/* Which leaf of the leaf table stands at a node's place. */
static uint16_t leaf_at[NODES];

/* All that is static, with the state. */
enum {
    HELD = sizeof keys + sizeof leaves + sizeof distances + sizeof firsts + sizeof needed + sizeof shared + sizeof pool
        + sizeof free_slots + sizeof slot_of + sizeof leaf_at + 8 * MITTENHELM_STATE_WORDS
};

/* The distance from a sphere, as in prints_part.c: exact up to the root. */
static float sphere(float x, float y, float z)
{
    const float dx = x - 0.4375f, dy = y - 0.5f, dz = z - 0.5625f;

    return sqrtf(dx * dx + dy * dy + dz * dz) - 0.21875f;
}

/* Answers each request until the build is finished. */
static bool build(void)
{
    uint64_t state[MITTENHELM_STATE_WORDS], key;
    float x, y, z, half;
    uint32_t refusal;

    refusal = mittenhelm_start(BOUND, TABLES, state, MITTENHELM_STATE_WORDS, &key, &x, &y, &z, &half);
    while (refusal == MITTENHELM_ACCEPTED && state[MITTENHELM_STATE_ASKED] != 0)
        refusal = mittenhelm_distance(state, MITTENHELM_STATE_WORDS, TABLES, sphere(x, y, z), &key, &x, &y, &z, &half);
    if (refusal != MITTENHELM_ACCEPTED)
        return false;
    nodes = state[MITTENHELM_STATE_NODES];
    leaf_count = state[MITTENHELM_STATE_LEAVES];
    return true;
}

/* The leaves are the nodes without a first child, in the same order. */
static void number_leaves(void)
{
    uint64_t place, leaf = 0;

    for (place = 0; place < nodes; place++)
        if (firsts[place] == 0) {
            expect(leaf < leaf_count && leaves[leaf] == keys[place], "the leaf table's next");
            leaf_at[place] = (uint16_t)leaf++;
        } else
            leaf_at[place] = NONE;
    expect(leaf == leaf_count, "all leaves");
}

/* Writes into the queue's memory from which slab to which each leaf is needed. */
static bool report(uint32_t *greatest)
{
    return mittenhelm_sound(TREE)
        && mittenhelm_lifetimes_trusting(WAYS, SLAB_EXPONENT, shared.slabs.first, LEAVES, shared.slabs.last, LEAVES, needed, SLABS,
               greatest) == MITTENHELM_ACCEPTED;
}

static void get_leaf(uint64_t leaf, uint64_t place)
{
    uint16_t slot;

    if (free_count == 0)
        abort();
    slot = free_slots[--free_count];
    pool[slot].key = keys[place];
    pool[slot].distance = distances[place];
    slot_of[leaf] = slot;
}

/* What was freed is overwritten, so that nobody reads it by chance. */
static void free_leaf(uint64_t leaf)
{
    memset(&pool[slot_of[leaf]], 0xdd, sizeof pool[0]);
    free_slots[free_count++] = slot_of[leaf];
    slot_of[leaf] = NONE;
}

/* The data of the leaf at a node's place, which has to be there. */
static const struct data *read_leaf(uint64_t place)
{
    const uint16_t leaf = place < nodes ? leaf_at[place] : (uint16_t)NONE;

    if (leaf == NONE || slot_of[leaf] == NONE || pool[slot_of[leaf]].key != keys[place])
        abort();
    return &pool[slot_of[leaf]];
}

/* Reads the eight leaves of every cell that reaches a slab: how many cells there were, and how many reads were inside the part. */
static uint32_t read_cells(uint32_t slab, uint32_t *inside)
{
    uint64_t vertices[BATCH], places[8 * BATCH], from = 0, count = BATCH, i;
    uint8_t levels[BATCH];
    uint32_t first, last, entry, cells = 0;

    while (count == BATCH) {
        count = mittenhelm_cells_trusting(WAYS, from, vertices, BATCH, levels, BATCH, places, 8 * BATCH);
        for (i = 0; i < count; i++) {
            first = last = SLABS;
            expect(mittenhelm_slabs_trusting(WAYS, vertices[i], levels[i], SLAB_EXPONENT, &first, &last) == MITTENHELM_ACCEPTED,
                "slabs of a listed cell");
            if (slab < first || slab > last)
                continue;
            for (entry = 0; entry < 8; entry++)
                *inside += read_leaf(places[8 * i + entry])->distance < 0;
            cells++;
        }
        from = count > 0 ? vertices[count - 1] + 1 : 0;
    }
    return cells;
}

/* Prints a slab: gets what it is the first for, reads, and frees what it was the last for. */
static void print_slab(uint32_t slab)
{
    uint64_t place;
    uint32_t got = 0, freed = 0, inside = 0, cells, held;

    for (place = 0; place < nodes; place++)
        if (firsts[place] == 0 && shared.slabs.first[leaf_at[place]] == slab) {
            get_leaf(leaf_at[place], place);
            got++;
        }
    held = slots - free_count;
    expect(held == needed[slab], "as many leaves as are needed at the slab");
    cells = read_cells(slab, &inside);
    for (place = 0; place < nodes; place++)
        if (firsts[place] == 0 && shared.slabs.last[leaf_at[place]] == slab) {
            free_leaf(leaf_at[place]);
            freed++;
        }
    printf("slab %lu: %lu leaves got, %lu held, %lu freed; %lu cells read, %lu entries inside\n", (unsigned long)slab,
        (unsigned long)got, (unsigned long)held, (unsigned long)freed, (unsigned long)cells, (unsigned long)inside);
}

/* Every slot is free, and no leaf has one. */
static void fill_pool(uint32_t count)
{
    uint32_t i;

    slots = free_count = count;
    for (i = 0; i < count; i++)
        free_slots[i] = (uint16_t)i;
    for (i = 0; i < leaf_count; i++)
        slot_of[i] = NONE;
}

int main(void)
{
    uint32_t greatest = 0, slab;

    expect(HELD < 256 * 1024, "a printer has 256 KiB for everything");
    if (!build() || !report(&greatest) || greatest > MOST_SLOTS) {
        expect(false, "a tree, its report, and room for as many leaves as are needed at once");
        return wrong;
    }
    number_leaves();
    fill_pool(greatest);
    printf("%lu nodes, %lu leaves, %lu of them needed at once\n", (unsigned long)nodes, (unsigned long)leaf_count,
        (unsigned long)greatest);
    for (slab = 0; slab < SLABS; slab++)
        print_slab(slab);
    expect(free_count == slots, "all is freed in the end");
    return wrong;
}
