/* Mittenhelm's boundary for hosts: numbers and pointers to numbers only.
 *
 * Every function accepts every value of its parameters and returns. A pointer must point to a place that the caller owns
 * and that no other parameter of the same call points to; nothing is kept after the call. A pointer with a length is a table
 * of so many places: it must not be null even where the length is 0, and no two tables or places may overlap.
 *
 * Lengths, starts, counts and the places of nodes are uint64_t on every host, since the proved code takes them in 8 bytes. On a
 * 32-bit host C's own type for sizes has 4: no compiler would warn, and the first call would store somewhere else.
 *
 * A function that can refuse returns 0 where it accepts, and writes its result where the pointer says. Else it returns the
 * refusal's number and writes nothing: no out parameter, no state and no table.
 *
 * A cell key of level L (0 to 21) is a number from 8^L up to 2 x 8^L - 1: a leading one, then bits of z, y and x in turn, the
 * lowest being x. The cube goes from 0 to 1 on each axis.
 */
#ifndef MITTENHELM_H
#define MITTENHELM_H

#include <stdbool.h>
#include <stdint.h>

#ifdef __cplusplus
extern "C" {
#endif

/* Why a call refused. */
enum mittenhelm_refusal {
    MITTENHELM_ACCEPTED = 0,
    MITTENHELM_NOT_A_CELL = 1,    /* not a cell key */
    MITTENHELM_ABOVE_SEVEN = 2,   /* child, corner or side above 7 */
    MITTENHELM_WRONG_LEVEL = 3,   /* child of level 21; or the level given isn't the key's own */
    MITTENHELM_NOT_A_VERTEX = 4,  /* not an inner vertex at that level; or, where a tree is given, it is the root alone */
    MITTENHELM_ABOVE_FIFTEEN = 5, /* bound or slab exponent above 15 */
    MITTENHELM_NODES_FULL = 6,    /* no room for another node */
    MITTENHELM_LEAVES_FULL = 7,   /* unsplit, and no room for another leaf */
    MITTENHELM_QUEUE_FULL = 8,    /* split, and no room in the queue for eight children */
    MITTENHELM_NOTHING_ASKED = 9, /* the build is finished */
    MITTENHELM_NOT_FITTING = 10,  /* the state doesn't fit the tables */
    MITTENHELM_NOT_SOUND = 11,    /* not a sound tree */
    MITTENHELM_LIST_FULL = 12,    /* start place past the end of either table, or fewer places left than vertices */
    MITTENHELM_NOT_FINITE = 16,   /* the distance is infinite or NaN */
    MITTENHELM_REPORT_SHORT = 17  /* a report table too short */
};

/* The level of any number: 0 for 0, else the largest L with 8^L at most the number. */
uint32_t mittenhelm_level(uint64_t key);

/* Whether the number is a cell key. */
bool mittenhelm_is_cell(uint64_t key);

/* The number divided by 8, rounded down, but at least 1. */
uint64_t mittenhelm_parent(uint64_t key);

/* The sum field by field: x modulo 2^22, y and z modulo 2^21. */
uint64_t mittenhelm_add(uint64_t a, uint64_t b);

/* The difference field by field: x modulo 2^22, y and z modulo 2^21. */
uint64_t mittenhelm_sub(uint64_t a, uint64_t b);

/* Child `which` (0 to 7) of a cell: 8 times the key, plus `which`. Refusals 1, 2, 3. */
uint32_t mittenhelm_child(uint64_t key, uint32_t which, uint64_t *child);

/* Half the side of a cell of level L: 1 / 2^(L+1), exactly. Refusal 1. */
uint32_t mittenhelm_half_size(uint64_t key, float *half);

/* The middle of a cell: (2c + 1) / 2^(L+1) on each axis with coordinate c, exactly. Refusal 1. */
uint32_t mittenhelm_centre(uint64_t key, float *x, float *y, float *z);

/* The vertex at a corner (bit 0 is x, bit 1 y, bit 2 z) of a cell whose level is given, or 0 where the corner lies on the
 * cube's outside or the level is 21. Refusals 1, 2, 3. */
uint32_t mittenhelm_vertex(uint64_t key, uint32_t level, uint32_t corner, uint64_t *vertex);

/* Whether the number is an inner vertex at the level. */
bool mittenhelm_is_inner(uint64_t vertex, uint32_t level);

/* The cell key of the level on side `which` (0 to 7) of an inner vertex. Refusals 2, 4. */
uint32_t mittenhelm_side(uint64_t vertex, uint32_t level, uint32_t which, uint64_t *cell);

/* Whether a distance splits an asked cell of the level under a depth bound; of a distance that is infinite or NaN, which no build
 * takes, or of a level above 21, which no cell has: false. */
bool mittenhelm_should_refine(uint32_t level, uint32_t bound, float distance);

/* A build asks for one distance at a time. The caller owns its state, nine words, and lends it five tables: the nodes'
 * keys, the nodes' distances, the place of each node's first child, the leaves' keys and a queue, which is a ring of cells that
 * wait. Between two calls the caller keeps state and tables as the last accepted call left them; a copy of all six can be brought
 * back later, anywhere.
 *
 * Node room is the shortest of the first three lengths, at most 4,096. A queue shorter than 64 places lets no build finish.
 * Room for n nodes, with (7n + 1)/8 places, rounded down, for the leaves and as many for the queue, refuses no build that ends
 * within n nodes. Both are proved (crates/demands/specs/Rooms.antt).
 *
 * A finished tree has its n keys, n distances and n first children in the first places, and so its m leaves; keys and leaves
 * ascend. The eight children of a node stand side by side, the first of them at the place that stands beside their parent's key;
 * beside a leaf's key stands 0. */
enum mittenhelm_state {
    MITTENHELM_STATE_BOUND = 0,            /* the depth bound of the start */
    MITTENHELM_STATE_NODES = 1,            /* how many nodes there are so far: n */
    MITTENHELM_STATE_LEAVES = 2,           /* how many leaves there are so far: m */
    MITTENHELM_STATE_ASKED = 3,            /* the key whose distance is asked for; 0: none, the build is finished */
    MITTENHELM_STATE_KEYS_LENGTH = 4,      /* the lengths that the tables had at the start */
    MITTENHELM_STATE_DISTANCES_LENGTH = 5,
    MITTENHELM_STATE_FIRSTS_LENGTH = 6,
    MITTENHELM_STATE_LEAVES_LENGTH = 7,
    MITTENHELM_STATE_QUEUE_LENGTH = 8,
    MITTENHELM_STATE_WORDS = 9             /* how many words a state has */
};

/* Begins a build: writes the state, and asks for the root by its key, centre and half size; no table is read or written.
 * Refusals 5, 10 (other than nine words are no state). */
uint32_t mittenhelm_start(uint32_t bound,
    const uint64_t *keys, uint64_t keys_length, const float *distances, uint64_t distances_length,
    const uint16_t *firsts, uint64_t firsts_length, const uint64_t *leaves, uint64_t leaves_length,
    const uint64_t *queue, uint64_t queue_length,
    uint64_t *state, uint64_t state_length,
    uint64_t *key, float *x, float *y, float *z, float *half);

/* Takes the distance of the cell that is asked for, and asks for the next one by its key, centre and half size; where none is
 * left, the state's asked key is 0 and the last five places stay as they were. Refusals 10, 9, 16, 6, then 7 or 8. */
uint32_t mittenhelm_distance(uint64_t *state, uint64_t state_length,
    uint64_t *keys, uint64_t keys_length, float *distances, uint64_t distances_length,
    uint16_t *firsts, uint64_t firsts_length, uint64_t *leaves, uint64_t leaves_length,
    uint64_t *queue, uint64_t queue_length,
    float distance,
    uint64_t *key, float *x, float *y, float *z, float *half);

/* A finished tree is read from four tables that the caller owns and that no call changes: its keys, as many distances, as many
 * first children, and its leaves, each exactly as long as the tree. Of a finished build with n nodes and m leaves these are the
 * first n places of the first three and the first m leaves. A tree from elsewhere may have more than 4,096 nodes, and is read if it
 * is sound: as many keys as distances and as first children; no distance infinite or NaN; keys strictly ascending, first 1, all
 * cell keys of level at most 15; each other key's parent present; each key with all eight children or none; beside each key the
 * place at which its first child stands, or 0 where it has none; the leaves being exactly the keys with none, ascending. A place has
 * 16 bits, so no sound tree has more than 65,537 nodes (`sound_few`). */

/* Whether the tables hold a sound tree. */
bool mittenhelm_sound(
    const uint64_t *keys, uint64_t keys_length, const float *distances, uint64_t distances_length,
    const uint16_t *firsts, uint64_t firsts_length, const uint64_t *leaves, uint64_t leaves_length);

/* Finds the deepest present of a cell key and its ancestors of level 1 or more, with its distance and its place, and says how many
 * keys were tried; where none is present, the key found, the distance and the place are 0. The place is where in keys, distances and
 * first children the node stands: a host that keeps data of its own beside the node tables reads it there, without a search.
 * Refusals 11, 1. */
uint32_t mittenhelm_look_up(
    const uint64_t *keys, uint64_t keys_length, const float *distances, uint64_t distances_length,
    const uint16_t *firsts, uint64_t firsts_length, const uint64_t *leaves, uint64_t leaves_length,
    uint64_t key, uint64_t *found, float *distance, uint64_t *place, uint32_t *tried);

/* Writes the tree's vertices, ascending and each with its level, from place `start` on into two tables that the caller owns, and
 * their number to `count`; a start equal to a table's length isn't past its end. A tree of s splits, and so of 8s + 1 nodes, has at
 * most 19s: where both tables have so many places from `start` on, it is gone over once, else twice, to count first. Refusals 11, 12. */
uint32_t mittenhelm_list(
    const uint64_t *keys, uint64_t keys_length, const float *distances, uint64_t distances_length,
    const uint16_t *firsts, uint64_t firsts_length, const uint64_t *leaves, uint64_t leaves_length,
    uint64_t start, uint64_t *vertices, uint64_t vertices_length, uint8_t *levels, uint64_t levels_length, uint64_t *count);

/* Looks up the cells of the level on the eight sides of an inner vertex: writes eight keys, eight distances and eight places to tables
 * that the caller owns, and the number of keys tried for all eight. Entry w is the cell that has the vertex at its corner w, or the node
 * found over that cell: so entry 0 lies above the vertex on all axes, and entry 7 below on all. Refusals 11, 4.
 *
 * An example: the root and its eight children have the keys 1, 8, 9, .., 15 at the places 0 to 8. The vertex in the middle of the cube,
 * 0xf000000000000000 at level 1, then has the dual cell with the keys 15, 14, .., 8 at the places 8, 7, .., 1. Entry 0 is 15, the child
 * above on all axes, whose corner 0 is the vertex; entry 7 is 8, whose corner 7 is. */
uint32_t mittenhelm_dual_cell(
    const uint64_t *keys, uint64_t keys_length, const float *distances, uint64_t distances_length,
    const uint16_t *firsts, uint64_t firsts_length, const uint64_t *leaves, uint64_t leaves_length,
    uint64_t vertex, uint32_t level, uint64_t *cell_keys /* [8] */, float *cell_distances /* [8] */, uint64_t *cell_places /* [8] */,
    uint32_t *tried);

/* The slabs that the dual cell of an inner vertex at a level reaches, of 2^exponent slabs (0 to 15) along z, slab 0 being the lowest. The
 * cell reaches from the lowest to the highest of the centres of its eight nodes: `first` and `last` are the slabs of those two heights,
 * each multiplied by 2^exponent and rounded down, so that a centre on the border of two slabs lies in the upper one. No node of the cell
 * may be given up before slab `last` is done. first <= last < 2^exponent (`reach_order`). The level matters, since with it goes which eight
 * nodes the cell has. Refusals 11, 4, 5.
 *
 * An example: in the tree of nine nodes above, the centres of the middle vertex's cell are 1/4 and 3/4 high. Of two slabs it reaches 0 to 1,
 * of four 1 to 3, and of one 0 to 0. */
uint32_t mittenhelm_slabs(
    const uint64_t *keys, uint64_t keys_length, const float *distances, uint64_t distances_length,
    const uint16_t *firsts, uint64_t firsts_length, const uint64_t *leaves, uint64_t leaves_length,
    uint64_t vertex, uint32_t level, uint32_t exponent, uint32_t *first, uint32_t *last);

/* Reports from which slab to which each leaf is needed, of 2^exponent slabs (0 to 15) along z, into three tables that the caller owns. A
 * cell that is listed, which is a vertex of mittenhelm_list with its level, has a leaf if an entry of its dual cell is that leaf. A leaf's
 * first slab is the least first slab, as mittenhelm_slabs answers it, of all listed cells that have it, its last slab the greatest last.
 * It is needed at every slab from its first to its last: a host that has its data there by the first, and gives it up behind the last,
 * misses none that a cell reads.
 *
 * `first_slabs` and `last_slabs` take one number for each leaf, in the order of the leaf table; `needed` one for each slab, which is how
 * many leaves are needed at it; and `greatest` the greatest of those. Places behind these stay as they were. The tree that is only the
 * root lists no cell: its leaf is never needed, from 1 to 0, and all numbers are 0.
 *
 * `first_slabs` and `last_slabs` may lie in the memory of the build's queue. It is free once the build is finished, and room for n nodes
 * gives it (7n + 1)/8 places of 8 bytes, which is exactly the room for both: 8 bytes a leaf. Refusals 11, 5, 17 (fewer places for first or
 * last slabs than there are leaves, or fewer for `needed` than there are slabs).
 *
 * An example: in the tree of nine nodes above, one cell has all eight leaves, and of four slabs it reaches 1 to 3. So each leaf is needed
 * from 1 to 3, the numbers for the four slabs are 0, 8, 8 and 8, and the greatest is 8. */
uint32_t mittenhelm_lifetimes(
    const uint64_t *keys, uint64_t keys_length, const float *distances, uint64_t distances_length,
    const uint16_t *firsts, uint64_t firsts_length, const uint64_t *leaves, uint64_t leaves_length,
    uint32_t exponent,
    uint32_t *first_slabs, uint64_t first_slabs_length, uint32_t *last_slabs, uint64_t last_slabs_length,
    uint32_t *needed, uint64_t needed_length, uint32_t *greatest);

/* Each call above that reads a tree first goes over all of it, to see that it is sound. A host that reads much checks once with
 * mittenhelm_sound, keeps the tables as they are, and then calls these, each of which is given only the tables that it reads. Of a
 * sound tree each answers exactly as the call above that it is named for; mittenhelm_cells_trusting, which has none, goes over the
 * list's vertices.
 *
 * They never refuse 11. Of tables that hold no sound tree, of whatever lengths, they answer what the way down from the root comes
 * to. The root has key 1 and place 0, whatever stands there. A step down from the cell with key k at place p needs three things of
 * the number f at place p of the first children (0 past their end): it is one more than a multiple of 8, eight keys stand from place f
 * on, and the first of them is 8k. Child c then has key 8k + c and place f + c, whatever key stands there. So each eight places have
 * one parent, and the way down ends on any tables: of n keys, the cells that a walk goes through are linear in n (`steps_linear`), and
 * it lists at most 19 vertices for each eight keys after the first (`vertices_linear`). */

/* As mittenhelm_look_up of a tree that was checked before; the distance of a place past the end of their table is 0. Refusal 1. */
uint32_t mittenhelm_look_up_trusting(
    const uint64_t *keys, uint64_t keys_length, const float *distances, uint64_t distances_length,
    const uint16_t *firsts, uint64_t firsts_length,
    uint64_t key, uint64_t *found, float *distance, uint64_t *place, uint32_t *tried);

/* As mittenhelm_list of a tree that was checked before, of which the keys and first children are given. Refusal 12. */
uint32_t mittenhelm_list_trusting(
    const uint64_t *keys, uint64_t keys_length, const uint16_t *firsts, uint64_t firsts_length,
    uint64_t start, uint64_t *vertices, uint64_t vertices_length, uint8_t *levels, uint64_t levels_length, uint64_t *count);

/* Writes the vertices that are no less than `from`, ascending and each with its level, as many as have room in all three tables,
 * and answers how many; `places` takes eight for each: those of its dual cell, in the order of mittenhelm_dual_cell. A place is below
 * the number of keys, or 0, of any tables (`places_inside`). A host with room for one at least begins with `from` 0, goes on with the
 * last vertex + 1, and is done when fewer came than have room: that it then has each vertex once, of any tables at all, is proved
 * (crates/demands/specs/Batches.antt). No refusal. */
uint64_t mittenhelm_cells_trusting(
    const uint64_t *keys, uint64_t keys_length, const uint16_t *firsts, uint64_t firsts_length,
    uint64_t from, uint64_t *vertices, uint64_t vertices_length, uint8_t *levels, uint64_t levels_length,
    uint64_t *places, uint64_t places_length);

/* As mittenhelm_dual_cell of a tree that was checked before; a side for which nothing is found, as there is none in a sound tree,
 * gives the key 0, the distance 0 and the place 0, and the distance of a place past the end of their table is 0. Refusal 4, also where
 * there is one key, which is the root alone. */
uint32_t mittenhelm_dual_cell_trusting(
    const uint64_t *keys, uint64_t keys_length, const float *distances, uint64_t distances_length,
    const uint16_t *firsts, uint64_t firsts_length,
    uint64_t vertex, uint32_t level, uint64_t *cell_keys /* [8] */, float *cell_distances /* [8] */, uint64_t *cell_places /* [8] */,
    uint32_t *tried);

/* As mittenhelm_slabs of a tree that was checked before, of which the keys and first children are given; a side for which nothing is found,
 * as there is none in a sound tree, counts as the cube's middle. Refusals 4, also where there is one key, and 5. */
uint32_t mittenhelm_slabs_trusting(
    const uint64_t *keys, uint64_t keys_length, const uint16_t *firsts, uint64_t firsts_length,
    uint64_t vertex, uint32_t level, uint32_t exponent, uint32_t *first, uint32_t *last);

/* As mittenhelm_lifetimes of a tree that was checked before, of which the keys and first children are given. Refusals 5, 17.
 *
 * Of tables that hold no sound tree: let n be the number of keys, but at most 65,537, and m be n - (n - 1)/8, the quotient rounded down, or
 * 0 without keys. The leaves are the first m of those below place n that have no first child: 0 beside the key, or nothing, past the end of
 * that table. The first m places of the report are written; 1 and 0 where there are fewer such leaves, or no cell has the leaf. The cells are
 * those that mittenhelm_cells_trusting hands out. Of the eight places of a cell only leaves count: it has these, and reaches from the lowest
 * to the highest of their slabs. The slab of a place is that of the height (2c + 1) / 2^(L+1), where L is the level of the number that stands
 * there for a key, and c is made of L of its bits, those at 2, 5, 8 and so on. */
uint32_t mittenhelm_lifetimes_trusting(
    const uint64_t *keys, uint64_t keys_length, const uint16_t *firsts, uint64_t firsts_length,
    uint32_t exponent,
    uint32_t *first_slabs, uint64_t first_slabs_length, uint32_t *last_slabs, uint64_t last_slabs_length,
    uint32_t *needed, uint64_t needed_length, uint32_t *greatest);

#ifdef __cplusplus
}
#endif

#endif
