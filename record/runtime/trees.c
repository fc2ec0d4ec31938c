/* The balanced tree below std::map and std::set. The library of C++ links, turns and walks it in code without hooks,
 * so the recorder does this instead, step by step as the library does it. Programs of C have no such library.
 * Interposes the _Rb_tree functions by the linker's --wrap. Must not give the token during a turn of the tree: no
 * other thread may see half of it. */
#include "accesses.h"
#include "callers.h"

enum { RED, BLACK };
/* `side[0]` is the left one. The head is the parent of the root, and has the first and the last node at its sides. */
struct tree_node {
    int color;
    struct tree_node *parent, *side[2];
};

static struct tree_node *link_read(struct tree_node **at, u64 pc) {
    accessed(READ, at, sizeof *at, pc);
    return *at;
}

static void link_set(struct tree_node **at, struct tree_node *to, u64 pc) {
    accessed(WRITE, at, sizeof *at, pc);
    *at = to;
}

static int color_read(struct tree_node *n, u64 pc) {
    accessed(READ, &n->color, sizeof n->color, pc);
    return n->color;
}

static void color_set(struct tree_node *n, int color, u64 pc) {
    accessed(WRITE, &n->color, sizeof n->color, pc);
    n->color = color;
}

static int is_black(struct tree_node *n, u64 pc) { return !n || color_read(n, pc) == BLACK; }

/* The parent of `n`, or the head of the tree, gets `to` where it had `n`. */
static void takes_place(struct tree_node *n, struct tree_node *to, struct tree_node *head, u64 pc) {
    struct tree_node *parent = n->parent;
    if (link_read(&head->parent, pc) == n) link_set(&head->parent, to, pc);
    else link_set(&parent->side[link_read(&parent->side[0], pc) != n], to, pc);
}

/* Turns `n` down to this side: its child of the other side takes its place. */
static void turn_tree(struct tree_node *n, int side, struct tree_node *head, u64 pc) {
    struct tree_node *up = link_read(&n->side[!side], pc), *moved = link_read(&up->side[side], pc);
    link_set(&n->side[!side], moved, pc);
    if (moved) link_set(&moved->parent, n, pc);
    link_set(&up->parent, link_read(&n->parent, pc), pc);
    takes_place(n, up, head, pc);
    link_set(&up->side[side], n, pc);
    link_set(&n->parent, up, pc);
}

/* Links a new node below its parent, and at the end of the tree that it may be. */
static void link_leaf(int right, struct tree_node *mine, struct tree_node *parent, struct tree_node *head, u64 pc) {
    access_(WRITE, mine, sizeof *mine, pc);
    *mine = (struct tree_node){RED, parent, {NULL, NULL}};
    link_set(&parent->side[right], mine, pc);
    if (parent == head) link_set(&head->parent, mine, pc), link_set(&head->side[1], mine, pc);
    else if (link_read(&head->side[right], pc) == parent) link_set(&head->side[right], mine, pc);
}

/* One step after an insert, at which `n` and its parent are red; the node to go on with. */
static struct tree_node *mend_reds(struct tree_node *n, struct tree_node *head, u64 pc) {
    struct tree_node *parent = n->parent, *above = link_read(&parent->parent, pc);
    int side = link_read(&above->side[0], pc) != parent;
    struct tree_node *other = link_read(&above->side[!side], pc);
    if (!is_black(other, pc)) {
        color_set(parent, BLACK, pc), color_set(other, BLACK, pc), color_set(above, RED, pc);
        return above;
    }
    if (link_read(&parent->side[!side], pc) == n) {
        turn_tree(parent, side, head, pc);
        n = parent, parent = n->parent;
    }
    color_set(parent, BLACK, pc), color_set(above, RED, pc);
    turn_tree(above, !side, head, pc);
    return n;
}

void __wrap__ZSt29_Rb_tree_insert_and_rebalancebPSt18_Rb_tree_node_baseS0_RS_(_Bool left, struct tree_node *mine,
                                                                              struct tree_node *parent,
                                                                              struct tree_node *head) {
    struct tree_node *n = mine;
    u64 pc = PC;
    link_leaf(!left, mine, parent, head, pc);
    while (n != link_read(&head->parent, pc) && color_read(link_read(&n->parent, pc), pc) == RED)
        n = mend_reds(n, head, pc);
    color_set(link_read(&head->parent, pc), BLACK, pc);
}

/* The node that is the farthest to this side below `n`. */
static struct tree_node *farthest(struct tree_node *n, int side, u64 pc) {
    for (struct tree_node *below; (below = link_read(&n->side[side], pc));) n = below;
    return n;
}

/* The gap of a node that is taken out: what takes its place or that of the node after it, and the parent of that. */
struct gap {
    struct tree_node *filled_by, *below;
};

/* Takes out a node that has one child, or none. */
static struct gap take_out(struct tree_node *mine, struct tree_node *child, struct tree_node *head, u64 pc) {
    struct gap gap = {child, link_read(&mine->parent, pc)};
    if (child) link_set(&child->parent, gap.below, pc);
    takes_place(mine, child, head, pc);
    for (int side = 0; side < 2; side++)
        if (link_read(&head->side[side], pc) == mine)
            link_set(&head->side[side], child ? farthest(child, side, pc) : gap.below, pc);
    return gap;
}

/* Takes out a node with two children: the node after it takes its place and its color. */
static struct gap replace(struct tree_node *mine, struct tree_node *head, u64 pc) {
    struct tree_node *left = mine->side[0], *right = mine->side[1], *other = farthest(right, 0, pc);
    struct gap gap = {link_read(&other->side[1], pc), other};
    link_set(&left->parent, other, pc), link_set(&other->side[0], left, pc);
    if (other != right) {
        gap.below = link_read(&other->parent, pc);
        if (gap.filled_by) link_set(&gap.filled_by->parent, gap.below, pc);
        link_set(&gap.below->side[0], gap.filled_by, pc);
        link_set(&other->side[1], right, pc), link_set(&right->parent, other, pc);
    }
    takes_place(mine, other, head, pc);
    link_set(&other->parent, link_read(&mine->parent, pc), pc);
    int color = color_read(other, pc);
    color_set(other, color_read(mine, pc), pc), color_set(mine, color, pc);
    return gap;
}

/* One step if a side of `gap.below` has one black node too few. The last step gives no next `below`. */
static struct gap mend_blacks(struct gap gap, struct tree_node *head, u64 pc) {
    struct tree_node *below = gap.below;
    int side = link_read(&below->side[0], pc) != gap.filled_by;
    struct tree_node *other = link_read(&below->side[!side], pc);
    if (color_read(other, pc) == RED) {
        color_set(other, BLACK, pc), color_set(below, RED, pc);
        turn_tree(below, side, head, pc);
        other = link_read(&below->side[!side], pc);
    }
    int near_is_black = is_black(link_read(&other->side[side], pc), pc);
    int far_is_black = is_black(link_read(&other->side[!side], pc), pc);
    if (near_is_black && far_is_black) {
        color_set(other, RED, pc);
        return (struct gap){below, link_read(&below->parent, pc)};
    }
    if (far_is_black) {
        color_set(other->side[side], BLACK, pc), color_set(other, RED, pc);
        turn_tree(other, !side, head, pc);
        other = link_read(&below->side[!side], pc);
    }
    color_set(other, color_read(below, pc), pc), color_set(below, BLACK, pc);
    if (link_read(&other->side[!side], pc)) color_set(other->side[!side], BLACK, pc);
    turn_tree(below, side, head, pc);
    return (struct gap){gap.filled_by, NULL};
}

struct tree_node *__wrap__ZSt28_Rb_tree_rebalance_for_erasePSt18_Rb_tree_node_baseRS_(struct tree_node *mine,
                                                                                      struct tree_node *head) {
    u64 pc = PC;
    comes_to_call();
    struct tree_node *left = link_read(&mine->side[0], pc), *right = link_read(&mine->side[1], pc);
    struct gap gap = left && right ? replace(mine, head, pc) : take_out(mine, left ? left : right, head, pc);
    if (color_read(mine, pc) == RED) return mine;
    while (gap.below && gap.filled_by != link_read(&head->parent, pc) && is_black(gap.filled_by, pc))
        gap = mend_blacks(gap, head, pc);
    if (gap.filled_by) color_set(gap.filled_by, BLACK, pc);
    return mine;
}

/* ---- walks: other threads may come between their steps ---- */

static struct tree_node *link_at(struct tree_node **at, u64 pc) {
    access_(READ, at, sizeof *at, pc);
    return *at;
}

/* The node that is next to this side: the nearest one below, or the first above that has `n` on its other side. */
static struct tree_node *neighbor(struct tree_node *n, int side, u64 pc) {
    struct tree_node *below = link_at(&n->side[side], pc), *above;
    if (below) {
        while ((above = link_at(&below->side[!side], pc))) below = above;
        return below;
    }
    above = link_at(&n->parent, pc);
    while (n == link_at(&above->side[side], pc)) n = above, above = link_at(&above->parent, pc);
    return side && n->side[1] == above ? n : above;
}

static struct tree_node *next_in_tree(struct tree_node *n, u64 pc) { return neighbor(n, 1, pc); }

/* The head is red, and is its grandparent; the last node is before it. */
static struct tree_node *before_in_tree(struct tree_node *n, u64 pc) {
    access_(READ, &n->color, sizeof n->color, pc);
    if (n->color == RED && link_at(&link_at(&n->parent, pc)->parent, pc) == n) return link_at(&n->side[1], pc);
    return neighbor(n, 0, pc);
}

#define WALKS(name, walk) \
    struct tree_node *name(struct tree_node *n) { \
        return walk(n, PC); \
    }
WALKS(__wrap__ZSt18_Rb_tree_incrementPSt18_Rb_tree_node_base, next_in_tree)
WALKS(__wrap__ZSt18_Rb_tree_incrementPKSt18_Rb_tree_node_base, next_in_tree)
WALKS(__wrap__ZSt18_Rb_tree_decrementPSt18_Rb_tree_node_base, before_in_tree)
WALKS(__wrap__ZSt18_Rb_tree_decrementPKSt18_Rb_tree_node_base, before_in_tree)
