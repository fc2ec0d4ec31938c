/* Nodes of the containers of C++: code of the library of C++ links them, which has no hooks. Programs of C have no
 * such library. Interposes the functions of std::__detail::_List_node_base, which the headers call, by the linker's
 * --wrap. Must not call access_ between two changes of nodes, since it may give the token: no other thread may see
 * half a change. */
#include "accesses.h"
#include "callers.h"

struct list_node {
    struct list_node *next, *before;
};
#define LIST(name) __wrap__ZNSt8__detail15_List_node_base##name

/* Puts a node before another one. */
void LIST(7_M_hookEPS0_)(struct list_node *mine, struct list_node *at) {
    access_(READ, &at->before, 8, PC), access_(WRITE, mine, sizeof *mine, PC);
    access_(WRITE, &at->before->next, 8, PC), access_(WRITE, &at->before, 8, PC);
    mine->next = at, mine->before = at->before;
    at->before->next = mine;
    at->before = mine;
}

void LIST(9_M_unhookEv)(struct list_node *mine) {
    access_(READ, mine, sizeof *mine, PC);
    access_(WRITE, &mine->before->next, 8, PC), access_(WRITE, &mine->next->before, 8, PC);
    mine->before->next = mine->next;
    mine->next->before = mine->before;
}

/* Moves the nodes from `first` up to `last` before this one, as splice, merge and sort do. */
void LIST(11_M_transferEPS0_S1_)(struct list_node *mine, struct list_node *first, struct list_node *last) {
    if (mine == last) return;
    access_(READ, &last->before, 8, PC), access_(READ, &first->before, 8, PC), access_(READ, &mine->before, 8, PC);
    struct list_node *end = last->before, *behind = first->before, *ahead = mine->before;
    access_(WRITE, &end->next, 8, PC), access_(WRITE, &behind->next, 8, PC), access_(WRITE, &ahead->next, 8, PC);
    access_(WRITE, &mine->before, 8, PC), access_(WRITE, &last->before, 8, PC), access_(WRITE, &first->before, 8, PC);
    end->next = mine, behind->next = last, ahead->next = first;
    mine->before = end, last->before = behind, first->before = ahead;
}

void LIST(10_M_reverseEv)(struct list_node *mine) {
    struct list_node *n = mine;
    do {
        access_(READ, n, sizeof *n, PC), access_(WRITE, n, sizeof *n, PC);
        struct list_node *next_one = n->next;
        n->next = n->before, n->before = next_one;
        n = next_one;
    } while (n != mine);
}

/* A head gets the nodes that the other had, or none. */
static void gets_nodes(struct list_node *mine, struct list_node *other, struct list_node had, u64 pc) {
    access_(WRITE, mine, sizeof *mine, pc);
    if (had.next == other) {
        mine->next = mine->before = mine;
        return;
    }
    *mine = had;
    access_(WRITE, &had.next->before, 8, pc), access_(WRITE, &had.before->next, 8, pc);
    had.next->before = had.before->next = mine;
}

/* The heads of two lists change their nodes. */
void LIST(4swapERS0_S1_)(struct list_node *a, struct list_node *b) {
    access_(READ, a, sizeof *a, PC), access_(READ, b, sizeof *b, PC);
    struct list_node of_a = *a, of_b = *b;
    if (of_a.next == a && of_b.next == b) return;
    gets_nodes(a, b, of_b, PC), gets_nodes(b, a, of_a, PC);
}
