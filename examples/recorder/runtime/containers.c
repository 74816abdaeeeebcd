/* The trees and lists of libstdc++, anew: its own code for them is in the library, where no access is hooked. This file
 * is built with the sanitizer's hooks, as the program is, so that each access here is recorded.
 *
 * A tree has a header, whose parent is the root, whose left is the least node and whose right the greatest one. */
#include <stdbool.h>
#include <stddef.h>

#define API __attribute__((visibility("default")))

enum colour { RED, BLACK };

struct node {
    enum colour colour;
    struct node *parent, *left, *right;
};

/* ---- The next and the last node ---- */

static struct node *least(struct node *node) {
    while (node->left) node = node->left;
    return node;
}

static struct node *greatest(struct node *node) {
    while (node->right) node = node->right;
    return node;
}

static struct node *next(struct node *node) {
    if (node->right) return least(node->right);
    struct node *above = node->parent;
    while (node == above->right) {
        node = above;
        above = above->parent;
    }
    return node->right != above ? above : node;
}

static struct node *before(struct node *node) {
    if (node->colour == RED && node->parent->parent == node) return node->right; /* the header */
    if (node->left) return greatest(node->left);
    struct node *above = node->parent;
    while (node == above->left) {
        node = above;
        above = above->parent;
    }
    return above;
}

API struct node *increment(struct node *) __asm__("_ZSt18_Rb_tree_incrementPSt18_Rb_tree_node_base");
API const struct node *increment_const(const struct node *) __asm__("_ZSt18_Rb_tree_incrementPKSt18_Rb_tree_node_base");
API struct node *decrement(struct node *) __asm__("_ZSt18_Rb_tree_decrementPSt18_Rb_tree_node_base");
API const struct node *decrement_const(const struct node *) __asm__("_ZSt18_Rb_tree_decrementPKSt18_Rb_tree_node_base");
struct node *increment(struct node *node) { return next(node); }
const struct node *increment_const(const struct node *node) { return next((struct node *)node); }
struct node *decrement(struct node *node) { return before(node); }
const struct node *decrement_const(const struct node *node) { return before((struct node *)node); }

/* ---- Rotations ---- */

static bool is_black(const struct node *node) { return !node || node->colour == BLACK; }

/* Where the tree points to this node from above. */
static struct node **link_of(struct node *node, struct node *header) {
    if (header->parent == node) return &header->parent;
    return node->parent->left == node ? &node->parent->left : &node->parent->right;
}

static void rotate_left(struct node *node, struct node *header) {
    struct node *up = node->right;
    *link_of(node, header) = up;
    node->right = up->left;
    if (up->left) up->left->parent = node;
    up->parent = node->parent;
    up->left = node;
    node->parent = up;
}

static void rotate_right(struct node *node, struct node *header) {
    struct node *up = node->left;
    *link_of(node, header) = up;
    node->left = up->right;
    if (up->right) up->right->parent = node;
    up->parent = node->parent;
    up->right = node;
    node->parent = up;
}

static void rotate(struct node *node, bool to_the_left, struct node *header) {
    (to_the_left ? rotate_left : rotate_right)(node, header);
}

/* ---- A node comes in ---- */

static void link_in(bool at_left, struct node *node, struct node *parent, struct node *header) {
    *node = (struct node){RED, parent, NULL, NULL};
    if (parent == header) {
        header->parent = header->left = header->right = node;
    } else if (at_left) {
        parent->left = node;
        if (parent == header->left) header->left = node;
    } else {
        parent->right = node;
        if (parent == header->right) header->right = node;
    }
}

API void insert(bool, struct node *, struct node *, struct node *) __asm__(
    "_ZSt29_Rb_tree_insert_and_rebalancebPSt18_Rb_tree_node_baseS0_RS_");

void insert(bool at_left, struct node *node, struct node *parent, struct node *header) {
    link_in(at_left, node, parent, header);
    while (node != header->parent && node->parent->colour == RED) {
        struct node *above = node->parent, *top = above->parent;
        bool left = above == top->left;
        struct node *uncle = left ? top->right : top->left;
        if (!is_black(uncle)) {
            above->colour = uncle->colour = BLACK;
            top->colour = RED;
            node = top;
            continue;
        }
        if (node == (left ? above->right : above->left)) {
            rotate(above, left, header);
            above = node;
            node = left ? above->left : above->right;
        }
        above->colour = BLACK;
        top->colour = RED;
        rotate(top, !left, header);
    }
    header->parent->colour = BLACK;
}

/* ---- A node goes out ---- */

/* The paths through `node`, which is below `parent`, have one black node too few. */
static void mend(struct node *node, struct node *parent, struct node *header) {
    while (node != header->parent && is_black(node)) {
        bool left = node == parent->left;
        struct node *sister = left ? parent->right : parent->left;
        if (sister->colour == RED) {
            sister->colour = BLACK;
            parent->colour = RED;
            rotate(parent, left, header);
            sister = left ? parent->right : parent->left;
        }
        if (is_black(sister->left) && is_black(sister->right)) {
            sister->colour = RED;
            node = parent;
            parent = parent->parent;
            continue;
        }
        if (is_black(left ? sister->right : sister->left)) {
            (left ? sister->left : sister->right)->colour = BLACK;
            sister->colour = RED;
            rotate(sister, !left, header);
            sister = left ? parent->right : parent->left;
        }
        sister->colour = parent->colour;
        parent->colour = BLACK;
        (left ? sister->right : sister->left)->colour = BLACK;
        rotate(parent, left, header);
        break;
    }
    if (node) node->colour = BLACK;
}

/* Puts `heir` in the place of a node that has two children; gives what is then above the heir's old place. */
static struct node *replace(struct node *node, struct node *heir, struct node *child, struct node *header) {
    struct node *parent = heir;
    node->left->parent = heir;
    heir->left = node->left;
    if (heir != node->right) {
        parent = heir->parent;
        if (child) child->parent = parent;
        parent->left = child;
        heir->right = node->right;
        node->right->parent = heir;
    }
    *link_of(node, header) = heir;
    heir->parent = node->parent;
    enum colour colour = heir->colour;
    heir->colour = node->colour;
    node->colour = colour;
    return parent;
}

static struct node *cut_out(struct node *node, struct node *child, struct node *header) {
    struct node *parent = node->parent;
    if (child) child->parent = parent;
    *link_of(node, header) = child;
    if (header->left == node) header->left = node->right ? least(child) : parent;
    if (header->right == node) header->right = node->left ? greatest(child) : parent;
    return parent;
}

API struct node *erase(struct node *, struct node *) __asm__(
    "_ZSt28_Rb_tree_rebalance_for_erasePSt18_Rb_tree_node_baseRS_");

struct node *erase(struct node *node, struct node *header) {
    struct node *child, *parent;
    if (node->left && node->right) {
        struct node *heir = least(node->right);
        child = heir->right;
        parent = replace(node, heir, child, header);
    } else {
        child = node->left ? node->left : node->right;
        parent = cut_out(node, child, header);
    }
    if (node->colour == BLACK) mend(child, parent, header);
    return node;
}

/* ---- Lists: rings of links ---- */

struct link {
    struct link *next, *before;
};

#define LIST(name) __asm__("_ZNSt8__detail15_List_node_base" name)

API void hook_in(struct link *, struct link *) LIST("7_M_hookEPS0_");
API void unhook(struct link *) LIST("9_M_unhookEv");
API void transfer(struct link *, struct link *, struct link *) LIST("11_M_transferEPS0_S1_");

void hook_in(struct link *link, struct link *place) {
    link->next = place;
    link->before = place->before;
    place->before->next = link;
    place->before = link;
}

void unhook(struct link *link) {
    struct link *next_link = link->next, *before_link = link->before;
    before_link->next = next_link;
    next_link->before = before_link;
}

/* Moves the links from `first` to before `last` to before `place`. */
void transfer(struct link *place, struct link *first, struct link *last) {
    if (place == last) return;
    last->before->next = place;
    first->before->next = last;
    place->before->next = first;
    struct link *kept = place->before;
    place->before = last->before;
    last->before = first->before;
    first->before = kept;
}
