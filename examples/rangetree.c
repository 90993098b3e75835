/* A range tree in C: ranges in and out, and pages looked up. It links librangetree.a and nothing else of Yavrestom. */
#include <stdio.h>

#include "yavrestom.h"

#define TREE tree, YAVRESTOM_TREE
#define VALUES values, YAVRESTOM_VALUES

/* the rest are zeros: an empty tree */
static uint32_t tree[YAVRESTOM_TREE] = {YAVRESTOM_TREE_EMPTY};
static uint32_t values[YAVRESTOM_VALUES];

static void show(uint32_t number)
{
    printf("%u %u %u\n", (unsigned)number, (unsigned)values[0], (unsigned)values[1]);
}

static void insert(uint32_t base, uint32_t limit, uint32_t offset, uint32_t rights)
{
    show(yavrestom_tree_insert(TREE, base, limit, offset, rights, VALUES));
}

static void remove_from(uint32_t base)
{
    show(yavrestom_tree_remove(TREE, base, VALUES));
}

static void lookup(uint32_t page)
{
    show(yavrestom_tree_lookup(TREE, page, VALUES));
}

int main(void)
{
    /* pages 0 to 7 in frames 100 to 107, read and write; pages 16 to 31 in frames 0 to 15, read */
    insert(0, 8, 100, 3);
    insert(16, 32, (uint32_t)0 - 16, 1);
    /* three more: the fifth parts the leaf, and pages 32 to 39 go to the root */
    insert(32, 40, 100, 5);
    insert(48, 56, 100, 7);
    insert(64, 72, 100, 0);
    /* the first range, its LIMIT, the second one, the root's */
    lookup(7);
    lookup(8);
    lookup(16);
    lookup(32);
    /* without the second range the leaves become one again */
    remove_from(16);
    lookup(16);
    lookup(32);
    /* too short; page 7 is held; no such BASE */
    insert(8, 15, 100, 3);
    insert(7, 15, 100, 3);
    remove_from(16);
    return 0;
}
