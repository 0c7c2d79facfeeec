/* Document 001's algorithm: tiles in a doubly linked list, one pointer for each column.

   The pointer of a column says behind which tile a pixel next to it belongs. Where pixels are white it can fall behind, since a tile may
   have come in between since, and it can point to a tile that a merge took away: 001 then puts tiles out of order. Mended here in two
   ways: a tile taken away points to the one that took its place, and the place is found by going on from the pointer while the next
   tile has a smaller corner. Everything else is as 001 has it. */
#include "builds.h"

#include "straight.h"

#include <stdlib.h>

struct node {
    uint32_t word;
    uint32_t next, previous;
    uint32_t taken_by; /* the tile that a merge put in its place, or 0 */
};

/* Node 0 is the head. */
struct linked {
    uint32_t order, row, used;
    uint32_t tiles, most;
    uint32_t *columns;
    struct node *nodes;
};

struct linked *linked_new(uint32_t order)
{
    struct linked *scan = malloc(sizeof *scan);
    scan->order = order;
    scan->columns = malloc(((size_t)1 << order) * sizeof *scan->columns);
    scan->nodes = malloc(((size_t)area(order) + 1) * sizeof *scan->nodes);
    return scan;
}

void linked_free(struct linked *scan)
{
    free(scan->columns);
    free(scan->nodes);
    free(scan);
}

void linked_fresh(struct linked *scan)
{
    scan->row = 0;
    scan->used = 1;
    scan->tiles = scan->most = 0;
    scan->nodes[0] = (struct node){0, 0, 0, 0};
}

/* Merges a tile with its three predecessors while they are siblings; returns what it became. */
static uint32_t merge(struct linked *scan, uint32_t last)
{
    struct node *nodes = scan->nodes;
    for (uint32_t k = 0; k < scan->order; k++) {
        uint32_t word = nodes[last].word, step = area(k) << 10;
        uint32_t third = nodes[last].previous, second = nodes[third].previous, first = nodes[second].previous;
        if ((corner_of(word) >> 2 * k & 3) != 3 || nodes[third].word != word - step || nodes[second].word != word - 2 * step
            || nodes[first].word != word - 3 * step)
            break;
        nodes[first].word += 1u << 6;
        nodes[first].next = nodes[last].next;
        nodes[nodes[last].next].previous = first;
        nodes[second].taken_by = nodes[third].taken_by = nodes[last].taken_by = first;
        scan->tiles -= 3;
        last = first;
    }
    return last;
}

void linked_row(struct linked *scan, const uint8_t *accounts)
{
    struct node *nodes = scan->nodes;
    uint32_t side = 1u << scan->order, row = scan->row++, z = straight_morton(0, row);
    uint32_t stride = row ? 2 * (row & -row) : 0; /* a pixel at a multiple of it comes after one of the row above */
    for (uint32_t column = 0; column < side; column++) {
        uint32_t place = row && column % stride == 0 ? scan->columns[column + stride - 1] : column ? scan->columns[column - 1] : 0;
        while (nodes[place].taken_by)
            place = nodes[place].taken_by;
        scan->columns[column] = place;
        if (accounts[column]) {
            while (nodes[place].next && corner_of(nodes[nodes[place].next].word) < z)
                place = nodes[place].next;
            uint32_t new = scan->used++, next = nodes[place].next;
            nodes[new] = (struct node){word_of(z, 0, accounts[column]), next, place, 0};
            nodes[place].next = new;
            nodes[next].previous = new;
            scan->tiles++;
            new = merge(scan, new);
            scan->most = scan->tiles > scan->most ? scan->tiles : scan->most;
            uint32_t width = 1u << size_of(nodes[new].word);
            for (uint32_t x = column + 1 - width; x <= column; x++)
                scan->columns[x] = new;
        }
        z = (((z | 0xaaaaa) + 1) & 0x55555) | (z & 0xaaaaa);
    }
}

size_t linked_list(const struct linked *scan, uint32_t *list)
{
    size_t count = 0;
    for (uint32_t at = scan->nodes[0].next; at; at = scan->nodes[at].next)
        list[count++] = scan->nodes[at].word;
    return count;
}

size_t linked_most(const struct linked *scan) { return scan->most; }
