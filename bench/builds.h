/* Other ways to build the list of a bed, unproved, and beds to build. */
#ifndef BUILDS_H
#define BUILDS_H

#include <stddef.h>
#include <stdint.h>

/* The whole raster, row after row, to a list: each block from its four quarters. Returns the tile count. */
size_t bottom_up(uint32_t order, const uint8_t *raster, uint32_t *list);

/* Accounts in Morton order to a list: each pixel on top of a stack, merged while the top four are siblings. */
size_t morton_stack(const uint8_t *accounts, size_t pixels, uint32_t *list);

/* Document 001's scan by rows: a linked list of tiles, and for each column a pointer to where its next pixel belongs. */
struct linked;
struct linked *linked_new(uint32_t order);
void linked_free(struct linked *scan);
void linked_fresh(struct linked *scan);
void linked_row(struct linked *scan, const uint8_t *accounts);
size_t linked_list(const struct linked *scan, uint32_t *list);
size_t linked_most(const struct linked *scan); /* the most tiles after any pixel */

/* A number below a bound, at random, and the next state. */
uint32_t random_below(uint64_t *state, uint32_t bound);

/* The beds measured, row after row. */
#define BED_KINDS 4
extern const char *const bed_names[BED_KINDS];
void make_bed(int kind, uint32_t order, uint8_t *raster);

/* Noise: each pixel has one of the accounts from 1 to `accounts`, at random. */
void make_noise(uint32_t accounts, uint32_t order, uint8_t *raster);

/* Reserved zones, the second map where two are combined: few and large rectangles. */
void make_zones(uint32_t order, uint8_t *raster);

#endif
