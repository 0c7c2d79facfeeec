/* The table of files compared: are two files of one map? */
#include "bench.h"

#include <string.h>

enum { BYTES, LISTS, RASTERS, WAYS };

static void alike(int other)
{
    if (other) {
        fprintf(stderr, "bench: two files of one map differ\n");
        exit(1);
    }
}

/* Two files of one map, which must be alike: by their bytes, by what is read from them, or by the rasters of that. */
static void compare(struct bench *b, int way)
{
    if (way == BYTES) {
        alike(memcmp(b->file, b->copy, b->length));
        return;
    }
    kb_read_answer one = kb_read(b->file, b->length, b->slots, b->tiles);
    kb_read_answer two = kb_read(b->copy, b->length, b->other, b->tiles);
    must(one.number);
    must(two.number);
    alike(one.order != two.order || one.tiles != two.tiles);
    if (way == LISTS) {
        alike(memcmp(b->slots, b->other, b->tiles * sizeof *b->slots));
        return;
    }
    must(kb_decode(b->order, b->tiles, b->slots, b->tiles, b->raster, b->pixels));
    must(kb_decode(b->order, b->tiles, b->other, b->tiles, b->morton, b->pixels));
    alike(memcmp(b->raster, b->morton, b->pixels));
}

/* The list that the scans by rows and in Morton order both gave, written with a record of each kind. The accounts in
   Morton order give way to a raster: they are made anew with the next bed. */
void same_maps(struct bench *b)
{
    struct timing ways[WAYS];
    size_t room = KB_FILE_MOST(b->pixels);
    kb_write_answer rows = kb_write(KB_ROWS, b->order, b->scanned, b->tiles, b->list, b->tiles, b->file, room);
    kb_write_answer morton = kb_write(KB_MORTON, b->order, b->scanned, b->tiles, b->list, b->tiles, b->copy, room);
    must(rows.number);
    must(morton.number);
    alike(rows.length != morton.length);
    b->length = rows.length;
    in_turns(ways, WAYS, compare, b);
    printf("| %zu ", b->length);
    for (int way = BYTES; way < WAYS; way++)
        printf("| %.3f ", least(ways + way) / 1e3);
}
