/* Times every call of the library beside straightforward C in the same run, and prints Markdown tables.

       bench/run [LOWEST ORDER [HIGHEST ORDER]]        6 and 10 unless given

   No other way to build a list, to combine two, to name a block, to write and read a file or a position in mils, or to
   load a table of rights is timed in its own table before it has given what the library gives. */
#include "bench.h"
#include "builds.h"
#include "stack.h"
#include "straight.h"

#include <string.h>

void same(struct bench *b, const uint32_t *list, size_t tiles, const char *what)
{
    if (tiles != b->tiles || memcmp(list, b->list, tiles * sizeof *list)) {
        fprintf(stderr, "bench: %s gives another list\n", what);
        exit(1);
    }
}

static void set_up(struct bench *b, int kind, uint32_t order)
{
    b->order = order;
    b->pixels = b->scanned = area(order);
    make_bed(kind, order, b->rows);
    for (uint32_t z = 0; z < b->pixels; z++)
        b->morton[z] = b->rows[straight_side(z >> 1) << order | straight_side(z)];
    b->room = b->pixels;
    b->tiles = scan(b, kb_fresh, kb_feed, KB_ROWS, b->room, b->pixels);
    memcpy(b->list, b->slots, b->tiles * sizeof *b->list);
    same(b, b->slots, scan(b, kb_fresh, kb_feed, KB_MORTON, b->room, b->pixels), "the scan in Morton order");
    same(b, b->slots, scan(b, straight_fresh, straight_feed, KB_ROWS, b->room, b->pixels), "straightforward C by rows");
    same(b, b->slots, scan(b, straight_fresh, straight_feed, KB_MORTON, b->room, b->pixels), "straightforward C in Morton order");
    same(b, b->other, bottom_up(order, b->rows, b->other), "the bottom-up build");
    same(b, b->other, morton_stack(b->morton, b->pixels, b->other), "the stack");
    linked_scan(b);
    same(b, b->other, linked_list(b->linked, b->other), "document 001's list");
    /* By rows a list is longer on the way; in Morton order by three tiles of each size at most. */
    size_t most = linked_most(b->linked), morton = b->tiles + 3 * order + 1;
    b->room = most > morton ? most : morton;
}

void halve(struct bench *b)
{
    size_t half = b->scanned /= 2;
    b->tiles = scan(b, kb_fresh, kb_feed, KB_ROWS, b->room, half);
    memcpy(b->list, b->slots, b->tiles * sizeof *b->list);
    same(b, b->slots, scan(b, straight_fresh, straight_feed, KB_ROWS, b->room, half), "straightforward C half done");
}

typedef kb_combine_answer combine_call(uint32_t, uint32_t, size_t, const uint32_t *, size_t,
                                       uint32_t, size_t, const uint32_t *, size_t, uint32_t *, size_t);

/* The bed's list with that of the zones, to a list; returns its tile count. */
static size_t combine_once(struct bench *b, combine_call *combine, uint32_t choice, size_t zones,
                           uint32_t *out, size_t m)
{
    kb_combine_answer answer = combine(choice, b->order, b->tiles, b->list, b->tiles,
                                       b->order, zones, b->zones, zones, out, m);
    must(answer.number);
    return answer.tiles;
}

/* One row of the table of combined maps: for each choice the tiles left, and the times. */
static void combines(struct bench *b)
{
    struct timing ours, straight;
    make_zones(b->order, b->raster);
    size_t zones = bottom_up(b->order, b->raster, b->zones);
    printf("| %zu ", zones);
    for (uint32_t choice = KB_INSIDE; choice <= KB_OUTSIDE; choice++) {
        size_t tiles = combine_once(b, kb_combine, choice, zones, b->slots, b->pixels), m = tiles + 40;
        if (combine_once(b, straight_combine, choice, zones, b->other, b->pixels) != tiles
            || memcmp(b->other, b->slots, b->pixels * sizeof *b->slots)) {
            fprintf(stderr, "bench: straightforward C gives another combined list\n");
            exit(1);
        }
        BOTH(ours, combine_once(b, kb_combine, choice, zones, b->slots, m),
             straight, combine_once(b, straight_combine, choice, zones, b->slots, m));
        printf("| %zu ", tiles);
        cell(&ours, &straight, b->tiles + zones + tiles);
    }
}

/* The tables: what stands above each; what makes a row of it, behind the order, the bed and its tiles; how many of the
   kinds of beds have rows; whether each has a second one, with a slot lent for each pixel; and whether a scan of boards
   half done has a row too. */
static const struct table {
    const char *name, *above;
    void (*row)(struct bench *);
    int beds, more_slots, half;
} tables[] = {
    {"feeds by rows",
     "Feeds by rows: nanoseconds for each pixel, then the library's time divided by that of each other way. The slots\n"
     "lent are just enough for a scan of either kind, then one for each pixel. Every feed of the library and of plain\n"
     "C makes the opening checks and clears the slots past its list; the other ways keep their list between rows and\n"
     "check nothing. \"Without checks\" is 64 rows at a time less the time that the opening checks of these feeds take\n"
     "alone. A bed that has fewer rows is then fed at once.\n\n"
     "| order | bed | tiles | slots lent | at once | plain C | 001 | bottom-up | 64 rows at a time | 001 "
     "| without checks | 001 | row by row | plain C | 001 |\n"
     "|---|---|---|---|---|---|---|---|---|---|---|---|---|---|---|\n",
     feeds_by_rows, BED_KINDS, 1, 0},
    {"feeds in Morton order",
     "\nFeeds in Morton order: nanoseconds for each pixel, then the library's time divided by that of each other way,\n"
     "with the same slots lent. The stack keeps its list between feeds and checks nothing.\n\n"
     "| order | bed | tiles | slots lent | at once | plain C | stack | row by row | plain C | stack |\n"
     "|---|---|---|---|---|---|---|---|---|---|\n",
     feeds_in_morton_order, BED_KINDS, 1, 0},
    {"opening checks",
     "\nOpening checks: nanoseconds × the library's time divided by that of straightforward C. The list check for\n"
     "each tile, accepted and refused at the last word, and for a call, refused at the first. Then of the scan by\n"
     "rows half done: 22 alone, which is the opening checks less the list check, for each tile; and for a call, the\n"
     "next row fed and a lookup.\n\n"
     "| order | bed | tiles | check | refused at the last word | refused at the first | tiles half done | slots lent "
     "| 22 alone | a row fed | lookup |\n"
     "|---|---|---|---|---|---|---|---|---|---|---|\n",
     openings, BED_KINDS - 1, 0, 0},
    {"calls",
     "\nOther calls: nanoseconds for each tile (decode: pixel; fresh: slot) × the library's time divided by that of "
     "straightforward C.\nEvery call but read and fresh checks the whole list first. Rights go by the old table.\n"
     "For the roster, straightforward C keeps an array of totals; the library counts each account from the list.\n"
     "Of a scan half done, by rows, lookup, rights, preview and claim also check that each tile is scanned; it has no "
     "file.\n\n"
     "| order | bed | tiles | check | lookup | part | rights | preview | claim | write | read | decode | fresh |\n"
     "|---|---|---|---|---|---|---|---|---|---|---|---|---|\n",
     calls, BED_KINDS, 0, 1},
    {"combine",
     "\nCombine: the bed inside and outside of reserved zones, 8 large rectangles. Nanoseconds for each tile of both "
     "maps and of the third\n× the library's time divided by that of straightforward C. Both check the two lists "
     "first.\n\n"
     "| order | bed | tiles | zones' tiles | tiles inside | inside | tiles outside | outside |\n"
     "|---|---|---|---|---|---|---|---|\n",
     combines, BED_KINDS, 0, 0},
    {"files compared",
     "\nFiles compared: microseconds to tell that two files of a map, written with records of both kinds, are the\n"
     "same: by their bytes, by the lists that both are read as, and by the rasters that both lists are decoded to.\n\n"
     "| order | bed | tiles | bytes | by bytes | by lists | by rasters |\n"
     "|---|---|---|---|---|---|---|\n",
     same_maps, BED_KINDS, 0, 0},
};

static void print_row(const struct table *table, struct bench *b, const char *bed, const char *how)
{
    fprintf(stderr, "%s, order %u, %s%s\n", table->name, b->order, bed, how);
    printf("| %u | %s%s | %zu ", b->order, bed, how, b->tiles);
    table->row(b);
    printf("|\n");
    fflush(stdout);
}

static void print(const struct table *table, struct bench *b, uint32_t lowest, uint32_t highest)
{
    printf("%s", table->above);
    for (uint32_t order = lowest; order <= highest; order++) {
        b->linked = linked_new(order);
        for (int kind = 0; kind < table->beds; kind++) {
            set_up(b, kind, order);
            print_row(table, b, bed_names[kind], "");
            if (table->more_slots) {
                b->room = b->pixels;
                print_row(table, b, bed_names[kind], "");
            }
            if (kind == 0 && table->half) {
                halve(b);
                print_row(table, b, bed_names[kind], ", half done");
            }
        }
        linked_free(b->linked);
    }
}

typedef kb_write_answer write_call(uint32_t, uint32_t, uint32_t, size_t, const uint32_t *, size_t, uint8_t *, size_t);
typedef kb_read_answer read_call(const uint8_t *, size_t, uint32_t *, size_t);

/* A map file, and the two calls that write and read it. */
struct filing {
    struct bench *b;
    size_t length;
    write_call *write;
    read_call *read;
};

static void write_file(void *handed)
{
    struct filing *f = handed;
    const struct bench *b = f->b;
    must(f->write(KB_ROWS, b->order, b->scanned, b->tiles, b->list, b->tiles, b->file, f->length).number);
}

static void read_file(void *handed)
{
    struct filing *f = handed;
    must(f->read(f->b->file, f->length, f->b->slots, f->b->tiles + 1).number);
}

/* Straightforward C writes the library's file and reads it, and refuses it as the library does once its last two roster
   entries have changed places. */
static void same_file(struct bench *b, struct filing *straight)
{
    size_t length = straight->length;
    memcpy(b->copy, b->file, length);
    memset(b->file, 0xff, length);
    memset(b->slots, 0xff, b->tiles * sizeof *b->slots);
    write_file(straight);
    read_file(straight);
    int other = memcmp(b->copy, b->file, length) || memcmp(b->slots, b->list, b->tiles * sizeof *b->list);
    memcpy(b->copy + length - 10, b->file + length - 5, 5);
    memcpy(b->copy + length - 5, b->file + length - 10, 5);
    if (other || kb_read(b->copy, length, b->slots, b->tiles).number != KB_ROSTER_UNSORTED
        || straight_read(b->copy, length, b->slots, b->tiles).number != KB_ROSTER_UNSORTED) {
        fprintf(stderr, "bench: straightforward C writes or reads another file\n");
        exit(1);
    }
}

/* The table of rosters: writing and reading a file, by the number of accounts, and the stack that each takes. */
static void rosters(struct bench *b, uint32_t order)
{
    static const uint32_t accounts[] = {2, 4, 8, 16, 32, KB_HIGHEST_ACCOUNT};
    struct timing our_time, straight_time;
    printf("\nRosters: files of noise, by the number of accounts. Nanoseconds for each tile × the library's time "
           "divided by that of\nstraightforward C, which keeps an array of totals; then the bytes of stack that a call "
           "takes.\n\n"
           "| order | accounts | tiles | write | read | stack to write | plain C | stack to read | plain C |\n"
           "|---|---|---|---|---|---|---|---|---|\n");
    b->order = order;
    b->pixels = b->scanned = area(order);
    for (size_t i = 0; i < sizeof accounts / sizeof *accounts; i++) {
        make_noise(accounts[i], order, b->rows);
        b->tiles = bottom_up(order, b->rows, b->list);
        size_t length = kb_write(KB_ROWS, order, b->scanned, b->tiles, b->list, b->tiles, b->file,
                                 KB_FILE_MOST(b->pixels)).length;
        struct filing ours = {b, length, kb_write, kb_read}, straight = {b, length, straight_write, straight_read};
        same_file(b, &straight);
        fprintf(stderr, "rosters, order %u, %u accounts\n", order, accounts[i]);
        printf("| %u | %u | %zu ", order, accounts[i], b->tiles);
        BOTH(our_time, write_file(&ours), straight_time, write_file(&straight));
        cell(&our_time, &straight_time, b->tiles);
        BOTH(our_time, read_file(&ours), straight_time, read_file(&straight));
        cell(&our_time, &straight_time, b->tiles);
        printf("| %zu | %zu ", stack_of(write_file, &ours), stack_of(write_file, &straight));
        printf("| %zu | %zu |\n", stack_of(read_file, &ours), stack_of(read_file, &straight));
        fflush(stdout);
    }
}

int main(int argc, char **argv)
{
    uint32_t lowest = argc > 1 ? (uint32_t)atoi(argv[1]) : 6;
    uint32_t highest = argc > 2 ? (uint32_t)atoi(argv[2]) : KB_HIGHEST_ORDER;
    if (lowest < 3 || highest > KB_HIGHEST_ORDER || lowest > highest) {
        fprintf(stderr, "bench: orders from 3 to %d\n", KB_HIGHEST_ORDER);
        return 2;
    }
    size_t most = area(highest);
    struct bench b = {0};
    b.rows = malloc(most), b.morton = malloc(most), b.raster = malloc(most);
    b.file = malloc(KB_FILE_MOST(most)), b.copy = malloc(KB_FILE_MOST(most));
    b.list = malloc((most + 40) * sizeof *b.list);
    b.slots = malloc((most + 40) * sizeof *b.slots);
    b.other = malloc(most * sizeof *b.other);
    b.zones = malloc(most * sizeof *b.zones);
    if (!b.rows || !b.morton || !b.raster || !b.file || !b.copy || !b.list || !b.slots || !b.other || !b.zones)
        return 1;
    for (size_t i = 0; i < sizeof tables / sizeof *tables; i++)
        print(tables + i, &b, lowest, highest);
    refused_lists(&b, highest);
    short_lists(&b, highest);
    lookups(lowest, highest);
    rosters(&b, highest);
    mils();
    tables_of_rights();
    return 0;
}
