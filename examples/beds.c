/* A host program for the library: scans a bed with some boards on it, asks ahead of the camera, claims a block, shows
   the bed on a panel, goes over it with a head, asks who may place where, also by a position in mils and by the lab's
   own table of rights, and what lies in the reserved zones, archives the map and reads it back, and is refused
   something.

       gcc -O2 -Iinclude examples/beds.c target/staticlib/libkingletbed.a -o target/beds
       target/beds [MAP FILE]        bed.map unless named; kbmap draws it */
#include <kingletbed.h>

#include <stdio.h>
#include <stdlib.h>
#include <string.h>

#define ORDER 6
#define SIDE (1 << ORDER)
#define PIXELS (SIDE * SIDE)

/* A board on the bed: its account and the pixels that it lies on. */
struct board {
    uint8_t account;
    int column, row, width, height;
};

static const struct board boards[] = {
    {3, 4, 4, 20, 12},  /* a staff member's long board */
    {21, 28, 2, 17, 17}, {21, 34, 19, 8, 5},
    {18, 4, 20, 12, 28}, {40, 48, 4, 12, 12},
    {12, 20, 26, 10, 10}, {12, 24, 36, 22, 9},
    {51, 50, 22, 9, 16}, {56, 6, 52, 26, 8}, {62, 48, 48, 14, 14},
};

/* The block that account 21 claims: 8 by 8 pixels. */
#define CLAIM_COLUMN 40
#define CLAIM_ROW 24
#define CLAIM_SIZE 3
#define CLAIM_SIDE (1 << CLAIM_SIZE)
#define CLAIM_ACCOUNT 21

/* The table in force: the old one, until the lab loads its own. */
static uint8_t table[KB_TABLE_LENGTH] = KB_OLD_TABLE;

/* The lab's file for workshops: a count, then the rows of staff, students and guests. By it a guest may place on
   nobody's pixels, the second column. */
static const uint8_t workshop[KB_TABLE_FILE_LENGTH] = {
    15,
    1, 1, 1, 1, 0,
    1, 1, 0, 0, 0,
    1, 1, 0, 0, 0,
};

/* What the camera would see: the account of each pixel, row after row. */
static void place_boards(uint8_t *raster)
{
    memset(raster, 0, PIXELS);
    for (size_t i = 0; i < sizeof boards / sizeof *boards; i++)
        for (int row = 0; row < boards[i].height; row++)
            memset(raster + (boards[i].row + row) * SIDE + boards[i].column, boards[i].account,
                   (size_t)boards[i].width);
}

static void must(uint32_t number, const char *what)
{
    if (number == KB_ACCEPTED)
        return;
    fprintf(stderr, "beds: %s was refused: %s\n", what, kb_refusal_text(number));
    exit(1);
}

/* May a student place at a pixel while the scan goes on? Where the camera has not been, the answer is a refusal: that
   no board was seen there does not make the ground free. */
static void ask_early(const kb_scan *scan, uint32_t column, uint32_t row)
{
    kb_rights_answer right = kb_scan_rights(scan, table, sizeof table, column, row, 12);
    printf("After %u pixels, student 12 at (%u, %u): %s.\n", scan->pixels, column, row,
           right.number != KB_ACCEPTED ? kb_refusal_text(right.number) : right.yes ? "yes" : "no");
}

/* Feeds the bed row by row, as it comes from a camera. */
static void feed_rows(kb_scan *scan, const uint8_t *raster)
{
    size_t most = 0;
    for (int row = 0; row < SIDE; row++) {
        if (row == SIDE / 2) {
            ask_early(scan, 62, 2);
            ask_early(scan, 62, 42);
        }
        must(kb_scan_feed(scan, raster + row * SIDE, SIDE).number, "a feed");
        most = scan->tiles > most ? scan->tiles : most;
    }
    printf("Scanned %u pixels row by row: %zu tiles, at most %zu after a row.\n", scan->pixels, scan->tiles, most);
}

/* Claims the block if it is free: that no tile is inside would not be enough, but one lookup at its last pixel, the
   south-eastern one, tells. It would also be refused if the block were not wholly scanned. What the claim costs is told
   ahead. */
static void claim(kb_scan *scan)
{
    kb_block_answer block = kb_block(ORDER, CLAIM_COLUMN, CLAIM_ROW, CLAIM_SIZE);
    must(block.number, "the block");
    kb_lookup_answer found = kb_scan_lookup(scan, CLAIM_COLUMN + CLAIM_SIDE - 1, CLAIM_ROW + CLAIM_SIDE - 1);
    must(found.number, "the lookup at the block's last pixel");
    int nobodys = found.account == 0 && found.size >= CLAIM_SIZE;
    printf("The block of 8 by 8 pixels at column %d, row %d is %s.\n", CLAIM_COLUMN, CLAIM_ROW,
           nobodys ? "nobody's" : "held");
    if (!nobodys)
        exit(1);
    kb_preview_answer preview = kb_scan_preview(scan, block.corner, block.size, CLAIM_ACCOUNT);
    must(preview.number, "the preview");
    printf("A claim for account %d would leave %zu tiles; now there are %zu.\n", CLAIM_ACCOUNT, preview.tiles,
           scan->tiles);
    must(kb_scan_claim(scan, block.corner, block.size, CLAIM_ACCOUNT), "the claim");
    printf("Account %d claims it: %zu tiles.\n", CLAIM_ACCOUNT, scan->tiles);
}

/* The panel: 16 by 16 cells, each a block of 4 by 4 pixels. A cell under a larger tile has no tile inside and is held
   all the same: drawn by the tiles of kb_scan_part it would look free. One lookup at its last pixel tells: where the
   block that it names is at least as large as the cell, the cell has one account, and else it has not. In a cell that
   is not wholly scanned it would be refused. */
#define CELLS 16
#define CELL_SIZE 2
#define CELL_SIDE (SIDE / CELLS)

static void panel(const kb_scan *scan)
{
    int covered = 0;
    printf("The bed, an account for each cell (. nobody's, + not all of one):\n");
    for (uint32_t row = 0; row < CELLS; row++) {
        for (uint32_t column = 0; column < CELLS; column++) {
            kb_lookup_answer found = kb_scan_lookup(scan, (column + 1) * CELL_SIDE - 1, (row + 1) * CELL_SIDE - 1);
            must(found.number, "the lookup at a cell's last pixel");
            if (found.size < CELL_SIZE)
                printf("  +");
            else if (found.account == 0)
                printf("  .");
            else
                printf(" %2d", found.account);
            covered += found.size > CELL_SIZE && found.account != 0;
        }
        printf("\n");
    }
    printf("%d of the cells have no tile inside and are held all the same, by a larger tile over them.\n", covered);
}

/* The head: it goes over the bed row after row, to and fro, and asks whose ground is under it only where it leaves the
   block that the last lookup named. */
static void head(const kb_scan *scan)
{
    int asked = 0;
    kb_lookup_answer found = KB_NO_LOOKUP;
    for (uint32_t row = 0; row < SIDE; row++)
        for (uint32_t step = 0; step < SIDE; step++) {
            uint32_t column = row % 2 == 0 ? step : SIDE - 1 - step;
            if (!kb_lookup_has(found, column, row)) {
                found = kb_scan_lookup(scan, column, row);
                must(found.number, "the head's lookup");
                asked++;
            }
        }
    printf("A head that goes over all %d pixels, row after row, asks at %d of them.\n", PIXELS, asked);
}

static const char *class_of(uint32_t account) { return account <= 7 ? "staff" : account <= 47 ? "student" : "guest"; }

static void ask(const kb_scan *scan, uint32_t account, uint32_t column, uint32_t row)
{
    kb_lookup_answer found = kb_scan_lookup(scan, column, row);
    must(found.number, "the lookup");
    kb_rights_answer right = kb_scan_rights(scan, table, sizeof table, column, row, account);
    must(right.number, "the rights call");
    printf("  %-7s %2u at (%2u, %2u), ", class_of(account), account, column, row);
    if (found.account == 0)
        printf("nobody's: ");
    else if (found.account == account)
        printf("its own: ");
    else
        printf("held by %s %d: ", class_of(found.account), found.account);
    printf("%s\n", right.yes ? "yes" : "no");
}

/* The older layout tool's board files have positions in mils, a text each: it goes without its closing 0. */
static kb_mils_pixel_answer in_mils(const char *position)
{
    return kb_mils_pixel(ORDER, (const uint8_t *)position, strlen(position));
}

/* May an account place at a position of its board file? */
static void ask_in_mils(const kb_scan *scan, uint32_t account, const char *across, const char *down)
{
    kb_mils_pixel_answer column = in_mils(across), row = in_mils(down);
    must(column.number, "the position across");
    must(row.number, "the position down");
    printf("And at %s mils across, %s down?\n", across, down);
    ask(scan, account, column.pixel, row.pixel);
}

/* Prints where a column or row begins, in mils: a text of so many bytes, with no closing 0. */
static void print_mils(uint32_t pixel, const char *behind)
{
    uint8_t text[KB_MILS_TEXT_MOST];
    kb_mils_text_answer put = kb_mils_text(ORDER, pixel, text, sizeof text);
    must(put.number, "the text of a position");
    printf("%.*s%s", (int)put.length, (const char *)text, behind);
}

/* The reserved zones are a map of their own: two blocks of 16 by 16 pixels, where the head parks and where it changes
   nozzles. Account 1 holds them there; any would do. They are drawn on a bed that was scanned empty, since unscanned
   ground cannot be claimed. */
#define ZONE_SIZE 4

static void reserve(kb_scan *zones, uint32_t column, uint32_t row)
{
    kb_block_answer block = kb_block(ORDER, column, row, ZONE_SIZE);
    must(block.number, "a zone's block");
    must(kb_scan_claim(zones, block.corner, block.size, 1), "a zone");
}

/* A line of the accounts on a map, each with its pixels. */
static void holders(const kb_scan *scan, const char *where)
{
    uint32_t pixels[KB_HIGHEST_ACCOUNT + 1] = {0};
    for (size_t i = 0; i < scan->tiles; i++)
        pixels[kb_tile_account(scan->slots[i])] += kb_extent(kb_tile_size(scan->slots[i])).pixels;
    printf("  %s, %zu tiles", where, scan->tiles);
    const char *gap = ":";
    for (int account = 1; account <= KB_HIGHEST_ACCOUNT; account++)
        if (pixels[account] > 0) {
            printf("%s %d on %u", gap, account, pixels[account]);
            gap = ",";
        }
    printf("\n");
}

/* What of the bed lies inside the zones, and what outside: two further maps, each in slots of its own. */
static void reserved(const kb_scan *bed)
{
    static const uint8_t empty[PIXELS];
    static uint32_t zone_slots[2], inside_slots[PIXELS], outside_slots[PIXELS];
    kb_scan zones = {0}, inside = {0}, outside = {0};
    must(kb_scan_fresh(&zones, KB_ROWS, ORDER, zone_slots, 2), "the fresh zones");
    must(kb_scan_feed(&zones, empty, PIXELS).number, "the empty bed of the zones");
    reserve(&zones, 0, 0);
    reserve(&zones, 48, 48);
    must(kb_scan_combine(&inside, KB_INSIDE, bed, &zones, inside_slots, PIXELS), "the bed inside the zones");
    must(kb_scan_combine(&outside, KB_OUTSIDE, bed, &zones, outside_slots, PIXELS), "the bed outside the zones");
    printf("Which accounts are on the reserved zones at (0, 0) and (48, 48), and on how many pixels?\n");
    holders(&inside, "inside");
    holders(&outside, "outside");
}

static void fail(const char *name)
{
    perror(name);
    exit(1);
}

/* Writes the map to a file, reads it back from there and compares. */
static void archive(const kb_scan *scan, const char *name)
{
    static uint8_t bytes[KB_FILE_MOST(PIXELS)];
    static uint32_t slots[PIXELS];
    kb_scan again = {0};
    kb_write_answer written = kb_scan_write(scan, bytes, sizeof bytes);
    must(written.number, "the writer");
    FILE *file = fopen(name, "wb");
    if (!file || fwrite(bytes, 1, written.length, file) != written.length || fclose(file))
        fail(name);
    file = fopen(name, "rb");
    if (!file)
        fail(name);
    size_t length = fread(bytes, 1, sizeof bytes, file);
    if (ferror(file) || fclose(file))
        fail(name);
    must(kb_scan_read(&again, bytes, length, slots, PIXELS), "the reader");
    int same = again.order == scan->order && again.tiles == scan->tiles
               && memcmp(again.slots, scan->slots, scan->tiles * sizeof *slots) == 0;
    printf("Archived in %zu bytes; read back, %s.\n", length, same ? "the same map" : "ANOTHER MAP");
    if (!same)
        exit(1);
}

int main(int argc, char **argv)
{
    static uint8_t raster[PIXELS];
    static uint32_t slots[PIXELS];
    kb_scan scan = {0};
    place_boards(raster);
    must(kb_scan_fresh(&scan, KB_ROWS, ORDER, slots, PIXELS), "the fresh scan");
    feed_rows(&scan, raster);
    claim(&scan);
    panel(&scan);
    head(&scan);
    printf("Who may place where?\n");
    ask(&scan, 21, CLAIM_COLUMN + 2, CLAIM_ROW + 2);
    ask(&scan, 18, CLAIM_COLUMN + 2, CLAIM_ROW + 2);
    ask(&scan, 3, CLAIM_COLUMN + 2, CLAIM_ROW + 2);
    ask(&scan, 5, 6, 6);
    ask(&scan, 12, 62, 2);
    ask(&scan, 51, 62, 2);
    ask_in_mils(&scan, 18, "677.16", "413.50");
    must(kb_load(workshop, sizeof workshop, table, sizeof table), "the workshop's table");
    printf("And by the lab's table for workshops?\n");
    ask(&scan, 51, 62, 2);
    ask(&scan, 51, CLAIM_COLUMN + 2, CLAIM_ROW + 2);
    printf("The block that account %d claimed begins at ", CLAIM_ACCOUNT);
    print_mils(CLAIM_COLUMN, " mils across, ");
    print_mils(CLAIM_ROW, " down.\n");
    reserved(&scan);
    archive(&scan, argc > 1 ? argv[1] : "bed.map");
    printf("A claim for account 256: %s.\n", kb_refusal_text(kb_scan_claim(&scan, 0, 0, 256)));
    printf("A block at column %d: %s.\n", SIDE, kb_refusal_text(kb_block(ORDER, SIDE, 0, CLAIM_SIZE).number));
    printf("A position of 1007.88 mils: %s.\n", kb_refusal_text(in_mils("1007.88").number));
    printf("The workshop's file, cut short: %s.\n", kb_refusal_text(kb_load(workshop, 15, table, sizeof table)));
    return 0;
}
