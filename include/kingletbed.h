/* kingletbed.h: which account holds each pixel of a machine's bed, kept as a linear quadtree in storage that you lend.

   Words
     bed      a square of 2^order columns by 2^order rows of pixels, order 0 to 10. Column and row count from 0 at the
              north-west.
     account  0 to 63. Every pixel has one; 0 means nobody's.
     Morton number  of a pixel: the bits of row and column taken in turn, the column's lowest bit last. Pixel (2, 1)
              has 6.
     tile     a square of 2^size by 2^size pixels of one account, 1 to 63. Its corner is the Morton number of its
              north-west pixel, a multiple of 4^size; the tile covers the numbers from corner to corner + 4^size - 1.
     word     a tile in 32 bits: corner in bits 29 to 10, size in bits 9 to 6, account in bits 5 to 0, bits 31 and 30
              zero.
     block    a square that a tile could cover, given by corner and size. Its last pixel, the south-eastern one, has the
              Morton number corner + 4^size - 1.
     map      an order, a tile count and the slots whose first `tiles` words are the list. The list of a bed is its
              largest uniform blocks of non-zero accounts, by rising corner: one list for each bed.
     scan     a map and how far it is known: besides order and tile count the kind of scan and the number of pixels
              scanned so far. These four are its record, handed over as kind, order, pixels, tiles. With 4^order pixels
              the scan is finished. A kb_scan is a scan with its slots: with it no number is copied by hand.
     scanned  is a pixel if fewer than `pixels` places come before its own in the scan of that kind, row after row
              (KB_ROWS) or by rising Morton number (KB_MORTON). A block is wholly scanned just if its last pixel is
              scanned, in both kinds.
     free     is ground that is nobody's and scanned. Where a list has no tile, the ground may also be unscanned: then
              nothing is known of it.
     mil      a thousandth of an inch. A position in mils is a distance from the bed's west edge, which leads to a
              column, or from its north edge, which leads to a row. Its text is one to five digits, a point and two
              digits, with no needless leading zero: 0.45 or 123.45, not .45, 00.45 or 1.5. In hundredths of a mil it
              is a number h, 45 or 12345. A pixel is 400 micrometres wide and an inch 25,400, so that h lies in column
              or row floor(h * 127 / 200000).
     table    of rights, which says who may place where: a row for each class that may ask, by a column for each kind of
              pixel. It is 15 bytes, 1 for yes and 0 for no. The table in force is the one that you keep and hand in;
              the old table, which kb_rights shows, is in force until a load is accepted.

   Calling
     Nothing is allocated and nothing is kept between calls: a call works on its arguments alone, so calls on separate
     storage may run at once. Every call answers, whatever the numbers are and whatever the lent storage holds. One
     thing is asked of you, that the pointers are good:
       - A pointer to slots, accounts or bytes has behind it as many of them as the length that follows it says, aligned
         for their type, to be read and, unless it is const, written, until the call returns. A length counts items:
         `sizeof slots` is four times too much. With length 0 the pointer may be anything, NULL too.
       - Storage that a call writes overlaps nothing else that the same call is lent, and meanwhile nobody else uses it.
       - A pointer to a kb_scan points to one that was begun, whose slots are still there.
     C cuts a number that does not fit a parameter, and says nothing: an account goes in a byte, so that 256 arrives as
     0, and a claim for account 0 is a release; a column of 2^32 arrives as 0 too. Compile with -Wconversion, which
     tells, or use the kb_scan functions, which take numbers of 64 bits and cut none.
     This header takes C99 or C++; the library needs nothing besides but memset.

   Refusals
     The number of an answer is 0, or says which check was broken first: look at it before the other fields.
     kb_refusal_text has it in words. The checks go in the order in which a function's comment names them. Unless the
     comment says otherwise, a refused call has changed no storage and the other fields of its answer are 0.

     "The list checks" are these, and every call on a map but kb_fresh and kb_read begins with them:
       KB_ORDER_TOO_LARGE, KB_COUNT_ABOVE_SLOTS, then for each word from the first on KB_HIGH_BITS_SET,
       KB_SIZE_ABOVE_ORDER, KB_CORNER_INVALID, KB_ACCOUNT_ZERO, KB_TILES_OVERLAP, KB_SIBLINGS_UNMERGED. The first bad
       word decides.
     "The opening checks" are the list checks, then KB_SCANNED_TOO_LARGE, KB_TILE_UNSCANNED. Every call that is handed a
       record begins with them. From kb_fresh or kb_read on, records and slots that go on as each call leaves them break
       none of these. */

#ifndef KINGLETBED_H
#define KINGLETBED_H

#include <stddef.h>
#include <stdint.h>

#define KB_VERSION "0.11.0"

/* An answer that is dropped is a mistake, of which the compiler warns. */
#if (defined(__cplusplus) && __cplusplus >= 201703L) || (defined(__STDC_VERSION__) && __STDC_VERSION__ >= 202311L)
#define KB_MUST_USE [[nodiscard]]
#elif defined(__GNUC__)
#define KB_MUST_USE __attribute__((warn_unused_result))
#else
#define KB_MUST_USE
#endif

#ifdef __cplusplus
extern "C" {
#endif

/* Limits. A list of a bed of order n never needs more than 4^n slots, so none needs more than 4^10. */
#define KB_HIGHEST_ORDER 10
#define KB_HIGHEST_ACCOUNT 63
#define KB_MOST_SLOTS 1048576

/* A byte that is no account; and the numbers in which to hand over ones that may not fit: an account as a byte, any
   other as a word. What does not fit goes as the largest, which the call itself refuses (and takes as KB_MORTON where
   it is a kind, as KB_OUTSIDE where it is a choice). */
#define KB_NO_ACCOUNT 255
#if KB_NO_ACCOUNT <= KB_HIGHEST_ACCOUNT
#error "KB_NO_ACCOUNT is an account: kb_account_byte and kb_scan_shown need another way to say that there is none"
#endif
KB_MUST_USE static inline uint8_t kb_account_byte(uint64_t account)
{
    return account < KB_NO_ACCOUNT ? (uint8_t)account : KB_NO_ACCOUNT;
}
KB_MUST_USE static inline uint32_t kb_number_word(uint64_t number)
{
    return number < UINT32_MAX ? (uint32_t)number : UINT32_MAX;
}

/* Kinds of scan. Any other number is taken as KB_MORTON, and the record answered then has 1. */
#define KB_ROWS 0
#define KB_MORTON 1

/* Choices of kb_combine. Any other number is taken as KB_OUTSIDE. */
#define KB_INSIDE 0
#define KB_OUTSIDE 1

/* The numbers that calls answer. */
enum kb_number {
    KB_ACCEPTED = 0,

    KB_ORDER_TOO_LARGE = 1,     /* the order is above 10 */
    KB_COUNT_ABOVE_SLOTS = 2,   /* the tile count is above the number of slots */

    KB_HIGH_BITS_SET = 11,      /* a word has bit 31 or 30 set */
    KB_SIZE_ABOVE_ORDER = 12,   /* a tile's size is above the order */
    KB_CORNER_INVALID = 13,     /* a tile's corner is not below 4^order, or not a multiple of 4^size */
    KB_ACCOUNT_ZERO = 14,       /* a tile's account is 0 */
    KB_TILES_OVERLAP = 15,      /* a tile's corner comes before the end of the tile ahead of it */
    KB_SIBLINGS_UNMERGED = 16,  /* a tile is the last of the four quarters of a block, all of one account */

    KB_SCANNED_TOO_LARGE = 21,  /* the pixels scanned are above 4^order */
    KB_TILE_UNSCANNED = 22,     /* a tile covers a pixel that is not scanned yet */
    KB_SCAN_FULL = 23,          /* a pixel is fed to a scan that has them all */
    KB_ACCOUNT_TOO_LARGE = 24,  /* the account fed or claimed is above 63 */
    KB_SLOTS_EXCEEDED = 25,     /* the list after this pixel, claim, read or combine has more tiles than slots lent */
    KB_BYTES_TOO_FEW = 26,      /* the bytes lent are fewer than the file or the text takes */

    KB_POINT_OUTSIDE = 31,      /* the column or the row is not below 2^order */
    KB_BLOCK_INVALID = 32,      /* the size is above the order, the corner not below 4^order or no multiple of 4^size */
    KB_RASTER_LENGTH = 33,      /* the raster's length is not 4^order */
    KB_ASKER_INVALID = 34,      /* the asking account is 0 or above 63 */

    KB_FILE_CUT_SHORT = 41,     /* the bytes end before the item to be read */
    KB_TRAILING_BYTES = 42,     /* bytes follow the roster */
    KB_ROSTER_WRONG = 43,       /* the roster does not have just the accounts of the tiles, each with its pixels */

    KB_ORDERS_DIFFER = 51,      /* the two maps have different orders */
    KB_UNSCANNED = 52,          /* the point is unscanned, the block has an unscanned pixel, or the scan to be written
                                   is unfinished */
    KB_POSITION_INVALID = 53,   /* the text is no position in mils, or the position is off the bed */
    KB_ROSTER_UNSORTED = 54,    /* the account of a roster entry is not above that of the entry ahead of it */
    KB_TABLE_MALFORMED = 55,    /* the table of rights has a wrong count, a wrong length or a byte above 1 */
    KB_TABLE_UNSOUND = 56       /* a row of the table does not say yes to its own pixels, or lacks a yes of the row
                                   below it */
};

/* The answers. kb_check, kb_decode and kb_load answer the number alone, kb_tile_corner, kb_tile_size and
   kb_tile_account the field alone. */
typedef struct { uint32_t number; uint32_t side; uint32_t pixels; } kb_extent_answer;
typedef struct { uint32_t number; uint32_t morton; } kb_morton_answer;
typedef struct { uint32_t number; uint32_t corner; uint32_t size; } kb_block_answer;
typedef struct { uint32_t number; uint32_t column; uint32_t row; } kb_point_answer;
typedef struct { uint32_t number; uint32_t pixel; } kb_mils_pixel_answer;
typedef struct { uint32_t number; uint32_t h; } kb_mils_h_answer;
typedef struct { uint32_t number; size_t length; } kb_mils_text_answer;
typedef struct { uint32_t number; uint32_t kind; uint32_t order; uint32_t pixels; size_t tiles; } kb_fresh_answer;
typedef struct { uint32_t number; size_t taken; uint32_t kind; uint32_t order; uint32_t pixels; size_t tiles; }
    kb_feed_answer;
typedef struct { uint32_t number; uint8_t account; uint32_t corner; uint32_t size; } kb_lookup_answer;
typedef struct { uint32_t number; size_t position; size_t length; } kb_part_answer;
typedef struct { uint32_t number; const uint32_t *tiles; size_t length; } kb_part_tiles_answer;
typedef struct { uint32_t number; uint8_t yes; } kb_rights_answer;
typedef struct { uint32_t number; size_t tiles; } kb_claim_answer;
typedef struct { uint32_t number; size_t tiles; } kb_preview_answer;
typedef struct { uint32_t number; size_t length; } kb_write_answer;
typedef struct { uint32_t number; uint32_t order; size_t tiles; } kb_read_answer;
typedef struct { uint32_t number; size_t tiles; } kb_combine_answer;

/* ---- Calls on a bed's numbers ---- */

/* The columns, and as many rows, of a bed of an order or a block of a size, 2^order; and its pixels, 4^order.
     refuses   KB_ORDER_TOO_LARGE */
KB_MUST_USE kb_extent_answer kb_extent(uint32_t order);

/* The Morton number of a pixel.
     refuses   KB_ORDER_TOO_LARGE, KB_POINT_OUTSIDE */
KB_MUST_USE kb_morton_answer kb_morton(uint32_t order, uint32_t column, uint32_t row);

/* The block of a size that has a pixel in it, as kb_part, kb_claim and kb_preview are handed one.
     refuses   KB_ORDER_TOO_LARGE, KB_POINT_OUTSIDE, KB_BLOCK_INVALID for a size above the order; corner and size are
               then 0 and 0, which is a block too: do not go on with them */
KB_MUST_USE kb_block_answer kb_block(uint32_t order, uint32_t column, uint32_t row, uint32_t size);

/* The pixel of a Morton number.
     refuses   KB_ORDER_TOO_LARGE, KB_BLOCK_INVALID for a number that is not below 4^order */
KB_MUST_USE kb_point_answer kb_point(uint32_t order, uint32_t morton);

/* What a word says, whatever the word: the bits from 10 on, bits 9 to 6, bits 5 to 0. Nothing is refused. */
KB_MUST_USE uint32_t kb_tile_corner(uint32_t word);
KB_MUST_USE uint32_t kb_tile_size(uint32_t word);
KB_MUST_USE uint8_t kb_tile_account(uint32_t word);

/* ---- Positions in mils ----
   These calls go by one coordinate, a column or a row alike, and name it the pixel. A place on the bed takes two calls,
   one for its column and one for its row. */

/* The column or row of a position. The text is its `text_length` bytes: a closing 0, a line feed or a blank that is
   counted in makes it no position. So a C string goes as (const uint8_t *)string, strlen(string), not with its sizeof.
   On a bed of order 10 the last position is 16125.98.
     refuses   KB_ORDER_TOO_LARGE; KB_POSITION_INVALID for a text of another form, an empty one too, then for a position
               off the bed. The pixel is then 0, which is a column and a row too: do not go on with it
     storage   nothing is written */
KB_MUST_USE kb_mils_pixel_answer kb_mils_pixel(uint32_t order, const uint8_t *text, size_t text_length);

/* The smallest position in a column or row, in hundredths of a mil: at order 10 at most 1,611,024. It leads to the same
   pixel again, and every smaller one to a smaller pixel.
     refuses   KB_ORDER_TOO_LARGE, KB_POINT_OUTSIDE; h is then 0, which is a position too: do not go on with it */
KB_MUST_USE kb_mils_h_answer kb_mils_h(uint32_t order, uint32_t pixel);

/* The text of the position that kb_mils_h answers, as kb_mils_pixel takes it.
     refuses   KB_ORDER_TOO_LARGE, KB_POINT_OUTSIDE, KB_BYTES_TOO_FEW
     answers   the bytes written, 4 to KB_MILS_TEXT_MOST. No closing 0 is written: print them by "%.*s", or have
               KB_MILS_TEXT_MOST + 1 bytes, lend KB_MILS_TEXT_MOST of them, and put the 0 at `length` yourself.
     storage   accepted, the first bytes hold the text and those past it are as they were; refused, all are */
KB_MUST_USE kb_mils_text_answer kb_mils_text(uint32_t order, uint32_t pixel, uint8_t *text, size_t text_length);

/* Bytes that are enough for the text of a position. */
#define KB_MILS_TEXT_MOST 8

/* ---- The table of rights ----
   Its rows are those of staff, students and guests; its columns the asker's own pixel, nobody's, another guest's,
   another student's, another staff member's. Row r has in column k the byte 5 * r + k, both counted from 0. You keep
   the table in force, KB_TABLE_LENGTH bytes, and hand it to each kb_rights. Begin with the old one:
       uint8_t table[KB_TABLE_LENGTH] = KB_OLD_TABLE; */
#define KB_TABLE_LENGTH 15
#define KB_OLD_TABLE {1, 1, 1, 1, 0, \
                      1, 1, 0, 0, 0, \
                      1, 0, 0, 0, 0}

/* Loads the lab's own table from a file: a count byte, which is 15, then the 15 bytes of the table.
     refuses   KB_TABLE_MALFORMED for another count, a file of another length than KB_TABLE_FILE_LENGTH, a byte above 1
               or a `table` of another length than KB_TABLE_LENGTH; then KB_TABLE_UNSOUND unless each row says yes to
               its own pixels, a student has every yes of a guest and staff every yes of a student, column by column
     accepts   the file's table is in force. The old one is accepted like any other
     storage   accepted, `table` holds the 15 bytes behind the count; refused, it is as it was, whatever it held */
KB_MUST_USE uint32_t kb_load(const uint8_t *file, size_t file_length, uint8_t *table, size_t table_length);

/* Bytes of a table's file. */
#define KB_TABLE_FILE_LENGTH 16

/* ---- Calls on a map ----
   kb_feed, kb_lookup, kb_rights, kb_claim, kb_preview and kb_write are handed a scan's record. kb_check, kb_decode,
   kb_part and kb_combine are handed order and tile count alone, and take an unscanned pixel as nobody's. */

/* List checking: is this a map?
     refuses   the list checks
     accepts   the first `tiles` slots are the one list of the bed that they show
     storage   nothing is written */
KB_MUST_USE uint32_t kb_check(uint32_t order, size_t tiles, const uint32_t *slots, size_t slots_length);

/* Begins a scan of a bed: no pixel, no tile.
     refuses   KB_ORDER_TOO_LARGE; the answer is then a record of the kind asked with all its numbers 0
     accepts   the record of the new scan
     storage   accepted, all slots are 0; refused, they are as they were */
KB_MUST_USE kb_fresh_answer kb_fresh(uint32_t kind, uint32_t order, uint32_t *slots, size_t slots_length);

/* Goes on with a scan: each account is that of the next pixel, row after row (KB_ROWS) or by rising Morton number
   (KB_MORTON). After each pixel the list is the list of the bed with that pixel in its place, and with no tile on the
   pixels that are not scanned yet. Hand over as many accounts at once as you have, or none.
     refuses   the opening checks; then at each pixel KB_SCAN_FULL, KB_ACCOUNT_TOO_LARGE, KB_SLOTS_EXCEEDED. A list that
               the pixel's merge shortens enough is not refused.
     answers   how many accounts were taken, and the record to go on with. An opening check gives back the record handed
               in, with 0 taken. A feed stopped at a pixel keeps the pixels before it and has their count and record.
     storage   past the opening checks the slots hold the list of the pixels taken, and 0 from its end on, also when the
               feed was stopped at its first pixel or had none; refused by an opening check, they are as they were */
KB_MUST_USE kb_feed_answer kb_feed(uint32_t kind, uint32_t order, uint32_t pixels, size_t tiles,
                                   uint32_t *slots, size_t slots_length,
                                   const uint8_t *accounts, size_t accounts_length);

/* Decodes a map to one account byte for each pixel, row after row from the north-west. An unscanned pixel gets 0, as a
   free one does: the raster does not tell them apart.
     refuses   the list checks, KB_RASTER_LENGTH
     storage   accepted, all 4^order bytes are written; refused, they are as they were */
KB_MUST_USE uint32_t kb_decode(uint32_t order, size_t tiles, const uint32_t *slots, size_t slots_length,
                               uint8_t *raster, size_t raster_length);

/* The account at a scanned pixel, 0 for nobody's, and the largest block with the pixel in it that is wholly scanned and
   has this account on all its pixels: for somebody's pixel its tile, for nobody's the largest block that is all free.
   Every pixel of the block gives this answer and no other pixel does, and kb_rights answers alike on all of it: a head
   that stays inside need not ask again while scan and table in force stay as they are (kb_lookup_has).
     refuses   the opening checks, KB_POINT_OUTSIDE, KB_UNSCANNED; account, corner and size are then 0, which says
               nothing: the free pixel (0, 0) can have these too, so look at the number first
     storage   nothing is written */
KB_MUST_USE kb_lookup_answer kb_lookup(uint32_t kind, uint32_t order, uint32_t pixels, size_t tiles,
                                       const uint32_t *slots, size_t slots_length, uint32_t column, uint32_t row);

/* The tiles that lie wholly inside a block: `length` tiles of the list from `position` on. The position is the number
   of tiles with a smaller corner than the block's. kb_part_tiles gives a pointer instead.
   A block under a larger tile has no tile inside, nor has one that the scan has not reached: an EMPTY PART MAY BE HELD
   GROUND, OR UNSCANNED, and a panel that draws the part's tiles shows it as free. One kb_lookup at the block's last
   pixel, whose column and row kb_point has, tells: if it is refused with KB_UNSCANNED, the block is not wholly scanned;
   if it names a block of this size or a larger one, the whole block has the account answered; and else it has not one
   account. kb_scan_shown does so.
     refuses   the list checks, KB_BLOCK_INVALID
     storage   nothing is written */
KB_MUST_USE kb_part_answer kb_part(uint32_t order, size_t tiles, const uint32_t *slots, size_t slots_length,
                                   uint32_t corner, uint32_t size);

/* May an account place at a pixel, by the table in force? `yes` is 1 or 0. Accounts 1 to 7 are staff, 8 to 47 students,
   48 to 63 guests. The old table is
                  own pixel   nobody's   another guest's   another student's   another staff member's
       staff      yes         yes        yes               yes                 no
       students   yes         yes        no                no                  no
       guests     yes         no         no                no                  no
   A table that no kb_load would accept counts as the old one: one of another length than KB_TABLE_LENGTH, so NULL with
   length 0 and a whole file too, one of zeros alone, and any other. It is no refusal.
   Whatever table is handed in, every account may place on its own pixels. At a pixel that is not the asker's own, a yes
   to a guest is a yes to every student, and a yes to a student is a yes to all staff.
   Unscanned ground is refused, whoever asks. An account cut to a byte on its way here, 257 to 1, asks as another: see
   kb_account_byte.
     refuses   the opening checks, KB_POINT_OUTSIDE, KB_UNSCANNED, KB_ASKER_INVALID
     storage   nothing is written */
KB_MUST_USE kb_rights_answer kb_rights(const uint8_t *table, size_t table_length,
                                       uint32_t kind, uint32_t order, uint32_t pixels, size_t tiles,
                                       const uint32_t *slots, size_t slots_length, uint32_t column, uint32_t row,
                                       uint8_t account);

/* Gives every pixel of a block to an account; account 0 releases them. An account cut to a byte on its way here, 256 to
   0, releases them too: hand over kb_account_byte(account) if yours may not fit. A map that is no scan of yours is
   handed over with kind KB_ROWS and 4^order pixels, here and wherever a record is asked for, but only if every pixel of
   it is known: ground that nobody has looked at would be answered as free.
     refuses   the opening checks, KB_BLOCK_INVALID, KB_UNSCANNED (a release too), KB_ACCOUNT_TOO_LARGE,
               KB_SLOTS_EXCEEDED
     answers   the new tile count. The old one no longer goes with these slots: it may cut tiles off the list, whose
               ground then reads as free. The record goes on with the new tile count and the same pixels, so that an
               unfinished scan is fed on where it was, in the slots that are left.
     storage   accepted, the slots hold the list of the changed bed, and 0 from its end on; refused, they are as they
               were */
KB_MUST_USE kb_claim_answer kb_claim(uint32_t kind, uint32_t order, uint32_t pixels, size_t tiles,
                                     uint32_t *slots, size_t slots_length, uint32_t corner, uint32_t size,
                                     uint8_t account);

/* Tells what a claim would come to, before it is made: what kb_claim would answer to the same arguments on a copy of
   the list with as many slots, whatever stands behind the list. Account 0 previews a release; so does one cut to a byte
   on its way here, 256 to 0: see kb_account_byte. The answer holds while scan and number of slots stay as they are.
     refuses   the opening checks, KB_BLOCK_INVALID, KB_UNSCANNED, KB_ACCOUNT_TOO_LARGE, KB_SLOTS_EXCEEDED, as kb_claim
               does
     answers   the tile count that the claim would leave. Before the claim is made it is not the count of these slots
     storage   nothing is written */
KB_MUST_USE kb_preview_answer kb_preview(uint32_t kind, uint32_t order, uint32_t pixels, size_t tiles,
                                         const uint32_t *slots, size_t slots_length, uint32_t corner, uint32_t size,
                                         uint8_t account);

/* Writes the map of a finished scan as a file: the order in 1 byte; the tile count in 4 and each word in 4; the number
   of roster entries in 1 and each entry in 5, an account in 1 byte and the number of its pixels in 4, as many as
   kb_decode writes for it. High bytes come first. Every account that has tiles gets one entry, by rising account. With
   t tiles and a such accounts the file is 6 + 4t + 5a bytes long. One map has one file, whichever calls led to it and
   of whatever kind the scan is: compare files byte by byte, and you have compared order and accounts.
     refuses   the opening checks, KB_UNSCANNED for an unfinished scan, KB_BYTES_TOO_FEW
     answers   the bytes written
     storage   accepted, the first bytes hold the file and those past it are as they were; refused, all are */
KB_MUST_USE kb_write_answer kb_write(uint32_t kind, uint32_t order, uint32_t pixels, size_t tiles,
                                     const uint32_t *slots, size_t slots_length, uint8_t *file, size_t file_length);

/* Bytes that are enough for a file of so many tiles: a constant if the count is one; it is evaluated more than once. No
   list has more than KB_MOST_SLOTS tiles, so a larger count is taken as that, and nothing wraps. */
#define KB_FILE_MOST(tiles) (6 + 4 * KB_AT_MOST(tiles, KB_MOST_SLOTS) + 5 * KB_AT_MOST(tiles, KB_HIGHEST_ACCOUNT))
#define KB_AT_MOST(count, most) ((uint64_t)(count) < (most) ? (size_t)(count) : (size_t)(most))

/* Reads a file to a map, which is wholly scanned: its record is of the kind KB_ROWS, with the order and the tile count
   answered and 4^order pixels, which kb_extent has. Every account that has tiles must have one entry in the roster,
   with the number of its pixels, and no other account may; the entries must go by rising account, as kb_write has them.
   So two files that are accepted, each with slots enough, have the same bytes exactly if their maps have one order and
   the same account on every pixel; and what was read is written again as it was.
     refuses   as the file goes: KB_FILE_CUT_SHORT wherever the bytes end before an item; KB_ORDER_TOO_LARGE;
               KB_SLOTS_EXCEEDED for its tile count; KB_HIGH_BITS_SET to KB_SIBLINGS_UNMERGED at each word;
               KB_ROSTER_UNSORTED at each roster entry, for a repeated account too; after the roster
               KB_TRAILING_BYTES, then KB_ROSTER_WRONG
     answers   the order and the tile count
     storage   accepted, the slots hold the file's list, and 0 from its end on; refused, they are as they were */
KB_MUST_USE kb_read_answer kb_read(const uint8_t *file, size_t file_length, uint32_t *slots, size_t slots_length);

/* Makes a third map of two maps of one order: the first map's pixels where the second is somebody's (KB_INSIDE), or
   those where the second is nobody's (KB_OUTSIDE); every other pixel is nobody's. With reserved zones as the second map
   it tells what of a bed lies inside of them, or outside; whose a zone is does not matter. In terms of sets, inside is
   the intersection of the first map with the second one's held ground, outside their difference. An unscanned pixel
   counts as nobody's in both maps. What the third map holds, the first holds and so has scanned: the third map's record
   has kind, order and pixels of the first, and its own tile count.
     refuses   the list checks of the first map, the list checks of the second, KB_ORDERS_DIFFER, KB_SLOTS_EXCEEDED. The
               number of a list check does not say which of the two maps broke it; kb_check does.
     answers   the third map's tile count, the only one that goes with `out`. It may be above those of the two maps
               together; 4^order slots always suffice.
     storage   accepted, `out` holds the list of the third map, and 0 from its end on; refused, it is as it was. The two
               maps are only read, and may be one and the same; `out` is apart from both: no map is changed in place */
KB_MUST_USE kb_combine_answer kb_combine(uint32_t choice,
                                         uint32_t order1, size_t tiles1, const uint32_t *slots1, size_t slots1_length,
                                         uint32_t order2, size_t tiles2, const uint32_t *slots2, size_t slots2_length,
                                         uint32_t *out, size_t out_length);

/* 1 if a pixel lies in the block that a lookup named, so that kb_lookup there would answer the same, while the scan
   stays as it is; else 0. A refused lookup names no block: 0. Numbers of 64 bits are taken, and none is cut.
   A head that has not asked yet begins with KB_NO_LOOKUP, not with zeros: they say that pixel (0, 0) is free. */
#define KB_NO_LOOKUP {KB_POINT_OUTSIDE, 0, 0, 0}
KB_MUST_USE static inline uint8_t kb_lookup_has(kb_lookup_answer found, uint64_t column, uint64_t row)
{
    kb_block_answer block = kb_block(KB_HIGHEST_ORDER, kb_number_word(column), kb_number_word(row), found.size);
    return found.number == KB_ACCEPTED && block.number == KB_ACCEPTED && block.corner == found.corner;
}

/* The same as kb_part, with the part as a pointer into your own slots; refused, it is the empty part at their start. */
KB_MUST_USE static inline kb_part_tiles_answer kb_part_tiles(uint32_t order, size_t tiles,
                                                             const uint32_t *slots, size_t slots_length,
                                                             uint32_t corner, uint32_t size)
{
    kb_part_answer part = kb_part(order, tiles, slots, slots_length, corner, size);
    kb_part_tiles_answer answer = {part.number, part.position == 0 ? slots : slots + part.position, part.length};
    return answer;
}

/* ---- The scan with its slots ----
   Begin with `kb_scan scan = {0};` (in C++ `= {};`), a bed of order 0, unscanned and without slots; then kb_scan_fresh,
   kb_scan_read or kb_scan_combine. Each function makes the call of its name on the record and slots of the scan, or of
   the two that are combined, refuses what that call refuses and brings the scan up to date; where the rest of an answer
   goes into the scan, it answers the number alone. Numbers of 64 bits are taken, and none is cut: one that does not fit
   is refused as too large, but for a kind or a choice, which is KB_MORTON or KB_OUTSIDE as any number other than 0.
   Leave the fields and the slots to these functions. A copy of a kb_scan has the same slots: once they change through
   one of the two, the other is stale and must not be used. */
typedef struct kb_scan {
    uint32_t kind, order, pixels;
    size_t tiles;
    uint32_t *slots;
    size_t slots_length;
} kb_scan;

/* Refused, the scan is as it was, with the slots that it had. */
KB_MUST_USE static inline uint32_t kb_scan_fresh(kb_scan *scan, uint64_t kind, uint64_t order,
                                                 uint32_t *slots, size_t slots_length)
{
    kb_fresh_answer fresh = kb_fresh(kb_number_word(kind), kb_number_word(order), slots, slots_length);
    if (fresh.number == KB_ACCEPTED) {
        kb_scan begun = {fresh.kind, fresh.order, fresh.pixels, fresh.tiles, slots, slots_length};
        *scan = begun;
    }
    return fresh.number;
}

/* Accepted, the scan is by rows and has every pixel; refused, it is as it was, with the slots that it had. */
KB_MUST_USE static inline uint32_t kb_scan_read(kb_scan *scan, const uint8_t *file, size_t file_length,
                                                uint32_t *slots, size_t slots_length)
{
    kb_read_answer read = kb_read(file, file_length, slots, slots_length);
    if (read.number == KB_ACCEPTED) { /* so that kb_extent accepts the order */
        kb_scan whole = {KB_ROWS, read.order, kb_extent(read.order).pixels, read.tiles, slots, slots_length};
        *scan = whole;
    }
    return read.number;
}

/* Accepted, the scan is the third map, of the first one's kind and with as many pixels scanned: what the first has not
   scanned stays unscanned, and what the second has not counts as nobody's there. Refused, it is as it was, with the
   slots that it had. It may be the very `first` or `second`, and then has the slots handed in instead of its own. Those
   are apart from the slots of both maps: never hand in the slots of one of them. */
KB_MUST_USE static inline uint32_t kb_scan_combine(kb_scan *scan, uint64_t choice,
                                                   const kb_scan *first, const kb_scan *second,
                                                   uint32_t *slots, size_t slots_length)
{
    kb_combine_answer combined = kb_combine(kb_number_word(choice),
                                            first->order, first->tiles, first->slots, first->slots_length,
                                            second->order, second->tiles, second->slots, second->slots_length,
                                            slots, slots_length);
    if (combined.number == KB_ACCEPTED) {
        kb_scan third = {first->kind, first->order, first->pixels, combined.tiles, slots, slots_length};
        *scan = third;
    }
    return combined.number;
}

/* Stopped at a pixel, the scan has the pixels before it; `taken` of the answer says how many accounts that were. */
KB_MUST_USE static inline kb_feed_answer kb_scan_feed(kb_scan *scan, const uint8_t *accounts, size_t accounts_length)
{
    kb_feed_answer fed = kb_feed(scan->kind, scan->order, scan->pixels, scan->tiles, scan->slots, scan->slots_length,
                                 accounts, accounts_length);
    scan->kind = fed.kind;
    scan->order = fed.order;
    scan->pixels = fed.pixels;
    scan->tiles = fed.tiles;
    return fed;
}

/* Every account above 63 is KB_ACCOUNT_TOO_LARGE, 256 too. The pixels scanned stay the same: a scan is fed on. */
KB_MUST_USE static inline uint32_t kb_scan_claim(kb_scan *scan, uint64_t corner, uint64_t size, uint64_t account)
{
    kb_claim_answer claimed = kb_claim(scan->kind, scan->order, scan->pixels, scan->tiles,
                                       scan->slots, scan->slots_length,
                                       kb_number_word(corner), kb_number_word(size), kb_account_byte(account));
    if (claimed.number == KB_ACCEPTED)
        scan->tiles = claimed.tiles;
    return claimed.number;
}

/* What kb_scan_claim would answer and, accepted, the tile count that the scan would then have; refused, it is 0. The
   scan stays as it is. */
KB_MUST_USE static inline kb_preview_answer kb_scan_preview(const kb_scan *scan, uint64_t corner, uint64_t size,
                                                            uint64_t account)
{
    return kb_preview(scan->kind, scan->order, scan->pixels, scan->tiles, scan->slots, scan->slots_length,
                      kb_number_word(corner), kb_number_word(size), kb_account_byte(account));
}

/* The list alone: the opening checks of a scan's record are those of kb_scan_feed, also of no accounts. */
KB_MUST_USE static inline uint32_t kb_scan_check(const kb_scan *scan)
{
    return kb_check(scan->order, scan->tiles, scan->slots, scan->slots_length);
}

KB_MUST_USE static inline uint32_t kb_scan_decode(const kb_scan *scan, uint8_t *raster, size_t raster_length)
{
    return kb_decode(scan->order, scan->tiles, scan->slots, scan->slots_length, raster, raster_length);
}

KB_MUST_USE static inline kb_lookup_answer kb_scan_lookup(const kb_scan *scan, uint64_t column, uint64_t row)
{
    return kb_lookup(scan->kind, scan->order, scan->pixels, scan->tiles, scan->slots, scan->slots_length,
                     kb_number_word(column), kb_number_word(row));
}

/* By the table in force, which is no part of the scan. Every account above 63 is KB_ASKER_INVALID, 257 too. */
KB_MUST_USE static inline kb_rights_answer kb_scan_rights(const kb_scan *scan, const uint8_t *table,
                                                          size_t table_length, uint64_t column, uint64_t row,
                                                          uint64_t account)
{
    return kb_rights(table, table_length, scan->kind, scan->order, scan->pixels, scan->tiles,
                     scan->slots, scan->slots_length,
                     kb_number_word(column), kb_number_word(row), kb_account_byte(account));
}

/* A pointer into the scan's slots, good until the scan changes. An empty part may be held ground, or unscanned: see
   kb_part. */
KB_MUST_USE static inline kb_part_tiles_answer kb_scan_part(const kb_scan *scan, uint64_t corner, uint64_t size)
{
    return kb_part_tiles(scan->order, scan->tiles, scan->slots, scan->slots_length,
                         kb_number_word(corner), kb_number_word(size));
}

/* What a panel draws of a block. `scanned` is 1 if every pixel of it is scanned, and else 0. `account` is that of all
   its pixels, 0 for nobody's, also under a larger tile. If they have not all one account, or are not all scanned, it is
   KB_NO_ACCOUNT: then draw the part, `length` tiles from `tiles` on. Where `scanned` is 1, the ground between these is
   free; where it is 0, it is nobody's or not scanned yet. So KB_UNSCANNED is no refusal here. Refused, the part is
   empty, the account KB_NO_ACCOUNT and `scanned` 0.
     refuses   the opening checks, KB_BLOCK_INVALID */
typedef struct { uint32_t number; const uint32_t *tiles; size_t length; uint8_t account; uint8_t scanned; }
    kb_shown_answer;

KB_MUST_USE static inline kb_shown_answer kb_scan_shown(const kb_scan *scan, uint64_t corner, uint64_t size)
{
    uint32_t last = kb_number_word(corner) + kb_extent(kb_number_word(size)).pixels - 1;
    kb_point_answer at = kb_point(scan->order, last);
    uint32_t off = at.number == KB_ACCEPTED ? 0 : UINT32_MAX; /* off the bed: then this is no block of it */
    kb_lookup_answer found = kb_scan_lookup(scan, at.column | off, at.row | off);
    kb_part_tiles_answer part = kb_scan_part(scan, corner, size);
    kb_shown_answer shown = {part.number, part.tiles, part.length, KB_NO_ACCOUNT, 0};
    if (found.number == KB_SCANNED_TOO_LARGE || found.number == KB_TILE_UNSCANNED) { /* which kb_part does not see */
        kb_shown_answer refused = {found.number, scan->slots, 0, KB_NO_ACCOUNT, 0};
        return refused;
    }
    if (part.number == KB_ACCEPTED && found.number == KB_ACCEPTED) {
        shown.scanned = 1;
        if (size <= found.size)
            shown.account = found.account;
    }
    return shown;
}

/* An unfinished scan is refused with KB_UNSCANNED: a file does not say how far a scan is, and read back has all pixels
   scanned. */
KB_MUST_USE static inline kb_write_answer kb_scan_write(const kb_scan *scan, uint8_t *file, size_t file_length)
{
    return kb_write(scan->kind, scan->order, scan->pixels, scan->tiles, scan->slots, scan->slots_length,
                    file, file_length);
}

/* ---- Texts ---- */

/* A number in words. */
KB_MUST_USE static inline const char *kb_refusal_text(uint32_t number)
{
    switch (number) {
    case KB_ACCEPTED: return "accepted";
    case KB_ORDER_TOO_LARGE: return "the order is above 10";
    case KB_COUNT_ABOVE_SLOTS: return "the tile count is above the number of slots";
    case KB_HIGH_BITS_SET: return "a tile word has bit 31 or 30 set";
    case KB_SIZE_ABOVE_ORDER: return "a tile is larger than the bed";
    case KB_CORNER_INVALID: return "a tile's corner is off the bed or not a multiple of its area";
    case KB_ACCOUNT_ZERO: return "a tile has account 0";
    case KB_TILES_OVERLAP: return "a tile begins before the end of the tile ahead of it";
    case KB_SIBLINGS_UNMERGED: return "four tiles of one account are the quarters of one block and should be one tile";
    case KB_SCANNED_TOO_LARGE: return "more pixels are scanned than the bed has";
    case KB_TILE_UNSCANNED: return "a tile covers a pixel that is not scanned yet";
    case KB_SCAN_FULL: return "the scan already has every pixel";
    case KB_ACCOUNT_TOO_LARGE: return "the account is above 63";
    case KB_SLOTS_EXCEEDED: return "the list would have more tiles than there are slots";
    case KB_BYTES_TOO_FEW: return "the bytes lent are fewer than the file or the text takes";
    case KB_POINT_OUTSIDE: return "the pixel is off the bed";
    case KB_BLOCK_INVALID:
        return "the block is larger than the bed, off the bed, or its corner not a multiple of its area";
    case KB_RASTER_LENGTH: return "the raster does not have one byte for each pixel";
    case KB_ASKER_INVALID: return "the asking account is 0 or above 63";
    case KB_FILE_CUT_SHORT: return "the file ends too early";
    case KB_TRAILING_BYTES: return "bytes follow the end of the file's roster";
    case KB_ROSTER_WRONG: return "the file's roster does not match its tiles";
    case KB_ORDERS_DIFFER: return "the two maps have different orders";
    case KB_UNSCANNED: return "the pixel, the block or the bed is not wholly scanned yet";
    case KB_POSITION_INVALID: return "the text is no position in mils, or the position is off the bed";
    case KB_ROSTER_UNSORTED: return "the accounts in the file's roster do not rise from entry to entry";
    case KB_TABLE_MALFORMED: return "the table of rights has a wrong count, a wrong length or a byte above 1";
    case KB_TABLE_UNSOUND: return "a row of the table of rights lacks a yes that it must have";
    default: return "a number that this version does not know";
    }
}

#ifdef __cplusplus
}
#endif

#endif
