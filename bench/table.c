/* The table of loads, and of rights by a table in force. */
#include "bench.h"
#include "builds.h"
#include "straight.h"

#include <string.h>

#define ORDER KB_HIGHEST_ORDER
#define FILES 1024
#define COLUMNS 5

/* Files that are loaded, files that lack a yes, and files with a byte above 1; and the table in force. */
static uint8_t good[FILES][KB_TABLE_FILE_LENGTH], unsound[FILES][KB_TABLE_FILE_LENGTH];
static uint8_t malformed[FILES][KB_TABLE_FILE_LENGTH], in_force[KB_TABLE_LENGTH];

/* Who asks, at the held pixel of the bed or beside it. */
static struct asking { uint32_t column; uint8_t account; } askings[FILES];

/* Tables that a load accepts, each as likely as any other; tables of any bits that none does; and the first kind with a
   byte of 2 at any place. */
static void make_files(void)
{
    uint64_t state = 808;
    for (size_t i = 0; i < FILES; i++) {
        memset(good[i], 0, sizeof good[i]);
        good[i][0] = unsound[i][0] = KB_TABLE_LENGTH;
        for (uint32_t column = 0; column < COLUMNS; column++)
            for (uint32_t row = 0, rows = column == 0 ? 3 : random_below(&state, 4); row < rows; row++)
                good[i][1 + COLUMNS * row + column] = 1;
        do
            for (size_t at = 1; at < KB_TABLE_FILE_LENGTH; at++)
                unsound[i][at] = (uint8_t)random_below(&state, 2);
        while (straight_load(unsound[i], sizeof unsound[i], in_force, sizeof in_force) == 0);
        memcpy(malformed[i], good[i], sizeof good[i]);
        malformed[i][1 + random_below(&state, KB_TABLE_LENGTH)] = 2;
        askings[i].column = random_below(&state, 2);
        askings[i].account = (uint8_t)(1 + random_below(&state, KB_HIGHEST_ACCOUNT));
    }
}

typedef uint32_t load_call(const uint8_t *, size_t, uint8_t *, size_t);
typedef kb_lookup_answer lookup_call(uint32_t, uint32_t, uint32_t, size_t, const uint32_t *, size_t,
                                     uint32_t, uint32_t);
typedef kb_rights_answer rights_call(const uint8_t *, size_t, uint32_t, uint32_t, uint32_t, size_t,
                                     const uint32_t *, size_t, uint32_t, uint32_t, uint8_t);

static void loads(load_call *call, uint8_t (*files)[KB_TABLE_FILE_LENGTH], uint32_t number)
{
    for (size_t i = 0; i < FILES; i++)
        refused(call(files[i], KB_TABLE_FILE_LENGTH, in_force, sizeof in_force), number);
}

/* The bed has one tile, a pixel's, in its north-western corner. */
static const uint32_t word = 9;

static void lookup_all(lookup_call *call)
{
    for (size_t i = 0; i < FILES; i++)
        must(call(KB_ROWS, ORDER, area(ORDER), 1, &word, 1, askings[i].column, 0).number);
}

/* Rights by no table, by the old one, or by those of the good files. */
enum { NONE, OLD, LOADED };

static kb_rights_answer rights_once(rights_call *call, int by, size_t i)
{
    static const uint8_t old[KB_TABLE_LENGTH] = KB_OLD_TABLE;
    const uint8_t *table = by == NONE ? NULL : by == OLD ? old : good[i] + 1;
    return call(table, by == NONE ? 0 : KB_TABLE_LENGTH, KB_ROWS, ORDER, area(ORDER), 1, &word, 1,
                askings[i].column, 0, askings[i].account);
}

static void rights_all(rights_call *call, int by)
{
    for (size_t i = 0; i < FILES; i++)
        must(rights_once(call, by, i).number);
}

/* Straightforward C answers and leaves what the library does. */
static int same_load(const uint8_t *file)
{
    uint8_t ours[KB_TABLE_LENGTH] = KB_OLD_TABLE, other[KB_TABLE_LENGTH] = KB_OLD_TABLE;
    uint32_t number = kb_load(file, KB_TABLE_FILE_LENGTH, ours, sizeof ours);
    return straight_load(file, KB_TABLE_FILE_LENGTH, other, sizeof other) == number
           && memcmp(ours, other, sizeof ours) == 0;
}

static void same_answers(size_t i)
{
    int same = same_load(good[i]) && same_load(unsound[i]) && same_load(malformed[i]);
    for (int by = NONE; by <= LOADED; by++) {
        kb_rights_answer ours = rights_once(kb_rights, by, i), other = rights_once(straight_rights, by, i);
        same = same && ours.number == other.number && ours.yes == other.yes;
    }
    if (!same) {
        fprintf(stderr, "bench: straightforward C loads another table, or answers otherwise by it\n");
        exit(1);
    }
}

void tables_of_rights(void)
{
    struct timing ours, straight;
    make_files();
    for (size_t i = 0; i < FILES; i++)
        same_answers(i);
    printf("\nTables of rights: %d files, mixed, loaded one after the other, and as many that are refused. Then, on a "
           "bed of one tile,\na pixel's, at that pixel or beside it: a lookup, and rights by no table, by the old one "
           "and by those of the files.\nNanoseconds for a call × the library's time divided by that of "
           "straightforward C.\n\n"
           "| order | load | refused, 56 | refused, 55 | lookup | rights, no table | the old table | loaded tables |\n"
           "|---|---|---|---|---|---|---|---|\n", FILES);
    fprintf(stderr, "tables of rights\n");
    printf("| %d ", ORDER);
    BOTH(ours, loads(kb_load, good, 0), straight, loads(straight_load, good, 0));
    cell(&ours, &straight, FILES);
    BOTH(ours, loads(kb_load, unsound, KB_TABLE_UNSOUND), straight, loads(straight_load, unsound, KB_TABLE_UNSOUND));
    cell(&ours, &straight, FILES);
    BOTH(ours, loads(kb_load, malformed, KB_TABLE_MALFORMED),
         straight, loads(straight_load, malformed, KB_TABLE_MALFORMED));
    cell(&ours, &straight, FILES);
    BOTH(ours, lookup_all(kb_lookup), straight, lookup_all(straight_lookup));
    cell(&ours, &straight, FILES);
    for (int by = NONE; by <= LOADED; by++) {
        BOTH(ours, rights_all(kb_rights, by), straight, rights_all(straight_rights, by));
        cell(&ours, &straight, FILES);
    }
    printf("|\n");
}
