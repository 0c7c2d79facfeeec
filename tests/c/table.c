/* The table of rights: loads and what they leave, and rights by the table in force, whatever that is. */
#include "test.h"

#include <string.h>

#define COLUMNS 5
#define LENT 40
#define GUARD 0xa5

static const uint8_t old_table[KB_TABLE_LENGTH] = KB_OLD_TABLE;

/* Files of the old table, of the lab's for workshops, of yes to everything, and of yes to own pixels alone. */
static const uint8_t files[][KB_TABLE_FILE_LENGTH] = {
    {15, 1, 1, 1, 1, 0, 1, 1, 0, 0, 0, 1, 0, 0, 0, 0}, {15, 1, 1, 1, 1, 0, 1, 1, 0, 0, 0, 1, 1, 0, 0, 0},
    {15, 1, 1, 1, 1, 1, 1, 1, 1, 1, 1, 1, 1, 1, 1, 1}, {15, 1, 0, 0, 0, 0, 1, 0, 0, 0, 0, 1, 0, 0, 0, 0},
};
static const uint8_t *const workshop = files[1];
#define FILES (sizeof files / sizeof *files)

/* A table in force inside of other bytes: one that could be loaded, and such as could not. */
static void lend(uint8_t *bytes, size_t which)
{
    memset(bytes, GUARD, LENT);
    if (which == 0)
        memcpy(bytes + 5, old_table, KB_TABLE_LENGTH);
    else
        memset(bytes + 5, which == 1 ? 0 : 255, KB_TABLE_LENGTH);
}

/* Does a load answer this number, whatever is in force? Accepted, the table must hold what is behind the count; all
   around it, and refused in it too, every byte must be as it was. */
static int loads(const uint8_t *file, size_t file_length, size_t table_length, uint32_t number)
{
    for (size_t which = 0; which < 3; which++) {
        uint8_t bytes[LENT], kept[LENT];
        lend(bytes, which);
        lend(kept, which);
        if (kb_load(file, file_length, bytes + 5, table_length) != number)
            return 0;
        if (number == KB_ACCEPTED)
            memcpy(kept + 5, file + 1, KB_TABLE_LENGTH);
        if (memcmp(bytes, kept, LENT) != 0)
            return 0;
    }
    return 1;
}

/* A count and bytes of other numbers and lengths than 15, and bytes above 1. */
void test_load(void)
{
    uint8_t file[LENT] = {0};
    for (size_t i = 0; i < FILES; i++) {
        CHECK(loads(files[i], KB_TABLE_FILE_LENGTH, KB_TABLE_LENGTH, KB_ACCEPTED));
        memset(file, 1, sizeof file);
        memcpy(file, files[i], KB_TABLE_FILE_LENGTH);
        for (size_t length = 0; length <= LENT; length++)
            CHECK(loads(file, length, KB_TABLE_LENGTH,
                        length == KB_TABLE_FILE_LENGTH ? KB_ACCEPTED : KB_TABLE_MALFORMED));
        for (size_t length = 0; length <= LENT - 5; length++)
            CHECK(loads(file, KB_TABLE_FILE_LENGTH, length,
                        length == KB_TABLE_LENGTH ? KB_ACCEPTED : KB_TABLE_MALFORMED));
        for (size_t at = 0; at < KB_TABLE_FILE_LENGTH; at++)
            for (int byte = 2; byte <= 255; byte++) {
                file[at] = (uint8_t)byte;
                CHECK(loads(file, KB_TABLE_FILE_LENGTH, KB_TABLE_LENGTH,
                            at == 0 && byte == 15 ? KB_ACCEPTED : KB_TABLE_MALFORMED));
                file[at] = files[i][at];
            }
    }
    uint8_t table[KB_TABLE_LENGTH] = KB_OLD_TABLE;
    CHECK(kb_load(NULL, 0, NULL, 0) == KB_TABLE_MALFORMED && kb_load(NULL, 0, table, 15) == KB_TABLE_MALFORMED);
    CHECK(kb_load(workshop, 16, NULL, 0) == KB_TABLE_MALFORMED && memcmp(table, old_table, 15) == 0);
    /* A whole file is not a table, nor a table a file. */
    CHECK(kb_load(old_table, 15, table, 15) == KB_TABLE_MALFORMED);
}

/* Whether each row says yes to its own pixels, and every yes goes up from guests to students, and to staff. */
static int is_sound(const uint8_t *table)
{
    const uint8_t *student = table + COLUMNS, *guest = student + COLUMNS;
    int sound = table[0] && student[0] && guest[0];
    for (int column = 0; column < COLUMNS; column++)
        sound = sound && guest[column] <= student[column] && student[column] <= table[column];
    return sound;
}

static void put_bits(uint32_t bits, uint8_t *file)
{
    file[0] = 15;
    for (int i = 0; i < KB_TABLE_LENGTH; i++)
        file[1 + i] = bits >> i & 1;
}

/* Every table of bits. */
void test_load_unsound(void)
{
    uint8_t file[KB_TABLE_FILE_LENGTH];
    int accepted = 0;
    for (uint32_t bits = 0; bits < 1u << KB_TABLE_LENGTH; bits++) {
        put_bits(bits, file);
        CHECK(loads(file, 16, 15, is_sound(file + 1) ? KB_ACCEPTED : KB_TABLE_UNSOUND));
        accepted += is_sound(file + 1);
    }
    CHECK(accepted == 256);
    /* With a byte above 1 it does not come to that. */
    put_bits(0, file);
    file[15] = 2;
    CHECK(loads(file, 16, 15, KB_TABLE_MALFORMED));
}

/* A bed of order 3: the account of each pixel, row after row, is its place. */
static void scan_all_accounts(kb_scan *scan, uint32_t *slots)
{
    uint8_t accounts[64];
    for (uint8_t i = 0; i < 64; i++)
        accounts[i] = i;
    CHECK(kb_scan_fresh(scan, KB_ROWS, 3, slots, 64) == KB_ACCEPTED);
    CHECK(kb_scan_feed(scan, accounts, 64).number == KB_ACCEPTED && scan->tiles == 63);
}

static int class_of(uint32_t account) { return account <= 7 ? 0 : account <= 47 ? 1 : 2; }

/* Does every account ask with the answer of a table, at a pixel of every account? */
static int answers_by(const kb_scan *scan, const uint8_t *handed, size_t length, const uint8_t *table)
{
    for (uint32_t asking = 1; asking <= KB_HIGHEST_ACCOUNT; asking++)
        for (uint32_t holder = 0; holder <= KB_HIGHEST_ACCOUNT; holder++) {
            int ground = holder == asking ? 0 : holder == 0 ? 1 : 4 - class_of(holder);
            kb_rights_answer right = kb_scan_rights(scan, handed, length, holder % 8, holder / 8, asking);
            if (right.number != KB_ACCEPTED || right.yes != table[COLUMNS * class_of(asking) + ground])
                return 0;
        }
    return 1;
}

/* By every table that a load accepts; and by such as none does, which count as the old one. */
void test_table_rights(void)
{
    uint32_t slots[64], unsound = 0;
    uint8_t file[LENT] = {0};
    kb_scan scan = NO_SCAN;
    scan_all_accounts(&scan, slots);
    for (uint32_t bits = 0; bits < 1u << KB_TABLE_LENGTH; bits++) {
        put_bits(bits, file);
        if (is_sound(file + 1))
            CHECK(answers_by(&scan, file + 1, 15, file + 1));
        else if (++unsound % 331 == 0)
            CHECK(answers_by(&scan, file + 1, 15, old_table));
    }
    CHECK(answers_by(&scan, NULL, 0, old_table) && answers_by(&scan, workshop, 16, old_table));
    memcpy(file, workshop, KB_TABLE_FILE_LENGTH);
    for (size_t length = 0; length < LENT - 1; length++)
        CHECK(answers_by(&scan, file + 1, length, length == 15 ? workshop + 1 : old_table));
    for (size_t at = 1; at < KB_TABLE_FILE_LENGTH; at++)
        for (int byte = 2; byte <= 256; byte *= 2) {
            file[at] = (uint8_t)(byte - (byte == 256));
            CHECK(answers_by(&scan, file + 1, 15, old_table));
            file[at] = workshop[at];
        }
}

/* A guest on nobody's pixel of bed M, by the old table, by the one loaded, and after a load that is refused. */
void test_table_in_force(void)
{
    uint32_t slots[8];
    uint8_t table[KB_TABLE_LENGTH] = KB_OLD_TABLE, bad[KB_TABLE_FILE_LENGTH];
    kb_scan scan = NO_SCAN;
    scan_bed_m(&scan, slots, 8);
    CHECK(kb_scan_rights(&scan, table, sizeof table, 2, 0, 51).yes == 0);
    CHECK(kb_load(workshop, KB_TABLE_FILE_LENGTH, table, sizeof table) == KB_ACCEPTED);
    CHECK(kb_scan_rights(&scan, table, sizeof table, 2, 0, 51).yes == 1);
    memcpy(bad, workshop, sizeof bad);
    bad[7] = 0;
    CHECK(kb_load(bad, sizeof bad, table, sizeof table) == KB_TABLE_UNSOUND);
    CHECK(kb_load(bad, sizeof bad - 1, table, sizeof table) == KB_TABLE_MALFORMED);
    CHECK(kb_scan_rights(&scan, table, sizeof table, 2, 0, 51).yes == 1);
    CHECK(kb_scan_rights(&scan, table, sizeof table, 3, 1, 51).yes == 0);
    CHECK(kb_rights(table, 15, KB_ROWS, 2, 16, 4, slots, 8, 2, 0, 51).yes == 1);
    CHECK(kb_rights(NULL, 0, KB_ROWS, 2, 16, 4, slots, 8, 2, 0, 51).yes == 0);

    /* The checks are those of the record, the point and the asker: a table is no refusal, and no number is cut. */
    const uint64_t wide = ((uint64_t)1 << 32) + 2;
    CHECK(kb_scan_rights(&scan, table, 15, wide, 0, 51).number == KB_POINT_OUTSIDE);
    CHECK(kb_scan_rights(&scan, bad, 3, 2, wide, 51).number == KB_POINT_OUTSIDE);
    CHECK(kb_scan_rights(&scan, table, 15, 2, 0, 256 + 51).number == KB_ASKER_INVALID);
    CHECK(kb_scan_rights(&scan, bad, 3, 2, 0, 0).number == KB_ASKER_INVALID);
    CHECK(kb_scan_rights(&scan, bad, 3, 2, 0, 51).number == KB_ACCEPTED);
    CHECK(kb_load(files[0], KB_TABLE_FILE_LENGTH, table, sizeof table) == KB_ACCEPTED);
    CHECK(memcmp(table, old_table, sizeof table) == 0);
}
