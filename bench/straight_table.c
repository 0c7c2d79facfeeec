/* The table of rights: loads, and the rights call by the table that counts. */
#include "straight.h"

#include <string.h>

#define COLUMNS 5

/* Whether a row says no where the row below it says yes. */
static int lacks(const uint8_t *row)
{
    for (size_t column = 0; column < COLUMNS; column++)
        if (row[column] < row[COLUMNS + column])
            return 1;
    return 0;
}

/* The checks of a table's bytes. */
static uint32_t check(const uint8_t *table, size_t table_length)
{
    if (table_length != KB_TABLE_LENGTH)
        return KB_TABLE_MALFORMED;
    for (size_t i = 0; i < KB_TABLE_LENGTH; i++)
        if (table[i] > 1)
            return KB_TABLE_MALFORMED;
    if (!table[0] || !table[COLUMNS] || !table[2 * COLUMNS] || lacks(table) || lacks(table + COLUMNS))
        return KB_TABLE_UNSOUND;
    return 0;
}

uint32_t straight_load(const uint8_t *file, size_t file_length, uint8_t *table, size_t table_length)
{
    if (file_length == 0 || file[0] != KB_TABLE_LENGTH || table_length != KB_TABLE_LENGTH)
        return KB_TABLE_MALFORMED;
    uint32_t number = check(file + 1, file_length - 1);
    if (number == 0)
        memcpy(table, file + 1, KB_TABLE_LENGTH);
    return number;
}

static size_t class_of(uint8_t account) { return account <= 7 ? 0 : account <= 47 ? 1 : 2; }

kb_rights_answer straight_rights(const uint8_t *table, size_t table_length,
                                 uint32_t kind, uint32_t order, uint32_t pixels, size_t tiles,
                                 const uint32_t *slots, size_t slots_length, uint32_t column, uint32_t row,
                                 uint8_t account)
{
    static const uint8_t old[KB_TABLE_LENGTH] = KB_OLD_TABLE;
    kb_lookup_answer found = straight_lookup(kind, order, pixels, tiles, slots, slots_length, column, row);
    kb_rights_answer answer = {found.number, 0};
    if (answer.number)
        return answer;
    if (account == 0 || account > KB_HIGHEST_ACCOUNT) {
        answer.number = KB_ASKER_INVALID;
        return answer;
    }
    size_t ground = found.account == account ? 0 : found.account == 0 ? 1 : 4 - class_of(found.account);
    answer.yes = (check(table, table_length) ? old : table)[COLUMNS * class_of(account) + ground];
    return answer;
}
