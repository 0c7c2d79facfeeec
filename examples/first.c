/* A first program. It prints: 3 tiles, account 7 at (1, 0) */
#include <kingletbed.h>
#include <stdio.h>

int main(void)
{
    uint32_t slots[16];
    const uint8_t accounts[4] = {7, 7, 0, 7};
    kb_scan scan = {0};
    uint32_t number = kb_scan_fresh(&scan, KB_ROWS, 1, slots, 16);
    if (number == KB_ACCEPTED)
        number = kb_scan_feed(&scan, accounts, 4).number;
    kb_lookup_answer at = kb_scan_lookup(&scan, 1, 0);
    if (number != KB_ACCEPTED || at.number != KB_ACCEPTED) {
        fprintf(stderr, "first: %s\n", kb_refusal_text(number != KB_ACCEPTED ? number : at.number));
        return 1;
    }
    printf("%zu tiles, account %d at (1, 0)\n", scan.tiles, at.account);
    return 0;
}
