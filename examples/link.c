/* Solves the sheet on standard input from its root, with limit 0, and prints the answer.
 *   gcc -Iinclude examples/link.c target/staticlib/libkgs.a -o target/link && target/link < samples/worked.kgs */
#include <kgs.h>
#include <stdio.h>

int main(void) {
    static uint8_t sheet[65537]; /* one byte over the longest sheet */
    size_t len = fread(sheet, 1, sizeof sheet, stdin);
    uint32_t root = sheet[8] | sheet[9] << 8 | sheet[10] << 16 | (uint32_t)sheet[11] << 24;
    kgs_solution s = kgs_solve(sheet, len, root, 0);
    if (s.refusal.number != 0) printf("refused %u\n", (unsigned)s.refusal.number);
    for (uint64_t i = 0; i < s.action_count; i++) printf("label %u\n", (unsigned)s.labels[i]);
    for (uint64_t i = 0; i < s.payoff_count; i++) printf("payoff %g\n", s.payoffs[i]);
    return s.refusal.number != 0;
}
