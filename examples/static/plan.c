/* Plans the forecast of the README from C, and prints a line for each lot. */
#include <stdio.h>

#include "wirthedol.h"

static uint64_t word(const uint8_t *b)
{
    return (uint64_t)b[0] << 24 | (uint64_t)b[1] << 16 | (uint64_t)b[2] << 8 | b[3];
}

static void print_lot(const uint8_t *lot)
{
    uint64_t first = word(lot);
    uint64_t cost = (word(lot + 16) << 30) + word(lot + 20);
    printf("%s %llu %llu %llu %llu %llu\n", first >> 30 == 1 ? "frozen" : "closing",
           (unsigned long long)(first & 0x3fffffff), (unsigned long long)word(lot + 4),
           (unsigned long long)word(lot + 8), (unsigned long long)cost, (unsigned long long)word(lot + 12));
}

int main(void)
{
    /* One line from period 1 on: a setup costs 10, making a unit 0, keeping a unit for one period 1. */
    static const uint8_t costs[] = {0, 0, 0, 1, 0, 0, 0, 10, 0, 0, 0, 0, 0, 0, 0, 1};
    static const char demands[] = "1,4\n2,3\n3,8\n4,2\n5,9\nend\n";
    uint8_t out[24 * 5 + 4];

    /* No netting: any pointer, and no bytes. */
    struct wirthedol_answer answer = wirthedol_plan_text(
        costs, sizeof costs, costs, 0, (const uint8_t *)demands, sizeof demands - 1, out, sizeof out);
    if (answer.refusal == WIRTHEDOL_NO_MEMORY) {
        puts("no memory");
        return 1;
    }
    if (answer.refusal != 0) {
        printf("refused %u at %llu\n", (unsigned)answer.refusal, (unsigned long long)answer.place);
        return 1;
    }
    for (uint64_t place = 0; place + 24 <= answer.written; place += 24)
        print_lot(out + place);
    return 0;
}
