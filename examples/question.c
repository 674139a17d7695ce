/* SPDX-License-Identifier: Apache-2.0 */
#include <stdio.h>
#include "lavutremo.h"

int main(void)
{
    /* 1.1 <- 2, and an end; is 2 in 1.1? */
    static const uint8_t credentials[24] = {0x01, 0, 1, 0, 1, 1, 0, 0, 2, [23] = 0x06};
    static const uint8_t role[18] = {2, 0, 0, 1, 0, 1};
    static const uint8_t entity[18] = {1, 0, 0, 2};
    uint64_t answer = lavutremo_question(credentials, sizeof credentials, role, sizeof role, entity, sizeof entity);
    if (lavutremo_number(answer) != 0) {
        printf("refused: %u\n", lavutremo_number(answer));
        return 1;
    }
    puts(lavutremo_value(answer) ? "yes" : "no");
    return 0;
}
