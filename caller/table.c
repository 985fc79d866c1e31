/* Prints the table of the stack on standard input, or with a spread and a channel the page of that channel; or the refusal's number, line and field. Of a table
 * it also asks for the least total at each row's spread and for its placement, and tries that: a row that differs from them, or is not found legal, is an error.
 * So is a placement with one track less, or one track more that is not found legal. */
#include "nabetsu.h"

#include <stdio.h>
#include <stdlib.h>
#include <string.h>

/* One byte more than the longest text that is not refused as overlong. */
static uint8_t text[8193];
static uint8_t output[NABETSU_TABLE_BYTES + 1];

/* The row of a placement, as the table has it. */
static int row_text(char *line, uint32_t spread, const uint32_t *answer, int k) {
    int end = sprintf(line, "ROW\t%lu", (unsigned long)spread);
    for (int i = 0; i <= k; i++) {
        end += sprintf(line + end, "\t%lu", (unsigned long)answer[i]);
    }
    for (int i = 9; i <= 9 + k; i++) {
        end += sprintf(line + end, "\t%lu", (unsigned long)answer[i]);
    }
    return end + sprintf(line + end, "\n");
}

/* Whether there is a legal placement for a total, by a trial. */
static int is_placed(size_t length, uint32_t spread, uint32_t total, uint32_t *answer) {
    return nabetsu_place_total(text, length, spread, total, answer, NABETSU_ANSWER_NUMBERS) == 0 && answer[0] == total &&
           nabetsu_try_placement(text, length, spread, answer + 1, NABETSU_PLACEMENT_NUMBERS) == 1;
}

static int is_row_right(size_t length, const char *row, int k) {
    uint32_t spread = (uint32_t)strtoul(row + 4, NULL, 10);
    uint32_t answer[NABETSU_ANSWER_NUMBERS];
    char line[256];
    uint64_t code = nabetsu_least_total(text, length, spread);
    uint32_t least = (uint32_t)code;
    if (NABETSU_IS_REFUSED(code) || !is_placed(length, spread, least, answer)) {
        return 0;
    }
    int end = row_text(line, spread, answer, k);
    if (strncmp(row, line, (size_t)end) != 0 || !is_placed(length, spread, least + 1, answer)) {
        return 0;
    }
    return least == 0 || NABETSU_NUMBER(nabetsu_place_total(text, length, spread, least - 1, answer, NABETSU_ANSWER_NUMBERS)) == 10;
}

static int are_rows_right(size_t length) {
    int k = output[6] - '0';
    for (const char *row = strchr((char *)output, '\n') + 1; *row != 0; row = strchr(row, '\n') + 1) {
        if (!is_row_right(length, row, k)) {
            return 0;
        }
    }
    return 1;
}

int main(int count, char **words) {
    int is_page = count == 3;
    size_t length = fread(text, 1, sizeof text, stdin);
    uint64_t code = is_page ? nabetsu_write_page(text, length, (uint32_t)strtoul(words[1], NULL, 10), (uint32_t)strtoul(words[2], NULL, 10), output, NABETSU_PAGE_BYTES)
                            : nabetsu_write_table(text, length, output, NABETSU_TABLE_BYTES);
    if (NABETSU_IS_REFUSED(code)) {
        printf("%u\t%u\t%u\n", NABETSU_NUMBER(code), NABETSU_LINE(code), NABETSU_FIELD(code));
        return 1;
    }
    if (!is_page && !are_rows_right(length)) {
        fprintf(stderr, "a row is not the least total at its spread with its placement\n");
        return 2;
    }
    return fwrite(output, 1, (size_t)code, stdout) == code ? 0 : 2;
}
