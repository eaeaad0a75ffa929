/* One call of the library as often as it is told to, for a program that counts instructions: bench/compare.

       compare TIMES read             reads the clash text of standard input
       compare TIMES repeats          the same where repeats are allowed; an older library has one reading, which allows them
       compare TIMES walk N BUDGET    reads it once, as a list of N entries, and walks with this budget
       compare TIMES place N BUDGET   the same by placing; an older library has no such search
       compare TIMES shrink N BUDGET  the same by the walk over a shrunk list; likewise

   An answer of an older library has fewer numbers than there is room for here. */
#include <stddef.h>
#include <stdint.h>
#include <stdio.h>
#include <stdlib.h>
#include <string.h>

struct answer {
    size_t numbers[8];
};
struct answer slotsheet_read_list(const uint8_t *text, size_t text_length, uint64_t *rows, size_t rows_length);
__attribute__((weak)) struct answer slotsheet_read_list_repeats(const uint8_t *text, size_t text_length, uint64_t *rows, size_t rows_length);
struct answer slotsheet_fewest(const uint64_t *rows, size_t rows_length, uint8_t *colours, size_t colours_length, uint64_t budget);
__attribute__((weak)) struct answer slotsheet_fewest_by_placing(const uint64_t *rows, size_t rows_length, uint8_t *colours, size_t colours_length, uint64_t budget);
__attribute__((weak)) struct answer slotsheet_fewest_shrunk(const uint64_t *rows, size_t rows_length, uint8_t *colours, size_t colours_length, uint64_t budget);

int main(int count, char **words) {
    static uint8_t text[65536], colours[64];
    static uint64_t rows[64];
    if (count < 3) return 2;
    size_t length = fread(text, 1, sizeof text, stdin), refusal = 0;
    int place = strcmp(words[2], "place") == 0, shrink = strcmp(words[2], "shrink") == 0, walk = place || shrink || strcmp(words[2], "walk") == 0;
    int repeats = strcmp(words[2], "read") != 0 && slotsheet_read_list_repeats != NULL;
    if ((place && slotsheet_fewest_by_placing == NULL) || (shrink && slotsheet_fewest_shrunk == NULL)) return 1;
    for (int times = walk ? 1 : atoi(words[1]); times > 0; times--) {
        struct answer said = repeats ? slotsheet_read_list_repeats(text, length, rows, 64) : slotsheet_read_list(text, length, rows, 64);
        refusal = said.numbers[0];
    }
    if (!walk) return refusal == 0 ? 0 : 1;
    if (refusal != 0 || count < 5) return 1;
    size_t n = strtoul(words[3], NULL, 10);
    uint64_t budget = strtoul(words[4], NULL, 10);
    for (int times = atoi(words[1]); times > 0; times--) {
        if (place) slotsheet_fewest_by_placing(rows, n, colours, 64, budget);
        else if (shrink) slotsheet_fewest_shrunk(rows, n, colours, 64, budget);
        else slotsheet_fewest(rows, n, colours, 64, budget);
    }
    return 0;
}
