/* Reads a clash list from the named file and prints its sitting sheet. Of two files, checks the second, a sheet, against the first, and prints
   "groups K". What is refused is said in words, with status 1.

   cc -std=c99 example.c $(pkg-config --cflags --libs slotsheet) -o example && ./example list.col */
#include <slotsheet.h>
#include <stdio.h>

/* `place` and `column` are what was returned beside the refusal; `column` is 0 where none was. */
static int refused(size_t refusal, uint64_t place, size_t column) {
    char sentence[256];
    slotsheet_sentence(refusal, place, column, NULL, 0, sentence, sizeof sentence);
    printf("%s\n", sentence);
    return 1;
}

static int answer(const uint8_t *text, size_t length) {
    uint64_t rows[SLOTSHEET_ENTRIES];
    uint8_t colours[SLOTSHEET_ENTRIES];
    uint8_t sheet[SLOTSHEET_SHEET_BYTES];

    struct slotsheet_reading read = slotsheet_read_list(text, length, rows, SLOTSHEET_ENTRIES);
    if (read.refusal != SLOTSHEET_ACCEPTED) return refused(read.refusal, read.line, read.column);

    /* What was read is a list, and there is room: only the budget may refuse. */
    struct slotsheet_walk walk = slotsheet_fewest(rows, read.entries, colours, sizeof colours, SLOTSHEET_NODES);
    if (walk.refusal != SLOTSHEET_ACCEPTED) return refused(walk.refusal, walk.nodes, 0);

    struct slotsheet_writing written = slotsheet_write_sheet(colours, read.entries, sheet, sizeof sheet);
    if (written.refusal != SLOTSHEET_ACCEPTED) return refused(written.refusal, written.place, 0);

    return fwrite(sheet, 1, written.length, stdout) == written.length ? 0 : 3;
}

static int check(const uint8_t *list, size_t list_length, const uint8_t *sheet, size_t sheet_length) {
    uint8_t colours[SLOTSHEET_ENTRIES];
    char sentence[256];

    struct slotsheet_checking check = slotsheet_check_sheet(list, list_length, sheet, sheet_length, colours, sizeof colours);
    if (check.refusal == SLOTSHEET_ACCEPTED) {
        printf("groups %zu\n", check.groups);
        return 0;
    }
    /* The line at fault tells the entry. */
    struct slotsheet_part part = slotsheet_fault_line(list, list_length, sheet, sheet_length, sizeof colours);
    int of_list = part.text == SLOTSHEET_LIST;
    const uint8_t *shown = (of_list ? list : sheet) + part.start;
    slotsheet_sentence(check.refusal, check.line, check.column, shown, part.length, sentence, sizeof sentence);
    printf("%s: %s\n", of_list ? "list" : "sheet", sentence);
    return 1;
}

/* One byte more than a text may have, so that a longer one is seen to be. */
struct text {
    uint8_t bytes[SLOTSHEET_BYTES + 1];
    size_t length;
};

static int take(struct text *text, const char *name) {
    FILE *from = fopen(name, "rb");
    if (from != NULL) text->length = fread(text->bytes, 1, sizeof text->bytes, from);
    if (from != NULL && !ferror(from)) return 1;
    perror(name);
    return 0;
}

int main(int count, char **names) {
    static struct text list, sheet;
    if (count < 2 || count > 3) {
        fprintf(stderr, "usage: example LIST [SHEET]\n");
        return 2;
    }
    if (!take(&list, names[1])) return 2;
    if (count == 2) return answer(list.bytes, list.length);
    if (!take(&sheet, names[2])) return 2;
    return check(list.bytes, list.length, sheet.bytes, sheet.length);
}
