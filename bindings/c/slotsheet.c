/* The thin layer of C around the proved functions. They are proved for slices, and also a slice of no elements has an aligned address that is not
   NULL: here each slice of length 0 gets one, whatever pointer came with it, and everything else is passed as it is. Beside them stand the version,
   the names and the sentences. tools/install compiles this into libslotsheet, where the proved functions are named slotsheet_proved_* and are seen
   by this file alone. */
#include <slotsheet.h>

#include "table.h"

/* An aligned address for slices of no elements. It is never read or written. */
static uint64_t nothing[1];

#define ROWS(rows) rows##_length == 0 ? nothing : rows, rows##_length
#define BYTES(bytes) bytes##_length == 0 ? (uint8_t *)nothing : bytes, bytes##_length

struct slotsheet_verdict slotsheet_proved_validity(const uint64_t *, size_t);
struct slotsheet_bound slotsheet_proved_clique_bound(const uint64_t *, size_t);
struct slotsheet_bound slotsheet_proved_mycielskian_bound(const uint64_t *, size_t);
struct slotsheet_walk slotsheet_proved_fewest(const uint64_t *, size_t, uint8_t *, size_t, uint64_t);
struct slotsheet_walk slotsheet_proved_plain(const uint64_t *, size_t, uint8_t *, size_t, uint64_t);
struct slotsheet_walk slotsheet_proved_fewest_by_placing(const uint64_t *, size_t, uint8_t *, size_t, uint64_t);
struct slotsheet_walk slotsheet_proved_fewest_shrunk(const uint64_t *, size_t, uint8_t *, size_t, uint64_t);
struct slotsheet_reading slotsheet_proved_read_list(const uint8_t *, size_t, uint64_t *, size_t);
struct slotsheet_reading slotsheet_proved_read_list_repeats(const uint8_t *, size_t, uint64_t *, size_t);
struct slotsheet_writing slotsheet_proved_write_list(const uint64_t *, size_t, uint8_t *, size_t);
struct slotsheet_writing slotsheet_proved_write_sheet(const uint8_t *, size_t, uint8_t *, size_t);
struct slotsheet_checking slotsheet_proved_check_sheet(const uint8_t *, size_t, const uint8_t *, size_t, uint8_t *, size_t);
struct slotsheet_checking slotsheet_proved_check_sheet_repeats(const uint8_t *, size_t, const uint8_t *, size_t, uint8_t *, size_t);
struct slotsheet_part slotsheet_proved_fault_line(const uint8_t *, size_t, const uint8_t *, size_t, size_t);
struct slotsheet_part slotsheet_proved_fault_line_repeats(const uint8_t *, size_t, const uint8_t *, size_t, size_t);
struct slotsheet_mending slotsheet_proved_mend_sheet(const uint8_t *, size_t, const uint8_t *, size_t, uint8_t *, size_t);
struct slotsheet_mending slotsheet_proved_mend_sheet_repeats(const uint8_t *, size_t, const uint8_t *, size_t, uint8_t *, size_t);
struct slotsheet_writing slotsheet_proved_answer(const uint8_t *, size_t, uint8_t *, size_t);
struct slotsheet_writing slotsheet_proved_answer_repeats(const uint8_t *, size_t, uint8_t *, size_t);

struct slotsheet_verdict slotsheet_validity(const uint64_t *rows, size_t rows_length) {
    return slotsheet_proved_validity(ROWS(rows));
}

struct slotsheet_bound slotsheet_clique_bound(const uint64_t *rows, size_t rows_length) {
    return slotsheet_proved_clique_bound(ROWS(rows));
}

struct slotsheet_bound slotsheet_mycielskian_bound(const uint64_t *rows, size_t rows_length) {
    return slotsheet_proved_mycielskian_bound(ROWS(rows));
}

struct slotsheet_walk slotsheet_fewest(const uint64_t *rows, size_t rows_length, uint8_t *colours, size_t colours_length, uint64_t budget) {
    return slotsheet_proved_fewest(ROWS(rows), BYTES(colours), budget);
}

struct slotsheet_walk slotsheet_plain(const uint64_t *rows, size_t rows_length, uint8_t *colours, size_t colours_length, uint64_t budget) {
    return slotsheet_proved_plain(ROWS(rows), BYTES(colours), budget);
}

struct slotsheet_walk slotsheet_fewest_by_placing(const uint64_t *rows, size_t rows_length, uint8_t *colours, size_t colours_length,
                                                  uint64_t budget) {
    return slotsheet_proved_fewest_by_placing(ROWS(rows), BYTES(colours), budget);
}

struct slotsheet_walk slotsheet_fewest_shrunk(const uint64_t *rows, size_t rows_length, uint8_t *colours, size_t colours_length,
                                              uint64_t budget) {
    return slotsheet_proved_fewest_shrunk(ROWS(rows), BYTES(colours), budget);
}

struct slotsheet_reading slotsheet_read_list(const uint8_t *text, size_t text_length, uint64_t *rows, size_t rows_length) {
    return slotsheet_proved_read_list(BYTES(text), ROWS(rows));
}

struct slotsheet_reading slotsheet_read_list_repeats(const uint8_t *text, size_t text_length, uint64_t *rows, size_t rows_length) {
    return slotsheet_proved_read_list_repeats(BYTES(text), ROWS(rows));
}

struct slotsheet_writing slotsheet_write_list(const uint64_t *rows, size_t rows_length, uint8_t *out, size_t out_length) {
    return slotsheet_proved_write_list(ROWS(rows), BYTES(out));
}

struct slotsheet_writing slotsheet_write_sheet(const uint8_t *colours, size_t colours_length, uint8_t *out, size_t out_length) {
    return slotsheet_proved_write_sheet(BYTES(colours), BYTES(out));
}

struct slotsheet_checking slotsheet_check_sheet(const uint8_t *list, size_t list_length, const uint8_t *sheet, size_t sheet_length,
                                                uint8_t *colours, size_t colours_length) {
    return slotsheet_proved_check_sheet(BYTES(list), BYTES(sheet), BYTES(colours));
}

struct slotsheet_checking slotsheet_check_sheet_repeats(const uint8_t *list, size_t list_length, const uint8_t *sheet, size_t sheet_length,
                                                        uint8_t *colours, size_t colours_length) {
    return slotsheet_proved_check_sheet_repeats(BYTES(list), BYTES(sheet), BYTES(colours));
}

struct slotsheet_part slotsheet_fault_line(const uint8_t *list, size_t list_length, const uint8_t *sheet, size_t sheet_length, size_t room) {
    return slotsheet_proved_fault_line(BYTES(list), BYTES(sheet), room);
}

struct slotsheet_part slotsheet_fault_line_repeats(const uint8_t *list, size_t list_length, const uint8_t *sheet, size_t sheet_length,
                                                   size_t room) {
    return slotsheet_proved_fault_line_repeats(BYTES(list), BYTES(sheet), room);
}

struct slotsheet_mending slotsheet_mend_sheet(const uint8_t *list, size_t list_length, const uint8_t *sheet, size_t sheet_length,
                                              uint8_t *out, size_t out_length) {
    return slotsheet_proved_mend_sheet(BYTES(list), BYTES(sheet), BYTES(out));
}

struct slotsheet_mending slotsheet_mend_sheet_repeats(const uint8_t *list, size_t list_length, const uint8_t *sheet, size_t sheet_length,
                                                      uint8_t *out, size_t out_length) {
    return slotsheet_proved_mend_sheet_repeats(BYTES(list), BYTES(sheet), BYTES(out));
}

struct slotsheet_writing slotsheet_answer(const uint8_t *text, size_t text_length, uint8_t *out, size_t out_length) {
    return slotsheet_proved_answer(BYTES(text), BYTES(out));
}

struct slotsheet_writing slotsheet_answer_repeats(const uint8_t *text, size_t text_length, uint8_t *out, size_t out_length) {
    return slotsheet_proved_answer_repeats(BYTES(text), BYTES(out));
}

const char *slotsheet_version(void) {
    return SLOTSHEET_VERSION;
}

/* The row of a refusal; none is past the table's end. */
static size_t found(size_t refusal) {
    size_t i = 0;
    while (i < sizeof table / sizeof *table && table[i].number != refusal) i++;
    return i;
}

static int known(size_t i) {
    return i < sizeof table / sizeof *table;
}

const char *slotsheet_name(size_t refusal) {
    size_t i = found(refusal);
    return known(i) ? table[i].name : NULL;
}

/* The caller's buffer, and how long all that was put would be. */
struct writer {
    char *out;
    size_t room, length;
};

static void put(struct writer *to, char byte) {
    if (to->length + 1 < to->room) to->out[to->length] = byte;
    to->length++;
}

static void put_word(struct writer *to, const char *word) {
    for (; *word != 0; word++) put(to, *word);
}

static void put_number(struct writer *to, uint64_t number) {
    if (number >= 10) put_number(to, number / 10);
    put(to, (char)('0' + number % 10));
}

/* The entry that a sheet's line names, where that line is a number as entries are written. */
static void put_entry(struct writer *to, const uint8_t *shown, size_t shown_length) {
    size_t digits = 0;
    while (digits < shown_length && shown[digits] >= '0' && shown[digits] <= '9') digits++;
    if (digits == 0 || digits > 7 || digits < shown_length) {
        put_word(to, "the entry on this line");
        return;
    }
    put_word(to, "entry ");
    for (size_t i = 0; i < digits; i++) put(to, (char)shown[i]);
}

/* Whether this word stands at the front of a sentence's rest. */
static int begins(const char *rest, const char *word) {
    while (*word != 0 && *rest == *word) rest++, word++;
    return *word == 0;
}

size_t slotsheet_sentence(size_t refusal, uint64_t place, size_t column, const uint8_t *shown, size_t shown_length, char *out,
                          size_t out_length) {
    struct writer to = {out, out_length, 0};
    size_t i = found(refusal);
    const char *rest = known(i) ? table[i].sentence : "refused by a number that this version does not know";
    while (*rest != 0) {
        if (begins(rest, "{place}")) {
            put_number(&to, place);
        } else if (begins(rest, "{column}")) {
            put_number(&to, column);
        } else if (begins(rest, "{next}")) {
            put_number(&to, place + 1);
        } else if (begins(rest, "{entry}")) {
            put_entry(&to, shown, shown_length);
        } else {
            put(&to, *rest++);
            continue;
        }
        while (*rest++ != '}') {}
    }
    if (out_length > 0) out[to.length < out_length ? to.length : out_length - 1] = 0;
    return to.length;
}
