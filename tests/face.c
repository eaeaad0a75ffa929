/* The installed library as a C program meets it.

     face             each refusal is provoked and has the header's number; slices of length 0 may be NULL; the sentences stay within
                      their buffer; every call is made in a thread of SLOTSHEET_STACK_BYTES; prints "N checks"
     face examples    of each text of standard input, which is tests/examples.txt, what is stored there is what reading, checking and printing say;
                      prints "N checks"
     face sentences   prints every refusal's name and sentence, as `tests/faces.py sentences` does */
#include <pthread.h>
#include <slotsheet.h>
#include <stdio.h>
#include <stdlib.h>
#include <string.h>

static int checks, failed;

#define CHECK(holds)                                              \
    do {                                                          \
        checks++;                                                 \
        if (!(holds)) {                                           \
            printf("face.c, line %d: not so: %s\n", __LINE__, #holds); \
            failed++;                                             \
        }                                                         \
    } while (0)

static uint64_t rows[SLOTSHEET_ENTRIES + 1];
static uint8_t colours[SLOTSHEET_ENTRIES + 1];
static uint8_t out[SLOTSHEET_LIST_BYTES];
static uint8_t longest[SLOTSHEET_BYTES + 1];

static size_t length(const char *text) {
    return strlen(text);
}

static struct slotsheet_reading read_rows(const char *text, size_t room) {
    return slotsheet_read_list((const uint8_t *)text, length(text), rows, room);
}

static size_t read_as(const char *text) {
    return read_rows(text, SLOTSHEET_ENTRIES).refusal;
}

/* Checked against three entries, of which the first two clash. */
static size_t checked_as(const char *sheet) {
    const char *list = "p edge 3 1\ne 1 2\n";
    return slotsheet_check_sheet((const uint8_t *)list, length(list), (const uint8_t *)sheet, length(sheet), colours, 64).refusal;
}

static size_t walked_as(uint64_t first, uint64_t second, size_t room, uint64_t budget) {
    uint64_t two[2] = {first, second};
    return slotsheet_fewest(two, 2, colours, room, budget).refusal;
}

static void numbers(void) {
    CHECK(walked_as(2, 1, 2, 9) == SLOTSHEET_ACCEPTED);
    CHECK(slotsheet_validity(rows, 65).refusal == SLOTSHEET_MANY);
    CHECK(walked_as(4, 1, 2, 9) == SLOTSHEET_STRAY);
    CHECK(walked_as(1, 0, 2, 9) == SLOTSHEET_SELF);
    CHECK(walked_as(2, 0, 2, 9) == SLOTSHEET_ONE_SIDED);
    CHECK(walked_as(2, 1, 1, 9) == SLOTSHEET_SHORT);
    CHECK(walked_as(2, 1, 2, 0) == SLOTSHEET_BUDGET);
    CHECK(read_as("p edge 2 1\n\n") == SLOTSHEET_LINE);
    CHECK(read_as("p edge 2 1\ne 1  2\n") == SLOTSHEET_DIGIT);
    CHECK(read_as("p edge 2 1\ne 1 2\r\n") == SLOTSHEET_SPACE);
    CHECK(read_as("p edge 2 1\ne 1 2") == SLOTSHEET_UNENDED);
    CHECK(read_as("p edge 2 2\ne 1 2\ne 2 1\n") == SLOTSHEET_REPEAT);
    CHECK(read_as("e 1 2\n") == SLOTSHEET_HEADLESS);
    CHECK(read_as("p edge 2 0\np edge 2 0\n") == SLOTSHEET_SECOND);
    CHECK(read_as("p edge 65 0\n") == SLOTSHEET_SIZE);
    CHECK(read_as("p edge 2 1\ne 1 3\n") == SLOTSHEET_VERTEX);
    CHECK(read_as("p edge 2 1\ne 1 1\n") == SLOTSHEET_LOOP);
    CHECK(read_as("p edge 2 2\ne 1 2\n") == SLOTSHEET_COUNT);
    CHECK(read_rows("p edge 2 0\n", 1).refusal == SLOTSHEET_ROOM);
    CHECK(slotsheet_read_list(longest, sizeof longest, rows, 64).refusal == SLOTSHEET_LONG);
    CHECK(slotsheet_write_sheet(colours, 0, out, 8).refusal == SLOTSHEET_FULL);
    CHECK(checked_as("groups\n") == SLOTSHEET_SHEET_LINE);
    CHECK(checked_as("groups 1\nsize 1\n4\n") == SLOTSHEET_MEMBER);
    CHECK(checked_as("groups 1\nsize 2\n3\n1\n") == SLOTSHEET_ORDER);
    CHECK(checked_as("groups 2\nsize 2\n1\n3\nsize 2\n2\n3\n") == SLOTSHEET_TWICE);
    CHECK(checked_as("groups 1\nsize 2\n1\n2\n") == SLOTSHEET_CLASH);
    CHECK(checked_as("groups 1\n") == SLOTSHEET_ENDS);
    CHECK(checked_as("groups 1\nsize 1\n1\n") == SLOTSHEET_MISSING);
    CHECK(checked_as("groups 0\n\n") == SLOTSHEET_EXTRA);
    colours[0] = 1;
    CHECK(slotsheet_write_sheet(colours, 1, out, sizeof out).refusal == SLOTSHEET_COLOURS);
}

/* What an empty std::vector gives; and any other pointer of length 0. */
static void nulls(void) {
    uint8_t *odd = (uint8_t *)1;
    CHECK(slotsheet_validity(NULL, 0).refusal == SLOTSHEET_ACCEPTED);
    CHECK(slotsheet_validity((const uint64_t *)(const void *)odd, 0).refusal == SLOTSHEET_ACCEPTED);
    CHECK(slotsheet_clique_bound(NULL, 0).bound == 0 && slotsheet_clique_bound(NULL, 0).members == 0);
    CHECK(slotsheet_mycielskian_bound(NULL, 0).bound == 0);
    CHECK(slotsheet_fewest(NULL, 0, NULL, 0, 1).nodes == 1 && slotsheet_fewest(NULL, 0, NULL, 0, 1).clique == 0);
    CHECK(slotsheet_plain(NULL, 0, odd, 0, 1).leaves == 1);
    CHECK(slotsheet_fewest_by_placing(NULL, 0, NULL, 0, 1).nodes == 1 && slotsheet_fewest_by_placing(NULL, 0, odd, 0, 1).clique == 0);
    CHECK(slotsheet_fewest_shrunk(NULL, 0, NULL, 0, 1).nodes == 1 && slotsheet_fewest_shrunk(NULL, 0, odd, 0, 1).clique == 0);
    CHECK(slotsheet_read_list(NULL, 0, NULL, 0).refusal == SLOTSHEET_HEADLESS);
    CHECK(slotsheet_read_list_repeats(NULL, 0, NULL, 0).refusal == SLOTSHEET_HEADLESS);
    CHECK(slotsheet_write_list(NULL, 0, out, sizeof out).length == 11);
    CHECK(slotsheet_write_list(NULL, 0, NULL, 0).refusal == SLOTSHEET_FULL);
    CHECK(slotsheet_write_sheet(NULL, 0, NULL, 0).refusal == SLOTSHEET_FULL);
    CHECK(slotsheet_check_sheet(NULL, 0, NULL, 0, NULL, 0).text == SLOTSHEET_LIST);
    CHECK(slotsheet_check_sheet_repeats(NULL, 0, NULL, 0, NULL, 0).text == SLOTSHEET_LIST);
    CHECK(slotsheet_fault_line(NULL, 0, NULL, 0, 0).length == 0);
    CHECK(slotsheet_fault_line_repeats(NULL, 0, NULL, 0, 0).length == 0);
    CHECK(slotsheet_mend_sheet(NULL, 0, NULL, 0, NULL, 0).text == SLOTSHEET_LIST);
    CHECK(slotsheet_mend_sheet_repeats(NULL, 0, NULL, 0, NULL, 0).refusal == SLOTSHEET_HEADLESS);
    CHECK(slotsheet_mend_sheet((const uint8_t *)"p edge 0 0\n", 11, NULL, 0, NULL, 0).refusal == SLOTSHEET_ENDS);
    CHECK(slotsheet_mend_sheet((const uint8_t *)"p edge 0 0\n", 11, (const uint8_t *)"groups 0\n", 9, NULL, 0).refusal == SLOTSHEET_FULL);
    CHECK(slotsheet_answer(NULL, 0, NULL, 0).refusal == SLOTSHEET_FULL);
    CHECK(slotsheet_answer_repeats(NULL, 0, NULL, 0).refusal == SLOTSHEET_FULL);
    CHECK(slotsheet_answer_repeats(NULL, 0, out, sizeof out).length == length("refused 11 line 1\n"));
    CHECK(slotsheet_answer(NULL, 0, out, sizeof out).length == length("refused 11 line 1\n"));
    CHECK(slotsheet_sentence(SLOTSHEET_TWICE, 7, 0, NULL, 0, NULL, 0) == length("line 7: the entry on this line stands in an earlier group"));
}

/* The clique of entries 1, 2 and 4 of four, beside bound and k; none beside a refusal or the Mycielskian bound. */
static void cliques(void) {
    const uint64_t four[4] = {10, 9, 8, 7};
    struct slotsheet_bound bound = slotsheet_clique_bound(four, 4);
    CHECK(bound.refusal == SLOTSHEET_ACCEPTED && bound.bound == 3 && bound.members == 11);
    CHECK(slotsheet_mycielskian_bound(four, 4).bound == 3 && slotsheet_mycielskian_bound(four, 4).members == 0);
    struct slotsheet_walk walk = slotsheet_fewest(four, 4, colours, 4, 9);
    CHECK(walk.refusal == SLOTSHEET_ACCEPTED && walk.k == 3 && walk.clique == 11);
    CHECK(slotsheet_plain(four, 4, colours, 4, 99).clique == 11);
    CHECK(slotsheet_fewest_by_placing(four, 4, colours, 4, 99).clique == 11);
    CHECK(slotsheet_fewest_shrunk(four, 4, colours, 4, 9).clique == 11);
    CHECK(slotsheet_fewest(four, 4, colours, 4, 0).clique == 0);
    CHECK(slotsheet_fewest(four, 4, colours, 3, 9).clique == 0);
    CHECK(slotsheet_clique_bound(four, 3).refusal == SLOTSHEET_STRAY && slotsheet_clique_bound(four, 3).members == 0);
}

/* A search that is no walk has the walk's refusals, each in the order 1 to 5, then 6, and its own count of nodes: so many for two entries that clash. */
typedef struct slotsheet_walk search(const uint64_t *, size_t, uint8_t *, size_t, uint64_t);
static void searched(search *by, uint64_t nodes) {
    uint64_t two[2] = {2, 1};
    uint8_t lent[3] = {7, 7, 7};
    CHECK(by(rows, 65, lent, 0, 0).refusal == SLOTSHEET_MANY);
    two[1] = 5;
    CHECK(by(two, 2, lent, 0, 0).refusal == SLOTSHEET_STRAY && by(two, 2, lent, 0, 0).row == 1);
    two[1] = 3;
    CHECK(by(two, 2, lent, 0, 0).refusal == SLOTSHEET_SELF && by(two, 2, lent, 0, 0).row == 1);
    two[1] = 0;
    CHECK(by(two, 2, lent, 0, 0).refusal == SLOTSHEET_ONE_SIDED);
    two[1] = 1;
    CHECK(by(two, 2, lent, 1, 0).refusal == SLOTSHEET_SHORT);
    struct slotsheet_walk said = by(two, 2, lent, 2, nodes - 1);
    CHECK(said.refusal == SLOTSHEET_BUDGET && said.nodes == nodes - 1 && said.k == 0 && said.clique == 0);
    CHECK(lent[0] == 7 && lent[1] == 7 && lent[2] == 7);
    said = by(two, 2, lent, 3, nodes);
    CHECK(said.refusal == SLOTSHEET_ACCEPTED && said.k == 2 && said.nodes == nodes && said.leaves == 0 && said.clique == 3);
    CHECK(lent[0] == 0 && lent[1] == 1 && lent[2] == 7);
}

/* What is put back may stand in other groups than by the walk: a triangle of entries 2, 3 and 4, and a pair of 1 and 5. */
static void shrunk(void) {
    const uint64_t five[5] = {16, 12, 10, 6, 1};
    uint8_t lent[6] = {7, 7, 7, 7, 7, 7}, walked[6] = {7, 7, 7, 7, 7, 7};
    struct slotsheet_walk said = slotsheet_fewest_shrunk(five, 5, lent, 6, 1);
    CHECK(said.refusal == SLOTSHEET_ACCEPTED && said.k == 3 && said.nodes == 1 && said.leaves == 0 && said.clique == 14);
    CHECK(memcmp(lent, "\0\1\2\0\1\7", 6) == 0);
    CHECK(slotsheet_fewest(five, 5, walked, 6, 99).k == 3 && memcmp(lent, walked, 6) != 0);
    CHECK(slotsheet_fewest_shrunk(five, 5, lent, 6, 0).refusal == SLOTSHEET_BUDGET);
}

/* Mended for three entries, of which the first two clash, in a buffer of so many bytes: the answer's numbers, and what the buffer then holds. */
static struct slotsheet_mending mended(const char *sheet, size_t room, const char *holds) {
    const char *list = "p edge 3 1\ne 1 2\n";
    static uint8_t lent[200], again[200];
    memset(lent, '#', sizeof lent);
    struct slotsheet_mending said = slotsheet_mend_sheet((const uint8_t *)list, length(list), (const uint8_t *)sheet, length(sheet), lent, room);
    struct slotsheet_mending same = slotsheet_mend_sheet_repeats((const uint8_t *)list, length(list), (const uint8_t *)sheet, length(sheet), again, room);
    CHECK(memcmp(&said, &same, sizeof said) == 0);
    CHECK(memcmp(lent, holds, length(holds)) == 0);
    for (size_t i = length(holds); i < sizeof lent; i++) CHECK(lent[i] == '#');
    return said;
}

/* Drops, lifts and puts; and each refusal of the sheet, with its line, in the order 18, 30, 35, 37, 19. 31 to 34 and 36 are put right. */
static void mendings(void) {
    const char *right = "groups 2\nsize 2\n1\n3\nsize 1\n2\n";
    struct slotsheet_mending said = mended(right, 200, right);
    CHECK(said.refusal == SLOTSHEET_ACCEPTED && said.length == length(right) && said.line == 0 && said.column == 0 && said.text == SLOTSHEET_NONE);
    said = mended("groups 1\nsize 4\n9\n1\n2\n1\n", 200, "dropped 3\ndropped 6\nput 2 group 2\nput 3 group 1\ngroups 2\nsize 2\n1\n3\nsize 1\n2\n");
    CHECK(said.refusal == SLOTSHEET_ACCEPTED && said.length == 48 + length(right) && said.text == SLOTSHEET_NONE);
    said = mended(right, length(right) - 1, "");
    CHECK(said.refusal == SLOTSHEET_FULL && said.line == 0 && said.length == 0 && said.text == SLOTSHEET_SHEET);
    CHECK(mended("groups 2\nsize 2\n3\n1\nsize 1\n2\n", length(right), right).length == length(right));
    CHECK(mended("groups 2\nsize 2\n1\n3\nsize 2\n2\n3\n", 0, "").refusal == SLOTSHEET_FULL);
    said = mended("groups 1\nsize 2\n9\nx\n", 0, "");
    CHECK(said.refusal == SLOTSHEET_SHEET_LINE && said.line == 4 && said.column == 0 && said.text == SLOTSHEET_SHEET);
    said = mended("groups 1\nsize 2\n9\n", 0, "");
    CHECK(said.refusal == SLOTSHEET_ENDS && said.line == 4);
    said = mended("groups 1\nsize 1\n9\nx", 0, "");
    CHECK(said.refusal == SLOTSHEET_EXTRA && said.line == 4);
    const char *list = "p edge 0 0\n";
    said = slotsheet_mend_sheet((const uint8_t *)list, length(list), longest, sizeof longest, out, sizeof out);
    CHECK(said.refusal == SLOTSHEET_LONG && said.line == 0 && said.text == SLOTSHEET_SHEET);
    said = slotsheet_mend_sheet(longest, sizeof longest, longest, sizeof longest, out, sizeof out);
    CHECK(said.refusal == SLOTSHEET_LONG && said.line == 0 && said.text == SLOTSHEET_LIST);
}

/* A sentence in every buffer that is too small for it, and in one that is large enough: nothing past the buffer, and a 0 at its end. */
static void buffers(void) {
    const char *whole = "line 7: entry 12 stands in an earlier group";
    for (size_t room = 0; room <= length(whole) + 2; room++) {
        char lent[64];
        memset(lent, '#', sizeof lent);
        CHECK(slotsheet_sentence(SLOTSHEET_TWICE, 7, 0, (const uint8_t *)"12", 2, lent, room) == length(whole));
        size_t put = room == 0 ? 0 : room - 1 < length(whole) ? room - 1 : length(whole);
        CHECK(memcmp(lent, whole, put) == 0);
        if (room > 0) CHECK(lent[put] == 0);
        CHECK(lent[room == 0 ? 0 : put + 1] == '#');
    }
    for (size_t number = 0; number < 1000; number++) CHECK(slotsheet_sentence(number, UINT64_MAX, SIZE_MAX, NULL, 0, NULL, 0) < 256);
}

/* Every call, with the lists that go deepest: no clashes at all, and a ring. */
static void *deepest(void *unused) {
    static uint64_t none[64], ring[64];
    static uint8_t own[64], sheet[SLOTSHEET_SHEET_BYTES], text[SLOTSHEET_LIST_BYTES];
    for (int i = 0; i < 64; i++) ring[i] = (uint64_t)1 << (i + 1) % 64 | (uint64_t)1 << (i + 63) % 64;
    CHECK(slotsheet_validity(ring, 64).refusal == SLOTSHEET_ACCEPTED);
    CHECK(slotsheet_clique_bound(ring, 64).bound == 2);
    CHECK(slotsheet_clique_bound(ring, 64).members == 3);
    CHECK(slotsheet_mycielskian_bound(ring, 64).bound == 2);
    CHECK(slotsheet_plain(none, 64, own, 64, 100000).refusal == SLOTSHEET_BUDGET);
    CHECK(slotsheet_fewest(none, 64, own, 64, SLOTSHEET_NODES).k == 1);
    CHECK(slotsheet_fewest(ring, 64, own, 64, SLOTSHEET_NODES).k == 2);
    CHECK(slotsheet_fewest(ring, 64, own, 64, SLOTSHEET_NODES).clique == 3);
    CHECK(slotsheet_fewest_by_placing(none, 64, own, 64, SLOTSHEET_NODES).k == 1);
    CHECK(slotsheet_fewest_by_placing(ring, 64, own, 64, SLOTSHEET_NODES).k == 2);
    CHECK(slotsheet_fewest_shrunk(none, 64, own, 64, SLOTSHEET_NODES).k == 1);
    CHECK(slotsheet_fewest_shrunk(ring, 64, own, 64, SLOTSHEET_NODES).k == 2);
    struct slotsheet_writing list = slotsheet_write_list(ring, 64, text, sizeof text);
    struct slotsheet_writing written = slotsheet_write_sheet(own, 64, sheet, sizeof sheet);
    CHECK(slotsheet_read_list(text, list.length, none, 64).entries == 64);
    CHECK(slotsheet_check_sheet(text, list.length, sheet, written.length, own, 64).groups == 2);
    CHECK(slotsheet_fault_line(text, list.length, sheet, written.length, 64).text == SLOTSHEET_NONE);
    CHECK(slotsheet_read_list_repeats(text, list.length, none, 64).entries == 64);
    CHECK(slotsheet_check_sheet_repeats(text, list.length, sheet, written.length, own, 64).groups == 2);
    CHECK(slotsheet_fault_line_repeats(text, list.length, sheet, written.length, 64).text == SLOTSHEET_NONE);
    static uint8_t report[SLOTSHEET_MEND_BYTES], typed[SLOTSHEET_BYTES];
    size_t at = (size_t)sprintf((char *)typed, "groups 1\nsize 32758\n");
    for (; at < sizeof typed; at += 2) typed[at] = '0', typed[at + 1] = '\n';
    CHECK(slotsheet_mend_sheet(text, list.length, sheet, written.length, report, sizeof report).length == written.length);
    CHECK(slotsheet_mend_sheet(text, list.length, typed, sizeof typed, report, sizeof report).refusal == SLOTSHEET_ACCEPTED);
    CHECK(slotsheet_mend_sheet_repeats(text, list.length, typed, sizeof typed, report, 9).refusal == SLOTSHEET_FULL);
    for (int i = 0; i < 64; i++) none[i] = ~((uint64_t)1 << i);
    list = slotsheet_write_list(none, 64, text, sizeof text);
    CHECK(list.length == SLOTSHEET_LIST_BYTES);
    CHECK(slotsheet_mend_sheet(text, list.length, typed, sizeof typed, report, sizeof report).length == SLOTSHEET_MEND_BYTES);
    CHECK(slotsheet_mend_sheet(text, list.length, typed, sizeof typed, report, sizeof report - 1).refusal == SLOTSHEET_FULL);
    static const uint8_t edgeless[] = "p edge 64 0\n";
    CHECK(slotsheet_answer(edgeless, sizeof edgeless - 1, sheet, sizeof sheet).length == 200);
    CHECK(memcmp(sheet, "groups 1\nsize 64\n1\n2\n", 21) == 0);
    CHECK(slotsheet_answer_repeats(edgeless, sizeof edgeless - 1, sheet, sizeof sheet).length == 200);
    return unused;
}

static void small_stack(void) {
    pthread_attr_t made;
    pthread_t thread;
    CHECK(pthread_attr_init(&made) == 0);
    CHECK(pthread_attr_setstacksize(&made, SLOTSHEET_STACK_BYTES) == 0);
    CHECK(pthread_create(&thread, &made, deepest, NULL) == 0);
    CHECK(pthread_join(thread, NULL) == 0);
}

static void sentences(void) {
    for (size_t number = 0; number < 1000; number++) {
        char sentence[256], with_entry[256];
        const char *name = slotsheet_name(number);
        if (name == NULL) continue;
        slotsheet_sentence(number, 7, 3, NULL, 0, sentence, sizeof sentence);
        slotsheet_sentence(number, 7, 3, (const uint8_t *)"12", 2, with_entry, sizeof with_entry);
        printf("%zu %s: %s\n", number, name, sentence);
        if (strcmp(sentence, with_entry) != 0) printf("%zu %s: %s\n", number, name, with_entry);
    }
}

/* A text as printf takes it: \n, \r, and \NNN for a byte in octal. */
static size_t unescaped(const char *text, uint8_t *bytes) {
    size_t at = 0;
    for (; *text != 0 && *text != '\n'; text++) {
        if (*text != '\\') {
            bytes[at++] = (uint8_t)*text;
        } else if (*++text == 'n' || *text == 'r') {
            bytes[at++] = *text == 'n' ? '\n' : '\r';
        } else {
            bytes[at++] = (uint8_t)((text[0] - '0') * 64 + (text[1] - '0') * 8 + text[2] - '0');
            text += 2;
        }
    }
    return at;
}

/* The calls that read a clash text, by one reading. */
struct calls {
    struct slotsheet_reading (*read_list)(const uint8_t *, size_t, uint64_t *, size_t);
    struct slotsheet_checking (*check_sheet)(const uint8_t *, size_t, const uint8_t *, size_t, uint8_t *, size_t);
    struct slotsheet_part (*fault_line)(const uint8_t *, size_t, const uint8_t *, size_t, size_t);
    struct slotsheet_writing (*answer)(const uint8_t *, size_t, uint8_t *, size_t);
    struct slotsheet_mending (*mend_sheet)(const uint8_t *, size_t, const uint8_t *, size_t, uint8_t *, size_t);
};
static const struct calls plain = {slotsheet_read_list, slotsheet_check_sheet, slotsheet_fault_line, slotsheet_answer, slotsheet_mend_sheet};
static const struct calls repeats = {slotsheet_read_list_repeats, slotsheet_check_sheet_repeats, slotsheet_fault_line_repeats,
                                     slotsheet_answer_repeats, slotsheet_mend_sheet_repeats};

static void example(const struct calls *by, size_t refusal, size_t line, size_t column, const uint8_t *text, size_t text_length) {
    struct slotsheet_reading read = by->read_list(text, text_length, rows, SLOTSHEET_ENTRIES);
    CHECK(read.refusal == refusal && read.line == line && read.column == column);
    struct slotsheet_checking check = by->check_sheet(text, text_length, NULL, 0, colours, SLOTSHEET_ENTRIES);
    CHECK((check.text == SLOTSHEET_LIST) == (refusal != SLOTSHEET_ACCEPTED));
    CHECK(by->fault_line(text, text_length, NULL, 0, SLOTSHEET_ENTRIES).text == check.text);
    struct slotsheet_mending mend = by->mend_sheet(text, text_length, NULL, 0, out, sizeof out);
    CHECK((mend.text == SLOTSHEET_LIST) == (refusal != SLOTSHEET_ACCEPTED));
    if (refusal == SLOTSHEET_ACCEPTED) return;
    CHECK(check.refusal == refusal && check.line == line && check.column == column && check.groups == 0);
    CHECK(mend.refusal == refusal && mend.line == line && mend.column == column && mend.length == 0);
    char said[256], start[80], printed[80];
    slotsheet_sentence(refusal, line, column, NULL, 0, said, sizeof said);
    if (column == 0) {
        snprintf(start, sizeof start, "line %zu: ", line);
        snprintf(printed, sizeof printed, "refused %zu line %zu\n", refusal, line);
    } else {
        snprintf(start, sizeof start, "line %zu, column %zu: ", line, column);
        snprintf(printed, sizeof printed, "refused %zu line %zu column %zu\n", refusal, line, column);
    }
    CHECK(strncmp(said, start, length(start)) == 0);
    struct slotsheet_writing answer = by->answer(text, text_length, out, sizeof out);
    CHECK(answer.length == length(printed) && memcmp(out, printed, answer.length) == 0);
}

static void examples(void) {
    char stored[256];
    uint8_t text[256];
    while (fgets(stored, sizeof stored, stdin) != NULL) {
        char reading[8];
        size_t refusal, line, column;
        int from;
        if (stored[0] == '#' || stored[0] == '\n') continue;
        int before = failed;
        CHECK(sscanf(stored, "%7s %zu %zu %zu%n", reading, &refusal, &line, &column, &from) == 4);
        size_t text_length = unescaped(stored + from + 1, text);
        if (strcmp(reading, "repeats") != 0) example(&plain, refusal, line, column, text, text_length);
        if (strcmp(reading, "plain") != 0) example(&repeats, refusal, line, column, text, text_length);
        if (failed > before) printf("of %s", stored);
    }
}

int main(int count, char **words) {
    if (count > 1 && strcmp(words[1], "sentences") == 0) {
        sentences();
        return 0;
    }
    if (count > 1 && strcmp(words[1], "examples") == 0) {
        examples();
        printf("%d checks\n", checks);
        return failed > 0;
    }
    numbers();
    nulls();
    cliques();
    searched(slotsheet_fewest_by_placing, 3);
    searched(slotsheet_fewest_shrunk, 1);
    shrunk();
    mendings();
    buffers();
    small_stack();
    CHECK(strcmp(slotsheet_version(), SLOTSHEET_VERSION) == 0);
    CHECK(strcmp(slotsheet_name(SLOTSHEET_ONE_SIDED), "ONE-SIDED") == 0);
    CHECK(slotsheet_name(999) == NULL);
    printf("%d checks\n", checks);
    return failed > 0;
}
