/* Fewest sittings from a clash list: the proved library, called from C, C++ and the languages that call C.

       tools/install PREFIX         puts this header, libslotsheet.a, libslotsheet.so and slotsheet.pc below PREFIX
       cc yours.c $(pkg-config --cflags --libs slotsheet)

   A list of n entries (0 to 64) is n rows; bit j of rows[i] says that entries i and j clash. Groups are numbered from 0 by smallest member.

   Answers. An answer whose `refusal` is 0 is accepted. Every number that a comment here does not name is 0. Nothing lent is written but what is
   said here, and a refused call writes nothing. No call keeps a pointer, prints, allocates, or fails otherwise than by its refusal.

   Two readings. A clash text names each edge once: one that stands a second time, either way round, is refused as 20, since a block pasted twice
   would slip through otherwise. The calls whose names end in _repeats allow it, for lists whose exporter names each clash both ways; they are the same
   in everything else. What slotsheet_write_list writes is read alike by both.

   What is lent. A lent slice is a pointer and a length in elements (not in bytes), and the pointer is aligned as its type wants. Where the length
   is 0 the pointer may be NULL or any other, so an empty std::vector is passed as it is; elsewhere it is never NULL. What a call writes (`colours`
   of a walk or a check, `rows` of a reading, `out` of the writers and of mending) must not overlap anything else that is lent to that call. What it
   only reads may overlap: the list and the sheet of a check may be one text.

   Threads. Calls share nothing, so any number of threads may call at once, as long as none writes what another is lent. A call needs less than
   64 KB of stack, whatever the list (measured: 48 KB were enough, 44 KB were not); give a thread that is made for it SLOTSHEET_STACK_BYTES.

   The repository's own target/staticlib/libcapi.a has the proved functions alone: there no pointer may be NULL, also where the length is 0, and
   slotsheet_version, slotsheet_name and slotsheet_sentence are missing. */
#ifndef SLOTSHEET_H
#define SLOTSHEET_H

#include <stddef.h>
#include <stdint.h>

#ifdef __cplusplus
extern "C" {
#endif

/* tools/bindings writes from here on, from bindings/interface.txt */
#define SLOTSHEET_VERSION "5.2.0"

#define SLOTSHEET_ENTRIES 64          /* the most entries of a list */
#define SLOTSHEET_BYTES 65536         /* the most bytes of a text that is read */
#define SLOTSHEET_SHEET_BYTES 641     /* no sheet is longer */
#define SLOTSHEET_LIST_BYTES 15576    /* no written list is longer */
#define SLOTSHEET_MEND_BYTES 449161   /* no mended sheet with its report is longer */
#define SLOTSHEET_NODES 1000000       /* the nodes that the walk of the program slotsheet may enter */
#define SLOTSHEET_STACK_BYTES 262144  /* the stack that a thread needs to make any call, with room to spare */

/* Numbers given for a refusal, and what is returned beside it. */
enum slotsheet_refusal {
    SLOTSHEET_ACCEPTED = 0,     /* no refusal */
    SLOTSHEET_MANY = 1,         /* over 64 rows, or colour bytes when writing a sheet */
    SLOTSHEET_STRAY = 2,        /* a bit at n or above: lowest such row */
    SLOTSHEET_SELF = 3,         /* row i has bit i: lowest such row */
    SLOTSHEET_ONE_SIDED = 4,    /* row i has bit j, row j lacks bit i: lowest such i */
    SLOTSHEET_SHORT = 5,        /* colour buffer under n bytes */
    SLOTSHEET_BUDGET = 6,       /* the walk has more nodes than the budget: nodes = budget */
    SLOTSHEET_LINE = 10,        /* a word unknown, or an empty line: line and column */
    SLOTSHEET_HEADLESS = 11,    /* an e line before any p line, or no p line at all: line */
    SLOTSHEET_SECOND = 12,      /* a second p line: line */
    SLOTSHEET_SIZE = 13,        /* p line with over 64 entries: line */
    SLOTSHEET_VERTEX = 14,      /* an end outside 1 to n: line */
    SLOTSHEET_LOOP = 15,        /* both ends equal: line */
    SLOTSHEET_COUNT = 16,       /* number of e lines is not the stated one: line */
    SLOTSHEET_ROOM = 17,        /* fewer lent rows than n: line of p */
    SLOTSHEET_LONG = 18,        /* a text over 65,536 bytes */
    SLOTSHEET_FULL = 19,        /* output buffer too small for the whole text */
    SLOTSHEET_REPEAT = 20,      /* an edge that stands a second time, either way round, where repeats are not allowed: line of the second */
    SLOTSHEET_DIGIT = 21,       /* where a number must start and no digit stands, or a digit after a leading zero or a seventh digit: line and column */
    SLOTSHEET_SPACE = 22,       /* another byte, or a stop, where a space or the line's end could have followed a word or a number: line and column */
    SLOTSHEET_UNENDED = 23,     /* last line unended though otherwise whole: line, and column one past its end */
    SLOTSHEET_SHEET_LINE = 30,  /* wrong shape for this place, or last line unended: line */
    SLOTSHEET_MEMBER = 31,      /* member outside 1 to n: line */
    SLOTSHEET_ORDER = 32,       /* not above the member before it in its group, or a group's first not above the previous group's first: line */
    SLOTSHEET_TWICE = 33,       /* member stands in an earlier group: line */
    SLOTSHEET_CLASH = 34,       /* member clashes with an earlier one of its group: line */
    SLOTSHEET_ENDS = 35,        /* sheet empty, or ends before its counts are met: line */
    SLOTSHEET_MISSING = 36,     /* all counts met, an entry absent: line */
    SLOTSHEET_EXTRA = 37,       /* a line after the last group: line */
    SLOTSHEET_COLOURS = 38      /* colour bytes not numbered by first use from 0: lowest index */
};

enum slotsheet_text {
    SLOTSHEET_NONE = 0,  /* neither text is at fault */
    SLOTSHEET_LIST = 1,  /* the clash list */
    SLOTSHEET_SHEET = 2  /* the sitting sheet */
};
/* tools/bindings writes to here */

struct slotsheet_verdict {
    size_t refusal;
    size_t row;
};

struct slotsheet_bound {
    size_t refusal;
    size_t row;
    size_t bound;
    uint64_t members; /* of the clique bound: bit i says that entry i is in the clique; 0 of the Mycielskian bound */
};

struct slotsheet_walk {
    size_t refusal;
    size_t row;
    size_t k;         /* the number of groups */
    uint64_t nodes;   /* nodes entered; the budget where that refused */
    uint64_t leaves;  /* complete graphs of the plain walk */
    uint64_t clique;  /* the list's clique, as in slotsheet_bound */
};

/* The column of 10, 21, 22 and 23, in bytes from 1, is that of the first byte at which the line can no longer begin any permitted line; one past
   its end where it merely stops. */
struct slotsheet_reading {
    size_t refusal;
    size_t line;      /* counted from 1; lines plus one for a fault at the end */
    size_t column;
    size_t entries;
};

struct slotsheet_writing {
    size_t refusal;
    size_t place;     /* a list's row, or the index of a colour byte */
    size_t length;    /* of the text */
};

struct slotsheet_checking {
    size_t refusal;
    size_t line;
    size_t column;    /* as of a reading, where the list is at fault */
    size_t groups;
    size_t text;      /* the text at fault: an enum slotsheet_text */
};

struct slotsheet_mending {
    size_t refusal;
    size_t line;
    size_t column;    /* as of a reading, where the list is at fault */
    size_t length;    /* of report and mended sheet together */
    size_t text;      /* the text at fault: an enum slotsheet_text; for 19 the sheet */
};

struct slotsheet_part {
    size_t text;      /* the text that it is a part of: an enum slotsheet_text */
    size_t start;     /* where it starts in that text, in bytes */
    size_t length;
};

/* The version of the library that is linked, as SLOTSHEET_VERSION is that of this header. */
const char *slotsheet_version(void);

/* The name of a refusal, as "ONE-SIDED"; "ACCEPTED" of 0; NULL of a number that is none. */
const char *slotsheet_name(size_t refusal);

/* A refusal in words for people, as "line 7: entry 12 stands in an earlier group". `place` is what was returned beside it: its row, line, index
   or nodes; `column` is the column that was, 0 where none was. `shown` is the line at fault, from slotsheet_fault_line, and tells the entry; without
   it (NULL, 0) the sentence says "the entry on this line". Writes as much as fits of the sentence and a final 0, nothing where out_length is 0;
   returns the sentence's length without the 0, as snprintf does. No sentence is longer than 255 bytes. `out` and `shown` must not overlap. */
size_t slotsheet_sentence(size_t refusal, uint64_t place, size_t column, const uint8_t *shown, size_t shown_length, char *out,
                          size_t out_length);

/* Whether rows are a list: 1 to 4, each over all rows before the next. */
struct slotsheet_verdict slotsheet_validity(const uint64_t *rows, size_t rows_length);

/* Lower bounds on the number of groups: 1 to 4. The clique bound is the number of its members: entries that all clash with one another, so that no
   two of them can be in one group. */
struct slotsheet_bound slotsheet_clique_bound(const uint64_t *rows, size_t rows_length);
struct slotsheet_bound slotsheet_mycielskian_bound(const uint64_t *rows, size_t rows_length);

/* The fewest groups: 1 to 4, 5, 6. Accepted, writes to colours[i] the number of entry i's group, for each of the n entries; colour bytes
   from n on stay. `clique` has the members of the list's clique bound, which may be fewer than k: they say why it can't be fewer than their number. */
struct slotsheet_walk slotsheet_fewest(const uint64_t *rows, size_t rows_length, uint8_t *colours, size_t colours_length, uint64_t budget);

/* The same without bounds: also returns the number of complete graphs. For small lists. */
struct slotsheet_walk slotsheet_plain(const uint64_t *rows, size_t rows_length, uint8_t *colours, size_t colours_length, uint64_t budget);

/* The same k by a second engine that owes nothing to the first, for testers: a search that never merges and has no bounds. It puts entry after entry
   into every group that admits it and last into a new one. 1 to 5, then 6: `nodes` and the budget are its own, and its colours may be others than the
   walk's. */
struct slotsheet_walk slotsheet_fewest_by_placing(const uint64_t *rows, size_t rows_length, uint8_t *colours, size_t colours_length,
                                                  uint64_t budget);

/* The same k by the walk over a shrunk list, for long lists of which many entries have few clashes. Before the walk an entry goes whose clashes are all
   clashes of another, or which has fewer clashes than the list's Mycielskian bound, until there is none; after it those that went are put back into
   groups. 1 to 4, 5, 6: `nodes` and the budget are of the walk over what is left, and the colours may be others than those of slotsheet_fewest. The
   clique is the whole list's. */
struct slotsheet_walk slotsheet_fewest_shrunk(const uint64_t *rows, size_t rows_length, uint8_t *colours, size_t colours_length,
                                              uint64_t budget);

/* Reads a clash text, whose lines are "p edge N M", "e U V" and comments, all those that begin with c: 18, then the first faulty line by 10, 21, 22
   or 23, then 11, 12, 13, 17, 14, 15, 20, then at the end 11, 16. Accepted, writes the first n rows; rows from n on stay. */
struct slotsheet_reading slotsheet_read_list(const uint8_t *text, size_t text_length, uint64_t *rows, size_t rows_length);
struct slotsheet_reading slotsheet_read_list_repeats(const uint8_t *text, size_t text_length, uint64_t *rows, size_t rows_length);

/* Writes a list's clash text: 1 to 4, 19. Accepted, writes the first `length` bytes; those after stay. */
struct slotsheet_writing slotsheet_write_list(const uint64_t *rows, size_t rows_length, uint8_t *out, size_t out_length);

/* Writes the sheet of n colour bytes: 1, 38, 19. Accepted, writes the first `length` bytes; those after stay. */
struct slotsheet_writing slotsheet_write_sheet(const uint8_t *colours, size_t colours_length, uint8_t *out, size_t out_length);

/* Checks a sheet against a list: the list's refusals, 5, then the sheet's 18, 30 to 34, 35, 37, 36. Accepted, writes each entry's group
   number to the first n colour bytes; those after stay. */
struct slotsheet_checking slotsheet_check_sheet(const uint8_t *list, size_t list_length, const uint8_t *sheet, size_t sheet_length,
                                                uint8_t *colours, size_t colours_length);
struct slotsheet_checking slotsheet_check_sheet_repeats(const uint8_t *list, size_t list_length, const uint8_t *sheet, size_t sheet_length,
                                                        uint8_t *colours, size_t colours_length);

/* Checks again, for a colour buffer of `room` bytes, and says where the line at fault lies: the line without its line feed. An empty part, at
   that text's end for a fault at an end, and at its start for 18, or 5, which is the sheet's. SLOTSHEET_NONE where the check accepts. Writes
   nothing. */
struct slotsheet_part slotsheet_fault_line(const uint8_t *list, size_t list_length, const uint8_t *sheet, size_t sheet_length, size_t room);
struct slotsheet_part slotsheet_fault_line_repeats(const uint8_t *list, size_t list_length, const uint8_t *sheet, size_t sheet_length,
                                                   size_t room);

/* Puts a hand-edited sheet right: the list's refusals, then the sheet's 18, the first of 30 (by line), 35, 37, and last 19. Goes through the members in the
   sheet's order, drops one that is no entry or stood before, and lifts out one that clashes with a member kept before it in its group; lifted and absent
   entries, by rising number, go to the first group that admits them, else to a new one. Accepted, writes the first `length` bytes; those after stay:
   a line "dropped L" for each dropped line, by its number; a line "put E group G" for each entry that was lifted or absent, G being its group in the mended
   sheet, from 1; then the mended sheet, which slotsheet_check_sheet accepts. A sheet that is accepted as it is comes back as it is, with no line before it.
   SLOTSHEET_MEND_BYTES are enough. */
struct slotsheet_mending slotsheet_mend_sheet(const uint8_t *list, size_t list_length, const uint8_t *sheet, size_t sheet_length,
                                              uint8_t *out, size_t out_length);
struct slotsheet_mending slotsheet_mend_sheet_repeats(const uint8_t *list, size_t list_length, const uint8_t *sheet, size_t sheet_length,
                                                      uint8_t *out, size_t out_length);

/* Writes the very bytes that the program slotsheet, or "slotsheet --repeats", prints for a clash text: the sheet of its fewest groups, by a walk of
   at most SLOTSHEET_NODES nodes, or "refused R line L" (of 10, 21, 22 and 23 "refused R line L column C") and a line feed: 19 where they do not all
   fit; SLOTSHEET_SHEET_BYTES are enough. Accepted, writes the first `length` bytes; those after stay. */
struct slotsheet_writing slotsheet_answer(const uint8_t *text, size_t text_length, uint8_t *out, size_t out_length);
struct slotsheet_writing slotsheet_answer_repeats(const uint8_t *text, size_t text_length, uint8_t *out, size_t out_length);

#ifdef __cplusplus
}
#endif

#endif
