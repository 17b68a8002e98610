/* Reedsander: the checker of grade notes, and the setting machine. Both are in
 * libsetter.a, which `./staticlib` proves and writes. docs/SHEET.md is the page
 * for those who build sheets: kinds, values, refusals, rules and stops.
 *
 * What is lent. A call lends a sheet and its text, which are only read, and a
 * buffer of words, which is written: a report or marks. Lengths count words,
 * or bytes for the text. No pointer may be null, not even where its length is
 * 0; then it is not read through. Those to words are aligned for uint32_t. The
 * sheet and the text may overlap each other; the written buffer overlaps
 * neither of them.
 *
 * Linking. The library needs no function from outside but `memset`.
 *
 * Threads. Calls share nothing, keep nothing and allocate nothing. So any
 * number of calls may run at once, in any threads and on one sheet and text,
 * where each has a written buffer of its own, and where nothing writes into
 * the sheet or the text meanwhile.
 *
 * Stack. A call goes down by the levels of the sheet, of which there are at
 * most 64. The deepest sheets and the longest are tested on a stack of
 * 256 KiB. */
#ifndef REEDSANDER_H
#define REEDSANDER_H

#include <stddef.h>
#include <stdint.h>

#ifdef __cplusplus
extern "C" {
#endif

/* How many words a record of a sheet has. */
#define REEDSANDER_RECORD_WORDS 12

/* The kinds of records. */
enum {
    /* blocks */
    REEDSANDER_KIND_PARAGRAPH = 1,
    REEDSANDER_KIND_HEADING = 2,
    REEDSANDER_KIND_THEMATIC_BREAK = 3,
    REEDSANDER_KIND_BLOCK_QUOTE = 4,
    REEDSANDER_KIND_ALERT = 5,
    REEDSANDER_KIND_LIST = 6,
    REEDSANDER_KIND_CODE_BLOCK = 7,
    REEDSANDER_KIND_HTML_BLOCK = 8,
    REEDSANDER_KIND_HTML_CONTAINER = 9,
    REEDSANDER_KIND_DEFINITION = 10,
    REEDSANDER_KIND_FOOTNOTE_DEFINITION = 11,
    REEDSANDER_KIND_TABLE = 12,
    REEDSANDER_KIND_MATH_BLOCK = 13,
    REEDSANDER_KIND_FRONTMATTER = 14,
    REEDSANDER_KIND_LEAF_DIRECTIVE = 15,
    REEDSANDER_KIND_CONTAINER_DIRECTIVE = 16,
    REEDSANDER_KIND_BLANK_LINE = 17,
    /* parts of blocks and inlines */
    REEDSANDER_KIND_ITEM = 20,
    REEDSANDER_KIND_ROW = 21,
    REEDSANDER_KIND_CELL = 22,
    REEDSANDER_KIND_HTML_TAG = 23,
    REEDSANDER_KIND_ATTRIBUTE = 24,
    /* inlines */
    REEDSANDER_KIND_TEXT = 31,
    REEDSANDER_KIND_ESCAPE = 32,
    REEDSANDER_KIND_CHARACTER_REFERENCE = 33,
    REEDSANDER_KIND_EMPHASIS = 34,
    REEDSANDER_KIND_STRONG = 35,
    REEDSANDER_KIND_DELETE = 36,
    REEDSANDER_KIND_MARK = 37,
    REEDSANDER_KIND_SHORTCODE = 38,
    REEDSANDER_KIND_CODE = 39,
    REEDSANDER_KIND_LINK = 40,
    REEDSANDER_KIND_AUTOLINK = 41,
    REEDSANDER_KIND_IMAGE = 42,
    REEDSANDER_KIND_LINK_REFERENCE = 43,
    REEDSANDER_KIND_IMAGE_REFERENCE = 44,
    REEDSANDER_KIND_HTML = 45,
    REEDSANDER_KIND_SOFT_BREAK = 46,
    REEDSANDER_KIND_LINE_BREAK = 47,
    REEDSANDER_KIND_MATH = 48,
    REEDSANDER_KIND_FOOTNOTE_REFERENCE = 49,
    REEDSANDER_KIND_INLINE_FOOTNOTE = 50,
    REEDSANDER_KIND_WIKI_LINK = 51,
    REEDSANDER_KIND_TEXT_DIRECTIVE = 52,
    REEDSANDER_KIND_TAG = 53
};

/* The rules, each with what the Rust reference reports for it. */
enum {
    /* adjacent lists cannot use the same marker */
    REEDSANDER_RULE_ADJACENT_LISTS = 1,
    /* paragraph cannot be empty */
    REEDSANDER_RULE_EMPTY_PARAGRAPH = 2,
    /* footnote definition identifier cannot be empty */
    REEDSANDER_RULE_EMPTY_FOOTNOTE_DEFINITION = 3,
    /* a footnote definition cannot open or end with a blank line */
    REEDSANDER_RULE_BLANK_LINE_IN_FOOTNOTE = 4,
    /* HTML container opening tag name cannot be empty */
    REEDSANDER_RULE_EMPTY_OPENING_NAME = 5,
    /* HTML container closing tag name cannot be empty */
    REEDSANDER_RULE_EMPTY_CLOSING_NAME = 6,
    /* HTML container opening and closing tag names must match */
    REEDSANDER_RULE_TAG_NAMES_DIFFER = 7,
    /* HTML container opening tag source cannot be empty */
    REEDSANDER_RULE_EMPTY_OPENING_SOURCE = 8,
    /* HTML container closing tag source cannot be empty */
    REEDSANDER_RULE_EMPTY_CLOSING_SOURCE = 9,
    /* heading depth must be in the range 1..=6 */
    REEDSANDER_RULE_HEADING_DEPTH = 10,
    /* alert title cannot be empty or start or end with a space or a tab */
    REEDSANDER_RULE_ALERT_TITLE = 11,
    /* list must hold at least one item */
    REEDSANDER_RULE_EMPTY_LIST = 12,
    /* a loose list must hold two items or an item of two blocks */
    REEDSANDER_RULE_LOOSE_LIST = 13,
    /* task list item must hold a non-empty paragraph after its leading definitions */
    REEDSANDER_RULE_TASK_ITEM = 14,
    /* an indented code block must not be read as part of the block before it */
    REEDSANDER_RULE_INDENTED_CODE_TAKEN = 15,
    /* table must contain at least a header row */
    REEDSANDER_RULE_TABLE_WITHOUT_ROW = 16,
    /* table header row must contain at least one cell */
    REEDSANDER_RULE_TABLE_WITHOUT_CELL = 17,
    /* table alignment count must match header width */
    REEDSANDER_RULE_ALIGNMENT_COUNT = 18,
    /* table row width must match header width */
    REEDSANDER_RULE_ROW_WIDTH = 19,
    /* a table cell cannot hold a line break */
    REEDSANDER_RULE_BREAK_IN_CELL = 20,
    /* a value in a table cell cannot hold a `|` after an odd run of backslashes */
    REEDSANDER_RULE_PIPE_IN_CELL = 21,
    /* a leaf directive label cannot hold a line break */
    REEDSANDER_RULE_BREAK_IN_LEAF_LABEL = 22,
    /* a container directive label cannot hold a line break */
    REEDSANDER_RULE_BREAK_IN_CONTAINER_LABEL = 23,
    /* definition identifier cannot be empty */
    REEDSANDER_RULE_BLANK_DEFINITION = 24,
    /* a bare destination cannot be empty */
    REEDSANDER_RULE_EMPTY_BARE_DESTINATION = 25,
    /* code block info string cannot be empty */
    REEDSANDER_RULE_EMPTY_INFO = 26,
    /* indented code cannot be empty or start or end with a blank line */
    REEDSANDER_RULE_BLANK_EDGE_IN_CODE = 27,
    /* frontmatter cannot be inside a container */
    REEDSANDER_RULE_FRONTMATTER_INSIDE = 28,
    /* frontmatter value cannot hold its own fence line */
    REEDSANDER_RULE_FENCE_IN_FRONTMATTER = 29,
    /* hard line break cannot be the final inline of its container */
    REEDSANDER_RULE_FINAL_HARD_BREAK = 30,
    /* text cannot hold a line ending; a line ends with a soft or hard break */
    REEDSANDER_RULE_LINE_ENDING_IN_TEXT = 31,
    /* link reference identifier cannot be empty */
    REEDSANDER_RULE_EMPTY_LINK_REFERENCE = 32,
    /* image reference identifier cannot be empty */
    REEDSANDER_RULE_EMPTY_IMAGE_REFERENCE = 33,
    /* footnote reference identifier cannot be empty */
    REEDSANDER_RULE_EMPTY_FOOTNOTE_REFERENCE = 34,
    /* inline footnote cannot be empty */
    REEDSANDER_RULE_EMPTY_INLINE_FOOTNOTE = 35,
    /* wikilink target cannot be empty */
    REEDSANDER_RULE_EMPTY_WIKI_LINK = 36,
    /* a soft break or a spaces hard break cannot follow a line break */
    REEDSANDER_RULE_BREAK_AFTER_BREAK = 37,
    /* adjacent strikethroughs cannot be written */
    REEDSANDER_RULE_ADJACENT_STRIKETHROUGHS = 38,
    /* emphasis-like inline container cannot have empty children */
    REEDSANDER_RULE_EMPTY_EMPHASIS = 39,
    /* emphasis-like inline content cannot start or end with whitespace */
    REEDSANDER_RULE_WHITE_EMPHASIS = 40,
    /* emphasis-like span cannot hold only a span written with the same delimiter */
    REEDSANDER_RULE_JOINED_EMPHASIS = 41,
    /* link text cannot hold a link */
    REEDSANDER_RULE_LINK_IN_LINK = 42,
    /* escaped value must be an ASCII punctuation character */
    REEDSANDER_RULE_ESCAPED_VALUE = 43,
    /* inline code value cannot be empty */
    REEDSANDER_RULE_EMPTY_CODE = 44,
    /* inline code value cannot hold a line ending */
    REEDSANDER_RULE_LINE_ENDING_IN_CODE = 45,
    /* inline math value cannot be empty */
    REEDSANDER_RULE_EMPTY_MATH = 46,
    /* dollar-fenced inline math must have a fence length of at least 1 */
    REEDSANDER_RULE_MATH_WITHOUT_FENCE = 47,
    /* code-form inline math value cannot contain a backtick followed by `$` */
    REEDSANDER_RULE_BACKTICK_DOLLAR_IN_MATH = 48,
    /* a bullet list item cannot hold a number */
    REEDSANDER_RULE_BULLET_NUMBER = 49,
    /* ordered list item number must be representable in at most 9 digits */
    REEDSANDER_RULE_LONG_NUMBER = 50,
    /* a tight list cannot hold a blank line */
    REEDSANDER_RULE_BLANK_LINE_IN_TIGHT_LIST = 51,
    /* a list item cannot open with a blank line */
    REEDSANDER_RULE_BLANK_LINE_FIRST = 52,
    /* the last item of a list cannot end with a blank line */
    REEDSANDER_RULE_BLANK_LINE_LAST = 53,
    /* directive name must be runs of ASCII letters joined by single `-` */
    REEDSANDER_RULE_DIRECTIVE_NAME = 54,
    /* directive attribute name must start with a letter, `_`, or `-` */
    REEDSANDER_RULE_ATTRIBUTE_NAME = 55,
    /* tag name must be a Unicode letter followed by letters, numbers, `/`, `_`, or `-` */
    REEDSANDER_RULE_TAG_NAME = 56
};

/* The number of a check's answer: 0 accepted, or why it is refused, 1 to 11.
 * The setting machine refuses by the same numbers, with 12 in place of 11, and
 * REEDSANDER_REFUSED is added to them. */
enum {
    REEDSANDER_ACCEPTED = 0,
    REEDSANDER_ODD_SHEET = 1,    /* words not a multiple of 12 */
    REEDSANDER_LONG_SHEET = 2,   /* over 65,535 records */
    REEDSANDER_LONG_TEXT = 3,    /* over 16,777,216 bytes */
    REEDSANDER_UNKNOWN_KIND = 4, /* a kind that is not listed */
    REEDSANDER_BAD_LEVEL = 5,    /* 0, over 64, the first not 1, or over the one before plus 1 */
    REEDSANDER_MISPLACED = 6,    /* not allowed under its parent, or out of order there */
    REEDSANDER_BAD_FIELD = 7,    /* a value out of range, or an unused word that is not 0 */
    REEDSANDER_TEXT_OUTSIDE = 8, /* start plus length past the text */
    REEDSANDER_NOT_UTF8 = 9,     /* a part that a record names is not UTF-8 */
    REEDSANDER_TAGS_MISSING = 10, /* an HTML container with fewer than two tags */
    REEDSANDER_SHORT_REPORT = 11, /* check: the list needs more words than the report has */
    REEDSANDER_SHORT_MARKS = 12  /* set: fewer marks than records */
};

/* The number of the setting machine's answer: 0 at the end, 1 to 14 a stop,
 * REEDSANDER_REFUSED plus a number above for a refusal. */
enum {
    REEDSANDER_END = 0,
    /* opened: a cell whose position, from 0, is not below the table's A */
    REEDSANDER_STOP_CELL_TOO_MANY = 1,
    /* closed: a row with fewer cells than the table's A */
    REEDSANDER_STOP_CELL_TOO_FEW = 2,
    /* closed: a table without a row, or whose A is 0 */
    REEDSANDER_STOP_EMPTY_TABLE = 3,
    /* opened: an inline break in a cell, or in a leaf or container directive's
       label */
    REEDSANDER_STOP_BREAK_IN_LINE = 4,
    /* opened: a link, autolink, link reference or wikilink under a link or link
       reference */
    REEDSANDER_STOP_LINK_IN_LINK = 5,
    /* opened: a heading whose depth is not 1 to 6 */
    REEDSANDER_STOP_HEADING_DEPTH = 6,
    /* opened: an ordered item whose own number is over 999,999,999 */
    REEDSANDER_STOP_ITEM_NUMBER = 7,
    /* opened: a bullet item with a number */
    REEDSANDER_STOP_BULLET_NUMBER = 8,
    /* closed: a list without an item */
    REEDSANDER_STOP_EMPTY_LIST = 9,
    /* closed: a paragraph, emphasis, strong, delete or mark with nothing but
       empty texts */
    REEDSANDER_STOP_EMPTY_CONTENT = 10,
    /* opened: a soft or spaces break straight after a sibling break */
    REEDSANDER_STOP_BREAK_AFTER_BREAK = 11,
    /* opened: frontmatter whose level is over 1 */
    REEDSANDER_STOP_INNER_FRONTMATTER = 12,
    /* opened: a text or inline code that holds CR or LF */
    REEDSANDER_STOP_LINE_ENDING = 13,
    /* opened: a list straight after a sibling list of the same written marker,
       only blank lines skipped */
    REEDSANDER_STOP_ADJACENT_LISTS = 14,
    /* added to the number of a refusal */
    REEDSANDER_REFUSED = 256
};

/* Checks a sheet with its text, and writes what it finds into the report.
 *
 * `sheet` points to `sheet_words` words, twelve for each record: kind, level,
 * span flag, start, end, A, B, C, first text's start and length, second
 * text's start and length. `text` points to `text_bytes` bytes and `report`
 * to `report_words` words. They are lent as the top of this file says.
 *
 * The answer's upper 32 bits are its number:
 *
 *   0        accepted. The lower 32 bits say how many entries the list has.
 *            The whole list stands at the front of the report; the words
 *            behind it are as they were. A list has at most three entries for
 *            each record, so the count always fits.
 *   1 to 11  refused. The lower 32 bits are the record that it is about,
 *            counted from 0; for 1, 2, 3 and 11 they are 0. No word of the
 *            report is changed.
 *
 * The tests are made in this order: 1, 2, 3; then 4 to 9 record by record;
 * then 10, which gives the first such container; then 11. Sheet and text are
 * never changed.
 *
 * The list's entries follow one another without a gap. An entry is
 *
 *   rule, span flag, start, end, path length, path...
 *
 * The rule is one of REEDSANDER_RULE_... The span is the one of the record
 * that is reported; without one, flag, start and end are 0. The path has as
 * many words as its length says: one index, counted from 0, for each block,
 * item, row and cell from the sheet down to where the entry belongs. So an
 * entry takes 5 words and its path, and the next one begins right behind. */
uint64_t reedsander_check(const uint32_t *sheet, size_t sheet_words,
                          const uint8_t *text, size_t text_bytes,
                          uint32_t *report, size_t report_words);

/* Runs the setting machine over a sheet with its text, and writes a mark for
 * each record that it opens.
 *
 * The machine opens the records in order and closes them innermost first:
 * before a record opens, it closes every open one of that level or deeper;
 * after the last, all that are open, and then it is at the end. A stop ends
 * the run. It works from the sheet and its text alone; it neither checks nor
 * reads a report.
 *
 * `sheet` and `text` are lent as for reedsander_check, and `marks` points to
 * `marks_words` words, of which it wants one for each record.
 *
 * The answer's upper 32 bits are its number:
 *
 *   0           the end. The lower 32 bits say how many records the sheet
 *               has: each was opened and closed.
 *   1 to 14     a stop. The lower 32 bits are the record, counted from 0,
 *               whose opening or closing stopped it, and which was not opened
 *               or closed. Where more than one stop holds there, it is the
 *               lowest.
 *   257 to 266  refused as by reedsander_check, REEDSANDER_REFUSED added to
 *               the number. The lower 32 bits are the record, or 0 for 257,
 *               258 and 259.
 *   268         refused: fewer marks than records. The lower 32 bits are 0.
 *
 * The refusals are tested in the same order as those of a check, and 12 in
 * place of 11, last. A refusal changes no mark. Sheet and text are never
 * changed.
 *
 * Each record that was opened has its mark in the word of its own number,
 * counted from 0: a heading its depth; a cell its column, counted from 1; an
 * item of an ordered list the number of the list's first item, or 1 where
 * that has none, plus how many items stand before it in the list, whatever
 * numbers these have; every other record 0. All other words of the marks are
 * as they were: those of the record that stopped at its opening and of the
 * records behind it, and the words past the last record.
 *
 * The machine and the check agree: it stops exactly when the check's list
 * holds a rule that belongs to a stop, and one of that very stop stands there
 * with a path that begins with that of the block it stopped in. So a sheet
 * whose list is empty is set to its end. */
uint64_t reedsander_set(const uint32_t *sheet, size_t sheet_words,
                        const uint8_t *text, size_t text_bytes,
                        uint32_t *marks, size_t marks_words);

/* The form of this interface: what the words of a record, of an entry and of an
 * answer are. The function answers its number. When the form changes, so does
 * the name, so a program that names it is not linked with a library of another
 * form. */
uint32_t reedsander_form_1(void);

/* The two halves of an answer. */
#define REEDSANDER_NUMBER(answer) ((uint32_t)((uint64_t)(answer) >> 32))
#define REEDSANDER_LOW(answer) ((uint32_t)((uint64_t)(answer) & 0xFFFFFFFFu))

#ifdef __cplusplus
}
#endif

#endif
