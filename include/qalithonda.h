/*
 * Qalithonda: the text part of a journal program.
 *
 * It reads and writes UTF-7 (RFC 2152), ISO-2022-JP-2 (RFC 1554, "JP-2"), mailbox names of IMAP
 * (RFC 3501, section 5.1.3) and subject lines (RFC 2047), steps through a text cell by cell,
 * compares two texts, and has an editable page with undo and redo, which a file can keep, and two
 * benches that edit two letters over one history. Link with libqalithonda.a or libqalithonda.so.
 *
 * Cells. A text is read to cells, which are 32-bit numbers. A cell of UTF-7, of a mailbox name or of
 * a subject line is a UTF-16 unit, 0 to 65535; half a surrogate pair is a unit like any other. A
 * JP-2 cell is its set's registration number times 65536, plus the code as sent (of a pair: first
 * byte times 256 plus second).
 *
 * Answers. A call is accepted with number 0 and a count, or refused with one of the numbers below
 * and a place; both are in `place`. The numbers that a function can give are listed with it, those
 * that are looked for first in front. In reading, the fault at the earliest place decides.
 *
 * What a call leaves. A refused call changes no buffer (only a tally's nine counts become zeros).
 * An accepted read, write, save or keep fills the first `count` elements of its output and no
 * others, a squeeze the first elements of its work buffer. Reading a page file fills all three of
 * its buffers to their ends.
 *
 * What the caller owes. A length is a number of elements, not of bytes.
 *   - Every pointer is valid for its length, aligned for its type, and not null, not even for a
 *     length of 0.
 *   - The buffers lent to one call do not overlap.
 *   - A page and its two buffers belong together: hand the page that the last call gave back, and
 *     both buffers as that call left them, to the next call. Another page is still safe to hand in:
 *     it is refused with 14, or it is a sound page and is taken for what it says. So do two benches
 *     and their three buffers.
 *
 * The library allocates nothing, keeps no pointer and has no state of its own: threads may call it
 * at the same time, each with its own buffers.
 */
#ifndef QALITHONDA_H
#define QALITHONDA_H

#include <stddef.h>
#include <stdint.h>

#ifdef __cplusplus
extern "C" {
#endif

/* The most elements that a lent text or list, a text buffer or a history may have. An output, a
   work buffer or a page file may have more. */
#define QALITHONDA_LIMIT 1048576

/* The numbers, each with the place that is given with it. */
enum qalithonda_number {
    QALITHONDA_ACCEPTED = 0,        /* accepted: the count of elements */
    QALITHONDA_HIGH_BYTE = 1,       /* byte of 128 or more: that byte */
    QALITHONDA_LONE_SIGN = 2,       /* '+', in a mailbox name '&', followed by neither a Base64
                                       letter nor '-': the byte that follows, or the text's
                                       length */
    QALITHONDA_STRAY_BYTE = 3,      /* byte that no rule allows there: that byte */
    QALITHONDA_LEFT_OVER_BITS = 4,  /* left-over bits of a run not zero, or in UTF-7 six or more:
                                       the byte that ends the run (in a mailbox name its '-'), or
                                       the text's length */
    QALITHONDA_UNKNOWN_ESCAPE = 5,  /* escape neither ESC N nor a designation: first byte that fits
                                       none */
    QALITHONDA_EMPTY_G2 = 6,        /* ESC N with nothing in G2: the N */
    QALITHONDA_CUT_SHORT = 7,       /* text ends in an escape, in a pair or after ESC N, or a
                                       mailbox name in a run: the text's length */
    QALITHONDA_NOT_ASCII = 8,       /* text ends with G0 not ASCII: the text's length */
    QALITHONDA_NO_ROOM = 9,         /* too little room: the elements needed in all */
    QALITHONDA_UNWRITABLE = 10,     /* cell not writable in this kind: its index */
    QALITHONDA_BEYOND_LENGTH = 11,  /* place plus count beyond the page's length: that length. Steps
                                       to squeeze under 2 or more than stand: 0 */
    QALITHONDA_HISTORY_FULL = 12,   /* record does not fit the history: the words needed in all */
    QALITHONDA_NOTHING_LEFT = 13,   /* nothing to undo or redo: 0 */
    QALITHONDA_UNSOUND = 14,        /* page, or one of two benches, not sound: 0 */
    QALITHONDA_NOT_THE_TEXT = 15,   /* arrived bytes do not read as the text, or in a page file as
                                       so many cells as the page was opened with: 0 */
    QALITHONDA_OVER_LIMIT = 16,     /* more than QALITHONDA_LIMIT elements lent: that limit. More than
                                       512 bytes for the plain reader of JP-2: 512 */
    QALITHONDA_NEEDLESS_SHIFT = 17, /* needless shift in a mailbox name. A unit of 32 to 126 in a
                                       run: the letter that completes it. A run directly after a
                                       run: its first letter. Six or more left-over bits, all zero:
                                       the '-' that closes the run */
    QALITHONDA_BAD_PAGE_FILE = 18,  /* bad page file: the first byte that no page file can have
                                       there, or the length if it ends early */
    QALITHONDA_NO_GAIN = 19,        /* squeezed, the history would not become shorter: 0 */
    QALITHONDA_NO_SUCH_BENCH = 20,  /* no such bench: 0 */
    QALITHONDA_BAD_WORD = 21        /* bad word in a subject line: the first byte that no line of
                                       such words can have there, or the length if it ends early */
};

/* The kinds of page, and of bench. */
enum qalithonda_kind {
    QALITHONDA_UTF7_HEADER = 0,
    QALITHONDA_UTF7_BODY = 1,
    QALITHONDA_JP2 = 2
};

/* An answer: its number, and the count or place that goes with it. */
typedef struct {
    uint32_t number;
    size_t place;
} qalithonda_numbers;


/* ---- UTF-7 ---- */

/*
 * Reads a text to cells. A text of n bytes has at most n cells. The call needs some 22 KiB of
 * stack.
 * Accepted: the count of cells, which are in `cells`.
 * Refused: 16 (text); 1, 2, 3, 4; 9 (cells).
 */
qalithonda_numbers qalithonda_utf7_read(const uint8_t *text, size_t text_len,
                                        uint32_t *cells, size_t cells_len);

/*
 * Write cells as a text. n cells need at most 5n bytes. Header style writes letters, digits,
 * '(),-./:? and space, tab, CR and LF as themselves; body style also !"#$%&*;<=>@[]^_`{|}.
 * Accepted: the count of bytes, which are in `out`.
 * Refused: 16 (cells); 10 (a cell above 65535); 9 (out).
 */
qalithonda_numbers qalithonda_utf7_header_write(const uint32_t *cells, size_t cells_len,
                                                uint8_t *out, size_t out_len);
qalithonda_numbers qalithonda_utf7_body_write(const uint32_t *cells, size_t cells_len,
                                              uint8_t *out, size_t out_len);


/* ---- JP-2 ---- */

/*
 * Reads a text to cells. A text of n bytes has at most n cells. The call needs some 50 KiB of
 * stack.
 * Accepted: the count of cells, which are in `cells`.
 * Refused: 16 (text); 1, 3, 5, 6, 7, 8; 9 (cells).
 */
qalithonda_numbers qalithonda_jp2_read(const uint8_t *text, size_t text_len,
                                       uint32_t *cells, size_t cells_len);

/*
 * Reads a text of at most 512 bytes to cells, by a second reader that was written plainly from
 * RFC 1554's formal syntax: for tests. On each of these texts it answers what the first answers and
 * leaves what the first leaves. The call needs some 20 KiB of stack.
 * Accepted: the count of cells, which are in `cells`.
 * Refused: 16 (text; the place is 512); 1, 3, 5, 6, 7, 8; 9 (cells).
 */
qalithonda_numbers qalithonda_jp2_plain_read(const uint8_t *text, size_t text_len,
                                             uint32_t *cells, size_t cells_len);

/*
 * Writes cells as a text. n cells need at most 6n + 3 bytes.
 * Accepted: the count of bytes, which are in `out`.
 * Refused: 16 (cells); 10 (not a cell of one of the nine sets); 9 (out).
 */
qalithonda_numbers qalithonda_jp2_write(const uint32_t *cells, size_t cells_len,
                                        uint8_t *out, size_t out_len);

/*
 * Counts the cells of each set: 6, 14, 42, 58, 87, 100, 126, 149 and 159, in this order.
 * Accepted: the number of cells, which is the sum of the counts.
 * Refused: 16 (cells); 10 (as in writing). The counts are then nine zeros.
 */
qalithonda_numbers qalithonda_jp2_tally(const uint32_t *cells, size_t cells_len,
                                        uint32_t counts[9]);


/* ---- Mailbox names ----
 *
 * The modified UTF-7 of IMAP. Bytes 32 to 126 stand for themselves, but '&' is "&-"; all other
 * units are in runs, '&' to '-', of Base64 letters with ',' in the place of '/'. A name has one
 * spelling only: an accepted name, written again from its cells, is the same bytes, and two names
 * with the same cells are the same name. No page is of this format.
 */

/*
 * Reads a name to cells. A name of n bytes has at most n cells.
 * Accepted: the count of cells, which are in `cells`.
 * Refused: 16 (text); 1, 2, 3, 4, 7, 17; 9 (cells).
 */
qalithonda_numbers qalithonda_mailbox_read(const uint8_t *text, size_t text_len,
                                           uint32_t *cells, size_t cells_len);

/*
 * Writes cells as a name. n cells need at most 5n bytes.
 * Accepted: the count of bytes, which are in `out`.
 * Refused: 16 (cells); 10 (a cell above 65535); 9 (out).
 */
qalithonda_numbers qalithonda_mailbox_write(const uint32_t *cells, size_t cells_len,
                                            uint8_t *out, size_t out_len);


/* ---- Subject lines ----
 *
 * Words of RFC 2047, "=?utf-7?Q?" to "?=", of at most 75 characters, joined by CR, LF and a space.
 * Each holds UTF-7 in header style, complete in itself: '_' is a space, '=' and two capital hex
 * digits are any byte, and other bytes 33 to 126 are themselves. A cell is a UTF-16 unit. No units
 * are an empty line. No page is of this format.
 */

/*
 * Reads a line to cells, however its units are shared among its words. A line of n bytes has at
 * most n cells. A line that was written, and is not over the limit, gives its units back.
 * Accepted: the count of cells, which are in `cells`.
 * Refused: 16 (line); 21, 1, 2, 3, 4 (21 first at one byte; the others in the line, where an '='
 * pair stands at its '=' and the end of a word at its '?'); 9 (cells).
 */
qalithonda_numbers qalithonda_subject_read(const uint8_t *line, size_t line_len,
                                           uint32_t *cells, size_t cells_len);

/*
 * Writes units as a line. Each word takes as many as fit, and parts no surrogate pair. n units need
 * at most 78n bytes.
 * Accepted: the count of bytes, which are in `line`.
 * Refused: 16 (units); 10 (a unit above 65535); 9 (line).
 */
qalithonda_numbers qalithonda_subject_write(const uint32_t *units, size_t units_len,
                                            uint8_t *line, size_t line_len);


/* ---- Stepping through a text ----
 *
 * A step hands out one cell, where its bytes stand in the text, and the cursor behind it. Start
 * with the cursor of `start`, hand each step's `next` and the same text to the next step, and stop
 * when `given` is 0:
 *
 *     qalithonda_utf7_stepped s;
 *     for (s = qalithonda_utf7_step(text, n, qalithonda_utf7_start()); s.given;
 *          s = qalithonda_utf7_step(text, n, s.next))
 *         use(s.cell, s.begin, s.end);
 *     // s.answer is the answer of reading the whole text with room enough
 *
 * The bytes of a cell are text[begin] up to, but without, text[end]. In a run they are from the
 * letter that holds the cell's first bit to the one that holds its last: three letters or four, of
 * which two neighbours may share one. Elsewhere they are the cell's own byte, its pair, the two
 * bytes of "+-" or "&-", or ESC N and its byte; never a designation. examples/where.c marks them.
 * Stepped to from the start of a text, begin < end <= text_len; no cell begins or ends before an
 * earlier one; and outside runs no byte is of two cells.
 *
 * The cells complete before the first fault are handed out, and then the fault is the answer; a
 * text of more than QALITHONDA_LIMIT bytes is answered with 16 at once. After that every step gives
 * the same answer again. A cursor is a value: copy it to come back to a place. Every cursor is safe
 * to hand in, whatever its numbers are: past the text's end it stands at the end, and it has handed
 * out at most as many cells as bytes lie before it.
 */

/* A place in a UTF-7 text. */
typedef struct {
    size_t at;         /* the next byte */
    size_t handed;     /* how many cells were handed out */
    uint32_t shift;    /* 0 outside a run, 1 directly after '+', else in a run */
    uint32_t pending;  /* in a run: how many bits wait for a full sixteen */
    uint32_t value;    /* in a run: those bits as a number */
} qalithonda_utf7_cursor;

/* A step: a cell with its bytes, or the final answer. */
typedef struct {
    uint32_t given;               /* 1: a cell; 0: the answer */
    uint32_t cell;                /* the cell; 0 where none is given */
    size_t begin;                 /* the first of the cell's bytes; 0 where none is given */
    size_t end;                   /* just past the last of them; 0 where none is given */
    qalithonda_numbers answer;    /* the final answer; {0, 0} where a cell is given */
    qalithonda_utf7_cursor next;  /* the cursor behind the cell; unchanged where none is given */
} qalithonda_utf7_stepped;

/* A place in a JP-2 text. */
typedef struct {
    size_t at;       /* the next byte */
    size_t handed;   /* how many cells were handed out */
    uint16_t g0;     /* registration number of the set in G0 */
    uint16_t g2;     /* registration number of the set in G2; 0: none */
    uint8_t phase;   /* 0 between cells, 1 after a CR, 2 after the first byte of a pair, 3 after
                        ESC N, 4, 5 or 6 after ESC and none, one or two bytes more */
    uint8_t first;   /* the first of those bytes, of the pair or after ESC */
    uint8_t second;  /* the second of the bytes after ESC */
} qalithonda_jp2_cursor;

/* A step: a cell with its bytes, or the final answer. */
typedef struct {
    uint32_t given;              /* 1: a cell; 0: the answer */
    uint32_t cell;               /* the cell; 0 where none is given */
    size_t begin;                /* the first of the cell's bytes; 0 where none is given */
    size_t end;                  /* just past the last of them; 0 where none is given */
    qalithonda_numbers answer;   /* the final answer; {0, 0} where a cell is given */
    qalithonda_jp2_cursor next;  /* the cursor behind the cell; unchanged where none is given */
} qalithonda_jp2_stepped;

/* A place in a mailbox name. */
typedef struct {
    size_t at;         /* the next byte */
    size_t handed;     /* how many cells were handed out */
    uint32_t shift;    /* 0 outside a run, 1 outside directly after a run, 2 after '&', 3 after '&'
                          directly after a run, else in a run */
    uint32_t pending;  /* in a run: how many bits wait for a full sixteen */
    uint32_t value;    /* in a run: those bits as a number */
} qalithonda_mailbox_cursor;

/* A step: a cell with its bytes, or the final answer. */
typedef struct {
    uint32_t given;                  /* 1: a cell; 0: the answer */
    uint32_t cell;                   /* the cell; 0 where none is given */
    size_t begin;                    /* the first of the cell's bytes; 0 where none is given */
    size_t end;                      /* just past the last of them; 0 where none is given */
    qalithonda_numbers answer;       /* the final answer; {0, 0} where a cell is given */
    qalithonda_mailbox_cursor next;  /* the cursor behind the cell; unchanged where none is given */
} qalithonda_mailbox_stepped;

/* The cursor at the start of a text. */
qalithonda_utf7_cursor qalithonda_utf7_start(void);
qalithonda_jp2_cursor qalithonda_jp2_start(void);
qalithonda_mailbox_cursor qalithonda_mailbox_start(void);

/*
 * Hands out the next cell, or the final answer.
 * Final answers, UTF-7: 16 (text); 1, 2, 3, 4; 0 with the count of cells.
 * Final answers, JP-2: 16 (text); 1, 3, 5, 6, 7, 8; 0 with the count of cells.
 * Final answers, mailbox names: 16 (text); 1, 2, 3, 4, 7, 17; 0 with the count of cells.
 */
qalithonda_utf7_stepped qalithonda_utf7_step(const uint8_t *text, size_t text_len,
                                             qalithonda_utf7_cursor cursor);
qalithonda_jp2_stepped qalithonda_jp2_step(const uint8_t *text, size_t text_len,
                                           qalithonda_jp2_cursor cursor);
qalithonda_mailbox_stepped qalithonda_mailbox_step(const uint8_t *text, size_t text_len,
                                                   qalithonda_mailbox_cursor cursor);


/* ---- Comparing ----
 *
 * Whether two texts of one format are the same letter: whether they read as the same cells, however
 * each spells them. Both texts are read to their ends, side by side; no buffer is lent.
 */

/* What a comparison gives. Where nothing is said of them, `text`, `same`, `index`, `first` and
   `second` are 0.
   - The same: the answer is 0 with the count of cells, and `same` is 1.
   - They part: the answer is 0 with place 0; `index`, `first` and `second` say where.
   - Refused: the answer is the refusal of a text, and `text` says of which. */
typedef struct {
    qalithonda_numbers answer;
    uint32_t text;  /* the text that is refused: 1 the first, 2 the second; 0 none is */
    uint32_t same;  /* 1: they are the same; 0: they part, or one is refused */
    size_t index;   /* the first cell that is not the same in both, or that only one text has */
    size_t first;   /* where its bytes begin in the first text; the text's length if it has ended */
    size_t second;  /* and so in the second text */
} qalithonda_compared;

/*
 * Compare two texts, or two mailbox names.
 * Accepted: the count of cells if they are the same, and 0 if they part.
 * Refused, wherever they part: as in reading, but for 9; all of the first text's come before the
 * second's. UTF-7: 16; 1, 2, 3, 4. JP-2: 16; 1, 3, 5, 6, 7, 8. Mailbox names: 16; 1, 2, 3, 4, 7,
 * 17.
 */
qalithonda_compared qalithonda_utf7_compare(const uint8_t *first, size_t first_len,
                                            const uint8_t *second, size_t second_len);
qalithonda_compared qalithonda_jp2_compare(const uint8_t *first, size_t first_len,
                                           const uint8_t *second, size_t second_len);
qalithonda_compared qalithonda_mailbox_compare(const uint8_t *first, size_t first_len,
                                               const uint8_t *second, size_t second_len);


/* ---- The page ----
 *
 * A page is a text that can be edited, undone and redone, and saved. Its cells are in a text
 * buffer, its steps in a history of 32-bit words; both are the caller's. The length of the text
 * buffer is the most cells that the text can grow to. A step takes 3 words of history, and one for
 * each cell that it removes or adds.
 *
 * After an accepted open, replace, undo, redo or squeeze the text is the first `length` cells of
 * the text buffer; the text buffer past `length` and the history past `used` are 0.
 *
 * A page knows when it was saved last: its mark is the words done at that time. An open counts as a
 * save. `qalithonda_unchanged` asks whether the page is as it was then: ask before the page is
 * closed.
 */

/* The mark of a page that cannot be as it was saved: the steps that led there were dropped by a
   replace, or folded by a squeeze together with later ones. */
#define QALITHONDA_NEVER_SAVED SIZE_MAX

/* A page's numbers. There is a step to undo if done > 0, and one to redo if done < used. */
typedef struct {
    uint32_t kind;   /* enum qalithonda_kind */
    size_t opening;  /* how many cells it was opened with */
    size_t length;   /* how many cells it has */
    size_t used;     /* words of history that hold steps */
    size_t done;     /* those of them whose steps stand; the others can be redone */
    size_t saved;    /* its mark: `done` at the last save, moved along by a squeeze; or
                        QALITHONDA_NEVER_SAVED, no mark */
} qalithonda_page;

/* What open, replace, undo, redo, save, squeeze and page_read give back. Refused, an open gives the
   kind, and page_read QALITHONDA_UTF7_HEADER, with four zeros and no mark (QALITHONDA_NEVER_SAVED),
   which is no page to go on with; the others give the page that was handed in. */
typedef struct {
    qalithonda_numbers answer;
    qalithonda_page page;
} qalithonda_edited;

/* What `qalithonda_unchanged` gives. */
typedef struct {
    qalithonda_numbers answer;
    uint32_t unchanged;  /* 1: the page is as it was saved, or opened; 0: it is not, or refused */
} qalithonda_asked;

/*
 * Open a page on the bytes of a letter as they arrived. Keep these bytes for `save`.
 * Opening UTF-7 needs some 22 KiB of stack, opening JP-2 some 50 KiB.
 * Accepted: the count of cells.
 * Refused: 16 (arrived, text, history); the faults of reading: 1, 2, 3, 4 in UTF-7, and
 * 1, 3, 5, 6, 7, 8 in JP-2; 9 (text).
 */
qalithonda_edited qalithonda_utf7_header_open(const uint8_t *arrived, size_t arrived_len,
                                              uint32_t *text, size_t text_len,
                                              uint32_t *history, size_t history_len);
qalithonda_edited qalithonda_utf7_body_open(const uint8_t *arrived, size_t arrived_len,
                                            uint32_t *text, size_t text_len,
                                            uint32_t *history, size_t history_len);
qalithonda_edited qalithonda_jp2_open(const uint8_t *arrived, size_t arrived_len,
                                      uint32_t *text, size_t text_len,
                                      uint32_t *history, size_t history_len);

/*
 * Puts `cells` in the place of the `count` cells from `place` on. Steps that could be redone are
 * dropped, and the mark with them if it is among them.
 * Accepted: the new length.
 * Refused: 16 (cells, text, history); 14; 11; 10 (the index is in `cells`); 9 (text: the new
 * length); 12 (done + 3 + count + cells_len words).
 */
qalithonda_edited qalithonda_replace(qalithonda_page page, size_t place, size_t count,
                                     const uint32_t *cells, size_t cells_len,
                                     uint32_t *text, size_t text_len,
                                     uint32_t *history, size_t history_len);

/*
 * Undo takes the last standing step back; redo does the next undone step again.
 * Accepted: the new length.
 * Refused: 16 (text, history); 14; 13.
 */
qalithonda_edited qalithonda_undo(qalithonda_page page,
                                  uint32_t *text, size_t text_len,
                                  const uint32_t *history, size_t history_len);
qalithonda_edited qalithonda_redo(qalithonda_page page,
                                  uint32_t *text, size_t text_len,
                                  const uint32_t *history, size_t history_len);

/*
 * Gives the letter's bytes: if no step stands, those of `arrived` as they are; otherwise the text
 * written in the page's kind. `arrived` are the bytes that the page was opened on. Room for
 * arrived_len bytes is enough if no step stands; otherwise 5 * length is (UTF-7), or
 * 6 * length + 3 (JP-2).
 *
 * The page that it gives has its mark at `done`; nothing else of it is changed. Write the bytes to
 * where they belong, and only then go on with that page. If they could not be written, go on with
 * the page that was handed in: its mark still says what was saved before.
 * Accepted: the count of bytes, which are in `out`.
 * Refused: 16 (text, history, arrived); 14; 15 (only if no step stands), 10 (only if one does: the
 * index is in the text); 9 (out).
 */
qalithonda_edited qalithonda_save(qalithonda_page page,
                                  const uint32_t *text, size_t text_len,
                                  const uint32_t *history, size_t history_len,
                                  const uint8_t *arrived, size_t arrived_len,
                                  uint8_t *out, size_t out_len);

/*
 * Makes room in the history: folds the oldest `steps` standing steps into one, which removes the
 * whole opening text and adds the whole text as it was after them: 3 words, one for each cell of
 * the one text and one for each cell of the other. The present text stays as it is, and the later
 * steps, undone ones too, follow unchanged. What was folded is then undone and redone at once.
 *
 * The new step is made in `work`, and after an accepted call it stands first there. Room for
 * page.done words is always enough: the new step is shorter than what it stands for, else there is
 * no gain (19), which is looked for before the room.
 *
 * A mark at the end of the fold or later moves along, and one at 0 stays; one between is lost,
 * since no step leads there any more.
 * Accepted: the words of history now used.
 * Refused: 16 (text, history); 14; 11 (`steps` under 2, or more than stand); 19; 9 (work: the words
 * of the new step).
 */
qalithonda_edited qalithonda_squeeze(qalithonda_page page, size_t steps,
                                     const uint32_t *text, size_t text_len,
                                     uint32_t *history, size_t history_len,
                                     uint32_t *work, size_t work_len);

/*
 * Asks whether the page is as it was saved last, or opened: whether its mark is at `done`. Steps
 * that were undone and done again, or done and undone, make no difference; the same cells put by
 * another step do.
 * Accepted: 0.
 * Refused: 16 (text, history); 14.
 */
qalithonda_asked qalithonda_unchanged(qalithonda_page page,
                                      const uint32_t *text, size_t text_len,
                                      const uint32_t *history, size_t history_len);


/* ---- Page files ----
 *
 * A page can be kept whole in a file, with its steps, undone ones too, its mark and the bytes that
 * it was opened on. Read back, it goes on as it was when it was kept: undo and redo, the question
 * and save give what they would have given then.
 *
 * A page file is text of ten lines, and the same bytes on every kind of machine. One page with its
 * arrived bytes has one file. That of "A+ImIDkQ." with one cell replaced, not saved since:
 *
 *     form=1
 *     kind=utf7b
 *     opening=00004
 *     length=00004
 *     used=00005
 *     done=00005
 *     saved=00000
 *     arrived=412B496D49446B512E
 *     text=000000410000003D000003910000002E
 *     history=000000010000000100000001000022620000003D
 *
 * Where one of the five decimal numbers, or the count of arrived bytes, is over 65,536, the form is
 * 2, and these numbers have seven digits. No other page has a file in form 2: it would be refused at
 * the line end behind the arrived bytes. A library from before form 2 refuses it at its number.
 *
 * A file that no keeping made is safe to read: it is refused, or it is that of a sound page and is
 * taken for what it says.
 */

/*
 * Puts the page's file into `out`. `arrived` are the bytes that the page was opened on, or that
 * `qalithonda_page_read` gave back. Neither the page nor its mark is changed: to keep a page is not
 * to save the letter.
 *
 * The bytes that the file needs are told by 9, so ask first with an out_len of 0. Room for
 * 2 * arrived_len + 8 * (length + used) + 113 bytes is always enough.
 * Accepted: the count of bytes, which are in `out`.
 * Refused: 16 (text, history, arrived); 14; 15; 9 (out).
 */
qalithonda_numbers qalithonda_page_keep(qalithonda_page page,
                                        const uint32_t *text, size_t text_len,
                                        const uint32_t *history, size_t history_len,
                                        const uint8_t *arrived, size_t arrived_len,
                                        uint8_t *out, size_t out_len);

/*
 * Reads a page file. `text` and `history` are the page's buffers from then on; the first `count`
 * bytes of `arrived` are those that the page was opened on, for `save` and the next keeping. What
 * is past the ends becomes 0 in all three.
 *
 * The buffers need not be as long as those that the page was kept from: the text buffer's length is
 * again the most cells that the text can grow to. QALITHONDA_LIMIT elements are always enough, and
 * for `arrived` half of file_len too.
 * Accepted: the count of arrived bytes.
 * Refused: 16 (arrived, text, history; the file may be longer); 18; 9 (the first of arrived, text
 * and history that lacks room); 14 (also if the text buffer is too short for the text as it was
 * opened, or as it was between two steps); 15.
 */
qalithonda_edited qalithonda_page_read(const uint8_t *file, size_t file_len,
                                       uint8_t *arrived, size_t arrived_len,
                                       uint32_t *text, size_t text_len,
                                       uint32_t *history, size_t history_len);


/* ---- Two benches ----
 *
 * Two benches, 0 and 1, edit two letters and share one history. Each has its own kind, text, steps
 * and mark; what one does, undoes or saves changes nothing of the other. What they share is room: a
 * step takes 4 words of history, the first of which is the bench's number, and one for each cell
 * that it removes or adds.
 *
 * Both texts and the history are lent to every call, and a call names its bench. Its buffers are as
 * those of a page: after an accepted open, replace, undo or redo each bench's text is the first
 * `length` cells of its text buffer, and the text buffers past that and the history past `used` are
 * 0. The steps of both lie in the history in the order in which they were accepted. A replace drops
 * the steps that its own bench could redo, and closes the gap.
 *
 * A mark is a count of the bench's own steps. Squeezing and page files are for single pages.
 */

/* A bench's numbers. There is a step to undo if standing > 0. */
typedef struct {
    uint32_t kind;    /* enum qalithonda_kind */
    size_t opening;   /* how many cells it was opened with */
    size_t length;    /* how many cells it has */
    size_t standing;  /* how many of its steps stand; its others can be redone */
    size_t saved;     /* its mark: `standing` at the last save; or QALITHONDA_NEVER_SAVED, no mark */
} qalithonda_bench;

/* Both benches. */
typedef struct {
    qalithonda_bench bench0;
    qalithonda_bench bench1;
    size_t used;  /* words of history that hold steps, of either bench */
} qalithonda_benches;

/* What open, replace, undo, redo and save give back. Refused, an open gives the kinds that were
   handed in, with zeros and no marks (QALITHONDA_NEVER_SAVED), which are no benches to go on with;
   the others give the benches that were handed in. */
typedef struct {
    qalithonda_numbers answer;
    qalithonda_benches benches;
} qalithonda_benches_edited;

/*
 * Opens both benches, bench 0 on the bytes of `arrived0` and bench 1 on those of `arrived1`. Keep
 * these bytes for `save`. The kinds are those of enum qalithonda_kind. Opening UTF-7 needs some
 * 22 KiB of stack, opening JP-2 some 50 KiB.
 * Accepted: the counts of cells of both texts, added.
 * Refused: as opening a page of each is (16; the faults of reading; 9), all of bench 0's refusals
 * before bench 1's, and nothing of bench 0 is changed if bench 1 is refused. With a number that is
 * no kind, of either: 16 (arrived0, arrived1, text0, text1, history); 14.
 */
qalithonda_benches_edited qalithonda_benches_open(uint32_t kind0, uint32_t kind1,
                                                  const uint8_t *arrived0, size_t arrived0_len,
                                                  const uint8_t *arrived1, size_t arrived1_len,
                                                  uint32_t *text0, size_t text0_len,
                                                  uint32_t *text1, size_t text1_len,
                                                  uint32_t *history, size_t history_len);

/*
 * Puts `cells` in the place of the `count` cells from `place` on in the text of bench `bench`. Steps
 * that this bench could redo are dropped, and its mark with them if it is among them.
 * Accepted: the bench's new length.
 * Refused: 16 (cells, text0, text1, history); 20; 14; 11; 10 (the index is in `cells`); 9 (the
 * bench's text: the new length); 12 (the words used, less those of the bench's own undone steps,
 * plus 4 + count + cells_len).
 */
qalithonda_benches_edited qalithonda_benches_replace(qalithonda_benches benches, size_t bench,
                                                     size_t place, size_t count,
                                                     const uint32_t *cells, size_t cells_len,
                                                     uint32_t *text0, size_t text0_len,
                                                     uint32_t *text1, size_t text1_len,
                                                     uint32_t *history, size_t history_len);

/*
 * Undo takes the last standing step of bench `bench` back; redo does its next undone step again.
 * Accepted: the bench's new length.
 * Refused: 16 (text0, text1, history); 20; 14; 13.
 */
qalithonda_benches_edited qalithonda_benches_undo(qalithonda_benches benches, size_t bench,
                                                  uint32_t *text0, size_t text0_len,
                                                  uint32_t *text1, size_t text1_len,
                                                  const uint32_t *history, size_t history_len);
qalithonda_benches_edited qalithonda_benches_redo(qalithonda_benches benches, size_t bench,
                                                  uint32_t *text0, size_t text0_len,
                                                  uint32_t *text1, size_t text1_len,
                                                  const uint32_t *history, size_t history_len);

/*
 * Gives the bytes of the letter of bench `bench`, as `qalithonda_save` does: if none of its steps
 * stands, those of `arrived` as they are; otherwise its text written in its kind. `arrived` are the
 * bytes that this bench was opened on. What room is enough is said there.
 *
 * The benches that it gives have this bench's mark at `standing`; nothing else of them is changed.
 * Write the bytes to where they belong, and only then go on with those benches.
 * Accepted: the count of bytes, which are in `out`.
 * Refused: 16 (text0, text1, history, arrived); 20; 14; 15 (only if no step stands), 10 (only if one
 * does: the index is in the text); 9 (out).
 */
qalithonda_benches_edited qalithonda_benches_save(qalithonda_benches benches, size_t bench,
                                                  const uint32_t *text0, size_t text0_len,
                                                  const uint32_t *text1, size_t text1_len,
                                                  const uint32_t *history, size_t history_len,
                                                  const uint8_t *arrived, size_t arrived_len,
                                                  uint8_t *out, size_t out_len);

/*
 * Asks whether bench `bench` is as it was saved last, or opened: whether its mark is at `standing`.
 * `unchanged` is 1 if it is; 0 if it is not, or refused.
 * Accepted: 0.
 * Refused: 16 (text0, text1, history); 20; 14.
 */
qalithonda_asked qalithonda_benches_unchanged(qalithonda_benches benches, size_t bench,
                                              const uint32_t *text0, size_t text0_len,
                                              const uint32_t *text1, size_t text1_len,
                                              const uint32_t *history, size_t history_len);

#ifdef __cplusplus
}
#endif

#endif
