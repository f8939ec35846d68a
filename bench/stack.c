// How much stack each call of the library takes: it is made on a stack of its own that was painted before, on a text of
// 200 bytes and on the longest one that is taken. Prints a table for bench/RESULTS.md.
#include <qalithonda.h>

#include <stdio.h>
#include <stdlib.h>
#include <string.h>
#include <ucontext.h>

enum { STACK = 1 << 20, LIMIT = QALITHONDA_LIMIT, PAINT = 0xA5 };

static uint8_t *stack;
static ucontext_t here, there;

// What the calls are lent: a letter of one kind, and buffers with room for anything.
static uint8_t letter[LIMIT], out[8 * LIMIT], file[20 * LIMIT];
static uint32_t cells[LIMIT], text[LIMIT], history[LIMIT], work[LIMIT], counts[9];
static size_t size, count, kept;
static qalithonda_page page;
static uint32_t other[LIMIT];
static qalithonda_benches benches;

static void nothing(void) {}

// The bytes of the stack that a function touched, less what the change of stacks itself takes.
static size_t touched(void (*function)(void)) {
    memset(stack, PAINT, STACK);
    getcontext(&there);
    there.uc_stack.ss_sp = stack;
    there.uc_stack.ss_size = STACK;
    there.uc_link = &here;
    makecontext(&there, function, 0);
    swapcontext(&here, &there);
    size_t clean = 0;
    while (clean < STACK && stack[clean] == PAINT) clean++;
    return STACK - clean;
}

static size_t taken(void (*function)(void)) {
    size_t base = touched(nothing);
    size_t all = touched(function);
    return all > base ? all - base : 0;
}

static void utf7_read(void) { count = qalithonda_utf7_read(letter, size, cells, LIMIT).place; }
static void utf7_header_write(void) { qalithonda_utf7_header_write(cells, count, out, sizeof out); }
static void utf7_body_write(void) { qalithonda_utf7_body_write(cells, count, out, sizeof out); }
static void jp2_read(void) { count = qalithonda_jp2_read(letter, size, cells, LIMIT).place; }
static void jp2_plain_read(void) { qalithonda_jp2_plain_read(letter, size < 512 ? size : 510, cells, LIMIT); }
static void jp2_write(void) { qalithonda_jp2_write(cells, count, out, sizeof out); }
static void jp2_tally(void) { qalithonda_jp2_tally(cells, count, counts); }
static void mailbox_read(void) { count = qalithonda_mailbox_read(letter, size, cells, LIMIT).place; }
static void mailbox_write(void) { qalithonda_mailbox_write(cells, count, out, sizeof out); }
// The last three bytes would join another word.
static void subject_read(void) { count = qalithonda_subject_read(letter, size - 3, cells, LIMIT).place; }
static void subject_write(void) { qalithonda_subject_write(cells, count, out, sizeof out); }
static void utf7_step(void) { qalithonda_utf7_step(letter, size, qalithonda_utf7_start()); }
static void jp2_step(void) { qalithonda_jp2_step(letter, size, qalithonda_jp2_start()); }
static void mailbox_step(void) { qalithonda_mailbox_step(letter, size, qalithonda_mailbox_start()); }
static void utf7_compare(void) { qalithonda_utf7_compare(letter, size, letter, size); }
static void jp2_compare(void) { qalithonda_jp2_compare(letter, size, letter, size); }
static void mailbox_compare(void) { qalithonda_mailbox_compare(letter, size, letter, size); }
static void utf7_header_open(void) { page = qalithonda_utf7_header_open(letter, size, text, LIMIT, history, LIMIT).page; }
static void utf7_body_open(void) { page = qalithonda_utf7_body_open(letter, size, text, LIMIT, history, LIMIT).page; }
static void jp2_open(void) { page = qalithonda_jp2_open(letter, size, text, LIMIT, history, LIMIT).page; }
static void replace(void) { page = qalithonda_replace(page, 0, 1, cells, 1, text, LIMIT, history, LIMIT).page; }
static void undo(void) { page = qalithonda_undo(page, text, LIMIT, history, LIMIT).page; }
static void redo(void) { page = qalithonda_redo(page, text, LIMIT, history, LIMIT).page; }
static void save(void) { page = qalithonda_save(page, text, LIMIT, history, LIMIT, letter, size, out, sizeof out).page; }
static void squeeze(void) { page = qalithonda_squeeze(page, 2, text, LIMIT, history, LIMIT, work, LIMIT).page; }
static void unchanged(void) { qalithonda_unchanged(page, text, LIMIT, history, LIMIT); }
static void keep(void) { kept = qalithonda_page_keep(page, text, LIMIT, history, LIMIT, letter, size, file, sizeof file).place; }
static void read_back(void) { page = qalithonda_page_read(file, kept, out, LIMIT, text, LIMIT, history, LIMIT).page; }

static void benches_open(void) {
    benches = qalithonda_benches_open(QALITHONDA_UTF7_BODY, QALITHONDA_UTF7_BODY, letter, size, letter, size, text, LIMIT,
                                      other, LIMIT, history, LIMIT)
                  .benches;
}
static void benches_open_jp2(void) {
    benches = qalithonda_benches_open(QALITHONDA_JP2, QALITHONDA_JP2, letter, size, letter, size, text, LIMIT, other, LIMIT,
                                      history, LIMIT)
                  .benches;
}
static void benches_replace(void) {
    benches = qalithonda_benches_replace(benches, 1, 0, 1, cells, 1, text, LIMIT, other, LIMIT, history, LIMIT).benches;
}
static void benches_undo(void) {
    benches = qalithonda_benches_undo(benches, 1, text, LIMIT, other, LIMIT, history, LIMIT).benches;
}
static void benches_redo(void) {
    benches = qalithonda_benches_redo(benches, 1, text, LIMIT, other, LIMIT, history, LIMIT).benches;
}
static void benches_save(void) {
    benches = qalithonda_benches_save(benches, 1, text, LIMIT, other, LIMIT, history, LIMIT, letter, size, out, sizeof out)
                  .benches;
}
static void benches_unchanged(void) { qalithonda_benches_unchanged(benches, 1, text, LIMIT, other, LIMIT, history, LIMIT); }

typedef struct {
    const char *name;
    const char *pattern;  // what the letter is made of
    void (*function)(void);
} call;

static const char UTF7[] = "Good +ZeVnLIqe- day, +AOk- and &\r\n";
static const char JP2[] = "a\x1b$B$\"$$\x1b(B \x1b.A\x1bNA b\r\n";
static const char SUBJECT[] = "=?utf-7?Q?Good_+ZeVnLIqe-_day=3F?=\r\n ";
static const char NAME[] = "in &ZeVnLIqe- box ";

static const call calls[] = {
    {"utf7_read", UTF7, utf7_read}, {"utf7_header_write", UTF7, utf7_header_write},
    {"utf7_body_write", UTF7, utf7_body_write}, {"utf7_start, utf7_step", UTF7, utf7_step}, {"utf7_compare", UTF7, utf7_compare},
    {"jp2_read", JP2, jp2_read}, {"jp2_plain_read", JP2, jp2_plain_read}, {"jp2_write", JP2, jp2_write},
    {"jp2_tally", JP2, jp2_tally}, {"jp2_start, jp2_step", JP2, jp2_step}, {"jp2_compare", JP2, jp2_compare},
    {"mailbox_read", NAME, mailbox_read}, {"mailbox_write", NAME, mailbox_write},
    {"mailbox_start, mailbox_step", NAME, mailbox_step}, {"mailbox_compare", NAME, mailbox_compare},
    {"subject_read", SUBJECT, subject_read}, {"subject_write", SUBJECT, subject_write},
    {"utf7_header_open", UTF7, utf7_header_open}, {"utf7_body_open", UTF7, utf7_body_open},
    {"save, nothing standing", UTF7, save}, {"replace", UTF7, replace}, {"replace again", UTF7, replace},
    {"undo", UTF7, undo}, {"redo", UTF7, redo}, {"save", UTF7, save}, {"squeeze", UTF7, squeeze},
    {"unchanged", UTF7, unchanged}, {"page_keep", UTF7, keep}, {"page_read", UTF7, read_back},
    {"jp2_open", JP2, jp2_open}, {"save, nothing standing, JP-2", JP2, save}, {"page_keep, JP-2", JP2, keep},
    {"page_read, JP-2", JP2, read_back},
    {"benches_open", UTF7, benches_open}, {"benches_save, nothing standing", UTF7, benches_save},
    {"benches_replace", UTF7, benches_replace}, {"benches_replace again", UTF7, benches_replace},
    {"benches_undo", UTF7, benches_undo}, {"benches_redo", UTF7, benches_redo}, {"benches_save", UTF7, benches_save},
    {"benches_unchanged", UTF7, benches_unchanged}, {"benches_open, JP-2", JP2, benches_open_jp2},
    {"benches_save, nothing standing, JP-2", JP2, benches_save},
};

// As many whole patterns as there is room for, so that the letter is accepted.
static void write_letter(const char *pattern, size_t room) {
    size_t length = strlen(pattern);
    for (size = 0; size + length <= room; size += length) memcpy(letter + size, pattern, length);
}

int main(void) {
    size_t rooms[] = {200, LIMIT}, most = 0, bytes[sizeof calls / sizeof *calls][2];
    stack = malloc(STACK);
    for (int r = 0; r < 2; r++)
        for (size_t i = 0; i < sizeof calls / sizeof *calls; i++) {
            write_letter(calls[i].pattern, rooms[r]);
            bytes[i][r] = taken(calls[i].function);
            if (bytes[i][r] > most) most = bytes[i][r];
        }
    printf("| call | text of 200 bytes | of %d |\n|---|---:|---:|\n", LIMIT);
    for (size_t i = 0; i < sizeof calls / sizeof *calls; i++)
        printf("| %s | %zu | %zu |\n", calls[i].name, bytes[i][0], bytes[i][1]);
    printf("\nThe most: %zu bytes.\n", most);
    return most > 65536;
}
