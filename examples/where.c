/*
 * Where it stood: prints a text and marks under it the bytes of one of its cells, or of each.
 *
 *     printf 'A+ImIDkQ.' | target/examples/where utf7 2
 *
 * The first argument is the format: utf7, jp2 or mailbox. The second is the cell, counted from 0;
 * without it every cell is marked. `make` builds it; `make test-bindings` compares what it prints
 * with where.txt.
 */
#include <qalithonda.h>
#include <stdio.h>
#include <stdlib.h>
#include <string.h>

/* One byte more than the library takes, so that a text that is too long is refused and not cut. */
static uint8_t text[QALITHONDA_LIMIT + 1];
static size_t length;

/* The cell to mark, or EVERY. */
#define EVERY ((size_t)-1)
static size_t wanted = EVERY;

/* One column for each byte: a control character is shown as its picture in Unicode, as U+241B. */
static void print_text(void)
{
    size_t i;

    for (i = 0; i < length; i++) {
        if (text[i] < 32 || text[i] == 127)
            printf("\xE2\x90%c", text[i] == 127 ? 0xA1 : 0x80 + text[i]);
        else
            putchar(text[i] < 127 ? text[i] : '?');
    }
    putchar('\n');
}

static void mark(size_t index, uint32_t cell, size_t begin, size_t end)
{
    size_t i;

    if (wanted != EVERY && wanted != index)
        return;
    for (i = 0; i < length; i++)
        putchar(begin <= i && i < end ? '^' : ' ');
    printf("  cell %u is %0*X\n", (unsigned)index, cell < 65536 ? 4 : 8, (unsigned)cell);
}

/* A step hands out a cell, and where its bytes begin and end. Each format has its own cursor. */
#define STEPS(format)                                                                   \
    static qalithonda_numbers format##_steps(void)                                      \
    {                                                                                   \
        qalithonda_##format##_stepped s;                                                \
        size_t index = 0;                                                               \
                                                                                        \
        s = qalithonda_##format##_step(text, length, qalithonda_##format##_start());    \
        for (; s.given; s = qalithonda_##format##_step(text, length, s.next))           \
            mark(index++, s.cell, s.begin, s.end);                                      \
        return s.answer;                                                                \
    }

STEPS(utf7)
STEPS(jp2)
STEPS(mailbox)

int main(int argc, char **argv)
{
    const char *format = argc > 1 ? argv[1] : "";
    qalithonda_numbers answer;

    if (argc > 2)
        wanted = (size_t)strtoul(argv[2], NULL, 10);
    length = fread(text, 1, sizeof text, stdin);
    print_text();
    if (strcmp(format, "utf7") == 0)
        answer = utf7_steps();
    else if (strcmp(format, "jp2") == 0)
        answer = jp2_steps();
    else if (strcmp(format, "mailbox") == 0)
        answer = mailbox_steps();
    else {
        fprintf(stderr, "where: utf7, jp2 or mailbox, and a cell\n");
        return 2;
    }
    if (answer.number == QALITHONDA_ACCEPTED)
        printf("accepted, %u cells\n", (unsigned)answer.place);
    else
        printf("refused with %u at %u\n", (unsigned)answer.number, (unsigned)answer.place);
    return 0;
}
