/*
 * The worked page of document 01: a letter is opened, one cell is replaced, and the page is saved,
 * undone and saved again, and asked each time whether it is as it was saved. Built and run by
 * `make test-bindings`; worked_page.txt is what it prints.
 */
#include <qalithonda.h>
#include <stdio.h>
#include <string.h>

#define ROOM 100

/* The two buffers of the page. */
static uint32_t text[ROOM], history[ROOM];

static void print_answer(const char *call, qalithonda_numbers answer)
{
    if (answer.number == QALITHONDA_ACCEPTED)
        printf("%s: accepted, %zu cells\n", call, answer.place);
    else
        printf("%s: refused with %u at %zu\n", call, (unsigned)answer.number, answer.place);
}

/* With no step standing a save gives the bytes of `arrived`, otherwise at most 5 bytes a cell. Its
   page is gone on with once the bytes are where they belong; if not, the page as it was. */
static qalithonda_page print_saved(qalithonda_page page, const uint8_t *arrived, size_t arrived_len)
{
    uint8_t out[5 * ROOM];
    qalithonda_edited saved =
        qalithonda_save(page, text, ROOM, history, ROOM, arrived, arrived_len, out, sizeof out);

    if (saved.answer.number != QALITHONDA_ACCEPTED) {
        print_answer("save", saved.answer);
        return page;
    }
    if (printf("save: %.*s\n", (int)saved.answer.place, (const char *)out) < 0)
        return page;
    return saved.page;
}

static void print_unchanged(qalithonda_page page)
{
    qalithonda_asked asked = qalithonda_unchanged(page, text, ROOM, history, ROOM);

    if (asked.answer.number == QALITHONDA_ACCEPTED)
        printf("as it was saved: %s\n", asked.unchanged ? "yes" : "no");
    else
        print_answer("unchanged", asked.answer);
}

static void print_history(qalithonda_page page)
{
    size_t i;

    printf("history:");
    for (i = 0; i < page.used; i++)
        printf(" %04X", (unsigned)history[i]);
    printf("\n");
}

int main(void)
{
    static const char letter[] = "A+ImIDkQ.";
    const uint8_t *arrived = (const uint8_t *)letter;
    size_t arrived_len = strlen(letter);
    uint32_t equals_sign = 0x3D;
    qalithonda_edited edited;
    qalithonda_page page;

    edited = qalithonda_utf7_body_open(arrived, arrived_len, text, ROOM, history, ROOM);
    print_answer("open", edited.answer);
    if (edited.answer.number != QALITHONDA_ACCEPTED)
        return 1;
    page = edited.page;
    print_unchanged(page);

    /* From here on each call gives the page for the next one, a refused call the page as it was. */
    edited = qalithonda_replace(page, 1, 1, &equals_sign, 1, text, ROOM, history, ROOM);
    page = edited.page;
    print_answer("replace one cell at 1", edited.answer);
    print_history(page);
    print_unchanged(page);
    page = print_saved(page, arrived, arrived_len);
    print_unchanged(page);

    edited = qalithonda_undo(page, text, ROOM, history, ROOM);
    page = edited.page;
    print_answer("undo", edited.answer);
    print_unchanged(page);
    page = print_saved(page, arrived, arrived_len);

    edited = qalithonda_undo(page, text, ROOM, history, ROOM);
    page = edited.page;
    print_answer("undo", edited.answer);
    print_unchanged(page);
    return 0;
}
