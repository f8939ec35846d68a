/*
 * Master and apprentice: two letters on two benches, with one history between them. The master, on
 * bench 0, undoes to the bottom while the apprentice, on bench 1, goes on. Built and run by
 * `make test-bindings`; two_benches.txt is what it prints.
 */
#include <qalithonda.h>
#include <stdio.h>
#include <string.h>

#define ROOM 100
#define MASTER 0
#define APPRENTICE 1

/* The letters as they arrived, the benches, and their three buffers. */
static const char letter0[] = "A+ImIDkQ.", letter1[] = "Hi";
static qalithonda_benches benches;
static uint32_t text0[ROOM], text1[ROOM], history[ROOM];

static void print_refused(qalithonda_numbers answer)
{
    printf("refused with %u at %zu\n", (unsigned)answer.number, answer.place);
}

/* Each call gives the benches for the next one, a refused call the benches as they were. */
static void take(const char *call, size_t bench, qalithonda_benches_edited edited)
{
    benches = edited.benches;
    printf("bench %zu, %s: ", bench, call);
    if (edited.answer.number == QALITHONDA_ACCEPTED)
        printf("accepted, %zu cells\n", edited.answer.place);
    else
        print_refused(edited.answer);
}

/* Puts a cell in the place of `count` cells. */
static void put(size_t bench, size_t place, size_t count, uint32_t cell)
{
    take("replace", bench,
         qalithonda_benches_replace(benches, bench, place, count, &cell, 1, text0, ROOM, text1, ROOM,
                                    history, ROOM));
}

static void undo(size_t bench)
{
    take("undo", bench,
         qalithonda_benches_undo(benches, bench, text0, ROOM, text1, ROOM, history, ROOM));
}

static void redo(size_t bench)
{
    take("redo", bench,
         qalithonda_benches_redo(benches, bench, text0, ROOM, text1, ROOM, history, ROOM));
}

/* UTF-7 takes at most 5 bytes a cell, JP-2 at most 6 and 3 at the end. The benches of a save are
   gone on with once the bytes are where they belong. */
static void save(size_t bench, const char *letter)
{
    uint8_t out[6 * ROOM + 3];
    qalithonda_benches_edited saved =
        qalithonda_benches_save(benches, bench, text0, ROOM, text1, ROOM, history, ROOM,
                                (const uint8_t *)letter, strlen(letter), out, sizeof out);

    printf("bench %zu, save: ", bench);
    if (saved.answer.number != QALITHONDA_ACCEPTED)
        print_refused(saved.answer);
    else if (printf("%.*s\n", (int)saved.answer.place, (const char *)out) >= 0)
        benches = saved.benches;
}

static void ask(size_t bench)
{
    qalithonda_asked asked =
        qalithonda_benches_unchanged(benches, bench, text0, ROOM, text1, ROOM, history, ROOM);

    printf("bench %zu, as it was saved: ", bench);
    if (asked.answer.number == QALITHONDA_ACCEPTED)
        printf("%s\n", asked.unchanged ? "yes" : "no");
    else
        print_refused(asked.answer);
}

static void print_history(void)
{
    size_t i;

    printf("history:");
    for (i = 0; i < benches.used; i++)
        printf(" %X", (unsigned)history[i]);
    printf("\n");
}

int main(void)
{
    qalithonda_benches_edited opened = qalithonda_benches_open(
        QALITHONDA_UTF7_BODY, QALITHONDA_JP2, (const uint8_t *)letter0, strlen(letter0),
        (const uint8_t *)letter1, strlen(letter1), text0, ROOM, text1, ROOM, history, ROOM);

    if (opened.answer.number != QALITHONDA_ACCEPTED) {
        print_refused(opened.answer);
        return 1;
    }
    benches = opened.benches;
    printf("open: accepted, %zu cells in all\n", opened.answer.place);

    /* The master writes = for the second cell and ! behind all, the apprentice ! behind "Hi". */
    put(MASTER, 1, 1, 0x3D);
    put(APPRENTICE, 2, 0, 0x060021);
    put(MASTER, 4, 0, 0x21);
    print_history();

    /* The master undoes to the bottom; the apprentice goes on. */
    undo(MASTER);
    undo(MASTER);
    undo(MASTER);
    put(APPRENTICE, 3, 0, 0x060021);
    print_history();
    ask(MASTER);
    ask(APPRENTICE);
    save(MASTER, letter0);
    save(APPRENTICE, letter1);
    ask(APPRENTICE);

    /* The master does one step again. Replacing then drops the other, from between the records. */
    redo(MASTER);
    put(MASTER, 0, 1, 0x42);
    print_history();
    save(MASTER, letter0);

    /* There is no third. */
    undo(2);
    return 0;
}
