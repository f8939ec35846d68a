/*
 * Reads texts by ICU's converter that the argument names, and says of each UTF-16 unit from which byte ICU has it.
 * Built and run by the part `icu` of `compare` where ICU's headers are at hand (src/checks/icu/peer.rs).
 *
 * Standard input: for each text its length, 32 bits, and its bytes. Standard output: for each text the count of units,
 * 32 bits, or -1 if ICU refuses it; then the units, 16 bits each, and as many offsets, 32 bits each. All in the
 * machine's order.
 */
#include <stdio.h>
#include <stdlib.h>
#include <unicode/ucnv.h>

/* A text of n bytes has at most n units; the longest text is 1,048,576 bytes. */
#define ROOM 1048576

static char text[ROOM];
static UChar units[ROOM];
static int32_t offsets[ROOM];

/* The count of units, or -1. */
static int32_t read_text(UConverter *converter, size_t length)
{
    const char *from = text;
    UChar *to = units;
    UErrorCode error = U_ZERO_ERROR;

    ucnv_resetToUnicode(converter);
    ucnv_toUnicode(converter, &to, units + ROOM, &from, text + length, offsets, 1, &error);
    return U_FAILURE(error) ? -1 : (int32_t)(to - units);
}

static void check(int is_so, const char *what)
{
    if (!is_so) {
        fprintf(stderr, "offsets: %s\n", what);
        exit(1);
    }
}

int main(int count_of_arguments, char **arguments)
{
    UErrorCode error = U_ZERO_ERROR;
    UConverter *converter;
    uint32_t length;

    check(count_of_arguments == 2, "one argument: the name of a converter");
    converter = ucnv_open(arguments[1], &error);
    /* A fault stops the reading: by default ICU would put a substitute. */
    ucnv_setToUCallBack(converter, UCNV_TO_U_CALLBACK_STOP, NULL, NULL, NULL, &error);
    check(U_SUCCESS(error), u_errorName(error));
    while (fread(&length, sizeof length, 1, stdin) == 1) {
        int32_t count;

        check(length <= ROOM, "a text is too long");
        check(fread(text, 1, length, stdin) == length, "a text is cut short");
        count = read_text(converter, length);
        fwrite(&count, sizeof count, 1, stdout);
        if (count > 0) {
            fwrite(units, sizeof *units, (size_t)count, stdout);
            fwrite(offsets, sizeof *offsets, (size_t)count, stdout);
        }
    }
    ucnv_close(converter);
    return 0;
}
