/* Taking the neutral form from standard input, byte by byte. */
#include "second.h"

#include <stdio.h>
#include <stdlib.h>

static unsigned long taken = 0; /* how many bytes were taken so far */

/* Says in one line what is wrong with the form, and ends. */
void bad_form(const char *what)
{
    fflush(stdout);
    fprintf(stderr, "second: bad form at byte %lu: %s\n", taken, what);
    exit(2);
}

/* Whether a further case begins: 0 at the end of the input. */
int more_cases(void)
{
    int byte = getchar();

    if (byte == EOF) {
        return 0;
    }
    ungetc(byte, stdin);
    return 1;
}

/* Takes one byte of any value. */
unsigned form_raw(const char *what)
{
    int byte = getchar();

    if (byte == EOF) {
        bad_form(what);
    }
    taken++;
    return (unsigned)byte;
}

/* Takes one byte that must have a given value. */
void form_byte(unsigned byte, const char *what)
{
    if (form_raw(what) != byte) {
        bad_form(what);
    }
}

/* Takes so many bytes of any values. */
void form_bytes(uint8_t *to, uint32_t count, const char *what)
{
    uint32_t i;

    for (i = 0; i < count; i++) {
        to[i] = (uint8_t)form_raw(what);
    }
}

/* Takes a number of fixed width in upper-case hexadecimal, at most "most". */
uint64_t form_hex(unsigned digits, uint64_t most, const char *what)
{
    uint64_t value = 0;
    unsigned byte;

    while (digits > 0) {
        byte = form_raw(what);
        if (byte >= '0' && byte <= '9') {
            value = 16 * value + (byte - '0');
        } else if (byte >= 'A' && byte <= 'F') {
            value = 16 * value + (byte - 'A' + 10);
        } else {
            bad_form(what);
        }
        digits--;
    }
    if (value > most) {
        bad_form(what);
    }
    return value;
}
