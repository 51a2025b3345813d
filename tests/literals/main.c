/* literals MEANINGS: holds what a C program gets from the library, through include/ses.h, against literal values. MEANINGS is a
 * file with the refusals in words. */
#include "literals.h"

#include <stdio.h>
#include <string.h>

enum { UNTOUCHED = 0xA5 };

static unsigned long held, differing;

void hold(const char *what, unsigned long is, unsigned long wanted)
{
    held++;
    if (is == wanted)
        return;
    differing++;
    printf("literals: %s: %lu, and not %lu\n", what, is, wanted);
}

void hold_words(const char *what, const char *is, const char *wanted)
{
    held++;
    if (strcmp(is, wanted) == 0)
        return;
    differing++;
    printf("literals: %s: \"%s\", and not \"%s\"\n", what, is, wanted);
}

void hold_bytes(const char *what, const void *is, const void *wanted, size_t length)
{
    const uint8_t *a = is, *b = wanted;
    held++;
    if (memcmp(a, b, length) == 0)
        return;
    differing++;
    size_t i = 0;
    while (a[i] == b[i])
        i++;
    printf("literals: %s: byte %zu is %02x, and not %02x\n", what, i, a[i], b[i]);
}

void hold_told(const char *what, struct told is, unsigned number, unsigned offset)
{
    hold(what, is.number, number);
    hold(what, is.offset, offset);
}

void fill(void *memory, size_t length)
{
    memset(memory, UNTOUCHED, length);
}

void empty(struct output *out)
{
    fill(out, sizeof *out);
}

void hold_output(const char *what, const struct output *out, const uint8_t *page, size_t length)
{
    struct output wanted;
    empty(&wanted);
    memcpy(wanted.bytes, page, length);
    hold(what, out->written, length);
    hold_bytes(what, out->bytes, wanted.bytes, sizeof wanted.bytes);
}

void hold_no_output(const char *what, const struct output *out)
{
    hold_output(what, out, out->bytes, 0);
}

int main(int count, char **words)
{
    if (count != 2) {
        printf("usage: literals MEANINGS\n");
        return 1;
    }
    hold_fans_a();
    hold_stopped();
    hold_fail_shown();
    hold_names();
    hold_collector();
    hold_refusals();
    hold_meanings(words[1]);
    hold_lengths();
    hold_fields();
    if (differing != 0)
        return 1;
    printf("literals: %lu values that a C program gets, each the literal one\n", held);
    return 0;
}
