/* The library behind a pipe, so that a program of any language and processor can ask it.
 *
 * A request is one byte that names the call, then its buffers, each a length of four bytes (the highest
 * first) and as many bytes; a number is a buffer of four. The answer is the call's own byte, if it has one, for
 * a call that writes a page the four bytes of `written`, for the builder those of `selects` too, for a call
 * that reads or applies a page those of `offset`, for the one that looks for a name those of `element`, and
 * then each buffer that it may change.
 *
 *   c shelf                        ses_check
 *   A shelf out                    ses_write_configuration, written, and out
 *   B shelf out                    ses_write_status, written, and out
 *   C shelf out                    ses_write_thresholds, written, and out
 *   D page record                  ses_read_configuration, offset, and the record
 *   E configuration page record    ses_read_status, offset, and the record
 *   F configuration page record    ses_read_thresholds, offset, and the record
 *   G configuration out            ses_rewrite_configuration, written, and out
 *   H configuration record out     ses_rewrite_status, written, and out
 *   I configuration record out     ses_rewrite_thresholds, written, and out
 *   J shelf page                   ses_apply_control, offset, and the shelf
 *   K shelf page                   ses_apply_thresholds, offset, and the shelf
 *   L shelf wanted out             ses_build_control, written, selects, and out
 *   M shelf out                    ses_write_descriptors, written, and out
 *   N configuration page record    ses_read_descriptors, offset, and the record
 *   O configuration record out     ses_rewrite_descriptors, written, and out
 *   P shelf text                   ses_find_name and element
 *   Q shelf element text           ses_set_name and the shelf
 *   R shelf type text              ses_set_overall_name and the shelf
 *   S collector                    the collector after ses_empty_collector
 *   T collector chunk              the collector after ses_put_chunk
 *   U collector shelf code         ses_end_page, offset, the collector and the shelf; the code is one byte
 *   .                              all answers are sent
 */
#include "ses.h"

#include <stdio.h>
#include <stdlib.h>
#include <string.h>

#define GUARD_LENGTH 64
#define GUARD_BYTE 0x5A
#define NOT_WRITTEN 0xA5C3960FU

/* `bytes` stand in memory of their own between two guards. */
struct buffer {
    uint8_t *memory, *bytes, *copy;
    size_t length;
    size_t room;
};

static struct buffer first, second, lent, collector;
static uint32_t written, selects, offset, element;

static void fail(const char *why)
{
    fprintf(stderr, "door: %s\n", why);
    exit(1);
}

static uint8_t *allocate(size_t length)
{
    uint8_t *memory = malloc(length);
    if (memory == NULL)
        fail("no memory");
    return memory;
}

static void make_room(struct buffer *b)
{
    if (b->memory != NULL && b->room >= b->length)
        return;
    free(b->memory);
    free(b->copy);
    b->room = b->length;
    b->memory = allocate(b->room + 2 * GUARD_LENGTH);
    b->bytes = b->memory + GUARD_LENGTH;
    b->copy = allocate(b->room + 1);
}

static uint32_t number_in(const unsigned char bytes[4])
{
    return (uint32_t)bytes[0] << 24 | (uint32_t)bytes[1] << 16 | (uint32_t)bytes[2] << 8 | bytes[3];
}

static void take(struct buffer *b)
{
    unsigned char head[4];
    if (fread(head, 1, 4, stdin) != 4)
        fail("a length is cut off");
    b->length = number_in(head);
    make_room(b);
    if (fread(b->bytes, 1, b->length, stdin) != b->length)
        fail("a buffer is cut off");
    memset(b->memory, GUARD_BYTE, GUARD_LENGTH);
    memset(b->bytes + b->length, GUARD_BYTE, GUARD_LENGTH);
}

/* A buffer that the call may only look at. */
static void take_input(struct buffer *b)
{
    take(b);
    memcpy(b->copy, b->bytes, b->length);
}

static void take_record(struct buffer *b, size_t length)
{
    take_input(b);
    if (b->length != length)
        fail("a record of another length");
}

static void check_guards(const struct buffer *b)
{
    for (size_t i = 0; i < GUARD_LENGTH; i++)
        if (b->memory[i] != GUARD_BYTE || b->bytes[b->length + i] != GUARD_BYTE)
            fail("the library wrote beside a buffer");
}

static void check_input(const struct buffer *b)
{
    check_guards(b);
    if (memcmp(b->copy, b->bytes, b->length) != 0)
        fail("the library changed what it may only look at");
}

static void send_changed(const struct buffer *b)
{
    check_guards(b);
    fwrite(b->bytes, 1, b->length, stdout);
}

static void send_lent(void)
{
    send_changed(&lent);
}

static void send_number(uint32_t number)
{
    for (int shift = 24; shift >= 0; shift -= 8)
        putchar(number >> shift & 0xFF);
}

static void answer_write(uint8_t (*call)(const uint8_t *, size_t, uint8_t *, size_t, uint32_t *))
{
    take_input(&first);
    take(&lent);
    written = NOT_WRITTEN;
    putchar(call(first.bytes, first.length, lent.bytes, lent.length, &written));
    check_input(&first);
    send_number(written);
    send_lent();
}

static void answer_read_configuration(void)
{
    take_input(&first);
    take_record(&lent, SES_CONFIGURATION_LENGTH);
    offset = NOT_WRITTEN;
    putchar(ses_read_configuration(first.bytes, first.length, lent.bytes, &offset));
    check_input(&first);
    send_number(offset);
    send_lent();
}

static void answer_read_status(void)
{
    take_input(&first);
    take_input(&second);
    take_record(&lent, sizeof(struct ses_status));
    offset = NOT_WRITTEN;
    putchar(ses_read_status(first.bytes, first.length, second.bytes, second.length,
                            (struct ses_status *)lent.bytes, &offset));
    check_input(&first);
    check_input(&second);
    send_number(offset);
    send_lent();
}

static void answer_read_thresholds(void)
{
    take_input(&first);
    take_input(&second);
    take_record(&lent, sizeof(struct ses_thresholds));
    offset = NOT_WRITTEN;
    putchar(ses_read_thresholds(first.bytes, first.length, second.bytes, second.length,
                                (struct ses_thresholds *)lent.bytes, &offset));
    check_input(&first);
    check_input(&second);
    send_number(offset);
    send_lent();
}

static void answer_rewrite_status(void)
{
    take_input(&first);
    take_record(&second, sizeof(struct ses_status));
    take(&lent);
    written = NOT_WRITTEN;
    putchar(ses_rewrite_status(first.bytes, first.length, (const struct ses_status *)second.bytes,
                               lent.bytes, lent.length, &written));
    check_input(&first);
    check_input(&second);
    send_number(written);
    send_lent();
}

static void answer_rewrite_thresholds(void)
{
    take_input(&first);
    take_record(&second, sizeof(struct ses_thresholds));
    take(&lent);
    written = NOT_WRITTEN;
    putchar(ses_rewrite_thresholds(first.bytes, first.length, (const struct ses_thresholds *)second.bytes,
                                   lent.bytes, lent.length, &written));
    check_input(&first);
    check_input(&second);
    send_number(written);
    send_lent();
}

static void answer_read_descriptors(void)
{
    take_input(&first);
    take_input(&second);
    take_record(&lent, sizeof(struct ses_names));
    offset = NOT_WRITTEN;
    putchar(ses_read_descriptors(first.bytes, first.length, second.bytes, second.length,
                                 (struct ses_names *)lent.bytes, &offset));
    check_input(&first);
    check_input(&second);
    send_number(offset);
    send_lent();
}

static void answer_rewrite_descriptors(void)
{
    take_input(&first);
    take_record(&second, sizeof(struct ses_names));
    take(&lent);
    written = NOT_WRITTEN;
    putchar(ses_rewrite_descriptors(first.bytes, first.length, (const struct ses_names *)second.bytes,
                                    lent.bytes, lent.length, &written));
    check_input(&first);
    check_input(&second);
    send_number(written);
    send_lent();
}

static void answer_find(void)
{
    take_input(&first);
    take_input(&second);
    element = NOT_WRITTEN;
    putchar(ses_find_name(first.bytes, first.length, second.bytes, second.length, &element));
    check_input(&first);
    check_input(&second);
    send_number(element);
}

static void answer_set(uint8_t (*call)(uint8_t *, size_t, uint32_t, const uint8_t *, size_t))
{
    take(&lent);
    take_record(&first, 4);
    take_input(&second);
    putchar(call(lent.bytes, lent.length, number_in(first.bytes), second.bytes, second.length));
    check_input(&second);
    send_lent();
}

static void answer_apply(uint8_t (*call)(uint8_t *, size_t, const uint8_t *, size_t, uint32_t *))
{
    take(&lent);
    take_input(&first);
    offset = NOT_WRITTEN;
    putchar(call(lent.bytes, lent.length, first.bytes, first.length, &offset));
    check_input(&first);
    send_number(offset);
    send_lent();
}

static void answer_build(void)
{
    take_input(&first);
    take_input(&second);
    take(&lent);
    written = NOT_WRITTEN;
    selects = NOT_WRITTEN;
    putchar(ses_build_control(first.bytes, first.length, second.bytes, second.length,
                              lent.bytes, lent.length, &written, &selects));
    check_input(&first);
    check_input(&second);
    send_number(written);
    send_number(selects);
    send_lent();
}

static struct ses_collector *take_collector(void)
{
    take_record(&collector, sizeof(struct ses_collector));
    return (struct ses_collector *)collector.bytes;
}

static void answer_empty(void)
{
    ses_empty_collector(take_collector());
    send_changed(&collector);
}

static void answer_put(void)
{
    struct ses_collector *into = take_collector();
    take_input(&first);
    ses_put_chunk(into, first.bytes, first.length);
    check_input(&first);
    send_changed(&collector);
}

static void answer_end(void)
{
    struct ses_collector *of = take_collector();
    take(&lent);
    take_record(&first, 1);
    offset = NOT_WRITTEN;
    putchar(ses_end_page(of, lent.bytes, lent.length, first.bytes[0], &offset));
    send_number(offset);
    send_changed(&collector);
    send_lent();
}

int main(void)
{
    int call;
    while ((call = getchar()) != EOF) {
        switch (call) {
        case 'c':
            take(&first);
            putchar(ses_check(first.bytes, first.length));
            break;
        case 'A':
            answer_write(ses_write_configuration);
            break;
        case 'B':
            answer_write(ses_write_status);
            break;
        case 'C':
            answer_write(ses_write_thresholds);
            break;
        case 'D':
            answer_read_configuration();
            break;
        case 'E':
            answer_read_status();
            break;
        case 'F':
            answer_read_thresholds();
            break;
        case 'G':
            answer_write(ses_rewrite_configuration);
            break;
        case 'H':
            answer_rewrite_status();
            break;
        case 'I':
            answer_rewrite_thresholds();
            break;
        case 'J':
            answer_apply(ses_apply_control);
            break;
        case 'K':
            answer_apply(ses_apply_thresholds);
            break;
        case 'L':
            answer_build();
            break;
        case 'M':
            answer_write(ses_write_descriptors);
            break;
        case 'N':
            answer_read_descriptors();
            break;
        case 'O':
            answer_rewrite_descriptors();
            break;
        case 'P':
            answer_find();
            break;
        case 'Q':
            answer_set(ses_set_name);
            break;
        case 'R':
            answer_set(ses_set_overall_name);
            break;
        case 'S':
            answer_empty();
            break;
        case 'T':
            answer_put();
            break;
        case 'U':
            answer_end();
            break;
        case '.':
            fflush(stdout);
            break;
        default:
            fail("an unknown call");
        }
    }
    return 0;
}
