/* The refusals: each by its name in the header and by its number in document 01 (12 in request One, 15 in request Twelve), given
 * by a call whose answer they tell; and the offsets that request One adds to 6. What a refused call was lent is as it was. Those of
 * the calls on names are in names.c. */
#include "literals.h"

#include <stdio.h>
#include <string.h>

/* Refused pages for A, each by a call of its own. */
static struct told read_configuration(const uint8_t *page, size_t length)
{
    uint8_t record[SES_CONFIGURATION_LENGTH], kept[sizeof record];
    struct told told;
    fill(record, sizeof record);
    fill(kept, sizeof kept);
    fill(&told, sizeof told);
    told.number = ses_read_configuration(page, length, record, &told.offset);
    hold_bytes("no configuration handed back", record, kept, sizeof kept);
    return told;
}

static struct told read_status(const uint8_t *page, size_t length)
{
    struct ses_status record, kept;
    struct told told;
    fill(&record, sizeof record);
    fill(&kept, sizeof kept);
    fill(&told, sizeof told);
    told.number = ses_read_status(shelf_a, 332, page, length, &record, &told.offset);
    hold_bytes("no status handed back", &record, &kept, sizeof kept);
    return told;
}

static struct told read_thresholds(const uint8_t *page, size_t length)
{
    struct ses_thresholds record, kept;
    struct told told;
    fill(&record, sizeof record);
    fill(&kept, sizeof kept);
    fill(&told, sizeof told);
    told.number = ses_read_thresholds(shelf_a, 332, page, length, &record, &told.offset);
    hold_bytes("no thresholds handed back", &record, &kept, sizeof kept);
    return told;
}

static struct told apply_control(const uint8_t *page, size_t length)
{
    uint8_t shelf[A_LENGTH];
    struct told told;
    memcpy(shelf, shelf_a, A_LENGTH);
    fill(&told, sizeof told);
    told.number = ses_apply_control(shelf, A_LENGTH, page, length, &told.offset);
    hold_bytes("A as it was, after a control page", shelf, shelf_a, A_LENGTH);
    return told;
}

static struct told apply_thresholds(const uint8_t *page, size_t length)
{
    uint8_t shelf[A_LENGTH];
    struct told told;
    memcpy(shelf, shelf_a, A_LENGTH);
    fill(&told, sizeof told);
    told.number = ses_apply_thresholds(shelf, A_LENGTH, page, length, &told.offset);
    hold_bytes("A as it was, after a threshold page", shelf, shelf_a, A_LENGTH);
    return told;
}

/* A wish for A that no page is built for. */
static uint8_t build(const uint8_t *wanted, size_t length)
{
    struct output out;
    empty(&out);
    uint8_t answer = ses_build_control(shelf_a, A_LENGTH, wanted, length, out.bytes, 24, &out.written, &out.selects);
    hold("no SELECTs", out.selects, 0);
    hold_no_output("no page built", &out);
    return answer;
}

static uint8_t write_status(size_t room)
{
    struct output out;
    empty(&out);
    uint8_t answer = ses_write_status(shelf_a, A_LENGTH, out.bytes, room, &out.written);
    hold_no_output("no page written", &out);
    return answer;
}

/* An element that A has not. */
static uint8_t set_name(uint32_t element)
{
    uint8_t shelf[A_LENGTH];
    memcpy(shelf, shelf_a, A_LENGTH);
    uint8_t answer = ses_set_name(shelf, A_LENGTH, element, (const uint8_t *)"Fan", 3);
    hold_bytes("A as it was, after a name", shelf, shelf_a, A_LENGTH);
    return answer;
}

/* A temperature sensor whose high warning is 11 is asked for a high critical, and has this one after that. */
static struct told set_high_critical(uint8_t asked, uint8_t after)
{
    const uint8_t page[16] = {0x05, 0x00, 0x00, 0x0C, 0x00, 0x00, 0x00, 0x07, 0x00, 0x00, 0x00, 0x00, asked};
    uint8_t shelf[SENSOR_LENGTH], left[SENSOR_LENGTH];
    struct told told;
    put_sensor(shelf, TEMPERATURE, (const uint8_t[4]){0, 11, 0, 0}, 0, 0);
    put_sensor(left, TEMPERATURE, (const uint8_t[4]){after, 11, 0, 0}, 0, 0);
    fill(&told, sizeof told);
    told.number = ses_apply_thresholds(shelf, SENSOR_LENGTH, page, sizeof page, &told.offset);
    hold_bytes("a sensor's high critical", shelf, left, SENSOR_LENGTH);
    return told;
}

/* High critical 10 and high warning 11 on a threshold status page of the same sensor. */
static struct told read_disorder(void)
{
    static const uint8_t page[16] = {0x05, 0x00, 0x00, 0x0C, 0x00, 0x00, 0x00, 0x07, 0x00, 0x00, 0x00, 0x00, 10, 11};
    uint8_t shelf[SENSOR_LENGTH];
    struct ses_thresholds record;
    struct told told;
    put_sensor(shelf, TEMPERATURE, (const uint8_t[4]){0, 11, 0, 0}, 0, 0);
    fill(&told, sizeof told);
    told.number = ses_read_thresholds(shelf, 332, page, sizeof page, &record, &told.offset);
    return told;
}

static const struct {
    uint8_t code;
    struct told (*refuse)(const uint8_t *page, size_t length);
} calls[] = {
    {0x01, read_configuration}, {0x02, read_status}, {0x05, read_thresholds}, {0x02, apply_control}, {0x05, apply_thresholds},
};

enum { CALLS = sizeof calls / sizeof *calls };

/* The first eight bytes of a page; the right ones for A have length field 0014h and generation 7. Then an element that asks for
 * SPEED 5 as a control element, and is not allowed otherwise. */
#define HEADER(code, byte_1, length, generation) code, byte_1, 0x00, length, 0x00, 0x00, 0x00, generation
#define ASKS 0x80, 0x00, 0x00, 0x25

/* The next four bytes of a configuration page. */
#define FIXED(types) 0x11, 0x00, types, 0x24

/* Bytes given and length field of pages for A, which needs 24 bytes: 4 if they are not the length + 4, else 12. */
struct length {
    const char *what;
    size_t given;
    uint8_t field;
    uint8_t number;
};

static const struct length slot_lengths[] = {
    {"23 bytes for A", 23, 0x14, 4},
    {"25 bytes for A", 25, 0x14, 4},
    {"28 bytes for A", 28, 0x14, 4},
    {"24 bytes that say they are 28", 24, 0x18, 4},
    {"28 bytes that say so", 28, 0x18, 12},
    {"23 bytes that say so", 23, 0x13, 12},
    {"25 bytes that say so", 25, 0x15, 12},
    {"4 bytes that say so", 4, 0x00, 12},
};

/* A's configuration page needs 48 bytes for the fixed part, 4 for the header and 3 for the text. */
static const struct length configuration_lengths[] = {
    {"54 bytes of A's configuration", 54, 0x33, 4},
    {"56 bytes of A's configuration", 56, 0x33, 4},
    {"47 bytes that say they are 48", 47, 0x2C, 4},
    {"4 bytes that say so", 4, 0x00, 12},
    {"47 bytes that say so", 47, 0x2B, 12},
    {"48 bytes that say so", 48, 0x2C, 12},
    {"51 bytes that say so", 51, 0x2F, 12},
    {"52 bytes that say so", 52, 0x30, 12},
    {"54 bytes that say so", 54, 0x32, 12},
    {"56 bytes that say so", 56, 0x34, 12},
};

#define LENGTH_OF(table) (sizeof table / sizeof *table)

static void hold_slot_lengths(int call, uint8_t generation)
{
    for (size_t i = 0; i < LENGTH_OF(slot_lengths); i++) {
        const struct length *l = &slot_lengths[i];
        const uint8_t page[28] = {HEADER(calls[call].code, 0x00, l->field, generation), ASKS};
        hold_told(l->what, calls[call].refuse(page, l->given), l->number, 0);
    }
}

static void hold_configuration_lengths(void)
{
    for (size_t i = 0; i < LENGTH_OF(configuration_lengths); i++) {
        const struct length *l = &configuration_lengths[i];
        const uint8_t page[56] = {HEADER(0x01, 0x00, l->field, 7), FIXED(1), [48] = 0x03, 3, 0, 3, 'F', 'a', 'n'};
        hold_told(l->what, read_configuration(page, l->given), l->number, 0);
    }
}

/* Document 01's unmarked numbers for A, and those of request One. */
static void hold_lengths_and_generations(void)
{
    for (int i = 0; i < CALLS; i++) {
        hold_told("page of 3 bytes", calls[i].refuse((const uint8_t[3]){calls[i].code}, 3), 2, 0);
        hold_told("page 07h", calls[i].refuse((const uint8_t[24]){HEADER(0x07, 0x00, 0x14, 7)}, 24), 3, 0);
    }
    hold_configuration_lengths();
    /* The configuration reader has no 5. */
    for (int i = 1; i < CALLS; i++) {
        const uint8_t later[24] = {HEADER(calls[i].code, 0x00, 0x14, 8), ASKS};
        hold_told("generation 8 for A", calls[i].refuse(later, 24), 5, 0);
        hold_slot_lengths(i, 7);
        hold_slot_lengths(i, 8);
    }
    hold("23 bytes for A's status", write_status(23), 11);
}

/* Pages refused with 6, and the first byte that is not allowed. A's overall element is at 8, its fans at 12, 16 and 20. On a
 * configuration page the first header is at 48, and the texts follow the last. */
static const struct offence {
    const char *what;
    struct told (*refuse)(const uint8_t *page, size_t length);
    uint8_t page[85];
    size_t length;
    uint32_t offset;
} offences[] = {
    /* Reserved: bits 7 to 4 of byte 1; in a selected element for a fan bits 3 to 0 of byte 0, byte 2, bits 7, 4 and 3 of byte 3. */
    {"control, middle fan", apply_control, {HEADER(0x02, 0x00, 0x14, 7), [16] = 0x88}, 24, 16},
    {"control, middle fan and byte 1", apply_control, {HEADER(0x02, 0x10, 0x14, 7), [16] = 0x88}, 24, 1},
    {"control, overall", apply_control, {HEADER(0x02, 0x00, 0x14, 7), 0x80, 0x00, 0x01, 0x08, 0x88}, 24, 10},
    {"control, behind an element without SELECT", apply_control,
     {HEADER(0x02, 0x00, 0x14, 7), [12] = 0x7F, 0xFF, 0xFF, 0xFF, 0x80, 0x00, 0x00, 0x80}, 24, 19},
    /* Byte 1 has bits 2 and 1 alone, an overall element the code alone. A fan has no bit 7 in byte 0, no code 9, and no bit 3 in
     * byte 3. */
    {"status, byte 1", read_status, {HEADER(0x02, 0x08, 0x14, 7), [16] = 0x80}, 24, 1},
    {"status, overall", read_status, {HEADER(0x02, 0x06, 0x14, 7), 0x01, 0x00, 0x00, 0x20, 0x80}, 24, 11},
    {"status, middle fan", read_status,
     {HEADER(0x02, 0x00, 0x14, 7), 0x01, 0x00, 0x00, 0x00,
      0x01, 0x00, 0x78, 0x23, 0x81, 0x00, 0x78, 0x23, 0x01, 0x00, 0x78, 0x23}, 24, 16},
    {"status, code 9", read_status, {HEADER(0x02, 0x00, 0x14, 7), [20] = 0x09}, 24, 20},
    {"status, bit 3 of byte 3", read_status, {HEADER(0x02, 0x00, 0x14, 7), [12] = 0x01, 0x00, 0x78, 0x2B, 0x09}, 24, 15},
    /* Byte 1 and the overall elements of the status page are zero. A threshold of a fan, which would be 7, comes after 6. */
    {"threshold status, byte 1", read_thresholds, {HEADER(0x05, 0x01, 0x14, 7), [8] = 1}, 24, 1},
    {"threshold status, overall", read_thresholds, {HEADER(0x05, 0x00, 0x14, 7), [10] = 1, [12] = 1}, 24, 10},
    {"threshold, byte 1", apply_thresholds, {HEADER(0x05, 0x80, 0x14, 7), [8] = 1}, 24, 1},
    /* Of bytes 1, 8, 9, 10 and 11 the first that is wrong. Without types the page needs 48 bytes. */
    {"configuration, byte 1", read_configuration, {HEADER(0x01, 0x01, 0x2C, 7), 0x12, 0x01, 0, 0x25}, 48, 1},
    {"configuration, byte 8", read_configuration, {HEADER(0x01, 0x00, 0x2C, 7), 0x12, 0x01, 0, 0x25}, 48, 8},
    {"configuration, byte 9", read_configuration, {HEADER(0x01, 0x00, 0x2C, 7), 0x11, 0x01, 0, 0x25}, 48, 9},
    {"configuration, byte 10", read_configuration, {HEADER(0x01, 0x00, 0x2C, 7), 0x11, 0x00, 0, 0x25}, 48, 10},
    {"configuration, byte 11", read_configuration,
     {HEADER(0x01, 0x00, 0x33, 7), 0x11, 0x00, 1, 0x25, [48] = 0x03, 3, 0, 3, 0x1F, 'a', 'n'}, 55, 11},
    {"byte 8 of A's configuration", read_configuration,
     {HEADER(0x01, 0x00, 0x33, 7), 0x12, 0x00, 1, 0x24, [48] = 0x03, 3, 0, 3, 'F', 'a', 'n'}, 55, 8},
    {"count 65", read_configuration,
     {HEADER(0x01, 0x00, 0x33, 7), FIXED(1), [48] = 0x03, 65, 0, 3, 'F', 'a', 'n'}, 55, 49},
    {"text byte 1Fh", read_configuration,
     {HEADER(0x01, 0x00, 0x33, 7), FIXED(1), [48] = 0x03, 3, 0, 3, 0x1F, 'a', 0x7F}, 55, 52},
    {"text byte 7Fh", read_configuration,
     {HEADER(0x01, 0x00, 0x33, 7), FIXED(1), [48] = 0x03, 3, 0, 3, 'F', 'a', 0x7F}, 55, 54},
    /* Of the four bytes of a header the first that is wrong. With a text of 33 bytes the page has 48 + 4 + 33 = 85 of them. */
    {"type, count, byte 2", read_configuration, {HEADER(0x01, 0x00, 0x30, 7), FIXED(1), [48] = 0x05, 65, 1, 0}, 52, 48},
    {"count, byte 2", read_configuration, {HEADER(0x01, 0x00, 0x30, 7), FIXED(1), [48] = 0x03, 65, 1, 0}, 52, 49},
    {"byte 2, text of 33", read_configuration, {HEADER(0x01, 0x00, 0x51, 7), FIXED(1), [48] = 0x03, 1, 1, 33}, 85, 50},
    {"text of 33, byte 0 in it", read_configuration, {HEADER(0x01, 0x00, 0x51, 7), FIXED(1), [48] = 0x03, 1, 0, 33}, 85, 51},
    /* 40 and 25 elements; then the third header has a type that is not served as well. */
    {"65 elements in two types", read_configuration,
     {HEADER(0x01, 0x00, 0x38, 7), FIXED(3), [48] = 0x03, 40, 0, 0, 0x04, 25, 0, 0, 0x05, 1, 0, 0}, 60, 53},
    /* The text of the first type stands behind the header of the second. */
    {"a header and a text", read_configuration,
     {HEADER(0x01, 0x00, 0x35, 7), FIXED(2), [48] = 0x03, 1, 0, 1, 0x04, 1, 1, 0, 0x1F}, 57, 54},
};

static void hold_offences(void)
{
    for (size_t i = 0; i < LENGTH_OF(offences); i++)
        hold_told(offences[i].what, offences[i].refuse(offences[i].page, offences[i].length), 6, offences[i].offset);
}

/* A's block without its last byte is no shelf, and one byte less of its front no configuration. Nor is the block a shelf without
 * its names, or with a byte behind them. */
static void hold_not_well_formed(void)
{
    static const uint8_t longer[A_LENGTH + 1] = {[3] = 7, [40] = 1, [44] = COOLING, 3, [335] = 0x23, [351] = 0x23, [367] = 0x23};
    static const uint8_t page[24] = {HEADER(0x02, 0x10, 0x14, 7)}, thresholds[24] = {HEADER(0x05, 0x10, 0x14, 7)};
    uint8_t shelf[A_LENGTH];
    struct ses_status shown;
    struct ses_thresholds limits;
    struct told told[4];
    memcpy(shelf, shelf_a, A_LENGTH);
    fill(told, sizeof told);
    told[0].number = ses_read_status(shelf, 331, page, 24, &shown, &told[0].offset);
    told[1].number = ses_read_thresholds(shelf, 331, thresholds, 24, &limits, &told[1].offset);
    told[2].number = ses_apply_control(shelf, A_LENGTH - 1, page, 24, &told[2].offset);
    told[3].number = ses_apply_thresholds(shelf, A_LENGTH - 1, thresholds, 24, &told[3].offset);
    for (int i = 0; i < 4; i++)
        hold_told("not well formed", told[i], 1, 0);
    hold("A without names", ses_check(shelf_a, 380), 1);
    hold("A without its last name", ses_check(shelf_a, 476), 1);
    hold("three fans", ses_check(longer, A_LENGTH), 0);
    hold("three fans and a byte", ses_check(longer, A_LENGTH + 1), 1);
}

static void hold_refusal(const char *name, unsigned answer, unsigned value, unsigned number)
{
    hold(name, value, number);
    hold(name, answer, value);
}

static void hold_numbers(void)
{
    static const uint8_t control[24] = {HEADER(0x02, 0x00, 0x14, 7)}, later[24] = {HEADER(0x02, 0x00, 0x14, 8)};
    static const uint8_t longer[28] = {HEADER(0x02, 0x00, 0x18, 7)};
    /* Bits 7 to 4 of byte 1 are reserved. */
    static const uint8_t reserved[24] = {HEADER(0x02, 0x10, 0x14, 7)};
    /* A fan has no thresholds. */
    static const uint8_t low_critical[24] = {HEADER(0x05, 0x00, 0x14, 7), [15] = 1};
    /* SWAP 1 over stored 0, in the first of three records and of two. */
    static const uint8_t swap[12] = {0x10, 0x00, 0x00, 0x23, 0x00, 0x00, 0x00, 0x23, 0x00, 0x00, 0x00, 0x23};

    hold_refusal("SES_ACCEPTED", ses_check(shelf_a, A_LENGTH), SES_ACCEPTED, 0);
    hold_refusal("SES_SHELF_NOT_WELL_FORMED", ses_check(shelf_a, A_LENGTH - 1), SES_SHELF_NOT_WELL_FORMED, 1);
    hold_refusal("SES_PAGE_TOO_SHORT", apply_control(control, 3).number, SES_PAGE_TOO_SHORT, 2);
    hold_refusal("SES_PAGE_CODE", apply_thresholds(control, 24).number, SES_PAGE_CODE, 3);
    hold_refusal("SES_PAGE_LENGTH", apply_control(control, 23).number, SES_PAGE_LENGTH, 4);
    hold_refusal("SES_GENERATION", apply_control(later, 24).number, SES_GENERATION, 5);
    hold_refusal("SES_NOT_ALLOWED", apply_control(reserved, 24).number, SES_NOT_ALLOWED, 6);
    hold_refusal("SES_NO_SUCH_THRESHOLD", apply_thresholds(low_critical, 24).number, SES_NO_SUCH_THRESHOLD, 7);
    hold_refusal("SES_THRESHOLD_ORDER", set_high_critical(10, 0).number, SES_THRESHOLD_ORDER, 8);
    hold_refusal("SES_WANTED_LIST", build(swap, 8), SES_WANTED_LIST, 9);
    hold_refusal("SES_UNREACHABLE", build(swap, 12), SES_UNREACHABLE, 10);
    hold_refusal("SES_OUTPUT_TOO_SHORT", write_status(23), SES_OUTPUT_TOO_SHORT, 11);
    hold_refusal("SES_NEEDED_LENGTH", apply_control(longer, 28).number, SES_NEEDED_LENGTH, 12);
    hold_refusal("SES_NO_SUCH_ELEMENT", set_name(3), SES_NO_SUCH_ELEMENT, 15);
}

/* Acceptance, 7 and 8 tell no offset. */
static void hold_no_offset(void)
{
    static const uint8_t low_critical[24] = {HEADER(0x05, 0x00, 0x14, 7), [15] = 1};
    hold_told("a fan's threshold, read", read_thresholds(low_critical, 24), 7, 0);
    hold_told("a fan's threshold", apply_thresholds(low_critical, 24), 7, 0);
    hold_told("high critical 10 under 11, read", read_disorder(), 8, 0);
    hold_told("high critical 10 under 11", set_high_critical(10, 0), 8, 0);
    hold_told("high critical 11 at 11", set_high_critical(11, 11), 0, 0);
}

void hold_refusals(void)
{
    hold_lengths_and_generations();
    hold_offences();
    hold_not_well_formed();
    hold_no_offset();
    hold_numbers();
}

/* The numbers that have a meaning go from 0 to 12; then comes 15. */
static unsigned number_after(unsigned number)
{
    return number == 12 ? 15 : number + 1;
}

/* Each line of the file is a number and its words, and no other number has a meaning. */
void hold_meanings(const char *file)
{
    FILE *lines = fopen(file, "r");
    char words[100];
    unsigned read = 0, next = 0, number;
    while (lines != NULL && fscanf(lines, "%u %99[^\n]", &number, words) == 2) {
        hold("number of a meaning", number, next);
        hold_words("meaning", ses_meaning(number), words);
        read++;
        next = number_after(number);
    }
    if (lines != NULL)
        fclose(lines);
    hold("meanings", read, 14);
    for (number = 13; number < 256; number++)
        if (number != 15)
            hold_words("meaning", ses_meaning(number), "no refusal has this number");
}
