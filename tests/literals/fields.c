/* Lengths and fields of the header by their names: a status page, a threshold page and a page of names, read and written again;
 * a control page built, and one taken from a bus, as README.md shows it. */
#include "literals.h"

#include <string.h>

void hold_lengths(void)
{
    hold("SES_MOST_TYPES", SES_MOST_TYPES, 8);
    hold("SES_MOST_ELEMENTS", SES_MOST_ELEMENTS, 64);
    hold("SES_MOST_TEXT", SES_MOST_TEXT, 32);
    /* One slot for each type and each element. */
    hold("SES_MOST_SLOTS", SES_MOST_SLOTS, 72);
    /* docs/LAYOUT.md: 36 bytes for a type from 44 on, 16 for an element from 332 on, four of them settings. */
    hold("SES_TYPE_LENGTH", SES_TYPE_LENGTH, 36);
    hold("SES_CONFIGURATION_LENGTH", SES_CONFIGURATION_LENGTH, 332);
    hold("SES_FIRST_ELEMENT", SES_FIRST_ELEMENT, 332);
    hold("SES_ELEMENT_LENGTH", SES_ELEMENT_LENGTH, 16);
    hold("SES_SETTINGS_LENGTH", SES_SETTINGS_LENGTH, 4);
    hold("SES_LONGEST_WANTED_LIST", SES_LONGEST_WANTED_LIST, 256);
    /* 32 bytes for a name. Those of 3 elements start at 332 + 16 x 3, and end with the block 32 x 5 bytes later for two types. The
     * longest block has 332 + 16 x 64 + 32 x 72 bytes. */
    hold("SES_NAME_LENGTH", SES_NAME_LENGTH, 32);
    hold("SES_FIRST_NAME", SES_FIRST_NAME(1 + 2), 380);
    hold("SES_BLOCK_LENGTH", SES_BLOCK_LENGTH(1 | 2, 1 + 1), 524);
    hold("SES_LONGEST_BLOCK", SES_LONGEST_BLOCK, 3660);
    /* Document 01: at most 296; and 48 + 4 x 8 + 8 texts of 32. Request Two: 8 + 72 x (4 + 32). */
    hold("SES_LONGEST_SLOT_PAGE", SES_LONGEST_SLOT_PAGE, 296);
    hold("SES_LONGEST_CONFIGURATION_PAGE", SES_LONGEST_CONFIGURATION_PAGE, 336);
    hold("SES_LONGEST_DESCRIPTOR_PAGE", SES_LONGEST_DESCRIPTOR_PAGE, 2600);
    hold("SES_NO_ELEMENT", SES_NO_ELEMENT, 4294967295);
    /* The records of docs/LAYOUT.md, without gaps: four bytes of an entry that all types have, and twelve by the type. */
    hold("struct ses_cooling", sizeof(struct ses_cooling), 12);
    hold("struct ses_temperature", sizeof(struct ses_temperature), 12);
    hold("struct ses_voltage", sizeof(struct ses_voltage), 12);
    hold("struct ses_current", sizeof(struct ses_current), 12);
    hold("bytes of struct ses_shown", sizeof ((struct ses_shown *)0)->of.bytes, 12);
    hold("struct ses_shown", sizeof(struct ses_shown), 16);
    hold("struct ses_status", sizeof(struct ses_status), 1156);
    hold("struct ses_thresholds", sizeof(struct ses_thresholds), 292);
    /* Four bytes, and 32 for each of 72 entries. */
    hold("struct ses_name", sizeof(struct ses_name), 32);
    hold("struct ses_names", sizeof(struct ses_names), 2308);
    /* Request Four: the count stops there; it has four bytes, and behind them is room for 296. */
    hold("SES_COUNT_STOPS", SES_COUNT_STOPS, 65540);
    hold("struct ses_collector", sizeof(struct ses_collector), 300);
    hold("count of struct ses_collector", offsetof(struct ses_collector, count), 0);
    hold("count of struct ses_collector", sizeof ((struct ses_collector *)0)->count, 4);
    hold("page of struct ses_collector", offsetof(struct ses_collector, page), 4);
    hold("page of struct ses_collector", sizeof ((struct ses_collector *)0)->page, 296);
}

/* A status element, and what it shows. Byte 0: bit 6 PRDFAIL, 5 DISABLED, 4 SWAP, bits 3 to 0 the code. Each field of a type is
 * set alone in one element, and with all others in the last, where numbers are the largest. */
struct row {
    uint8_t element[4];
    struct ses_shown shown;
};

/* Byte 1: bit 7 IDENT, bits 2 to 0 the upper part of the speed; byte 2 its lower part. Byte 3: bit 6 FAIL, 5 RQSTED ON, 4 OFF,
 * bits 2 to 0 the speed code. The speed is 1,330 = 0532h. Here too the fields that all types have; and what no shelf shows, OFF with
 * a speed code and ON without one. */
static const struct row fans[] = {
    {{0x02, 0x00, 0x00, 0x00}, {.code = 2}},
    {{0x42, 0x00, 0x00, 0x00}, {.code = 2, .prdfail = 1}},
    {{0x23, 0x00, 0x00, 0x00}, {.code = 3, .disabled = 1}},
    {{0x14, 0x00, 0x00, 0x00}, {.code = 4, .swap = 1}},
    {{0x05, 0x80, 0x00, 0x00}, {.code = 5, .of.cooling.ident = 1}},
    {{0x06, 0x05, 0x32, 0x00}, {.code = 6, .of.cooling.speed = {0x05, 0x32}}},
    {{0x07, 0x00, 0x00, 0x40}, {.code = 7, .of.cooling.fail = 1}},
    {{0x08, 0x00, 0x00, 0x20}, {.code = 8, .of.cooling.rqsted_on = 1}},
    {{0x00, 0x00, 0x00, 0x10}, {.code = 0, .of.cooling.off = 1}},
    {{0x01, 0x00, 0x00, 0x03}, {.code = 1, .of.cooling.speed_code = 3}},
    {{0x01, 0x00, 0x78, 0x17}, {.code = 1, .of.cooling = {.speed = {0x00, 0x78}, .off = 1, .speed_code = 7}}},
    {{0x01, 0x00, 0x78, 0x20}, {.code = 1, .of.cooling = {.speed = {0x00, 0x78}, .rqsted_on = 1}}},
    {{0x71, 0x87, 0xFF, 0x77}, {.code = 1, .prdfail = 1, .disabled = 1, .swap = 1, .of.cooling = {
        .ident = 1, .speed = {0x07, 0xFF}, .fail = 1, .rqsted_on = 1, .off = 1, .speed_code = 7}}},
};

/* Byte 1: bits 7 and 6 IDENT, FAIL. Byte 2 the temperature. Byte 3: bits 3 to 0 OT FAILURE, OT WARNING, UT FAILURE, UT WARNING. */
static const struct row temperatures[] = {
    {{0x03, 0x00, 0x00, 0x00}, {.code = 3}},
    {{0x01, 0x80, 0x00, 0x00}, {.code = 1, .of.temperature.ident = 1}},
    {{0x01, 0x40, 0x00, 0x00}, {.code = 1, .of.temperature.fail = 1}},
    {{0x01, 0x00, 0x2D, 0x00}, {.code = 1, .of.temperature.temperature = 0x2D}},
    {{0x01, 0x00, 0x00, 0x08}, {.code = 1, .of.temperature.ot_failure = 1}},
    {{0x01, 0x00, 0x00, 0x04}, {.code = 1, .of.temperature.ot_warning = 1}},
    {{0x01, 0x00, 0x00, 0x02}, {.code = 1, .of.temperature.ut_failure = 1}},
    {{0x01, 0x00, 0x00, 0x01}, {.code = 1, .of.temperature.ut_warning = 1}},
    {{0x71, 0xC0, 0xFF, 0x0F}, {.code = 1, .prdfail = 1, .disabled = 1, .swap = 1, .of.temperature = {
        .ident = 1, .fail = 1, .temperature = 0xFF,
        .ot_failure = 1, .ot_warning = 1, .ut_failure = 1, .ut_warning = 1}}},
};

/* Byte 1: bits 7 and 6 IDENT, FAIL; bits 3 to 0 WARN OVER, WARN UNDER, CRIT OVER, CRIT UNDER. Bytes 2 and 3 the voltage. */
static const struct row voltages[] = {
    {{0x06, 0x00, 0x00, 0x00}, {.code = 6}},
    {{0x01, 0x80, 0x00, 0x00}, {.code = 1, .of.voltage.ident = 1}},
    {{0x01, 0x40, 0x00, 0x00}, {.code = 1, .of.voltage.fail = 1}},
    {{0x01, 0x08, 0x00, 0x00}, {.code = 1, .of.voltage.warn_over = 1}},
    {{0x01, 0x04, 0x00, 0x00}, {.code = 1, .of.voltage.warn_under = 1}},
    {{0x01, 0x02, 0x00, 0x00}, {.code = 1, .of.voltage.crit_over = 1}},
    {{0x01, 0x01, 0x00, 0x00}, {.code = 1, .of.voltage.crit_under = 1}},
    {{0x01, 0x00, 0x05, 0x29}, {.code = 1, .of.voltage.voltage = {0x05, 0x29}}},
    {{0x71, 0xCF, 0xFF, 0xFE}, {.code = 1, .prdfail = 1, .disabled = 1, .swap = 1, .of.voltage = {
        .ident = 1, .fail = 1, .warn_over = 1, .warn_under = 1, .crit_over = 1, .crit_under = 1,
        .voltage = {0xFF, 0xFE}}}},
};

/* The same without the two UNDER bits. */
static const struct row currents[] = {
    {{0x01, 0x00, 0x00, 0x00}, {.code = 1}},
    {{0x01, 0x80, 0x00, 0x00}, {.code = 1, .of.current.ident = 1}},
    {{0x01, 0x40, 0x00, 0x00}, {.code = 1, .of.current.fail = 1}},
    {{0x01, 0x08, 0x00, 0x00}, {.code = 1, .of.current.warn_over = 1}},
    {{0x01, 0x02, 0x00, 0x00}, {.code = 1, .of.current.crit_over = 1}},
    {{0x01, 0x00, 0x05, 0x29}, {.code = 1, .of.current.current = {0x05, 0x29}}},
    {{0x71, 0xCA, 0xFF, 0xFE}, {.code = 1, .prdfail = 1, .disabled = 1, .swap = 1, .of.current = {
        .ident = 1, .fail = 1, .warn_over = 1, .crit_over = 1, .current = {0xFF, 0xFE}}}},
};

/* 64 bytes: generation 7, four types, no identification; 12 fans, 8 temperature, 8 voltage and 6 current sensors, no texts. */
static const uint8_t configuration_page[64] = {
    0x01, 0x00, 0x00, 0x3C, 0x00, 0x00, 0x00, 0x07, 0x11, 0x00, 0x04, 0x24,
    [48] = COOLING, 12, 0, 0, TEMPERATURE, 8, 0, 0, VOLTAGE, 8, 0, 0, CURRENT, 6, 0, 0,
};

/* Four types and 34 elements make 38 entries, and a page of 8 + 4 x 38 = 160 bytes. */
enum { ENTRIES = 38, PAGE = 160 };

static uint8_t configuration[SES_CONFIGURATION_LENGTH];
static uint8_t page[PAGE] = {0x02, 0x00, 0x00, 0x9C, 0x00, 0x00, 0x00, 0x07};
static struct ses_status shown;

/* The elements of a type, its overall element first, from an entry on. Answers the next entry. */
static size_t put_rows(size_t at, const struct row *rows, size_t count)
{
    for (size_t i = 0; i < count; i++) {
        memcpy(page + 8 + 4 * (at + i), rows[i].element, 4);
        shown.entry[at + i] = rows[i].shown;
    }
    return at + count;
}

#define PUT_ROWS(at, rows) put_rows(at, rows, sizeof rows / sizeof *rows)

/* Read, the page says what is shown, and the record keeps its bytes behind that; written again, it is the page. */
static void hold_status(const char *what)
{
    struct ses_status record;
    struct output out;
    uint32_t offset;
    fill(&record, sizeof record);
    fill(&offset, sizeof offset);
    hold(what, ses_read_status(configuration, sizeof configuration, page, PAGE, &record, &offset), 0);
    hold(what, offset, 0);
    hold_bytes(what, &record, &shown, sizeof record);
    empty(&out);
    hold(what, ses_rewrite_status(configuration, sizeof configuration, &shown, out.bytes, sizeof out.bytes, &out.written), 0);
    hold_output(what, &out, page, PAGE);
}

/* A byte behind the last field of the type, set: a field where the type shows none. */
static void hold_none(const char *what, uint8_t *none, size_t count)
{
    struct output out;
    for (size_t i = 0; i < count; i++) {
        none[i] = 1;
        empty(&out);
        hold(what, ses_rewrite_status(configuration, sizeof configuration, &shown, out.bytes, sizeof out.bytes, &out.written), 6);
        hold_no_output(what, &out);
        none[i] = 0;
    }
}

static void read_types(const uint8_t *types, size_t length)
{
    uint32_t offset;
    fill(&offset, sizeof offset);
    hold("a configuration", ses_read_configuration(types, length, configuration, &offset), 0);
    hold("a configuration", offset, 0);
}

static void hold_shown(void)
{
    read_types(configuration_page, sizeof configuration_page);
    fill(&shown, sizeof shown);
    size_t first_temperature = PUT_ROWS(0, fans);
    size_t first_voltage = PUT_ROWS(first_temperature, temperatures);
    size_t first_current = PUT_ROWS(first_voltage, voltages);
    hold("entries", PUT_ROWS(first_current, currents), ENTRIES);
    shown.entries[0] = 0;
    shown.entries[1] = ENTRIES;

    /* Page byte 1: bit 2 NON-CRIT, bit 1 CRIT. */
    page[1] = 0x04;
    shown.noncritical = 1;
    shown.critical = 0;
    hold_status("fields, NON-CRIT");
    page[1] = 0x02;
    shown.noncritical = 0;
    shown.critical = 1;
    hold_status("fields, CRIT");

    struct ses_shown *entry = shown.entry;
    hold_none("none of a fan", entry[1].of.cooling.none, 5);
    hold_none("none of a temperature sensor", entry[first_temperature + 1].of.temperature.none, 5);
    hold_none("none of a voltage sensor", entry[first_voltage + 1].of.voltage.none, 4);
    hold_none("none of a current sensor", entry[first_current + 1].of.current.none, 6);
}

/* One sensor of each type, and its thresholds: high critical, high warning, low warning, low critical. Overall elements are zero. */
static void hold_thresholds(void)
{
    static const uint8_t three_types[60] = {
        0x01, 0x00, 0x00, 0x38, 0x00, 0x00, 0x00, 0x07, 0x11, 0x00, 0x03, 0x24,
        [48] = TEMPERATURE, 1, 0, 0, VOLTAGE, 1, 0, 0, CURRENT, 1, 0, 0,
    };
    static const uint8_t limits[32] = {
        0x05, 0x00, 0x00, 0x1C, 0x00, 0x00, 0x00, 0x07,
        0, 0, 0, 0, 75, 65, 25, 20,
        0, 0, 0, 0, 20, 12, 7, 18,
        0, 0, 0, 0, 40, 30, 0, 0,
    };
    static const struct ses_limits named[6] = {
        [1] = {.high_critical = 75, .high_warning = 65, .low_warning = 25, .low_critical = 20},
        [3] = {.high_critical = 20, .high_warning = 12, .low_warning = 7, .low_critical = 18},
        [5] = {.high_critical = 40, .high_warning = 30},
    };
    struct ses_thresholds record, told;
    struct output out;
    uint32_t offset;
    read_types(three_types, sizeof three_types);
    fill(&told, sizeof told);
    memset(told.spare, 0, 2);
    told.entries[0] = 0;
    told.entries[1] = 6;
    memcpy(told.entry, named, sizeof named);
    fill(&record, sizeof record);
    fill(&offset, sizeof offset);
    hold("thresholds", ses_read_thresholds(configuration, sizeof configuration, limits, sizeof limits, &record, &offset), 0);
    hold("thresholds", offset, 0);
    hold_bytes("thresholds", &record, &told, sizeof record);
    /* What is spare is not looked at. */
    fill(told.spare, 2);
    empty(&out);
    hold("thresholds, again",
         ses_rewrite_thresholds(configuration, sizeof configuration, &told, out.bytes, sizeof out.bytes, &out.written), 0);
    hold_output("thresholds, again", &out, limits, sizeof limits);
}

#define OF_32_BYTES                                                                                                    \
    'T', 'h', 'e', ' ', 'f', 'i', 'v', 'e', ' ', 'v', 'o', 'l', 't', ' ', 'r', 'a',                                    \
    'i', 'l', ' ', 'o', 'f', ' ', 's', 'h', 'e', 'l', 'f', ' ', 'B', ' ', '1', '2'

/* Two types, the first without elements. Their names are "a", "Volts" and one of 32 bytes. The page has 8 + 3 x 4 + 1 + 5 + 32 = 58
 * bytes, length field 0036h. */
static void hold_record_of_names(void)
{
    static const uint8_t two_types[56] = {
        0x01, 0x00, 0x00, 0x34, 0x00, 0x00, 0x00, 0x07, 0x11, 0x00, 0x02, 0x24,
        [48] = TEMPERATURE, 0, 0, 0, VOLTAGE, 1, 0, 0,
    };
    static const uint8_t labels[58] = {
        0x07, 0x00, 0x00, 0x36, 0x00, 0x00, 0x00, 0x07,
        0x00, 0x00, 0x00, 0x01, 'a',
        0x00, 0x00, 0x00, 0x05, 'V', 'o', 'l', 't', 's',
        0x00, 0x00, 0x00, 0x20, OF_32_BYTES,
    };
    static const struct ses_name named[3] = {
        {.text = "a"}, {.text = "Volts"}, {.text = {OF_32_BYTES}},
    };
    struct ses_names record, told;
    struct output out;
    uint32_t offset;
    read_types(two_types, sizeof two_types);
    fill(&told, sizeof told);
    memset(told.spare, 0, 2);
    told.entries[0] = 0;
    told.entries[1] = 3;
    memcpy(told.entry, named, sizeof named);
    fill(&record, sizeof record);
    fill(&offset, sizeof offset);
    hold("names", ses_read_descriptors(configuration, sizeof configuration, labels, sizeof labels, &record, &offset), 0);
    hold("names", offset, 0);
    hold_bytes("names", &record, &told, sizeof record);
    /* What is spare is not looked at. */
    fill(told.spare, 2);
    empty(&out);
    hold("names, again",
         ses_rewrite_descriptors(configuration, sizeof configuration, &told, out.bytes, sizeof out.bytes, &out.written), 0);
    hold_output("names, again", &out, labels, sizeof labels);
}

/* README.md's example for A's middle fan with this byte 3 of its settings: ON or not, its SPEED 3 becomes 7, and it is ON. */
static void hold_full_speed(uint8_t byte_3)
{
    static const uint8_t asked[24] = {0x02, 0x00, 0x00, 0x14, 0x00, 0x00, 0x00, 0x07, [16] = 0x80, 0x00, 0x00, 0x27};
    uint8_t shelf[A_LENGTH], wanted[SES_LONGEST_WANTED_LIST];
    struct output out;
    memcpy(shelf, shelf_a, A_LENGTH);
    shelf[351] = byte_3;
    for (size_t j = 0; j < 3; j++)
        memcpy(wanted + SES_SETTINGS_LENGTH * j,
               shelf + SES_FIRST_ELEMENT + SES_ELEMENT_LENGTH * j, SES_SETTINGS_LENGTH);
    wanted[SES_SETTINGS_LENGTH * 1 + 3] |= 0x27;
    empty(&out);
    hold("full speed", ses_build_control(shelf, A_LENGTH, wanted, SES_SETTINGS_LENGTH * 3,
                                         out.bytes, sizeof out.bytes, &out.written, &out.selects), 0);
    hold("full speed", out.selects, 1);
    hold_output("full speed", &out, asked, 24);
}

/* README.md's other example: a page for A in two chunks asks for SPEED 5 for all. */
static void hold_bus(void)
{
    static const uint8_t page[24] = {0x02, 0x00, 0x00, 0x14, 0x00, 0x00, 0x00, 0x07, 0x80, 0x00, 0x00, 0x25};
    uint8_t shelf[A_LENGTH], left[A_LENGTH];
    struct ses_collector collector;
    struct told told;
    memcpy(shelf, shelf_a, A_LENGTH);
    put_fans(left, (const uint8_t[12]){0x00, 0x00, 0x00, 0x25, 0x00, 0x00, 0x00, 0x25, 0x00, 0x00, 0x00, 0x25});
    fill(&collector, sizeof collector);
    fill(&told, sizeof told);
    ses_empty_collector(&collector);
    ses_put_chunk(&collector, page, 10);
    ses_put_chunk(&collector, page + 10, 14);
    hold_bytes("bytes from a bus, counted", collector.count, (const uint8_t[4]){0, 0, 0, 24}, 4);
    hold_bytes("bytes from a bus", collector.page, page, 24);
    told.number = ses_end_page(&collector, shelf, A_LENGTH, 0x02, &told.offset);
    hold_told("a page from a bus", told, 0, 0);
    hold_bytes("a page from a bus", shelf, left, A_LENGTH);
    hold_bytes("a page from a bus, ended", collector.count, (const uint8_t[4]){0, 0, 0, 0}, 4);
}

void hold_fields(void)
{
    hold_shown();
    hold_thresholds();
    hold_record_of_names();
    hold_full_speed(0x23);
    hold_full_speed(0x03);
    hold_bus();
}
