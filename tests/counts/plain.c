/* The calls of ses.h in plain C, written from document 01, its landed requests and docs/LAYOUT.md: one loop over the types, in it one over the
 * elements, and no pass that a rule does not ask for. A page is tested whole before anything is written. */
#include "plain.h"

#include <stdbool.h>
#include <string.h>

enum { COOLING = 0x03, TEMPERATURE = 0x04, VOLTAGE = 0x12, CURRENT = 0x13 };

enum { CONFIGURATION_PAGE = 0x01, CONTROL_PAGE = 0x02, STATUS_PAGE = 0x02, THRESHOLD_PAGE = 0x05, DESCRIPTOR_PAGE = 0x07 };

enum { MOST_TYPES = 8, MOST_ELEMENTS = 64, MOST_TEXT = 32, MOST_SLOTS = MOST_TYPES + MOST_ELEMENTS };

/* Places in a shelf block, and on pages. */
enum { IDENTIFICATION = 4, IDENTIFICATION_LENGTH = 36, TYPE_COUNT = 40, TYPES = 44, TYPE_LENGTH = 36, TEXT = 4 };
enum { ELEMENTS = SES_CONFIGURATION_LENGTH, ELEMENT_LENGTH = 16, THRESHOLDS = 4, READING = 8, NOMINAL = 10, NOTHING = 12 };
enum { NAME_LENGTH = MOST_TEXT };
enum { SLOTS = 8, SLOT_LENGTH = 4, HEADERS = 48, HEADER_LENGTH = 4, DESCRIPTORS = 8, DESCRIPTOR_HEAD = 4 };

/* Status codes. */
enum { OK = 1, CRITICAL = 2, NONCRITICAL = 3, NOT_KNOWN = 6, HIGHEST_CODE = 8 };

/* Settings, control elements and status elements as one number, byte 0 highest. */
#define SELECT 0x80000000u
#define CODE 0x0F000000u
#define SWAP 0x10000000u /* RST SWAP in a control element */
#define FAN_ON 0x00000020u
#define FAN_OFF 0x00000010u
#define SPEED 0x00000007u
#define SENSOR_FAIL 0x00400000u
#define FAN_SETTINGS 0x70800067u
#define SENSOR_SETTINGS 0x70C00000u
#define TAKEN 0x60C00060u /* PRDFAIL, DISABLED, IDENT, both places of FAIL, ON: what settings take from a control element */

static unsigned number2(const uint8_t *p)
{
    return (unsigned)p[0] << 8 | p[1];
}

static uint32_t number4(const uint8_t *p)
{
    return (uint32_t)p[0] << 24 | (uint32_t)p[1] << 16 | (uint32_t)p[2] << 8 | p[3];
}

static void put2(uint8_t *p, unsigned n)
{
    p[0] = (uint8_t)(n >> 8);
    p[1] = (uint8_t)n;
}

static void put4(uint8_t *p, uint32_t n)
{
    p[0] = (uint8_t)(n >> 24);
    p[1] = (uint8_t)(n >> 16);
    p[2] = (uint8_t)(n >> 8);
    p[3] = (uint8_t)n;
}

static bool all_zero(const uint8_t *p, size_t length)
{
    for (size_t i = 0; i < length; i++)
        if (p[i] != 0)
            return false;
    return true;
}

/* How many bytes are printable before the first that is not. */
static size_t printable_length(const uint8_t *text, size_t length)
{
    size_t i = 0;
    while (i < length && text[i] >= 0x20 && text[i] <= 0x7E)
        i++;
    return i;
}

/* Well-formed shelves. */

static bool served(uint8_t type)
{
    return type == COOLING || type == TEMPERATURE || type == VOLTAGE || type == CURRENT;
}

static bool settings_formed(uint8_t type, uint32_t settings)
{
    if (type == COOLING)
        return (settings & ~FAN_SETTINGS) == 0 && (settings & SPEED) != 0;
    return (settings & ~SENSOR_SETTINGS) == 0;
}

/* Is no threshold set that the type does not have? */
static bool thresholds_owned(uint8_t type, const uint8_t *t)
{
    if (type == COOLING)
        return number4(t) == 0;
    return type != CURRENT || (t[2] | t[3]) == 0;
}

/* A lesser byte of 0 is at most any greater one. */
static bool pair_ordered(uint8_t greater, uint8_t lesser)
{
    return greater == 0 || greater >= lesser;
}

/* Types without low thresholds have zeros there, which are in any order. */
static bool thresholds_ordered(uint8_t type, const uint8_t *t)
{
    if (!pair_ordered(t[0], t[1]))
        return false;
    return type == TEMPERATURE ? pair_ordered(t[2], t[3]) : pair_ordered(t[3], t[2]);
}

static bool measures_formed(uint8_t type, unsigned reading, unsigned nominal)
{
    switch (type) {
    case COOLING: return reading <= 2047 && nominal == 0;
    case TEMPERATURE: return reading <= 255 && nominal == 0;
    default: return nominal >= 1 && nominal <= 32767;
    }
}

static bool element_formed(uint8_t type, const uint8_t *element)
{
    return settings_formed(type, number4(element)) && thresholds_owned(type, element + THRESHOLDS) &&
           thresholds_ordered(type, element + THRESHOLDS) &&
           measures_formed(type, number2(element + READING), number2(element + NOMINAL)) &&
           number4(element + NOTHING) == 0;
}

static bool type_formed(const uint8_t *type)
{
    unsigned length = type[2];
    return served(type[0]) && length <= MOST_TEXT && type[3] == 0 && printable_length(type + TEXT, length) == length &&
           all_zero(type + TEXT + length, MOST_TEXT - length);
}

static const uint8_t *types_end(const uint8_t *front)
{
    return front + TYPES + TYPE_LENGTH * front[TYPE_COUNT];
}

/* The elements that the front of a shelf block tells of, or -1 if it is not well formed. */
static int front_elements(const uint8_t *front, size_t length)
{
    if (length < ELEMENTS || front[TYPE_COUNT] < 1 || front[TYPE_COUNT] > MOST_TYPES ||
        !all_zero(front + TYPE_COUNT + 1, 3))
        return -1;
    const uint8_t *end = types_end(front);
    int elements = 0;
    for (const uint8_t *type = front + TYPES; type < end; type += TYPE_LENGTH) {
        if (!type_formed(type))
            return -1;
        elements += type[1];
    }
    if (elements > MOST_ELEMENTS || !all_zero(end, (size_t)(front + ELEMENTS - end)))
        return -1;
    return elements;
}

static int configuration_elements(const uint8_t *configuration, size_t length)
{
    return length == SES_CONFIGURATION_LENGTH ? front_elements(configuration, length) : -1;
}

static unsigned slots_of(const uint8_t *front, int elements)
{
    return front[TYPE_COUNT] + (unsigned)elements;
}

/* Any bytes are names. */
static int shelf_elements(const uint8_t *shelf, size_t length)
{
    int elements = front_elements(shelf, length);
    if (elements < 0 || length != ELEMENTS + ELEMENT_LENGTH * (size_t)elements + NAME_LENGTH * slots_of(shelf, elements))
        return -1;
    const uint8_t *end = types_end(shelf), *element = shelf + ELEMENTS;
    for (const uint8_t *type = shelf + TYPES; type < end; type += TYPE_LENGTH)
        for (unsigned i = 0; i < type[1]; i++, element += ELEMENT_LENGTH)
            if (!element_formed(type[0], element))
                return -1;
    return elements;
}

uint8_t plain_check(const uint8_t *shelf, size_t shelf_length)
{
    return shelf_elements(shelf, shelf_length) < 0 ? SES_SHELF_NOT_WELL_FORMED : SES_ACCEPTED;
}

/* What pages share. */

static void put_header(uint8_t *page, uint8_t code, const uint8_t *front, size_t length)
{
    page[0] = code;
    page[1] = 0;
    put2(page + 2, (unsigned)(length - 4));
    memcpy(page + 4, front, 4);
}

/* Refusals 2, 3, 4 of a page. */
static uint8_t frame_refusal(const uint8_t *page, size_t length, uint8_t code)
{
    if (length < 4)
        return SES_PAGE_TOO_SHORT;
    if (page[0] != code)
        return SES_PAGE_CODE;
    return length != number2(page + 2) + 4 ? SES_PAGE_LENGTH : SES_ACCEPTED;
}

/* And 12, 5 of a page with these slots. */
static uint8_t header_refusal(const uint8_t *page, size_t length, uint8_t code, const uint8_t *front, unsigned slots)
{
    uint8_t refusal = frame_refusal(page, length, code);
    if (refusal != SES_ACCEPTED)
        return refusal;
    if (length != SLOTS + SLOT_LENGTH * slots)
        return SES_NEEDED_LENGTH;
    if (memcmp(page + 4, front, 4) != 0)
        return SES_GENERATION;
    return SES_ACCEPTED;
}

/* What a page is refused for with 6 is told by the offset of its first offending byte, 0 if there is none: byte 0 never offends.
 * In a slot it is the first byte that has some of the wrong bits. */
static uint32_t slot_offence(const uint8_t *page, const uint8_t *slot, uint32_t wrong)
{
    uint32_t offset = (uint32_t)(slot - page);
    for (; wrong >> 24 == 0; wrong <<= 8)
        offset++;
    return offset;
}

/* The configuration page. */

static uint8_t put_configuration(const uint8_t *front, uint8_t *out, size_t out_length, uint32_t *written)
{
    const uint8_t *end = types_end(front);
    size_t length = HEADERS + HEADER_LENGTH * front[TYPE_COUNT];
    for (const uint8_t *type = front + TYPES; type < end; type += TYPE_LENGTH)
        length += type[2];
    if (out_length < length)
        return SES_OUTPUT_TOO_SHORT;
    uint8_t *header = out + HEADERS, *text = header + HEADER_LENGTH * front[TYPE_COUNT];
    put_header(out, CONFIGURATION_PAGE, front, length);
    out[8] = 0x11;
    out[9] = 0;
    out[10] = front[TYPE_COUNT];
    out[11] = 0x24;
    memcpy(out + 12, front + IDENTIFICATION, IDENTIFICATION_LENGTH);
    for (const uint8_t *type = front + TYPES; type < end; type += TYPE_LENGTH) {
        header[0] = type[0];
        header[1] = type[1];
        header[2] = 0;
        header[3] = type[2];
        memcpy(text, type + TEXT, type[2]);
        header += HEADER_LENGTH;
        text += type[2];
    }
    *written = (uint32_t)length;
    return SES_ACCEPTED;
}

uint8_t plain_write_configuration(const uint8_t *shelf, size_t shelf_length,
                                  uint8_t *out, size_t out_length, uint32_t *written)
{
    *written = 0;
    if (shelf_elements(shelf, shelf_length) < 0)
        return SES_SHELF_NOT_WELL_FORMED;
    return put_configuration(shelf, out, out_length, written);
}

uint8_t plain_rewrite_configuration(const uint8_t *configuration, size_t configuration_length,
                                    uint8_t *out, size_t out_length, uint32_t *written)
{
    *written = 0;
    if (configuration_elements(configuration, configuration_length) < 0)
        return SES_SHELF_NOT_WELL_FORMED;
    return put_configuration(configuration, out, out_length, written);
}

/* The page may tell of up to 255 types here: values are tested after the length. */
static bool configuration_has_needed_length(const uint8_t *page, size_t length)
{
    if (length < HEADERS)
        return false;
    size_t needed = HEADERS + HEADER_LENGTH * page[10];
    if (length < needed)
        return false;
    const uint8_t *end = page + needed;
    for (const uint8_t *header = page + HEADERS; header < end; header += HEADER_LENGTH)
        needed += header[3];
    return length == needed;
}

static uint32_t fixed_part_offence(const uint8_t *page)
{
    if (page[1] != 0)
        return 1;
    if (page[8] != 0x11)
        return 8;
    if (page[9] != 0)
        return 9;
    if (page[10] < 1 || page[10] > MOST_TYPES)
        return 10;
    return page[11] != 0x24 ? 11 : 0;
}

/* The byte of a header that offends first, with this many elements up to its type, or HEADER_LENGTH. */
static unsigned header_offence(const uint8_t *header, unsigned elements)
{
    if (!served(header[0]))
        return 0;
    if (elements > MOST_ELEMENTS)
        return 1;
    if (header[2] != 0)
        return 2;
    return header[3] > MOST_TEXT ? 3 : HEADER_LENGTH;
}

/* The texts go on to the end of the page. */
static uint32_t configuration_offence(const uint8_t *page, size_t length)
{
    uint32_t offset = fixed_part_offence(page);
    if (offset != 0)
        return offset;
    uint32_t end = HEADERS + HEADER_LENGTH * page[10];
    unsigned elements = 0;
    for (offset = HEADERS; offset < end; offset += HEADER_LENGTH) {
        elements += page[offset + 1];
        unsigned at = header_offence(page + offset, elements);
        if (at < HEADER_LENGTH)
            return offset + at;
    }
    offset = end + (uint32_t)printable_length(page + end, length - end);
    return offset < length ? offset : 0;
}

uint8_t plain_read_configuration(const uint8_t *page, size_t page_length,
                                 uint8_t configuration[SES_CONFIGURATION_LENGTH], uint32_t *offset)
{
    *offset = 0;
    uint8_t refusal = frame_refusal(page, page_length, CONFIGURATION_PAGE);
    if (refusal != SES_ACCEPTED)
        return refusal;
    if (!configuration_has_needed_length(page, page_length))
        return SES_NEEDED_LENGTH;
    *offset = configuration_offence(page, page_length);
    if (*offset != 0)
        return SES_NOT_ALLOWED;
    const uint8_t *end = page + HEADERS + HEADER_LENGTH * page[10], *text = end;
    uint8_t *type = configuration + TYPES;
    memset(configuration, 0, SES_CONFIGURATION_LENGTH);
    memcpy(configuration, page + 4, 4);
    memcpy(configuration + IDENTIFICATION, page + 12, IDENTIFICATION_LENGTH);
    configuration[TYPE_COUNT] = page[10];
    for (const uint8_t *header = page + HEADERS; header < end; header += HEADER_LENGTH) {
        type[0] = header[0];
        type[1] = header[1];
        type[2] = header[3];
        memcpy(type + TEXT, text, header[3]);
        type += TYPE_LENGTH;
        text += header[3];
    }
    return SES_ACCEPTED;
}

/* The status page. */

/* A fan that is not ON shows its settings without SPEED. */
static uint32_t fan_status(uint32_t settings, unsigned reading)
{
    if ((settings & FAN_ON) == 0)
        return (settings & ~SPEED) | (uint32_t)OK << 24 | reading << 8 | FAN_OFF;
    return settings | (uint32_t)(reading == 0 ? CRITICAL : OK) << 24 | reading << 8;
}

/* What the status element of a sensor shows beside its settings. */

/* Its code, and FAIL if a limit is tripped, stored or not. */
static uint32_t sensor_code(bool critical, bool warning)
{
    if (critical)
        return (uint32_t)CRITICAL << 24 | SENSOR_FAIL;
    return warning ? (uint32_t)NONCRITICAL << 24 | SENSOR_FAIL : (uint32_t)OK << 24;
}

static uint32_t temperature_shows(const uint8_t *limit, unsigned reading)
{
    if (reading == 0)
        return (uint32_t)NOT_KNOWN << 24;
    bool over_failure = limit[0] != 0 && reading > limit[0], over_warning = limit[1] != 0 && reading > limit[1];
    bool under_warning = reading < limit[2], under_failure = reading < limit[3];
    return sensor_code(over_failure || under_failure, over_warning || under_warning) | reading << 8 |
           (uint32_t)over_failure << 3 | (uint32_t)over_warning << 2 | (uint32_t)under_failure << 1 | under_warning;
}

static bool trips(int32_t beyond, int32_t nominal, uint8_t limit)
{
    return limit != 0 && 200 * beyond > nominal * limit;
}

/* A current sensor's low limits are 0 and never trip. */
static uint32_t voltage_shows(const uint8_t *limit, unsigned reading, int32_t nominal)
{
    int32_t above = (int16_t)reading - nominal;
    bool critical_over = trips(above, nominal, limit[0]), warning_over = trips(above, nominal, limit[1]);
    bool warning_under = trips(-above, nominal, limit[2]), critical_under = trips(-above, nominal, limit[3]);
    return sensor_code(critical_over || critical_under, warning_over || warning_under) | reading |
           (uint32_t)warning_over << 19 | (uint32_t)warning_under << 18 | (uint32_t)critical_over << 17 |
           (uint32_t)critical_under << 16;
}

static uint32_t status_of(uint8_t type, const uint8_t *element)
{
    uint32_t settings = number4(element);
    unsigned reading = number2(element + READING);
    switch (type) {
    case COOLING: return fan_status(settings, reading);
    case TEMPERATURE: return settings | temperature_shows(element + THRESHOLDS, reading);
    default: return settings | voltage_shows(element + THRESHOLDS, reading, (int32_t)number2(element + NOMINAL));
    }
}

/* Of the codes whose bits are set. */
static uint32_t worst(unsigned seen)
{
    static const uint8_t order[] = {CRITICAL, NONCRITICAL, NOT_KNOWN, OK};
    for (unsigned i = 0; i < sizeof order; i++)
        if (seen >> order[i] & 1)
            return order[i];
    return 0;
}

uint8_t plain_write_status(const uint8_t *shelf, size_t shelf_length,
                           uint8_t *out, size_t out_length, uint32_t *written)
{
    *written = 0;
    int elements = shelf_elements(shelf, shelf_length);
    if (elements < 0)
        return SES_SHELF_NOT_WELL_FORMED;
    size_t length = SLOTS + SLOT_LENGTH * slots_of(shelf, elements);
    if (out_length < length)
        return SES_OUTPUT_TOO_SHORT;
    put_header(out, STATUS_PAGE, shelf, length);
    const uint8_t *end = types_end(shelf), *element = shelf + ELEMENTS;
    uint8_t *slot = out + SLOTS;
    unsigned seen_in_all = 0;
    for (const uint8_t *type = shelf + TYPES; type < end; type += TYPE_LENGTH) {
        uint8_t *overall = slot, code = type[0];
        unsigned count = type[1], seen = 0;
        slot += SLOT_LENGTH;
        for (unsigned i = 0; i < count; i++, element += ELEMENT_LENGTH, slot += SLOT_LENGTH) {
            uint32_t status = status_of(code, element);
            seen |= 1u << (status >> 24 & 0x0F);
            put4(slot, status);
        }
        put4(overall, worst(seen) << 24);
        seen_in_all |= seen;
    }
    out[1] = (uint8_t)((seen_in_all >> NONCRITICAL & 1) << 2 | (seen_in_all >> CRITICAL & 1) << 1);
    *written = (uint32_t)length;
    return SES_ACCEPTED;
}

/* The bits that a type's status element has. */
static uint32_t status_bits(uint8_t type)
{
    switch (type) {
    case COOLING: return 0x7F87FF77u;
    case TEMPERATURE: return 0x7FC0FF0Fu;
    case VOLTAGE: return 0x7FCFFFFFu;
    default: return 0x7FCAFFFFu;
    }
}

static uint32_t status_wrong(uint32_t status, uint32_t bits)
{
    return (status & CODE) > (uint32_t)HIGHEST_CODE << 24 ? CODE : status & ~bits;
}

static uint32_t status_offence(const uint8_t *front, const uint8_t *page)
{
    if ((page[1] & ~0x06) != 0)
        return 1;
    const uint8_t *end = types_end(front), *slot = page + SLOTS;
    for (const uint8_t *type = front + TYPES; type < end; type += TYPE_LENGTH) {
        uint32_t bits = status_bits(type[0]), wrong = status_wrong(number4(slot), CODE);
        if (wrong != 0)
            return slot_offence(page, slot, wrong);
        slot += SLOT_LENGTH;
        for (unsigned i = 0; i < type[1]; i++, slot += SLOT_LENGTH) {
            wrong = status_wrong(number4(slot), bits);
            if (wrong != 0)
                return slot_offence(page, slot, wrong);
        }
    }
    return 0;
}

/* Four bits as four flags, the highest first. */
static const uint8_t flags[16][4] = {
    {0, 0, 0, 0}, {0, 0, 0, 1}, {0, 0, 1, 0}, {0, 0, 1, 1}, {0, 1, 0, 0}, {0, 1, 0, 1}, {0, 1, 1, 0}, {0, 1, 1, 1},
    {1, 0, 0, 0}, {1, 0, 0, 1}, {1, 0, 1, 0}, {1, 0, 1, 1}, {1, 1, 0, 0}, {1, 1, 0, 1}, {1, 1, 1, 0}, {1, 1, 1, 1},
};

static void put_flags(struct ses_shown *shown, size_t at, unsigned bits)
{
    memcpy((uint8_t *)shown + at, flags[bits], 4);
}

/* Flags that stand together are put at once. Where they are three, the byte in front of them is put after that. */
static void show(struct ses_shown *shown, uint8_t type, const uint8_t *slot)
{
    uint8_t first = slot[0], second = slot[1], third = slot[2], fourth = slot[3];
    memset(&shown->of, 0, sizeof shown->of);
    put_flags(shown, offsetof(struct ses_shown, code), first >> 4);
    shown->code = first & 0x0F;
    switch (type) {
    case COOLING:
        shown->of.cooling.ident = second >> 7;
        shown->of.cooling.speed[0] = second & 7;
        put_flags(shown, offsetof(struct ses_shown, of.cooling.speed[1]), fourth >> 4);
        shown->of.cooling.speed[1] = third;
        shown->of.cooling.speed_code = fourth & 7;
        break;
    case TEMPERATURE:
        shown->of.temperature.ident = second >> 7;
        shown->of.temperature.fail = second >> 6 & 1;
        shown->of.temperature.temperature = third;
        put_flags(shown, offsetof(struct ses_shown, of.temperature.ot_failure), fourth);
        break;
    case VOLTAGE:
        shown->of.voltage.ident = second >> 7;
        shown->of.voltage.fail = second >> 6 & 1;
        put_flags(shown, offsetof(struct ses_shown, of.voltage.warn_over), second & 0x0F);
        shown->of.voltage.voltage[0] = third;
        shown->of.voltage.voltage[1] = fourth;
        break;
    default:
        shown->of.current.ident = second >> 7;
        shown->of.current.fail = second >> 6 & 1;
        shown->of.current.warn_over = second >> 3 & 1;
        shown->of.current.crit_over = second >> 1 & 1;
        shown->of.current.current[0] = third;
        shown->of.current.current[1] = fourth;
    }
}

uint8_t plain_read_status(const uint8_t *configuration, size_t configuration_length,
                          const uint8_t *page, size_t page_length, struct ses_status *record, uint32_t *offset)
{
    *offset = 0;
    int elements = configuration_elements(configuration, configuration_length);
    if (elements < 0)
        return SES_SHELF_NOT_WELL_FORMED;
    unsigned slots = slots_of(configuration, elements);
    uint8_t refusal = header_refusal(page, page_length, STATUS_PAGE, configuration, slots);
    if (refusal != SES_ACCEPTED)
        return refusal;
    *offset = status_offence(configuration, page);
    if (*offset != 0)
        return SES_NOT_ALLOWED;
    record->noncritical = page[1] >> 2;
    record->critical = page[1] >> 1 & 1;
    put2(record->entries, slots);
    const uint8_t *end = types_end(configuration), *slot = page + SLOTS;
    struct ses_shown *entry = record->entry;
    for (const uint8_t *type = configuration + TYPES; type < end; type += TYPE_LENGTH) {
        uint8_t code = type[0];
        unsigned count = type[1];
        *entry++ = (struct ses_shown){.code = slot[0]};
        slot += SLOT_LENGTH;
        for (unsigned i = 0; i < count; i++, slot += SLOT_LENGTH)
            show(entry++, code, slot);
    }
    return SES_ACCEPTED;
}

/* The bits that an entry may have, byte by byte. */
static const struct ses_shown overall_bits = {.code = 0x0F};
static const struct ses_shown cooling_bits = {
    .code = 0x0F, .prdfail = 1, .disabled = 1, .swap = 1,
    .of.cooling = {.ident = 1, .speed = {7, 0xFF}, .fail = 1, .rqsted_on = 1, .off = 1, .speed_code = 7}};
static const struct ses_shown temperature_bits = {
    .code = 0x0F, .prdfail = 1, .disabled = 1, .swap = 1,
    .of.temperature = {.ident = 1, .fail = 1, .temperature = 0xFF, .ot_failure = 1, .ot_warning = 1, .ut_failure = 1,
                       .ut_warning = 1}};
static const struct ses_shown voltage_bits = {
    .code = 0x0F, .prdfail = 1, .disabled = 1, .swap = 1,
    .of.voltage = {.ident = 1, .fail = 1, .warn_over = 1, .warn_under = 1, .crit_over = 1, .crit_under = 1,
                   .voltage = {0xFF, 0xFF}}};
static const struct ses_shown current_bits = {
    .code = 0x0F, .prdfail = 1, .disabled = 1, .swap = 1,
    .of.current = {.ident = 1, .fail = 1, .warn_over = 1, .crit_over = 1, .current = {0xFF, 0xFF}}};

static const struct ses_shown *shown_bits(uint8_t type)
{
    switch (type) {
    case COOLING: return &cooling_bits;
    case TEMPERATURE: return &temperature_bits;
    case VOLTAGE: return &voltage_bits;
    default: return &current_bits;
    }
}

/* An entry as two numbers, to test eight bytes at once; their order does not matter. */
struct halves {
    uint64_t front, back;
};

_Static_assert(sizeof(struct ses_shown) == sizeof(struct halves), "an entry has two halves");

static struct halves halves_of(const struct ses_shown *s)
{
    struct halves halves;
    memcpy(&halves, s, sizeof halves);
    return halves;
}

static bool shown_allowed(const struct ses_shown *s, struct halves bits)
{
    struct halves given = halves_of(s);
    return ((given.front & ~bits.front) | (given.back & ~bits.back)) == 0 && s->code <= HIGHEST_CODE;
}

static bool status_record_allowed(const uint8_t *front, const struct ses_status *record)
{
    if ((record->noncritical | record->critical) > 1)
        return false;
    const uint8_t *end = types_end(front);
    const struct ses_shown *entry = record->entry;
    for (const uint8_t *type = front + TYPES; type < end; type += TYPE_LENGTH) {
        struct halves bits = halves_of(shown_bits(type[0]));
        if (!shown_allowed(entry++, halves_of(&overall_bits)))
            return false;
        for (unsigned i = 0; i < type[1]; i++)
            if (!shown_allowed(entry++, bits))
                return false;
    }
    return true;
}

static void put_shown(uint8_t *slot, uint8_t type, const struct ses_shown *s)
{
    const struct ses_cooling *c = &s->of.cooling;
    const struct ses_temperature *t = &s->of.temperature;
    const struct ses_voltage *v = &s->of.voltage;
    const struct ses_current *a = &s->of.current;
    slot[0] = (uint8_t)(s->prdfail << 6 | s->disabled << 5 | s->swap << 4 | s->code);
    switch (type) {
    case COOLING:
        slot[1] = (uint8_t)(c->ident << 7 | c->speed[0]);
        slot[2] = c->speed[1];
        slot[3] = (uint8_t)(c->fail << 6 | c->rqsted_on << 5 | c->off << 4 | c->speed_code);
        break;
    case TEMPERATURE:
        slot[1] = (uint8_t)(t->ident << 7 | t->fail << 6);
        slot[2] = t->temperature;
        slot[3] = (uint8_t)(t->ot_failure << 3 | t->ot_warning << 2 | t->ut_failure << 1 | t->ut_warning);
        break;
    case VOLTAGE:
        slot[1] = (uint8_t)(v->ident << 7 | v->fail << 6 | v->warn_over << 3 | v->warn_under << 2 | v->crit_over << 1 |
                            v->crit_under);
        slot[2] = v->voltage[0];
        slot[3] = v->voltage[1];
        break;
    default:
        slot[1] = (uint8_t)(a->ident << 7 | a->fail << 6 | a->warn_over << 3 | a->crit_over << 1);
        slot[2] = a->current[0];
        slot[3] = a->current[1];
    }
}

uint8_t plain_rewrite_status(const uint8_t *configuration, size_t configuration_length,
                             const struct ses_status *record,
                             uint8_t *out, size_t out_length, uint32_t *written)
{
    *written = 0;
    int elements = configuration_elements(configuration, configuration_length);
    if (elements < 0)
        return SES_SHELF_NOT_WELL_FORMED;
    unsigned slots = slots_of(configuration, elements);
    size_t length = SLOTS + SLOT_LENGTH * slots;
    if (number2(record->entries) != slots)
        return SES_WANTED_LIST;
    if (!status_record_allowed(configuration, record))
        return SES_NOT_ALLOWED;
    if (out_length < length)
        return SES_OUTPUT_TOO_SHORT;
    put_header(out, STATUS_PAGE, configuration, length);
    out[1] = (uint8_t)(record->noncritical << 2 | record->critical << 1);
    const uint8_t *end = types_end(configuration);
    const struct ses_shown *entry = record->entry;
    uint8_t *slot = out + SLOTS;
    for (const uint8_t *type = configuration + TYPES; type < end; type += TYPE_LENGTH) {
        uint8_t code = type[0];
        unsigned count = type[1];
        put4(slot, (uint32_t)entry++->code << 24);
        slot += SLOT_LENGTH;
        for (unsigned i = 0; i < count; i++, slot += SLOT_LENGTH)
            put_shown(slot, code, entry++);
    }
    *written = (uint32_t)length;
    return SES_ACCEPTED;
}

/* The threshold status page. */

uint8_t plain_write_thresholds(const uint8_t *shelf, size_t shelf_length,
                               uint8_t *out, size_t out_length, uint32_t *written)
{
    *written = 0;
    int elements = shelf_elements(shelf, shelf_length);
    if (elements < 0)
        return SES_SHELF_NOT_WELL_FORMED;
    size_t length = SLOTS + SLOT_LENGTH * slots_of(shelf, elements);
    if (out_length < length)
        return SES_OUTPUT_TOO_SHORT;
    put_header(out, THRESHOLD_PAGE, shelf, length);
    const uint8_t *end = types_end(shelf), *element = shelf + ELEMENTS;
    uint8_t *slot = out + SLOTS;
    for (const uint8_t *type = shelf + TYPES; type < end; type += TYPE_LENGTH) {
        unsigned count = type[1];
        put4(slot, 0);
        slot += SLOT_LENGTH;
        for (unsigned i = 0; i < count; i++, element += ELEMENT_LENGTH, slot += SLOT_LENGTH)
            memcpy(slot, element + THRESHOLDS, 4);
    }
    *written = (uint32_t)length;
    return SES_ACCEPTED;
}

/* Refusals 6, 7, 8 of the rows of a page or a record, which have the same form. 6 in any row comes before 7 in any other, and
 * 7 before 8. With 6 the offset is that from the start of page or record. */
static uint8_t rows_refusal(const uint8_t *front, const uint8_t *start, const uint8_t *row, uint32_t *offset)
{
    const uint8_t *end = types_end(front);
    bool owned = true, ordered = true;
    for (const uint8_t *type = front + TYPES; type < end; type += TYPE_LENGTH) {
        if (number4(row) != 0) {
            *offset = slot_offence(start, row, number4(row));
            return SES_NOT_ALLOWED;
        }
        row += SLOT_LENGTH;
        for (unsigned i = 0; i < type[1]; i++, row += SLOT_LENGTH) {
            owned = owned && thresholds_owned(type[0], row);
            ordered = ordered && thresholds_ordered(type[0], row);
        }
    }
    return !owned ? SES_NO_SUCH_THRESHOLD : !ordered ? SES_THRESHOLD_ORDER : SES_ACCEPTED;
}

uint8_t plain_read_thresholds(const uint8_t *configuration, size_t configuration_length,
                              const uint8_t *page, size_t page_length, struct ses_thresholds *record,
                              uint32_t *offset)
{
    *offset = 0;
    int elements = configuration_elements(configuration, configuration_length);
    if (elements < 0)
        return SES_SHELF_NOT_WELL_FORMED;
    unsigned slots = slots_of(configuration, elements);
    uint8_t refusal = header_refusal(page, page_length, THRESHOLD_PAGE, configuration, slots);
    if (refusal != SES_ACCEPTED)
        return refusal;
    if (page[1] != 0) {
        *offset = 1;
        return SES_NOT_ALLOWED;
    }
    refusal = rows_refusal(configuration, page, page + SLOTS, offset);
    if (refusal != SES_ACCEPTED)
        return refusal;
    memset(record->spare, 0, sizeof record->spare);
    put2(record->entries, slots);
    memcpy(record->entry, page + SLOTS, SLOT_LENGTH * slots);
    return SES_ACCEPTED;
}

uint8_t plain_rewrite_thresholds(const uint8_t *configuration, size_t configuration_length,
                                 const struct ses_thresholds *record,
                                 uint8_t *out, size_t out_length, uint32_t *written)
{
    *written = 0;
    int elements = configuration_elements(configuration, configuration_length);
    if (elements < 0)
        return SES_SHELF_NOT_WELL_FORMED;
    unsigned slots = slots_of(configuration, elements);
    size_t length = SLOTS + SLOT_LENGTH * slots;
    if (number2(record->entries) != slots)
        return SES_WANTED_LIST;
    uint32_t not_told;
    uint8_t refusal = rows_refusal(configuration, record->spare, &record->entry[0].high_critical, &not_told);
    if (refusal != SES_ACCEPTED)
        return refusal;
    if (out_length < length)
        return SES_OUTPUT_TOO_SHORT;
    put_header(out, THRESHOLD_PAGE, configuration, length);
    memcpy(out + SLOTS, record->entry, SLOT_LENGTH * slots);
    *written = (uint32_t)length;
    return SES_ACCEPTED;
}

/* The Element Descriptor page. */

/* The page of names that stand one after the other, each as long as is told here. All lengths together are `sum`. */
static uint8_t put_descriptors(const uint8_t *front, const uint8_t *name, const uint8_t *lengths, unsigned slots, size_t sum,
                               uint8_t *out, size_t out_length, uint32_t *written)
{
    size_t length = DESCRIPTORS + DESCRIPTOR_HEAD * slots + sum;
    if (out_length < length)
        return SES_OUTPUT_TOO_SHORT;
    put_header(out, DESCRIPTOR_PAGE, front, length);
    uint8_t *descriptor = out + DESCRIPTORS;
    for (unsigned i = 0; i < slots; i++, name += NAME_LENGTH) {
        put4(descriptor, lengths[i]);
        memcpy(descriptor + DESCRIPTOR_HEAD, name, lengths[i]);
        descriptor += DESCRIPTOR_HEAD + lengths[i];
    }
    *written = (uint32_t)length;
    return SES_ACCEPTED;
}

uint8_t plain_write_descriptors(const uint8_t *shelf, size_t shelf_length,
                                uint8_t *out, size_t out_length, uint32_t *written)
{
    *written = 0;
    int elements = shelf_elements(shelf, shelf_length);
    if (elements < 0)
        return SES_SHELF_NOT_WELL_FORMED;
    unsigned slots = slots_of(shelf, elements);
    const uint8_t *names = shelf + ELEMENTS + ELEMENT_LENGTH * elements;
    uint8_t lengths[MOST_SLOTS];
    size_t sum = 0;
    for (unsigned i = 0; i < slots; i++) {
        lengths[i] = (uint8_t)printable_length(names + NAME_LENGTH * i, NAME_LENGTH);
        sum += lengths[i];
    }
    return put_descriptors(shelf, names, lengths, slots, sum, out, out_length, written);
}

/* Do the descriptors, with the texts that they declare, end where the page ends? */
static bool descriptors_have_needed_length(const uint8_t *page, size_t length, unsigned slots)
{
    size_t needed = DESCRIPTORS;
    for (unsigned i = 0; i < slots; i++) {
        if (length < needed + DESCRIPTOR_HEAD)
            return false;
        needed += DESCRIPTOR_HEAD + number2(page + needed + 2);
    }
    return length == needed;
}

/* The byte of a descriptor that offends first, or its length. */
static size_t descriptor_offence(const uint8_t *descriptor, size_t text)
{
    if (descriptor[0] != 0)
        return 0;
    if (descriptor[1] != 0)
        return 1;
    return text > MOST_TEXT ? 2 : DESCRIPTOR_HEAD + printable_length(descriptor + DESCRIPTOR_HEAD, text);
}

static uint32_t descriptors_offence(const uint8_t *page, unsigned slots)
{
    if (page[1] != 0)
        return 1;
    const uint8_t *descriptor = page + DESCRIPTORS;
    for (unsigned i = 0; i < slots; i++) {
        size_t text = number2(descriptor + 2), at = descriptor_offence(descriptor, text);
        descriptor += at;
        if (at != DESCRIPTOR_HEAD + text)
            return (uint32_t)(descriptor - page);
    }
    return 0;
}

uint8_t plain_read_descriptors(const uint8_t *configuration, size_t configuration_length,
                               const uint8_t *page, size_t page_length, struct ses_names *record,
                               uint32_t *offset)
{
    *offset = 0;
    int elements = configuration_elements(configuration, configuration_length);
    if (elements < 0)
        return SES_SHELF_NOT_WELL_FORMED;
    uint8_t refusal = frame_refusal(page, page_length, DESCRIPTOR_PAGE);
    if (refusal != SES_ACCEPTED)
        return refusal;
    unsigned slots = slots_of(configuration, elements);
    if (!descriptors_have_needed_length(page, page_length, slots))
        return SES_NEEDED_LENGTH;
    if (memcmp(page + 4, configuration, 4) != 0)
        return SES_GENERATION;
    *offset = descriptors_offence(page, slots);
    if (*offset != 0)
        return SES_NOT_ALLOWED;
    memset(record->spare, 0, sizeof record->spare);
    put2(record->entries, slots);
    const uint8_t *descriptor = page + DESCRIPTORS;
    for (unsigned i = 0; i < slots; i++) {
        size_t text = descriptor[3];
        memset(&record->entry[i], 0, sizeof record->entry[i]);
        memcpy(&record->entry[i], descriptor + DESCRIPTOR_HEAD, text);
        descriptor += DESCRIPTOR_HEAD + text;
    }
    return SES_ACCEPTED;
}

uint8_t plain_rewrite_descriptors(const uint8_t *configuration, size_t configuration_length,
                                  const struct ses_names *record,
                                  uint8_t *out, size_t out_length, uint32_t *written)
{
    *written = 0;
    int elements = configuration_elements(configuration, configuration_length);
    if (elements < 0)
        return SES_SHELF_NOT_WELL_FORMED;
    unsigned slots = slots_of(configuration, elements);
    if (number2(record->entries) != slots)
        return SES_WANTED_LIST;
    uint8_t lengths[MOST_SLOTS];
    size_t sum = 0;
    for (unsigned i = 0; i < slots; i++) {
        const uint8_t *text = record->entry[i].text;
        size_t length = printable_length(text, NAME_LENGTH);
        if (!all_zero(text + length, NAME_LENGTH - length))
            return SES_NOT_ALLOWED;
        lengths[i] = (uint8_t)length;
        sum += length;
    }
    return put_descriptors(configuration, record->entry[0].text, lengths, slots, sum, out, out_length, written);
}

/* Names found and set. */

static bool is_name(const uint8_t *text, size_t length)
{
    return length <= MOST_TEXT && printable_length(text, length) == length;
}

/* Is this the name? All bytes of the text are printable, so it has to end where the text ends. */
static bool named(const uint8_t *name, const uint8_t *text, size_t length)
{
    return memcmp(name, text, length) == 0 && (length == NAME_LENGTH || printable_length(name + length, 1) == 0);
}

uint8_t plain_find_name(const uint8_t *shelf, size_t shelf_length, const uint8_t *text, size_t text_length,
                        uint32_t *element)
{
    *element = SES_NO_ELEMENT;
    int elements = shelf_elements(shelf, shelf_length);
    if (elements < 0)
        return SES_SHELF_NOT_WELL_FORMED;
    if (!is_name(text, text_length))
        return SES_ACCEPTED;
    const uint8_t *end = types_end(shelf), *name = shelf + ELEMENTS + ELEMENT_LENGTH * elements;
    uint32_t number = 0;
    for (const uint8_t *type = shelf + TYPES; type < end; type += TYPE_LENGTH) {
        name += NAME_LENGTH;
        for (unsigned i = 0; i < type[1]; i++, number++, name += NAME_LENGTH)
            if (named(name, text, text_length)) {
                *element = number;
                return SES_ACCEPTED;
            }
    }
    return SES_ACCEPTED;
}

static void put_name(uint8_t *shelf, int elements, unsigned slot, const uint8_t *text, size_t length)
{
    uint8_t *name = shelf + ELEMENTS + ELEMENT_LENGTH * elements + NAME_LENGTH * slot;
    memset(name, 0, NAME_LENGTH);
    memcpy(name, text, length);
}

uint8_t plain_set_name(uint8_t *shelf, size_t shelf_length, uint32_t element,
                       const uint8_t *text, size_t text_length)
{
    int elements = shelf_elements(shelf, shelf_length);
    if (elements < 0)
        return SES_SHELF_NOT_WELL_FORMED;
    if (element >= (uint32_t)elements)
        return SES_NO_SUCH_ELEMENT;
    if (!is_name(text, text_length))
        return SES_NOT_ALLOWED;
    /* In front of it stand the names of the elements before it and of the overall elements up to its type. */
    unsigned slot = element + 1, through = shelf[TYPES + 1];
    for (const uint8_t *type = shelf + TYPES; element >= through; slot++) {
        type += TYPE_LENGTH;
        through += type[1];
    }
    put_name(shelf, elements, slot, text, text_length);
    return SES_ACCEPTED;
}

uint8_t plain_set_overall_name(uint8_t *shelf, size_t shelf_length, uint32_t type,
                               const uint8_t *text, size_t text_length)
{
    int elements = shelf_elements(shelf, shelf_length);
    if (elements < 0)
        return SES_SHELF_NOT_WELL_FORMED;
    if (type >= shelf[TYPE_COUNT])
        return SES_NO_SUCH_ELEMENT;
    if (!is_name(text, text_length))
        return SES_NOT_ALLOWED;
    unsigned slot = type;
    for (unsigned t = 0; t < type; t++)
        slot += shelf[TYPES + TYPE_LENGTH * t + 1];
    put_name(shelf, elements, slot, text, text_length);
    return SES_ACCEPTED;
}

/* The Threshold Out page. */

static void join(uint8_t joined[4], const uint8_t *stored, const uint8_t *overall, const uint8_t *individual)
{
    for (int i = 0; i < 4; i++)
        joined[i] = individual[i] != 0 ? individual[i] : overall[i] != 0 ? overall[i] : stored[i];
}

/* Refusals 7 and 8: 7 in any slot comes before 8 in any element. */
static uint8_t asked_refusal(const uint8_t *shelf, const uint8_t *slot)
{
    const uint8_t *end = types_end(shelf), *element = shelf + ELEMENTS;
    bool ordered = true;
    for (const uint8_t *type = shelf + TYPES; type < end; type += TYPE_LENGTH) {
        const uint8_t *overall = slot;
        if (!thresholds_owned(type[0], overall))
            return SES_NO_SUCH_THRESHOLD;
        slot += SLOT_LENGTH;
        for (unsigned i = 0; i < type[1]; i++, element += ELEMENT_LENGTH, slot += SLOT_LENGTH) {
            uint8_t joined[4];
            if (!thresholds_owned(type[0], slot))
                return SES_NO_SUCH_THRESHOLD;
            join(joined, element + THRESHOLDS, overall, slot);
            ordered = ordered && thresholds_ordered(type[0], joined);
        }
    }
    return ordered ? SES_ACCEPTED : SES_THRESHOLD_ORDER;
}

uint8_t plain_apply_thresholds(uint8_t *shelf, size_t shelf_length, const uint8_t *page, size_t page_length,
                               uint32_t *offset)
{
    *offset = 0;
    int elements = shelf_elements(shelf, shelf_length);
    if (elements < 0)
        return SES_SHELF_NOT_WELL_FORMED;
    uint8_t refusal = header_refusal(page, page_length, THRESHOLD_PAGE, shelf, slots_of(shelf, elements));
    if (refusal != SES_ACCEPTED)
        return refusal;
    if (page[1] != 0) {
        *offset = 1;
        return SES_NOT_ALLOWED;
    }
    refusal = asked_refusal(shelf, page + SLOTS);
    if (refusal != SES_ACCEPTED)
        return refusal;
    const uint8_t *end = types_end(shelf), *slot = page + SLOTS;
    uint8_t *element = shelf + ELEMENTS;
    for (const uint8_t *type = shelf + TYPES; type < end; type += TYPE_LENGTH) {
        const uint8_t *overall = slot;
        unsigned count = type[1];
        slot += SLOT_LENGTH;
        for (unsigned i = 0; i < count; i++, element += ELEMENT_LENGTH, slot += SLOT_LENGTH)
            join(element + THRESHOLDS, element + THRESHOLDS, overall, slot);
    }
    return SES_ACCEPTED;
}

/* The Enclosure Control page. */

static uint32_t settings_bits(uint8_t type)
{
    return type == COOLING ? FAN_SETTINGS : SENSOR_SETTINGS;
}

static uint32_t control_wrong(uint32_t control, uint32_t bits)
{
    return (control & SELECT) == 0 ? 0 : control & ~(SELECT | bits);
}

static uint32_t control_offence(const uint8_t *shelf, const uint8_t *page)
{
    if ((page[1] & 0xF0) != 0)
        return 1;
    const uint8_t *end = types_end(shelf), *slot = page + SLOTS;
    for (const uint8_t *type = shelf + TYPES; type < end; type += TYPE_LENGTH) {
        uint32_t bits = settings_bits(type[0]);
        for (unsigned i = 0; i <= type[1]; i++, slot += SLOT_LENGTH) {
            uint32_t wrong = control_wrong(number4(slot), bits);
            if (wrong != 0)
                return slot_offence(page, slot, wrong);
        }
    }
    return 0;
}

/* The settings after a selected control element of their type. */
static uint32_t acted(uint32_t stored, uint32_t control)
{
    uint32_t speed = (control & SPEED) != 0 ? control : stored;
    return (control & TAKEN) | (stored & ~control & SWAP) | (speed & SPEED);
}

uint8_t plain_apply_control(uint8_t *shelf, size_t shelf_length, const uint8_t *page, size_t page_length,
                            uint32_t *offset)
{
    *offset = 0;
    int elements = shelf_elements(shelf, shelf_length);
    if (elements < 0)
        return SES_SHELF_NOT_WELL_FORMED;
    uint8_t refusal = header_refusal(page, page_length, CONTROL_PAGE, shelf, slots_of(shelf, elements));
    if (refusal != SES_ACCEPTED)
        return refusal;
    *offset = control_offence(shelf, page);
    if (*offset != 0)
        return SES_NOT_ALLOWED;
    const uint8_t *end = types_end(shelf), *slot = page + SLOTS;
    uint8_t *element = shelf + ELEMENTS;
    for (const uint8_t *type = shelf + TYPES; type < end; type += TYPE_LENGTH) {
        uint32_t overall = number4(slot);
        unsigned count = type[1];
        slot += SLOT_LENGTH;
        for (unsigned i = 0; i < count; i++, element += ELEMENT_LENGTH, slot += SLOT_LENGTH) {
            uint32_t individual = number4(slot), control = (individual & SELECT) != 0 ? individual : overall;
            if ((control & SELECT) != 0)
                put4(element, acted(number4(element), control));
        }
    }
    return SES_ACCEPTED;
}

/* Pages in chunks. */

enum { LONGEST_PAGE = SLOTS + SLOT_LENGTH * MOST_SLOTS, COUNT_STOPS = 65540 };

static uint32_t collected(const struct ses_collector *collector)
{
    uint32_t count = number4(collector->count);
    return count < COUNT_STOPS ? count : COUNT_STOPS;
}

void plain_empty_collector(struct ses_collector *collector)
{
    put4(collector->count, 0);
}

void plain_put_chunk(struct ses_collector *collector, const uint8_t *chunk, size_t chunk_length)
{
    uint32_t count = collected(collector);
    if (count < LONGEST_PAGE) {
        size_t room = LONGEST_PAGE - count;
        memcpy(collector->page + count, chunk, chunk_length < room ? chunk_length : room);
    }
    put4(collector->count, chunk_length < COUNT_STOPS - count ? count + (uint32_t)chunk_length : COUNT_STOPS);
}

/* Behind the header only a page of the length needed is looked at, and of such a page every byte was kept. */
uint8_t plain_end_page(struct ses_collector *collector, uint8_t *shelf, size_t shelf_length, uint8_t code,
                       uint32_t *offset)
{
    size_t length = collected(collector);
    plain_empty_collector(collector);
    if (code == CONTROL_PAGE)
        return plain_apply_control(shelf, shelf_length, collector->page, length, offset);
    if (code == THRESHOLD_PAGE)
        return plain_apply_thresholds(shelf, shelf_length, collector->page, length, offset);
    *offset = 0;
    if (shelf_elements(shelf, shelf_length) < 0)
        return SES_SHELF_NOT_WELL_FORMED;
    return length < 4 ? SES_PAGE_TOO_SHORT : SES_PAGE_CODE;
}

/* The builder. */

/* The elements of one type, and what is wanted of them. */
struct wish {
    const uint8_t *element, *wanted;
    unsigned count;
};

/* An overall element, and the SELECTs of its type's slots under it. */
struct choice {
    uint32_t overall;
    unsigned selects;
};

static uint32_t stored_at(const struct wish *wish, unsigned i)
{
    return number4(wish->element + ELEMENT_LENGTH * i);
}

static uint32_t wanted_at(const struct wish *wish, unsigned i)
{
    return number4(wish->wanted + 4 * i);
}

/* Refusals 9 and 10: 9 of any record comes before 10 of any other. */
static uint8_t wish_refusal(const uint8_t *shelf, const uint8_t *wanted)
{
    const uint8_t *end = types_end(shelf), *element = shelf + ELEMENTS;
    bool reached = true;
    for (const uint8_t *type = shelf + TYPES; type < end; type += TYPE_LENGTH)
        for (unsigned i = 0; i < type[1]; i++, element += ELEMENT_LENGTH, wanted += 4) {
            uint32_t record = number4(wanted);
            if (!settings_formed(type[0], record))
                return SES_WANTED_LIST;
            if ((record & ~number4(element) & SWAP) != 0)
                reached = false;
        }
    return reached ? SES_ACCEPTED : SES_UNREACHABLE;
}

/* Takes this overall element if it is better than the best so far. One that stands later in the dictionary has to save a SELECT;
 * the count stops where it can no longer win. */
static void try_overall(struct choice *best, const struct wish *wish, uint32_t overall)
{
    unsigned most = overall < best->overall ? best->selects : best->selects - 1, selects = 1;
    for (unsigned i = 0; i < wish->count && selects <= most; i++)
        if (acted(stored_at(wish, i), overall) != wanted_at(wish, i))
            selects++;
    if (selects <= most)
        *best = (struct choice){overall, selects};
}

/* Tries every selected control element that does what is wanted of one element. */
static void try_for(struct choice *best, const struct wish *wish, uint32_t stored, uint32_t wanted)
{
    uint32_t speed = wanted & SPEED;
    for (unsigned way = 0; way < (speed != 0 ? 4 : 2); way++) {
        uint32_t control = SELECT | (wanted & TAKEN) | (way & 1 ? SWAP : 0) | (way & 2 ? speed : 0);
        if (acted(stored, control) == wanted)
            try_overall(best, wish, control);
    }
}

/* An overall element is worth its SELECT only if it saves two, so it does what is wanted of some element that has to change. */
static uint32_t best_overall(const struct wish *wish)
{
    struct choice best = {0, 0};
    for (unsigned i = 0; i < wish->count; i++)
        if (stored_at(wish, i) != wanted_at(wish, i))
            best.selects++;
    if (best.selects < 2)
        return 0;
    for (unsigned i = 0; i < wish->count; i++)
        if (stored_at(wish, i) != wanted_at(wish, i))
            try_for(&best, wish, stored_at(wish, i), wanted_at(wish, i));
    return best.overall;
}

/* The first control element in the dictionary that leads from stored to wanted settings, by itself. */
static uint32_t own_control(uint32_t stored, uint32_t wanted)
{
    uint32_t speed = ((stored ^ wanted) & SPEED) != 0 ? wanted & SPEED : 0;
    return SELECT | (wanted & TAKEN) | (stored & ~wanted & SWAP) | speed;
}

/* Puts the slots of one type, and tells their SELECTs. */
static uint32_t put_controls(uint8_t *slot, const struct wish *wish)
{
    uint32_t overall = best_overall(wish), selects = overall != 0;
    put4(slot, overall);
    for (unsigned i = 0; i < wish->count; i++) {
        uint32_t stored = stored_at(wish, i), wanted = wanted_at(wish, i), control = 0;
        if ((overall != 0 ? acted(stored, overall) : stored) != wanted) {
            control = own_control(stored, wanted);
            selects++;
        }
        slot += SLOT_LENGTH;
        put4(slot, control);
    }
    return selects;
}

uint8_t plain_build_control(const uint8_t *shelf, size_t shelf_length,
                            const uint8_t *wanted, size_t wanted_length,
                            uint8_t *out, size_t out_length,
                            uint32_t *written, uint32_t *selects)
{
    *written = 0;
    *selects = 0;
    int elements = shelf_elements(shelf, shelf_length);
    if (elements < 0)
        return SES_SHELF_NOT_WELL_FORMED;
    if (wanted_length != 4 * (size_t)elements)
        return SES_WANTED_LIST;
    uint8_t refusal = wish_refusal(shelf, wanted);
    if (refusal != SES_ACCEPTED)
        return refusal;
    size_t length = SLOTS + SLOT_LENGTH * slots_of(shelf, elements);
    if (out_length < length)
        return SES_OUTPUT_TOO_SHORT;
    put_header(out, CONTROL_PAGE, shelf, length);
    const uint8_t *end = types_end(shelf);
    struct wish wish = {shelf + ELEMENTS, wanted, 0};
    uint8_t *slot = out + SLOTS;
    uint32_t total = 0;
    for (const uint8_t *type = shelf + TYPES; type < end; type += TYPE_LENGTH) {
        wish.count = type[1];
        total += put_controls(slot, &wish);
        slot += SLOT_LENGTH * (1 + wish.count);
        wish.element += ELEMENT_LENGTH * wish.count;
        wish.wanted += 4 * wish.count;
    }
    *written = (uint32_t)length;
    *selects = total;
    return SES_ACCEPTED;
}
