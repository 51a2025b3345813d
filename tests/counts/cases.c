/* The cases: each call, the builder with each of four wishes, the calls on names with long names and with none, and a page put as
 * one chunk and byte by byte, on each of four shelves. This runs in the emulated processor, without a C library. The counter calls
 * prepare, and then from the same memory each of the two functions that `job` names, as often as it says. */
#include "cases.h"
#include "plain.h"

#include <string.h>

struct job job;

void prepare(unsigned call, unsigned on_shelf);

/* The lent memory. */
static uint8_t shelf[SES_LONGEST_BLOCK], configuration[SES_CONFIGURATION_LENGTH], page[SES_LONGEST_DESCRIPTOR_PAGE];
static uint8_t wanted[SES_LONGEST_WANTED_LIST], out[SES_LONGEST_DESCRIPTOR_PAGE + 100], text[SES_NAME_LENGTH];
static struct ses_status status;
static struct ses_thresholds thresholds;
static struct ses_names names;
static struct ses_collector collector;
static uint32_t written, selects, offset, found;

static size_t shelf_length, page_length;
static unsigned types, each, elements;

enum { COOLING = 0x03, TEMPERATURE = 0x04, VOLTAGE = 0x12, CURRENT = 0x13 };

static const struct {
    char name[32];
    unsigned types, each, text;
} shelves[] = {
    {"3 fans", 1, 3, 3},
    {"16 in 4 types", 4, 4, 8},
    {"64 in 8 types", 8, 8, 32},
    {"64 fans", 1, 64, 3},
};

_Static_assert(sizeof shelves / sizeof *shelves == SHELVES, "the counter knows how many shelves there are");

static void put2(uint8_t *p, unsigned n)
{
    p[0] = (uint8_t)(n >> 8);
    p[1] = (uint8_t)n;
}

/* Shelves. */

static uint8_t code_of_type(unsigned t)
{
    static const uint8_t codes[] = {COOLING, TEMPERATURE, VOLTAGE, CURRENT};
    return codes[t % 4];
}

static void make_type(uint8_t *type, uint8_t code, unsigned text)
{
    type[0] = code;
    type[1] = (uint8_t)each;
    type[2] = (uint8_t)text;
    memset(type + 4, 'n', text);
}

/* Readings go from below the low limits to above the high ones. */
static void make_element(uint8_t *element, uint8_t code, unsigned i)
{
    static const uint8_t temperature_limits[] = {75, 65, 30, 20}, voltage_limits[] = {20, 10, 10, 20};
    static const uint8_t current_limits[] = {20, 10, 0, 0};
    switch (code) {
    case COOLING:
        element[3] = 0x23;
        put2(element + 8, 300 + i);
        break;
    case TEMPERATURE:
        memcpy(element + 4, temperature_limits, 4);
        put2(element + 8, 15 + i * 29 % 70);
        break;
    case VOLTAGE:
        memcpy(element + 4, voltage_limits, 4);
        put2(element + 8, 1060 + i * 110 % 280);
        put2(element + 10, 1200);
        break;
    default:
        memcpy(element + 4, current_limits, 4);
        put2(element + 8, 180 + i * 23 % 60);
        put2(element + 10, 200);
    }
}

/* Of 32 bytes. Those of all slots have the first 20 in common, and then the number of the slot. */
static void make_name(uint8_t *name, unsigned slot)
{
    memcpy(name, "Element of the shelf", 20);
    memset(name + 20, 'n', 12);
    name[20] = (uint8_t)('0' + slot / 10);
    name[21] = (uint8_t)('0' + slot % 10);
}

static uint8_t *name_of_slot(unsigned slot)
{
    return shelf + SES_CONFIGURATION_LENGTH + 16 * elements + 32 * slot;
}

static void make_shelf(unsigned s)
{
    types = shelves[s].types;
    each = shelves[s].each;
    elements = types * each;
    shelf_length = SES_CONFIGURATION_LENGTH + 16 * elements + 32 * (types + elements);
    memset(shelf, 0, sizeof shelf);
    shelf[3] = 7;
    memset(shelf + 4, 'i', 36);
    shelf[40] = (uint8_t)types;
    for (unsigned t = 0; t < types; t++)
        make_type(shelf + 44 + 36 * t, code_of_type(t), shelves[s].text);
    for (unsigned j = 0; j < elements; j++)
        make_element(shelf + SES_CONFIGURATION_LENGTH + 16 * j, code_of_type(j / each), j % each);
    for (unsigned slot = 0; slot < types + elements; slot++)
        make_name(name_of_slot(slot), slot);
    memcpy(configuration, shelf, sizeof configuration);
}

/* Pages. */

/* The page that a reader reads is the one that the shelf has. */
static void make_page(uint8_t (*write)(const uint8_t *, size_t, uint8_t *, size_t, uint32_t *))
{
    uint32_t length;
    write(shelf, shelf_length, page, sizeof page, &length);
    page_length = length;
}

static void make_header(uint8_t code)
{
    page_length = 8 + 4 * (types + elements);
    memset(page, 0, sizeof page);
    page[0] = code;
    put2(page + 2, (unsigned)page_length - 4);
    memcpy(page + 4, shelf, 4);
}

static void ask_control(uint8_t *slot, uint8_t code, unsigned place)
{
    slot[0] = place == 0 ? 0xA0 : 0xC0;
    slot[1] = 0x80;
    slot[3] = code == COOLING ? 0x26 : 0;
}

static void ask_thresholds(uint8_t *slot, uint8_t code, unsigned place)
{
    if (code == COOLING)
        return;
    slot[0] = (uint8_t)(100 + place);
    slot[1] = place == 0 ? 70 : 0;
}

/* On a page that acts, every overall element asks for something, and every second element for something else. */
static void make_out_page(uint8_t code, void (*ask)(uint8_t *, uint8_t, unsigned))
{
    make_header(code);
    for (unsigned t = 0; t < types; t++)
        for (unsigned place = 0; place <= each; place += 2)
            ask(page + 8 + 4 * (t * (1 + each) + place), code_of_type(t), place);
}

/* Wishes. */

static void want_stored(void)
{
    for (unsigned j = 0; j < elements; j++)
        memcpy(wanted + 4 * j, shelf + SES_CONFIGURATION_LENGTH + 16 * j, 4);
}

static void want_ident(unsigned j)
{
    wanted[4 * j + 1] |= 0x80;
}

/* Each record of a type differs from what is stored and from the others. */
static void want_different(void)
{
    for (unsigned j = 0; j < elements; j++) {
        uint8_t *record = wanted + 4 * j;
        unsigned i = j % each;
        if (code_of_type(j / each) == COOLING) {
            record[0] = (uint8_t)((i & 3) << 5);
            record[1] = (uint8_t)((i >> 2 & 1) << 7);
            record[3] = (uint8_t)((i >> 3 & 3) << 5 | (1 + (i >> 5)));
        } else {
            record[0] = (uint8_t)(((i + 1) & 3) << 5);
            record[1] = (uint8_t)((i + 1) >> 2 << 6);
        }
    }
}

/* Names. */

static void forget_names(void)
{
    memset(name_of_slot(0), 0, 32 * (types + elements));
}

/* The name of the element at a place of a type. */
static void ask_for(unsigned t, unsigned place)
{
    memcpy(text, name_of_slot(t * (1 + each) + 1 + place), sizeof text);
}

/* Cases. */

#define SHELF (uintptr_t)shelf, shelf_length
#define CONFIGURATION (uintptr_t)configuration, sizeof configuration
#define PAGE (uintptr_t)page, page_length
#define TEXT (uintptr_t)text, sizeof text
#define OUT (uintptr_t)out, sizeof out, (uintptr_t)&written

#define JOB(name, ...)                                                                                                 \
    do {                                                                                                               \
        job.library = (uintptr_t)ses_##name;                                                                           \
        job.plain = (uintptr_t)plain_##name;                                                                           \
        memcpy(job.arguments, (const uint64_t[8]){__VA_ARGS__}, sizeof job.arguments);                                 \
        job.times = 1;                                                                                                 \
        job.silent = 0;                                                                                                \
    } while (0)

static void check(void)
{
    JOB(check, SHELF);
}

static void write_configuration(void)
{
    JOB(write_configuration, SHELF, OUT);
}

static void read_configuration(void)
{
    make_page(plain_write_configuration);
    memset(configuration, 0xEE, sizeof configuration);
    JOB(read_configuration, PAGE, (uintptr_t)configuration, (uintptr_t)&offset);
}

static void rewrite_configuration(void)
{
    JOB(rewrite_configuration, CONFIGURATION, OUT);
}

static void write_status(void)
{
    JOB(write_status, SHELF, OUT);
}

static void read_status(void)
{
    make_page(plain_write_status);
    JOB(read_status, CONFIGURATION, PAGE, (uintptr_t)&status, (uintptr_t)&offset);
}

static void rewrite_status(void)
{
    make_page(plain_write_status);
    plain_read_status(configuration, sizeof configuration, page, page_length, &status, &offset);
    JOB(rewrite_status, CONFIGURATION, (uintptr_t)&status, OUT);
}

static void write_thresholds(void)
{
    JOB(write_thresholds, SHELF, OUT);
}

static void read_thresholds(void)
{
    make_page(plain_write_thresholds);
    JOB(read_thresholds, CONFIGURATION, PAGE, (uintptr_t)&thresholds, (uintptr_t)&offset);
}

static void rewrite_thresholds(void)
{
    make_page(plain_write_thresholds);
    plain_read_thresholds(configuration, sizeof configuration, page, page_length, &thresholds, &offset);
    JOB(rewrite_thresholds, CONFIGURATION, (uintptr_t)&thresholds, OUT);
}

static void write_descriptors(void)
{
    JOB(write_descriptors, SHELF, OUT);
}

static void write_no_names(void)
{
    forget_names();
    write_descriptors();
}

static void read_descriptors(void)
{
    make_page(plain_write_descriptors);
    JOB(read_descriptors, CONFIGURATION, PAGE, (uintptr_t)&names, (uintptr_t)&offset);
}

static void read_no_names(void)
{
    forget_names();
    read_descriptors();
}

static void rewrite_descriptors(void)
{
    make_page(plain_write_descriptors);
    plain_read_descriptors(configuration, sizeof configuration, page, page_length, &names, &offset);
    JOB(rewrite_descriptors, CONFIGURATION, (uintptr_t)&names, OUT);
}

static void rewrite_no_names(void)
{
    forget_names();
    rewrite_descriptors();
}

static void find_first(void)
{
    ask_for(0, 0);
    JOB(find_name, SHELF, TEXT, (uintptr_t)&found);
}

static void find_last(void)
{
    ask_for(types - 1, each - 1);
    JOB(find_name, SHELF, TEXT, (uintptr_t)&found);
}

/* Another text behind the bytes that all names have in common. */
static void find_nothing(void)
{
    ask_for(0, 0);
    memset(text + 20, 'x', 12);
    JOB(find_name, SHELF, TEXT, (uintptr_t)&found);
}

static void set_name(void)
{
    memset(text, 'x', sizeof text);
    JOB(set_name, SHELF, elements - 1, TEXT);
}

static void set_overall_name(void)
{
    memset(text, 'x', sizeof text);
    JOB(set_overall_name, SHELF, types - 1, TEXT);
}

static void apply_control(void)
{
    make_out_page(0x02, ask_control);
    JOB(apply_control, SHELF, PAGE, (uintptr_t)&offset);
}

static void apply_thresholds(void)
{
    make_out_page(0x05, ask_thresholds);
    JOB(apply_thresholds, SHELF, PAGE, (uintptr_t)&offset);
}

/* Some bytes of a page came. */
static void empty_collector(void)
{
    plain_put_chunk(&collector, page, page_length);
    JOB(empty_collector, (uintptr_t)&collector);
    job.silent = 1;
}

/* What the page asks for does not matter here. */
static void put_page(void)
{
    make_out_page(0x02, ask_control);
    JOB(put_chunk, (uintptr_t)&collector, PAGE);
    job.silent = 1;
}

static void put_bytes(void)
{
    make_out_page(0x02, ask_control);
    JOB(put_chunk, (uintptr_t)&collector, (uintptr_t)page, 1);
    job.silent = 1;
    job.times = page_length;
}

static void end_control(void)
{
    make_out_page(0x02, ask_control);
    plain_put_chunk(&collector, page, page_length);
    JOB(end_page, (uintptr_t)&collector, SHELF, 0x02, (uintptr_t)&offset);
}

static void end_thresholds(void)
{
    make_out_page(0x05, ask_thresholds);
    plain_put_chunk(&collector, page, page_length);
    JOB(end_page, (uintptr_t)&collector, SHELF, 0x05, (uintptr_t)&offset);
}

static void build_as_stored(void)
{
    JOB(build_control, SHELF, (uintptr_t)wanted, 4 * elements, OUT, (uintptr_t)&selects);
}

static void build_one_element(void)
{
    want_ident(elements / 2);
    build_as_stored();
}

static void build_all_alike(void)
{
    for (unsigned j = 0; j < elements; j++)
        want_ident(j);
    build_as_stored();
}

static void build_all_different(void)
{
    want_different();
    build_as_stored();
}

static const struct {
    char name[32];
    void (*make)(void);
} calls[] = {
    {"check", check},
    {"write_configuration", write_configuration},
    {"read_configuration", read_configuration},
    {"rewrite_configuration", rewrite_configuration},
    {"write_status", write_status},
    {"read_status", read_status},
    {"rewrite_status", rewrite_status},
    {"write_thresholds", write_thresholds},
    {"read_thresholds", read_thresholds},
    {"rewrite_thresholds", rewrite_thresholds},
    {"apply_control", apply_control},
    {"apply_thresholds", apply_thresholds},
    {"empty_collector", empty_collector},
    {"put_chunk, whole page", put_page},
    {"put_chunk, byte by byte", put_bytes},
    {"end_page, control", end_control},
    {"end_page, thresholds", end_thresholds},
    {"build_control, as stored", build_as_stored},
    {"build_control, one element", build_one_element},
    {"build_control, all alike", build_all_alike},
    {"build_control, all different", build_all_different},
    {"write_descriptors, 32 bytes", write_descriptors},
    {"write_descriptors, no names", write_no_names},
    {"read_descriptors, 32 bytes", read_descriptors},
    {"read_descriptors, no names", read_no_names},
    {"rewrite_descriptors, 32 bytes", rewrite_descriptors},
    {"rewrite_descriptors, no names", rewrite_no_names},
    {"find_name, first", find_first},
    {"find_name, last", find_last},
    {"find_name, none", find_nothing},
    {"set_name", set_name},
    {"set_overall_name", set_overall_name},
};

_Static_assert(sizeof calls / sizeof *calls == COUNTED_CALLS, "the counter knows how many calls there are");

/* What a call starts from does not depend on the cases before. */
static void start(unsigned s)
{
    make_shelf(s);
    make_header(0);
    want_stored();
    memset(out, 0xEE, sizeof out);
    memset(&status, 0xEE, sizeof status);
    memset(&thresholds, 0xEE, sizeof thresholds);
    memset(&names, 0xEE, sizeof names);
    memset(&collector, 0xEE, sizeof collector);
    plain_empty_collector(&collector);
    written = selects = offset = found = 0xEEEEEEEE;
}

void prepare(unsigned call, unsigned on_shelf)
{
    start(on_shelf);
    calls[call].make();
    memcpy(job.call, calls[call].name, sizeof job.call);
    memcpy(job.shelf, shelves[on_shelf].name, sizeof job.shelf);
}
