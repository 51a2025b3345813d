/* Request Five: FAIL of a sensor's status element, bit 6 of byte 1, is shown if it is stored or the code is 2 or 3; with code 1 or 6
 * it is the stored one. A fan's, bit 6 of byte 3, always is. An overall element shows none. Control pages and the builder know the
 * stored FAIL alone. The bytes are worked out by hand. */
#include "literals.h"

#include <stdio.h>
#include <string.h>

#define LENGTH_OF(table) (sizeof table / sizeof *table)

#define NOTHING 0x00, 0x00, 0x00, 0x00
#define FAIL 0x00, 0x40, 0x00, 0x00

/* One element alone. Its type and settings; high critical, high warning, low warning, low critical; reading and nominal; then page
 * byte 1 (CRIT 02h, NON-CRIT 04h) and the status element. */
static const struct {
    uint8_t type, settings[4], thresholds[4];
    uint16_t reading, nominal;
    uint8_t byte_1, element[4];
} elements[] = {
    /* Temperatures: byte 3 has OT FAILURE 08h, OT WARNING 04h, UT FAILURE 02h, UT WARNING 01h. At a limit, and past it. */
    {TEMPERATURE, {NOTHING}, {0, 64, 0, 0}, 64, 0, 0x00, {0x01, 0x00, 0x40, 0x00}},
    {TEMPERATURE, {NOTHING}, {0, 64, 0, 0}, 65, 0, 0x04, {0x03, 0x40, 0x41, 0x04}},
    {TEMPERATURE, {NOTHING}, {75, 0, 0, 0}, 75, 0, 0x00, {0x01, 0x00, 0x4B, 0x00}},
    {TEMPERATURE, {NOTHING}, {75, 0, 0, 0}, 76, 0, 0x02, {0x02, 0x40, 0x4C, 0x08}},
    {TEMPERATURE, {NOTHING}, {0, 0, 30, 0}, 30, 0, 0x00, {0x01, 0x00, 0x1E, 0x00}},
    {TEMPERATURE, {NOTHING}, {0, 0, 30, 0}, 29, 0, 0x04, {0x03, 0x40, 0x1D, 0x01}},
    {TEMPERATURE, {NOTHING}, {0, 0, 0, 20}, 20, 0, 0x00, {0x01, 0x00, 0x14, 0x00}},
    {TEMPERATURE, {NOTHING}, {0, 0, 0, 20}, 19, 0, 0x02, {0x02, 0x40, 0x13, 0x02}},
    {TEMPERATURE, {NOTHING}, {75, 65, 30, 20}, 76, 0, 0x02, {0x02, 0x40, 0x4C, 0x0C}},
    {TEMPERATURE, {NOTHING}, {75, 65, 30, 20}, 66, 0, 0x04, {0x03, 0x40, 0x42, 0x04}},
    {TEMPERATURE, {NOTHING}, {75, 65, 30, 20}, 48, 0, 0x00, {0x01, 0x00, 0x30, 0x00}},
    {TEMPERATURE, {NOTHING}, {75, 65, 30, 20}, 19, 0, 0x02, {0x02, 0x40, 0x13, 0x03}},
    /* Above one warning and below the other. */
    {TEMPERATURE, {NOTHING}, {0, 64, 70, 0}, 66, 0, 0x04, {0x03, 0x40, 0x42, 0x05}},
    /* Without limits. */
    {TEMPERATURE, {NOTHING}, {0, 0, 0, 0}, 255, 0, 0x00, {0x01, 0x00, 0xFF, 0x00}},
    {TEMPERATURE, {FAIL}, {0, 0, 0, 0}, 1, 0, 0x00, {0x01, 0x40, 0x01, 0x00}},
    /* No reading: code 6, and no limit trips, though 0 is below the low ones. */
    {TEMPERATURE, {NOTHING}, {75, 65, 30, 20}, 0, 0, 0x00, {0x06, 0x00, 0x00, 0x00}},
    {TEMPERATURE, {FAIL}, {75, 65, 30, 20}, 0, 0, 0x00, {0x06, 0x40, 0x00, 0x00}},
    {TEMPERATURE, {NOTHING}, {0, 0, 0, 0}, 0, 0, 0x00, {0x06, 0x00, 0x00, 0x00}},
    {TEMPERATURE, {0x70, 0x80, 0x00, 0x00}, {75, 65, 30, 20}, 0, 0, 0x00, {0x76, 0x80, 0x00, 0x00}},
    /* FAIL stored. */
    {TEMPERATURE, {FAIL}, {0, 64, 0, 0}, 64, 0, 0x00, {0x01, 0x40, 0x40, 0x00}},
    {TEMPERATURE, {FAIL}, {0, 64, 0, 0}, 65, 0, 0x04, {0x03, 0x40, 0x41, 0x04}},
    {TEMPERATURE, {FAIL}, {75, 0, 0, 0}, 76, 0, 0x02, {0x02, 0x40, 0x4C, 0x08}},
    /* Each other flag alone, and all: PRDFAIL 40h, DISABLED 20h and SWAP 10h of byte 0, IDENT 80h of byte 1. */
    {TEMPERATURE, {0x40, 0x00, 0x00, 0x00}, {0, 64, 0, 0}, 65, 0, 0x04, {0x43, 0x40, 0x41, 0x04}},
    {TEMPERATURE, {0x20, 0x00, 0x00, 0x00}, {0, 64, 0, 0}, 65, 0, 0x04, {0x23, 0x40, 0x41, 0x04}},
    {TEMPERATURE, {0x10, 0x00, 0x00, 0x00}, {0, 64, 0, 0}, 65, 0, 0x04, {0x13, 0x40, 0x41, 0x04}},
    {TEMPERATURE, {0x00, 0x80, 0x00, 0x00}, {0, 64, 0, 0}, 65, 0, 0x04, {0x03, 0xC0, 0x41, 0x04}},
    {TEMPERATURE, {0x70, 0x80, 0x00, 0x00}, {0, 64, 0, 0}, 64, 0, 0x00, {0x71, 0x80, 0x40, 0x00}},
    {TEMPERATURE, {0x70, 0x80, 0x00, 0x00}, {0, 64, 0, 0}, 65, 0, 0x04, {0x73, 0xC0, 0x41, 0x04}},
    {TEMPERATURE, {0x70, 0xC0, 0x00, 0x00}, {0, 64, 0, 0}, 64, 0, 0x00, {0x71, 0xC0, 0x40, 0x00}},

    /* Voltages: byte 1 has WARN OVER 08h, WARN UNDER 04h, CRIT OVER 02h, CRIT UNDER 01h. 350 x 5 = 1,750: 8 units away are 1,600,
     * 9 are 1,800. 1,200 x 20 = 24,000: 120 units are as much, 121 are 24,200. 342, 341, 358 and 359 are 0156h, 0155h, 0166h and
     * 0167h; 1,080, 1,079, 1,320 and 1,321 are 0438h, 0437h, 0528h and 0529h. */
    {VOLTAGE, {NOTHING}, {0, 5, 0, 0}, 358, 350, 0x00, {0x01, 0x00, 0x01, 0x66}},
    {VOLTAGE, {NOTHING}, {0, 5, 0, 0}, 359, 350, 0x04, {0x03, 0x48, 0x01, 0x67}},
    {VOLTAGE, {NOTHING}, {0, 0, 5, 0}, 342, 350, 0x00, {0x01, 0x00, 0x01, 0x56}},
    {VOLTAGE, {NOTHING}, {0, 0, 5, 0}, 341, 350, 0x04, {0x03, 0x44, 0x01, 0x55}},
    {VOLTAGE, {NOTHING}, {20, 0, 0, 0}, 1320, 1200, 0x00, {0x01, 0x00, 0x05, 0x28}},
    {VOLTAGE, {NOTHING}, {20, 0, 0, 0}, 1321, 1200, 0x02, {0x02, 0x42, 0x05, 0x29}},
    {VOLTAGE, {NOTHING}, {0, 0, 0, 20}, 1080, 1200, 0x00, {0x01, 0x00, 0x04, 0x38}},
    {VOLTAGE, {NOTHING}, {0, 0, 0, 20}, 1079, 1200, 0x02, {0x02, 0x41, 0x04, 0x37}},
    {VOLTAGE, {NOTHING}, {0, 0, 0, 20}, 0xFFFF, 1200, 0x02, {0x02, 0x41, 0xFF, 0xFF}},
    {VOLTAGE, {NOTHING}, {20, 5, 5, 20}, 1321, 1200, 0x02, {0x02, 0x4A, 0x05, 0x29}},
    {VOLTAGE, {NOTHING}, {20, 5, 5, 20}, 1079, 1200, 0x02, {0x02, 0x45, 0x04, 0x37}},
    /* A reading of 0 is one here. */
    {VOLTAGE, {NOTHING}, {0, 0, 0, 0}, 0, 1200, 0x00, {0x01, 0x00, 0x00, 0x00}},
    {VOLTAGE, {FAIL}, {0, 0, 0, 0}, 0, 1200, 0x00, {0x01, 0x40, 0x00, 0x00}},
    {VOLTAGE, {NOTHING}, {0, 0, 0, 20}, 0, 1200, 0x02, {0x02, 0x41, 0x00, 0x00}},
    {VOLTAGE, {FAIL}, {0, 5, 0, 0}, 358, 350, 0x00, {0x01, 0x40, 0x01, 0x66}},
    {VOLTAGE, {FAIL}, {0, 5, 0, 0}, 359, 350, 0x04, {0x03, 0x48, 0x01, 0x67}},
    {VOLTAGE, {FAIL}, {20, 0, 0, 0}, 1321, 1200, 0x02, {0x02, 0x42, 0x05, 0x29}},
    {VOLTAGE, {0x70, 0x80, 0x00, 0x00}, {0, 5, 0, 0}, 358, 350, 0x00, {0x71, 0x80, 0x01, 0x66}},
    {VOLTAGE, {0x70, 0x80, 0x00, 0x00}, {0, 5, 0, 0}, 359, 350, 0x04, {0x73, 0xC8, 0x01, 0x67}},
    {VOLTAGE, {0x70, 0xC0, 0x00, 0x00}, {0, 5, 0, 0}, 358, 350, 0x00, {0x71, 0xC0, 0x01, 0x66}},

    /* Currents: the same, high only. */
    {CURRENT, {NOTHING}, {0, 5, 0, 0}, 358, 350, 0x00, {0x01, 0x00, 0x01, 0x66}},
    {CURRENT, {NOTHING}, {0, 5, 0, 0}, 359, 350, 0x04, {0x03, 0x48, 0x01, 0x67}},
    {CURRENT, {NOTHING}, {20, 0, 0, 0}, 1320, 1200, 0x00, {0x01, 0x00, 0x05, 0x28}},
    {CURRENT, {NOTHING}, {20, 0, 0, 0}, 1321, 1200, 0x02, {0x02, 0x42, 0x05, 0x29}},
    {CURRENT, {NOTHING}, {20, 5, 0, 0}, 1321, 1200, 0x02, {0x02, 0x4A, 0x05, 0x29}},
    {CURRENT, {NOTHING}, {20, 5, 0, 0}, 0xFFFF, 1200, 0x00, {0x01, 0x00, 0xFF, 0xFF}},
    {CURRENT, {NOTHING}, {0, 0, 0, 0}, 0, 1200, 0x00, {0x01, 0x00, 0x00, 0x00}},
    {CURRENT, {FAIL}, {0, 5, 0, 0}, 358, 350, 0x00, {0x01, 0x40, 0x01, 0x66}},
    {CURRENT, {FAIL}, {0, 5, 0, 0}, 359, 350, 0x04, {0x03, 0x48, 0x01, 0x67}},
    {CURRENT, {FAIL}, {20, 0, 0, 0}, 1321, 1200, 0x02, {0x02, 0x42, 0x05, 0x29}},
    {CURRENT, {0x70, 0x80, 0x00, 0x00}, {0, 5, 0, 0}, 358, 350, 0x00, {0x71, 0x80, 0x01, 0x66}},
    {CURRENT, {0x70, 0x80, 0x00, 0x00}, {0, 5, 0, 0}, 359, 350, 0x04, {0x73, 0xC8, 0x01, 0x67}},
    {CURRENT, {0x70, 0xC0, 0x00, 0x00}, {0, 5, 0, 0}, 358, 350, 0x00, {0x71, 0xC0, 0x01, 0x66}},

    /* Fans that are ON: code 2 with reading 0. FAIL is 40h of byte 3, and there is none in byte 1. */
    {COOLING, {0x00, 0x00, 0x00, 0x23}, {0}, 0, 0, 0x02, {0x02, 0x00, 0x00, 0x23}},
    {COOLING, {0x00, 0x00, 0x00, 0x63}, {0}, 0, 0, 0x02, {0x02, 0x00, 0x00, 0x63}},
    {COOLING, {0x00, 0x00, 0x00, 0x23}, {0}, 120, 0, 0x00, {0x01, 0x00, 0x78, 0x23}},
    {COOLING, {0x00, 0x00, 0x00, 0x63}, {0}, 120, 0, 0x00, {0x01, 0x00, 0x78, 0x63}},
    {COOLING, {0x70, 0x80, 0x00, 0x27}, {0}, 0, 0, 0x02, {0x72, 0x80, 0x00, 0x27}},
};

/* A page of 16 bytes: the overall element has the code of the one element, and no FAIL. The shelf is as it was. */
static void hold_one(const char *what, uint8_t *shelf, uint8_t byte_1, const uint8_t element[4])
{
    uint8_t page[16] = {0x02, byte_1, 0x00, 0x0C, 0x00, 0x00, 0x00, 0x07, element[0] & 0x0F}, kept[SENSOR_LENGTH];
    struct output out;
    memcpy(page + 12, element, 4);
    memcpy(kept, shelf, SENSOR_LENGTH);
    empty(&out);
    hold(what, ses_write_status(shelf, SENSOR_LENGTH, out.bytes, sizeof out.bytes, &out.written), 0);
    hold_output(what, &out, page, 16);
    hold_bytes(what, shelf, kept, SENSOR_LENGTH);
}

static void hold_shown(void)
{
    for (size_t i = 0; i < LENGTH_OF(elements); i++) {
        uint8_t shelf[SENSOR_LENGTH];
        char what[40];
        snprintf(what, sizeof what, "FAIL of element %zu, of type %02x", i, elements[i].type);
        put_sensor(shelf, elements[i].type, elements[i].thresholds, elements[i].reading, elements[i].nominal);
        memcpy(shelf + 332, elements[i].settings, 4);
        hold_one(what, shelf, elements[i].byte_1, elements[i].element);
    }
}

/* A sensor with a limit and two readings, one at the limit and one past it; what it shows of each with nothing stored, and page
 * byte 1 for the second. */
static const struct sensor {
    uint8_t type, thresholds[4];
    uint16_t at, past, nominal;
    uint8_t quiet[4], byte_1, tripped[4];
} sensors[] = {
    {TEMPERATURE, {0, 64, 0, 0}, 64, 65, 0, {0x01, 0x00, 0x40, 0x00}, 0x04, {0x03, 0x40, 0x41, 0x04}},
    {TEMPERATURE, {0, 0, 0, 20}, 20, 19, 0, {0x01, 0x00, 0x14, 0x00}, 0x02, {0x02, 0x40, 0x13, 0x02}},
    {VOLTAGE, {0, 5, 0, 0}, 358, 359, 350, {0x01, 0x00, 0x01, 0x66}, 0x04, {0x03, 0x48, 0x01, 0x67}},
    {VOLTAGE, {0, 0, 0, 20}, 1080, 1079, 1200, {0x01, 0x00, 0x04, 0x38}, 0x02, {0x02, 0x41, 0x04, 0x37}},
    {CURRENT, {0, 5, 0, 0}, 358, 359, 350, {0x01, 0x00, 0x01, 0x66}, 0x04, {0x03, 0x48, 0x01, 0x67}},
    {CURRENT, {20, 0, 0, 0}, 1320, 1321, 1200, {0x01, 0x00, 0x05, 0x28}, 0x02, {0x02, 0x42, 0x05, 0x29}},
};

static void put_stored(uint8_t shelf[SENSOR_LENGTH], const struct sensor *s, uint16_t reading, uint8_t stored)
{
    put_sensor(shelf, s->type, s->thresholds, reading, s->nominal);
    shelf[333] = stored;
}

static void put_reading(uint8_t shelf[SENSOR_LENGTH], uint16_t reading)
{
    shelf[340] = reading >> 8;
    shelf[341] = reading & 0xFF;
}

/* A control page of 16 bytes with these overall and individual elements leaves this byte 1 of the settings, and every other byte of
 * the shelf as it was. */
static void apply(const char *what, uint8_t shelf[SENSOR_LENGTH], const uint8_t slots[8], uint8_t stored)
{
    uint8_t page[16] = {0x02, 0x00, 0x00, 0x0C, 0x00, 0x00, 0x00, 0x07}, left[SENSOR_LENGTH];
    struct told told;
    memcpy(page + 8, slots, 8);
    memcpy(left, shelf, SENSOR_LENGTH);
    left[333] = stored;
    fill(&told, sizeof told);
    told.number = ses_apply_control(shelf, SENSOR_LENGTH, page, 16, &told.offset);
    hold_told(what, told, 0, 0);
    hold_bytes(what, shelf, left, SENSOR_LENGTH);
}

/* SELECT is 80h of byte 0, RQST FAIL 40h of byte 1. */
#define CLEARS NOTHING, 0x80, 0x00, 0x00, 0x00
#define ALL_CLEAR 0x80, 0x00, 0x00, 0x00, NOTHING
#define SETS NOTHING, 0x80, 0x40, 0x00, 0x00

static void hold_controlled(const struct sensor *s)
{
    uint8_t shelf[SENSOR_LENGTH], quiet_and_fail[4];
    memcpy(quiet_and_fail, s->quiet, 4);
    quiet_and_fail[1] = 0x40;

    put_stored(shelf, s, s->past, 0x40);
    hold_one("tripped, FAIL stored", shelf, s->byte_1, s->tripped);
    apply("tripped, FAIL cleared", shelf, (const uint8_t[8]){CLEARS}, 0x00);
    hold_one("tripped, FAIL cleared", shelf, s->byte_1, s->tripped);
    put_reading(shelf, s->at);
    hold_one("no longer tripped, FAIL cleared", shelf, 0x00, s->quiet);
    apply("not tripped, FAIL set", shelf, (const uint8_t[8]){SETS}, 0x40);
    hold_one("not tripped, FAIL set", shelf, 0x00, quiet_and_fail);
    apply("not tripped, FAIL cleared", shelf, (const uint8_t[8]){CLEARS}, 0x00);
    hold_one("not tripped, FAIL cleared", shelf, 0x00, s->quiet);

    put_stored(shelf, s, s->past, 0x00);
    hold_one("tripped", shelf, s->byte_1, s->tripped);
    apply("tripped, FAIL set", shelf, (const uint8_t[8]){SETS}, 0x40);
    hold_one("tripped, FAIL set", shelf, s->byte_1, s->tripped);
    put_reading(shelf, s->at);
    hold_one("no longer tripped, FAIL set", shelf, 0x00, quiet_and_fail);
    apply("no longer tripped, FAIL of all cleared", shelf, (const uint8_t[8]){ALL_CLEAR}, 0x00);
    hold_one("no longer tripped, FAIL of all cleared", shelf, 0x00, s->quiet);

    /* A page without SELECT stores nothing of what shows. */
    put_stored(shelf, s, s->past, 0x00);
    apply("tripped, nothing asked", shelf, (const uint8_t[8]){0}, 0x00);
    hold_one("tripped, nothing asked", shelf, s->byte_1, s->tripped);
}

/* What is wanted of a tripped sensor, which shows the same whether FAIL is stored or not: the page goes from the stored one. Of the
 * two elements that could have the one SELECT, the individual one gives the first page in dictionary order. */
static const struct {
    const char *what;
    uint8_t stored, wanted[4], slots[8];
    uint32_t selects;
} wishes[] = {
    {"tripped, FAIL neither stored nor wanted", 0x00, {NOTHING}, {NOTHING, NOTHING}, 0},
    {"tripped, FAIL not stored but wanted", 0x00, {FAIL}, {SETS}, 1},
    {"tripped, FAIL stored but not wanted", 0x40, {NOTHING}, {CLEARS}, 1},
    {"tripped, FAIL stored and wanted", 0x40, {FAIL}, {NOTHING, NOTHING}, 0},
    {"tripped, IDENT wanted", 0x00, {0x00, 0x80, 0x00, 0x00}, {NOTHING, 0x80, 0x80, 0x00, 0x00}, 1},
};

static void hold_built(const struct sensor *s)
{
    for (size_t i = 0; i < LENGTH_OF(wishes); i++) {
        uint8_t shelf[SENSOR_LENGTH], page[16] = {0x02, 0x00, 0x00, 0x0C, 0x00, 0x00, 0x00, 0x07};
        struct output out;
        const char *what = wishes[i].what;
        memcpy(page + 8, wishes[i].slots, 8);
        put_stored(shelf, s, s->past, wishes[i].stored);
        hold_one(what, shelf, s->byte_1, s->tripped);
        empty(&out);
        hold(what, ses_build_control(shelf, SENSOR_LENGTH, wishes[i].wanted, 4, out.bytes, sizeof out.bytes, &out.written,
                                     &out.selects), 0);
        hold(what, out.selects, wishes[i].selects);
        hold_output(what, &out, page, 16);
        apply(what, shelf, wishes[i].slots, wishes[i].wanted[1]);
    }
}

/* The high warning of a temperature of 65, moved by threshold pages, lights FAIL and puts it out again; the settings stay. */
static const struct {
    const char *what;
    uint8_t limit, byte_1, element[4];
} moves[] = {
    {"the limit becomes 64", 64, 0x04, {0x03, 0x40, 0x41, 0x04}},
    {"the limit becomes 65", 65, 0x00, {0x01, 0x00, 0x41, 0x00}},
};

static void hold_moved_limit(void)
{
    uint8_t shelf[SENSOR_LENGTH], left[SENSOR_LENGTH];
    put_sensor(shelf, TEMPERATURE, (const uint8_t[4]){0}, 65, 0);
    hold_one("65 without a limit", shelf, 0x00, (const uint8_t[4]){0x01, 0x00, 0x41, 0x00});
    for (size_t i = 0; i < LENGTH_OF(moves); i++) {
        uint8_t page[16] = {0x05, 0x00, 0x00, 0x0C, 0x00, 0x00, 0x00, 0x07, [13] = moves[i].limit};
        struct told told;
        fill(&told, sizeof told);
        told.number = ses_apply_thresholds(shelf, SENSOR_LENGTH, page, 16, &told.offset);
        hold_told(moves[i].what, told, 0, 0);
        put_sensor(left, TEMPERATURE, (const uint8_t[4]){0, moves[i].limit, 0, 0}, 65, 0);
        hold_bytes(moves[i].what, shelf, left, SENSOR_LENGTH);
        hold_one(moves[i].what, shelf, moves[i].byte_1, moves[i].element);
    }
}

/* Elements of all types and codes beside each other: 2 fans, 4 temperatures, 3 voltages and 3 currents. They have 332 + 16 x 12 +
 * 32 x 16 = 1,036 bytes, and a page of 8 + 4 x 16 = 72, length field 0044h. 350 and 1,200 are 015Eh and 04B0h. */
enum { MIXED_LENGTH = 1036, MIXED_PAGE = 72, ENTRIES = 16, ELEMENTS = 12 };

#define HEADER(byte_1) 0x02, byte_1, 0x00, 0x44, 0x00, 0x00, 0x00, 0x07

static const uint8_t mixed[MIXED_LENGTH] = {
    [3] = 7,
    [40] = 4,
    [44] = COOLING, 2,
    [80] = TEMPERATURE, 4,
    [116] = VOLTAGE, 3,
    [152] = CURRENT, 3,
    /* Settings, thresholds, reading and nominal. */
    [332] = 0x00, 0x00, 0x00, 0x23, 0, 0, 0, 0, 0x00, 0x00,
    [348] = 0x00, 0x00, 0x00, 0x63, 0, 0, 0, 0, 0x00, 0x78,
    [364] = NOTHING, 0, 64, 0, 0, 0x00, 0x41,
    [380] = NOTHING, 0, 64, 0, 0, 0x00, 0x00,
    [396] = FAIL, 0, 64, 0, 0, 0x00, 0x40,
    [412] = NOTHING, 75, 0, 0, 0, 0x00, 0x4C,
    [428] = NOTHING, 0, 5, 0, 0, 0x01, 0x67, 0x01, 0x5E,
    [444] = NOTHING, 0, 5, 0, 0, 0x01, 0x66, 0x01, 0x5E,
    [460] = NOTHING, 0, 0, 0, 20, 0x04, 0x37, 0x04, 0xB0,
    [476] = NOTHING, 20, 0, 0, 0, 0x05, 0x28, 0x04, 0xB0,
    [492] = FAIL, 20, 0, 0, 0, 0x05, 0x29, 0x04, 0xB0,
    [508] = NOTHING, 0, 5, 0, 0, 0x01, 0x67, 0x01, 0x5E,
};

/* In each type the worst code is 2. */
#define OVERALL 0x02, 0x00, 0x00, 0x00

static const uint8_t mixed_status[MIXED_PAGE] = {
    HEADER(0x06),
    OVERALL, 0x02, 0x00, 0x00, 0x23, 0x01, 0x00, 0x78, 0x63,
    OVERALL, 0x03, 0x40, 0x41, 0x04, 0x06, 0x00, 0x00, 0x00, 0x01, 0x40, 0x40, 0x00, 0x02, 0x40, 0x4C, 0x08,
    OVERALL, 0x03, 0x48, 0x01, 0x67, 0x01, 0x00, 0x01, 0x66, 0x02, 0x41, 0x04, 0x37,
    OVERALL, 0x01, 0x00, 0x05, 0x28, 0x02, 0x42, 0x05, 0x29, 0x03, 0x48, 0x01, 0x67,
};

/* Pages for it, each applied to what the one before left: FAIL of all cleared, asked for everywhere, and cleared for one of each
 * type. The FAILs stored then, for each element 1 if it has one, and the status page. A fan's element has RQST FAIL 40h and RQST ON
 * 20h in byte 3. */
static const struct {
    const char *what;
    uint8_t control[MIXED_PAGE], stored[ELEMENTS], status[MIXED_PAGE];
} steps[] = {
    {"no FAIL stored",
     {HEADER(0x00), 0x80, 0x00, 0x00, 0x20, NOTHING, NOTHING,
      0x80, 0x00, 0x00, 0x00, NOTHING, NOTHING, NOTHING, NOTHING,
      0x80, 0x00, 0x00, 0x00, NOTHING, NOTHING, NOTHING,
      0x80, 0x00, 0x00, 0x00, NOTHING, NOTHING, NOTHING},
     {0},
     {HEADER(0x06),
      OVERALL, 0x02, 0x00, 0x00, 0x23, 0x01, 0x00, 0x78, 0x23,
      OVERALL, 0x03, 0x40, 0x41, 0x04, 0x06, 0x00, 0x00, 0x00, 0x01, 0x00, 0x40, 0x00, 0x02, 0x40, 0x4C, 0x08,
      OVERALL, 0x03, 0x48, 0x01, 0x67, 0x01, 0x00, 0x01, 0x66, 0x02, 0x41, 0x04, 0x37,
      OVERALL, 0x01, 0x00, 0x05, 0x28, 0x02, 0x42, 0x05, 0x29, 0x03, 0x48, 0x01, 0x67}},
    {"each FAIL stored",
     {HEADER(0x00), 0x80, 0x00, 0x00, 0x60, NOTHING, NOTHING,
      0x80, 0x40, 0x00, 0x00, NOTHING, NOTHING, NOTHING, NOTHING,
      0x80, 0x40, 0x00, 0x00, NOTHING, NOTHING, NOTHING,
      0x80, 0x40, 0x00, 0x00, NOTHING, NOTHING, NOTHING},
     {1, 1, 1, 1, 1, 1, 1, 1, 1, 1, 1, 1},
     {HEADER(0x06),
      OVERALL, 0x02, 0x00, 0x00, 0x63, 0x01, 0x00, 0x78, 0x63,
      OVERALL, 0x03, 0x40, 0x41, 0x04, 0x06, 0x40, 0x00, 0x00, 0x01, 0x40, 0x40, 0x00, 0x02, 0x40, 0x4C, 0x08,
      OVERALL, 0x03, 0x48, 0x01, 0x67, 0x01, 0x40, 0x01, 0x66, 0x02, 0x41, 0x04, 0x37,
      OVERALL, 0x01, 0x40, 0x05, 0x28, 0x02, 0x42, 0x05, 0x29, 0x03, 0x48, 0x01, 0x67}},
    {"one FAIL of each type cleared",
     {HEADER(0x00), NOTHING, 0x80, 0x00, 0x00, 0x20, NOTHING,
      NOTHING, NOTHING, 0x80, 0x00, 0x00, 0x00, NOTHING, NOTHING,
      NOTHING, NOTHING, NOTHING, 0x80, 0x00, 0x00, 0x00,
      NOTHING, 0x80, 0x00, 0x00, 0x00, NOTHING, NOTHING},
     {0, 1, 1, 0, 1, 1, 1, 1, 0, 0, 1, 1},
     {HEADER(0x06),
      OVERALL, 0x02, 0x00, 0x00, 0x23, 0x01, 0x00, 0x78, 0x63,
      OVERALL, 0x03, 0x40, 0x41, 0x04, 0x06, 0x00, 0x00, 0x00, 0x01, 0x40, 0x40, 0x00, 0x02, 0x40, 0x4C, 0x08,
      OVERALL, 0x03, 0x48, 0x01, 0x67, 0x01, 0x40, 0x01, 0x66, 0x02, 0x41, 0x04, 0x37,
      OVERALL, 0x01, 0x00, 0x05, 0x28, 0x02, 0x42, 0x05, 0x29, 0x03, 0x48, 0x01, 0x67}},
};

/* A fan's FAIL is 40h of byte 3 of its settings, a sensor's of byte 1. */
static void put_mixed(uint8_t shelf[MIXED_LENGTH], const uint8_t stored[ELEMENTS])
{
    memcpy(shelf, mixed, MIXED_LENGTH);
    for (size_t j = 0; j < ELEMENTS; j++) {
        uint8_t *byte = shelf + 332 + 16 * j + (j < 2 ? 3 : 1);
        *byte = stored[j] != 0 ? *byte | 0x40 : *byte & ~0x40;
    }
}

static void hold_mixed_status(const char *what, const uint8_t *shelf, const uint8_t page[MIXED_PAGE])
{
    struct output out;
    empty(&out);
    hold(what, ses_write_status(shelf, MIXED_LENGTH, out.bytes, sizeof out.bytes, &out.written), 0);
    hold_output(what, &out, page, MIXED_PAGE);
}

/* The settings that a shelf stores, wanted, need no SELECT, though other FAILs show. */
static void hold_as_stored(const char *what, const uint8_t *shelf)
{
    static const uint8_t no_select[MIXED_PAGE] = {HEADER(0x00)};
    uint8_t wanted[4 * ELEMENTS];
    struct output out;
    for (size_t j = 0; j < ELEMENTS; j++)
        memcpy(wanted + 4 * j, shelf + 332 + 16 * j, 4);
    empty(&out);
    hold(what, ses_build_control(shelf, MIXED_LENGTH, wanted, sizeof wanted, out.bytes, sizeof out.bytes, &out.written,
                                 &out.selects), 0);
    hold(what, out.selects, 0);
    hold_output(what, &out, no_select, MIXED_PAGE);
}

static void hold_mixed(void)
{
    uint8_t shelf[MIXED_LENGTH], stored[MIXED_LENGTH];
    memcpy(shelf, mixed, MIXED_LENGTH);
    hold_mixed_status("all types", shelf, mixed_status);
    hold_bytes("all types", shelf, mixed, MIXED_LENGTH);
    hold_as_stored("all types, wanted as stored", shelf);
    for (size_t i = 0; i < LENGTH_OF(steps); i++) {
        struct told told;
        fill(&told, sizeof told);
        told.number = ses_apply_control(shelf, MIXED_LENGTH, steps[i].control, MIXED_PAGE, &told.offset);
        hold_told(steps[i].what, told, 0, 0);
        put_mixed(stored, steps[i].stored);
        hold_bytes(steps[i].what, shelf, stored, MIXED_LENGTH);
        hold_mixed_status(steps[i].what, shelf, steps[i].status);
        hold_as_stored(steps[i].what, shelf);
    }
}

/* The entries of that status page: code, PRDFAIL, DISABLED, SWAP, IDENT; then of a fan two bytes of speed, FAIL, RQSTED ON, OFF,
 * speed code; of a sensor FAIL, at byte 5. Behind it a temperature has its reading, OT FAILURE, OT WARNING, UT FAILURE, UT WARNING;
 * a voltage WARN OVER, WARN UNDER, CRIT OVER, CRIT UNDER and two bytes of its reading; a current the same without the two UNDER. */
static const uint8_t mixed_entries[ENTRIES][16] = {
    {2}, {2, 0, 0, 0, 0, 0x00, 0x00, 0, 1, 0, 3}, {1, 0, 0, 0, 0, 0x00, 0x78, 1, 1, 0, 3},
    {2}, {3, 0, 0, 0, 0, 1, 0x41, 0, 1, 0, 0}, {6}, {1, 0, 0, 0, 0, 1, 0x40}, {2, 0, 0, 0, 0, 1, 0x4C, 1, 0, 0, 0},
    {2}, {3, 0, 0, 0, 0, 1, 1, 0, 0, 0, 0x01, 0x67}, {1, 0, 0, 0, 0, 0, 0, 0, 0, 0, 0x01, 0x66},
    {2, 0, 0, 0, 0, 1, 0, 0, 0, 1, 0x04, 0x37},
    {2}, {1, 0, 0, 0, 0, 0, 0, 0, 0x05, 0x28}, {2, 0, 0, 0, 0, 1, 0, 1, 0x05, 0x29}, {3, 0, 0, 0, 0, 1, 1, 0, 0x01, 0x67},
};

/* Read, the page gives these entries; written again, they give the page. NON-CRIT and CRIT are set. */
static void hold_read(const char *what, const uint8_t page[MIXED_PAGE], const uint8_t entries[ENTRIES][16])
{
    struct ses_status record, wanted;
    struct output out;
    struct told told;
    fill(&wanted, sizeof wanted);
    memcpy(&wanted, (const uint8_t[4]){1, 1, 0, ENTRIES}, 4);
    memcpy((uint8_t *)&wanted + 4, entries, 16 * ENTRIES);
    fill(&record, sizeof record);
    fill(&told, sizeof told);
    told.number = ses_read_status(mixed, 332, page, MIXED_PAGE, &record, &told.offset);
    hold_told(what, told, 0, 0);
    hold_bytes(what, &record, &wanted, sizeof record);
    empty(&out);
    hold(what, ses_rewrite_status(mixed, 332, &wanted, out.bytes, sizeof out.bytes, &out.written), 0);
    hold_output(what, &out, page, MIXED_PAGE);
}

/* No shelf shows code 2 or 3 of a sensor without FAIL. It is read all the same: in each such element alone, then in all. */
static void hold_odd(void)
{
    static const uint8_t tripped[] = {4, 7, 9, 11, 14, 15};
    uint8_t page[MIXED_PAGE], entries[ENTRIES][16], all[MIXED_PAGE], all_entries[ENTRIES][16];
    memcpy(all, mixed_status, MIXED_PAGE);
    memcpy(all_entries, mixed_entries, sizeof all_entries);
    for (size_t i = 0; i < sizeof tripped; i++) {
        unsigned at = tripped[i];
        memcpy(page, mixed_status, MIXED_PAGE);
        memcpy(entries, mixed_entries, sizeof entries);
        page[9 + 4 * at] &= 0xBF;
        all[9 + 4 * at] &= 0xBF;
        entries[at][5] = all_entries[at][5] = 0;
        hold_read("a tripped limit without FAIL", page, entries);
    }
    hold_read("tripped limits without FAIL", all, all_entries);
}

void hold_fail_shown(void)
{
    hold_shown();
    for (size_t i = 0; i < LENGTH_OF(sensors); i++) {
        hold_controlled(&sensors[i]);
        hold_built(&sensors[i]);
    }
    hold_moved_limit();
    hold_mixed();
    hold_read("all types, read", mixed_status, mixed_entries);
    hold_odd();
}
