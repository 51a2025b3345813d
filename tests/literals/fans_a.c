/* Document 01's numbers for shelf A that are no refusals: its pages, the pages built for it, and the verdicts beside them. */
#include "literals.h"

#include <string.h>

#define HEADER 0x02, 0x00, 0x00, 0x14, 0x00, 0x00, 0x00, 0x07
#define NOTHING 0x00, 0x00, 0x00, 0x00
#define SPEED_3 0x00, 0x00, 0x00, 0x23
#define SPEED_4 0x00, 0x00, 0x00, 0x24
#define SPEED_5 0x00, 0x00, 0x00, 0x25

/* Generation 7; one type: three fans, and a text of three bytes. Each fan: ON (20h) and SPEED 3, reading 120. Then four names. */
const uint8_t shelf_a[A_LENGTH] = {
    [3] = 7,
    [40] = 1,
    [44] = COOLING, 3, 3, 0, 'F', 'a', 'n',
    [332] = SPEED_3, [341] = 120,
    [348] = SPEED_3, [357] = 120,
    [364] = SPEED_3, [373] = 120,
    [380] = 'R', 'e', 'a', 'r', ' ', 'f', 'a', 'n', 's',
    [412] = 'F', 'a', 'n', ' ', 'r', 'e', 'a', 'r', ' ', 'l', 'e', 'f', 't',
    [444] = 'F', 'a', 'n', ' ', 'r', 'e', 'a', 'r', ' ', 'm', 'i', 'd', 'd', 'l', 'e',
    [476] = 'F', 'a', 'n', ' ', 'r', 'e', 'a', 'r', ' ', 'r', 'i', 'g', 'h', 't',
};

/* 55 bytes, length field 0033h. */
static const uint8_t configuration_of_a[55] = {
    0x01, 0x00, 0x00, 0x33, 0x00, 0x00, 0x00, 0x07, 0x11, 0x00, 0x01, 0x24,
    [48] = 0x03, 0x03, 0x00, 0x03, 'F', 'a', 'n',
};

static const uint8_t status_of_a[24] = {
    HEADER, 0x01, 0x00, 0x00, 0x00,
    0x01, 0x00, 0x78, 0x23, 0x01, 0x00, 0x78, 0x23, 0x01, 0x00, 0x78, 0x23,
};

/* The first fan ON with reading 0: code 2, page byte 1 is 02h, and 2 is the worst code of the type. */
static const uint8_t status_with_a_fan_at_0[24] = {
    0x02, 0x02, 0x00, 0x14, 0x00, 0x00, 0x00, 0x07, 0x02, 0x00, 0x00, 0x00,
    0x02, 0x00, 0x00, 0x23, 0x01, 0x00, 0x78, 0x23, 0x01, 0x00, 0x78, 0x23,
};

static void hold_pages(void)
{
    struct output out;
    empty(&out);
    hold("configuration of A", ses_write_configuration(shelf_a, A_LENGTH, out.bytes, 55, &out.written), 0);
    hold_output("configuration of A", &out, configuration_of_a, 55);

    /* Just long enough, and with room behind it. */
    for (size_t room = 24; room <= 30; room += 6) {
        empty(&out);
        hold("status of A", ses_write_status(shelf_a, A_LENGTH, out.bytes, room, &out.written), 0);
        hold_output("status of A", &out, status_of_a, 24);
    }

    uint8_t shelf[A_LENGTH];
    memcpy(shelf, shelf_a, A_LENGTH);
    shelf[341] = 0;
    empty(&out);
    hold("ON with reading 0", ses_write_status(shelf, A_LENGTH, out.bytes, 24, &out.written), 0);
    hold_output("ON with reading 0", &out, status_with_a_fan_at_0, 24);
}

static const struct wish wishes[] = {
    {"SPEED 5 for all",
     {SPEED_3, SPEED_3, SPEED_3}, {SPEED_5, SPEED_5, SPEED_5},
     {HEADER, 0x80, 0x00, 0x00, 0x25, NOTHING, NOTHING, NOTHING}, 1},
    {"SPEED 5 for the middle fan",
     {SPEED_3, SPEED_3, SPEED_3}, {SPEED_3, SPEED_5, SPEED_3},
     {HEADER, NOTHING, NOTHING, 0x80, 0x00, 0x00, 0x25, NOTHING}, 1},
    {"SPEED 5 for the first two",
     {SPEED_3, SPEED_3, SPEED_3}, {SPEED_5, SPEED_5, SPEED_3},
     {HEADER, NOTHING, 0x80, 0x00, 0x00, 0x25, 0x80, 0x00, 0x00, 0x25, NOTHING}, 2},
    {"IDENT on all",
     {SPEED_3, SPEED_4, SPEED_5}, {0x00, 0x80, 0x00, 0x23, 0x00, 0x80, 0x00, 0x24, 0x00, 0x80, 0x00, 0x25},
     {HEADER, 0x80, 0x80, 0x00, 0x20, NOTHING, NOTHING, NOTHING}, 1},
    {"SWAP cleared",
     {0x10, 0x00, 0x00, 0x23, SPEED_3, SPEED_3}, {SPEED_3, SPEED_3, SPEED_3},
     {HEADER, NOTHING, 0x90, 0x00, 0x00, 0x20, NOTHING, NOTHING}, 1},
    {"wanted equal to stored",
     {SPEED_3, SPEED_3, SPEED_3}, {SPEED_3, SPEED_3, SPEED_3},
     {HEADER, NOTHING, NOTHING, NOTHING, NOTHING}, 0},
};

void put_fans(uint8_t shelf[A_LENGTH], const uint8_t settings[12])
{
    memcpy(shelf, shelf_a, A_LENGTH);
    memcpy(shelf + 332, settings, 4);
    memcpy(shelf + 348, settings + 4, 4);
    memcpy(shelf + 364, settings + 8, 4);
}

/* The page brings the shelf to what is wanted, and changes nothing else, no name either. */
static void hold_applied(const char *what, const uint8_t stored[12], const uint8_t page[24], const uint8_t wanted[12])
{
    uint8_t shelf[A_LENGTH], brought[A_LENGTH];
    uint32_t offset;
    put_fans(shelf, stored);
    put_fans(brought, wanted);
    fill(&offset, sizeof offset);
    hold(what, ses_apply_control(shelf, A_LENGTH, page, 24, &offset), 0);
    hold(what, offset, 0);
    hold_bytes(what, shelf, brought, A_LENGTH);
}

void hold_wish(const struct wish *w)
{
    uint8_t shelf[A_LENGTH];
    struct output out;
    put_fans(shelf, w->stored);
    empty(&out);
    hold(w->what,
         ses_build_control(shelf, A_LENGTH, w->wanted, 12, out.bytes, sizeof out.bytes, &out.written, &out.selects), 0);
    hold(w->what, out.selects, w->selects);
    hold_output(w->what, &out, w->page, 24);
    hold_applied(w->what, w->stored, w->page, w->wanted);
}

static void hold_wishes(void)
{
    for (size_t i = 0; i < sizeof wishes / sizeof *wishes; i++)
        hold_wish(&wishes[i]);
    /* The other way to SPEED 5 for the first two: the overall element for them, the last fan by itself, two SELECTs as well. */
    static const uint8_t other[24] = {HEADER, 0x80, 0x00, 0x00, 0x25, NOTHING, NOTHING, 0x80, 0x00, 0x00, 0x23};
    hold_applied("SPEED 5 for the first two, the other way", wishes[2].stored, other, wishes[2].wanted);
}

void put_sensor(uint8_t shelf[SENSOR_LENGTH], uint8_t type, const uint8_t thresholds[4], uint16_t reading, uint16_t nominal)
{
    memset(shelf, 0, SENSOR_LENGTH);
    shelf[3] = 7;
    shelf[40] = 1;
    shelf[44] = type;
    shelf[45] = 1;
    memcpy(shelf + 336, thresholds, 4);
    shelf[340] = reading >> 8;
    shelf[341] = reading & 0xFF;
    shelf[342] = nominal >> 8;
    shelf[343] = nominal & 0xFF;
    memset(shelf + 348, 0xFF, 64);
}

/* High critical, high warning, low warning, low critical; reading and nominal; then page byte 1 and the status element, whose code
 * the overall element has too. Bits: OT WARNING 2 of byte 3; WARN OVER 3, CRIT OVER 1 and CRIT UNDER 0 of byte 1; with codes 2 and
 * 3 FAIL, 6 of byte 1, by request Five. The cases on limits of 1,200 and 350 name no type, and are run for both. */
static const struct verdict {
    const char *what;
    uint8_t type, thresholds[4];
    uint16_t reading, nominal;
    uint8_t byte_1, element[4];
} verdicts[] = {
    {"temperature byte 64", TEMPERATURE, {0, 64, 0, 0}, 64, 0, 0x00, {0x01, 0x00, 0x40, 0x00}},
    {"temperature byte 65", TEMPERATURE, {0, 64, 0, 0}, 65, 0, 0x04, {0x03, 0x40, 0x41, 0x04}},
    {"1,320 V", VOLTAGE, {20, 0, 0, 0}, 1320, 1200, 0x00, {0x01, 0x00, 0x05, 0x28}},
    {"1,321 V", VOLTAGE, {20, 0, 0, 0}, 1321, 1200, 0x02, {0x02, 0x42, 0x05, 0x29}},
    {"1,320 A", CURRENT, {20, 0, 0, 0}, 1320, 1200, 0x00, {0x01, 0x00, 0x05, 0x28}},
    {"1,321 A", CURRENT, {20, 0, 0, 0}, 1321, 1200, 0x02, {0x02, 0x42, 0x05, 0x29}},
    {"358 V", VOLTAGE, {0, 5, 0, 0}, 358, 350, 0x00, {0x01, 0x00, 0x01, 0x66}},
    {"359 V", VOLTAGE, {0, 5, 0, 0}, 359, 350, 0x04, {0x03, 0x48, 0x01, 0x67}},
    {"358 A", CURRENT, {0, 5, 0, 0}, 358, 350, 0x00, {0x01, 0x00, 0x01, 0x66}},
    {"359 A", CURRENT, {0, 5, 0, 0}, 359, 350, 0x04, {0x03, 0x48, 0x01, 0x67}},
    {"-1 V", VOLTAGE, {0, 0, 0, 20}, 0xFFFF, 1200, 0x02, {0x02, 0x41, 0xFF, 0xFF}},
};

static void hold_verdicts(void)
{
    for (size_t i = 0; i < sizeof verdicts / sizeof *verdicts; i++) {
        const struct verdict *v = &verdicts[i];
        uint8_t shelf[SENSOR_LENGTH];
        uint8_t page[16] = {0x02, v->byte_1, 0x00, 0x0C, 0x00, 0x00, 0x00, 0x07, v->element[0]};
        struct output out;
        memcpy(page + 12, v->element, 4);
        put_sensor(shelf, v->type, v->thresholds, v->reading, v->nominal);
        empty(&out);
        hold(v->what, ses_write_status(shelf, SENSOR_LENGTH, out.bytes, sizeof out.bytes, &out.written), 0);
        hold_output(v->what, &out, page, 16);
    }
}

void hold_fans_a(void)
{
    hold_pages();
    hold_wishes();
    hold_verdicts();
}
