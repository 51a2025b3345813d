/* Request Three: fans that are not ON. The bytes are worked out by hand: while ON is 0, byte 3 of a status element has OFF (10h) in
 * place of RQSTED ON (20h), and speed code 0. The status code is 1 then, whatever the reading is. The stored SPEED stays, and the
 * builder goes on from that. */
#include "literals.h"

#include <stdio.h>
#include <string.h>

#define LENGTH_OF(table) (sizeof table / sizeof *table)

#define HEADER 0x02, 0x00, 0x00, 0x14, 0x00, 0x00, 0x00, 0x07
#define NOTHING 0x00, 0x00, 0x00, 0x00
#define ON_3 0x00, 0x00, 0x00, 0x23
#define ON_5 0x00, 0x00, 0x00, 0x25
#define OFF_3 0x00, 0x00, 0x00, 0x03
#define OFF_5 0x00, 0x00, 0x00, 0x05

/* What is shown of a fan of A, whose reading is 120. */
#define SHOWS_3 0x01, 0x00, 0x78, 0x23
#define SHOWS_OFF 0x01, 0x00, 0x78, 0x10

/* The settings and reading of a fan, then page byte 1 and the status element. PRDFAIL 40h, DISABLED 20h and SWAP 10h of byte 0,
 * IDENT 80h of byte 1, FAIL 40h, ON 20h and SPEED of byte 3: all stand at the same places in both, but for a SPEED that is not
 * shown. */
static const struct {
    uint8_t settings[4];
    uint16_t reading;
    uint8_t byte_1, element[4];
} fans[] = {
    {{0x00, 0x00, 0x00, 0x01}, 0, 0x00, {0x01, 0x00, 0x00, 0x10}},
    {{0x00, 0x00, 0x00, 0x02}, 0, 0x00, {0x01, 0x00, 0x00, 0x10}},
    {{0x00, 0x00, 0x00, 0x03}, 0, 0x00, {0x01, 0x00, 0x00, 0x10}},
    {{0x00, 0x00, 0x00, 0x04}, 0, 0x00, {0x01, 0x00, 0x00, 0x10}},
    {{0x00, 0x00, 0x00, 0x05}, 0, 0x00, {0x01, 0x00, 0x00, 0x10}},
    {{0x00, 0x00, 0x00, 0x06}, 0, 0x00, {0x01, 0x00, 0x00, 0x10}},
    {{0x00, 0x00, 0x00, 0x07}, 0, 0x00, {0x01, 0x00, 0x00, 0x10}},
    /* Still turning: 1 and 120 are 0001h and 0078h, 1,330 is 0532h, 2,047 is 07FFh. */
    {{0x00, 0x00, 0x00, 0x01}, 1, 0x00, {0x01, 0x00, 0x01, 0x10}},
    {{0x00, 0x00, 0x00, 0x02}, 120, 0x00, {0x01, 0x00, 0x78, 0x10}},
    {{0x00, 0x00, 0x00, 0x03}, 120, 0x00, {0x01, 0x00, 0x78, 0x10}},
    {{0x00, 0x00, 0x00, 0x04}, 1330, 0x00, {0x01, 0x05, 0x32, 0x10}},
    {{0x00, 0x00, 0x00, 0x05}, 120, 0x00, {0x01, 0x00, 0x78, 0x10}},
    {{0x00, 0x00, 0x00, 0x06}, 120, 0x00, {0x01, 0x00, 0x78, 0x10}},
    {{0x00, 0x00, 0x00, 0x07}, 2047, 0x00, {0x01, 0x07, 0xFF, 0x10}},
    /* With flags. */
    {{0x40, 0x00, 0x00, 0x05}, 0, 0x00, {0x41, 0x00, 0x00, 0x10}},
    {{0x20, 0x00, 0x00, 0x05}, 0, 0x00, {0x21, 0x00, 0x00, 0x10}},
    {{0x10, 0x00, 0x00, 0x05}, 0, 0x00, {0x11, 0x00, 0x00, 0x10}},
    {{0x00, 0x80, 0x00, 0x05}, 120, 0x00, {0x01, 0x80, 0x78, 0x10}},
    {{0x00, 0x00, 0x00, 0x45}, 120, 0x00, {0x01, 0x00, 0x78, 0x50}},
    {{0x00, 0x80, 0x00, 0x45}, 0, 0x00, {0x01, 0x80, 0x00, 0x50}},
    {{0x70, 0x80, 0x00, 0x47}, 2047, 0x00, {0x71, 0x87, 0xFF, 0x50}},
    /* ON, each shows its SPEED, with reading 0 too, which is code 2. */
    {{0x00, 0x00, 0x00, 0x21}, 1, 0x00, {0x01, 0x00, 0x01, 0x21}},
    {{0x00, 0x00, 0x00, 0x25}, 0, 0x02, {0x02, 0x00, 0x00, 0x25}},
    {{0x00, 0x80, 0x00, 0x65}, 0, 0x02, {0x02, 0x80, 0x00, 0x65}},
    {{0x70, 0x80, 0x00, 0x67}, 2047, 0x00, {0x71, 0x87, 0xFF, 0x67}},
};

/* A page of 16 bytes: the overall element has the code of the one fan. */
static void hold_shown(void)
{
    for (size_t i = 0; i < LENGTH_OF(fans); i++) {
        uint8_t shelf[SENSOR_LENGTH];
        uint8_t page[16] = {0x02, fans[i].byte_1, 0x00, 0x0C, 0x00, 0x00, 0x00, 0x07, fans[i].element[0] & 0x0F};
        struct output out;
        char what[20];
        snprintf(what, sizeof what, "fan %zu alone", i);
        memcpy(page + 12, fans[i].element, 4);
        put_sensor(shelf, COOLING, (const uint8_t[4]){0}, fans[i].reading, 0);
        memcpy(shelf + 332, fans[i].settings, 4);
        empty(&out);
        hold(what, ses_write_status(shelf, SENSOR_LENGTH, out.bytes, sizeof out.bytes, &out.written), 0);
        hold_output(what, &out, page, 16);
    }
}

static void hold_status(const char *what, const uint8_t *shelf, const uint8_t page[24])
{
    struct output out;
    empty(&out);
    hold(what, ses_write_status(shelf, A_LENGTH, out.bytes, sizeof out.bytes, &out.written), 0);
    hold_output(what, &out, page, 24);
}

/* Pages for A, each applied to what the one before left; the settings stored then, and the status page. An element of a control
 * page has SELECT (80h of byte 0), IDENT, FAIL and ON as settings have them, and a speed code. */
static const struct {
    const char *what;
    uint8_t control[24], stored[12], status[24];
} steps[] = {
    {"the middle fan stopped",
     {HEADER, NOTHING, NOTHING, 0x80, 0x00, 0x00, 0x00, NOTHING}, {ON_3, OFF_3, ON_3},
     {HEADER, 0x01, 0x00, 0x00, 0x00, SHOWS_3, SHOWS_OFF, SHOWS_3}},
    {"and started again",
     {HEADER, NOTHING, NOTHING, 0x80, 0x00, 0x00, 0x20, NOTHING}, {ON_3, ON_3, ON_3},
     {HEADER, 0x01, 0x00, 0x00, 0x00, SHOWS_3, SHOWS_3, SHOWS_3}},
    {"stopped with speed code 5",
     {HEADER, NOTHING, NOTHING, 0x80, 0x00, 0x00, 0x05, NOTHING}, {ON_3, OFF_5, ON_3},
     {HEADER, 0x01, 0x00, 0x00, 0x00, SHOWS_3, SHOWS_OFF, SHOWS_3}},
    {"speed code 7 for the stopped fan",
     {HEADER, NOTHING, NOTHING, 0x80, 0x00, 0x00, 0x07, NOTHING}, {ON_3, 0x00, 0x00, 0x00, 0x07, ON_3},
     {HEADER, 0x01, 0x00, 0x00, 0x00, SHOWS_3, SHOWS_OFF, SHOWS_3}},
    {"started at 7",
     {HEADER, NOTHING, NOTHING, 0x80, 0x00, 0x00, 0x20, NOTHING}, {ON_3, 0x00, 0x00, 0x00, 0x27, ON_3},
     {HEADER, 0x01, 0x00, 0x00, 0x00, SHOWS_3, 0x01, 0x00, 0x78, 0x27, SHOWS_3}},
    {"stopped, with IDENT and FAIL",
     {HEADER, NOTHING, NOTHING, 0x80, 0x80, 0x00, 0x40, NOTHING}, {ON_3, 0x00, 0x80, 0x00, 0x47, ON_3},
     {HEADER, 0x01, 0x00, 0x00, 0x00, SHOWS_3, 0x01, 0x80, 0x78, 0x50, SHOWS_3}},
    {"all stopped",
     {HEADER, 0x80, 0x00, 0x00, 0x00, NOTHING, NOTHING, NOTHING}, {OFF_3, 0x00, 0x00, 0x00, 0x07, OFF_3},
     {HEADER, 0x01, 0x00, 0x00, 0x00, SHOWS_OFF, SHOWS_OFF, SHOWS_OFF}},
    {"all started, the middle fan at 3",
     {HEADER, 0x80, 0x00, 0x00, 0x20, NOTHING, 0x80, 0x00, 0x00, 0x23, NOTHING}, {ON_3, ON_3, ON_3},
     {HEADER, 0x01, 0x00, 0x00, 0x00, SHOWS_3, SHOWS_3, SHOWS_3}},
};

static void hold_stopped_and_started(void)
{
    uint8_t shelf[A_LENGTH], stored[A_LENGTH];
    memcpy(shelf, shelf_a, A_LENGTH);
    for (size_t i = 0; i < LENGTH_OF(steps); i++) {
        uint32_t offset;
        fill(&offset, sizeof offset);
        hold(steps[i].what, ses_apply_control(shelf, A_LENGTH, steps[i].control, 24, &offset), 0);
        hold(steps[i].what, offset, 0);
        put_fans(stored, steps[i].stored);
        hold_bytes(steps[i].what, shelf, stored, A_LENGTH);
        hold_status(steps[i].what, shelf, steps[i].status);
    }
}

/* Two shelves that show the same, their middle fan stopped with SPEED 5 and with SPEED 3: for one wish each needs a page of its
 * own. */
static const struct wish wishes[] = {
    {"stopped at 5, wanted ON at 5",
     {ON_3, OFF_5, ON_3}, {ON_3, ON_5, ON_3},
     {HEADER, NOTHING, NOTHING, 0x80, 0x00, 0x00, 0x20, NOTHING}, 1},
    {"stopped at 3, wanted ON at 5",
     {ON_3, OFF_3, ON_3}, {ON_3, ON_5, ON_3},
     {HEADER, NOTHING, NOTHING, 0x80, 0x00, 0x00, 0x25, NOTHING}, 1},
    {"stopped at 5, wanted ON at 3",
     {ON_3, OFF_5, ON_3}, {ON_3, ON_3, ON_3},
     {HEADER, NOTHING, NOTHING, 0x80, 0x00, 0x00, 0x23, NOTHING}, 1},
    {"stopped at 3, wanted ON at 3",
     {ON_3, OFF_3, ON_3}, {ON_3, ON_3, ON_3},
     {HEADER, NOTHING, NOTHING, 0x80, 0x00, 0x00, 0x20, NOTHING}, 1},
    {"stopped at 5, wanted so",
     {ON_3, OFF_5, ON_3}, {ON_3, OFF_5, ON_3},
     {HEADER, NOTHING, NOTHING, NOTHING, NOTHING}, 0},
    {"stopped at 3, wanted so at 5",
     {ON_3, OFF_3, ON_3}, {ON_3, OFF_5, ON_3},
     {HEADER, NOTHING, NOTHING, 0x80, 0x00, 0x00, 0x05, NOTHING}, 1},
};

static void hold_pairs(void)
{
    static const uint8_t status[24] = {HEADER, 0x01, 0x00, 0x00, 0x00, SHOWS_3, SHOWS_OFF, SHOWS_3};
    uint8_t shelf[A_LENGTH];
    for (size_t i = 0; i < LENGTH_OF(wishes); i++) {
        put_fans(shelf, wishes[i].stored);
        hold_status(wishes[i].what, shelf, status);
        hold_wish(&wishes[i]);
    }
}

/* SPEED is 1 to 7 for a stopped fan too: what it shows is no setting. */
static void hold_no_speed(void)
{
    static const uint8_t shown[12] = {ON_3, NOTHING, ON_3};
    uint8_t shelf[A_LENGTH];
    struct output out;
    put_fans(shelf, shown);
    hold("stopped, SPEED 0", ses_check(shelf, A_LENGTH), 1);
    empty(&out);
    hold("SPEED 0 wanted",
         ses_build_control(shelf_a, A_LENGTH, shown, 12, out.bytes, sizeof out.bytes, &out.written, &out.selects), 9);
    hold("SPEED 0 wanted", out.selects, 0);
    hold_no_output("SPEED 0 wanted", &out);
}

void hold_stopped(void)
{
    hold_shown();
    hold_stopped_and_started();
    hold_pairs();
    hold_no_speed();
}
