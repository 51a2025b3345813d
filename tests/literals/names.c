/* Names of elements: the page that shows them (07h), its reading, what finds a name and what sets one. The pages are worked out by
 * hand from request Two: byte 1 zero, then for each type the overall and the individual descriptors, each two zero bytes, a length
 * in two bytes and the text. */
#include "literals.h"

#include <string.h>

#define LENGTH_OF(table) (sizeof table / sizeof *table)

#define HEADER(byte_1, length, generation) 0x07, byte_1, (length) >> 8, (length) & 0xFF, 0x00, 0x00, 0x00, generation
#define EMPTY 0x00, 0x00, 0x00, 0x00

/* What stands on A's page: four descriptors with 9, 13, 15 and 14 bytes of text, from 8, 21, 38 and 57 on. So the page has
 * 8 + 4 x 4 + 51 = 75 bytes, length field 0047h. */
#define REAR_FANS 0x00, 0x00, 0x00, 0x09, 'R', 'e', 'a', 'r', ' ', 'f', 'a', 'n', 's'
#define LEFT 0x00, 0x00, 0x00, 0x0D, 'F', 'a', 'n', ' ', 'r', 'e', 'a', 'r', ' ', 'l', 'e', 'f', 't'
#define MIDDLE 0x00, 0x00, 0x00, 0x0F, 'F', 'a', 'n', ' ', 'r', 'e', 'a', 'r', ' ', 'm', 'i', 'd', 'd', 'l', 'e'
#define RIGHT 0x00, 0x00, 0x00, 0x0E, 'F', 'a', 'n', ' ', 'r', 'e', 'a', 'r', ' ', 'r', 'i', 'g', 'h', 't'

enum { A_PAGE = 75 };

static const uint8_t page_of_a[A_PAGE] = {HEADER(0x00, 0x0047, 7), REAR_FANS, LEFT, MIDDLE, RIGHT};

/* The same as a record: four entries of 32 bytes. */
static const uint8_t record_of_a[132] = {
    [3] = 4,
    [4] = 'R', 'e', 'a', 'r', ' ', 'f', 'a', 'n', 's',
    [36] = 'F', 'a', 'n', ' ', 'r', 'e', 'a', 'r', ' ', 'l', 'e', 'f', 't',
    [68] = 'F', 'a', 'n', ' ', 'r', 'e', 'a', 'r', ' ', 'm', 'i', 'd', 'd', 'l', 'e',
    [100] = 'F', 'a', 'n', ' ', 'r', 'e', 'a', 'r', ' ', 'r', 'i', 'g', 'h', 't',
};

/* Where A's names stand: that of the overall element, then those of the fans. */
enum { OVERALL = 380, FIRST_FAN = 412, MIDDLE_FAN = 444, LAST_FAN = 476 };

/* A with the names of other bytes. */
static void put_names(uint8_t shelf[A_LENGTH], const uint8_t names[4][32])
{
    memcpy(shelf, shelf_a, A_LENGTH);
    memcpy(shelf + OVERALL, names, 128);
}

static void hold_page(const char *what, const uint8_t *shelf, size_t shelf_length, const uint8_t *page, size_t length)
{
    struct output out;
    /* Just long enough, and with room behind it. */
    for (size_t room = length; room <= length + 7; room += 7) {
        empty(&out);
        hold(what, ses_write_descriptors(shelf, shelf_length, out.bytes, room, &out.written), 0);
        hold_output(what, &out, page, length);
    }
    empty(&out);
    hold(what, ses_write_descriptors(shelf, shelf_length, out.bytes, length - 1, &out.written), 11);
    hold_no_output(what, &out);
}

/* Any bytes are a name, up to the first that is not 20h to 7Eh. A name of 32 bytes ends where the next begins. */
static void hold_written(void)
{
    static const uint8_t none[4][32] = {{0}};
    static const uint8_t no_names[24] = {HEADER(0x00, 0x0014, 7), EMPTY, EMPTY, EMPTY, EMPTY};
    static const uint8_t odd[4][32] = {
        {0x1F, 'a', 'b'},
        {'F', 'a', 'n', 0x7F, 'r', 'e', 'a', 'r'},
        "abcdefghijklmnopqrstuvwxyz01234", /* 31 bytes, and one below */
        {' ', '~', 0x80, 'x', [31] = 'y'},
    };
    static const uint8_t shown[61] = {
        HEADER(0x00, 0x0039, 7),
        EMPTY,
        0x00, 0x00, 0x00, 0x03, 'F', 'a', 'n',
        0x00, 0x00, 0x00, 0x20, 'a', 'b', 'c', 'd', 'e', 'f', 'g', 'h', 'i', 'j', 'k', 'l', 'm', 'n', 'o', 'p',
        'q', 'r', 's', 't', 'u', 'v', 'w', 'x', 'y', 'z', '0', '1', '2', '3', '4', '5',
        0x00, 0x00, 0x00, 0x02, ' ', '~',
    };
    uint8_t shelf[A_LENGTH];
    struct output out;
    hold_page("names of A", shelf_a, A_LENGTH, page_of_a, A_PAGE);
    put_names(shelf, none);
    hold_page("no names", shelf, A_LENGTH, no_names, sizeof no_names);
    put_names(shelf, odd);
    shelf[MIDDLE_FAN + 31] = '5';
    hold_page("odd names", shelf, A_LENGTH, shown, sizeof shown);
    /* Every byte of a name may be any byte. */
    memset(shelf + OVERALL, 0xFF, 128);
    hold("names of FFh", ses_check(shelf, A_LENGTH), 0);
    hold_page("names of FFh", shelf, A_LENGTH, no_names, sizeof no_names);
    empty(&out);
    hold("names of no shelf", ses_write_descriptors(shelf_a, A_LENGTH - 1, out.bytes, sizeof out.bytes, &out.written), 1);
    hold_no_output("names of no shelf", &out);
}

/* Three types with one, no and two elements; so six slots, their names from 332 + 16 x 3 = 380 on, and 572 bytes in all. */
enum { B_LENGTH = 572 };

static const uint8_t shelf_b[B_LENGTH] = {
    [3] = 9,
    [40] = 3,
    [44] = TEMPERATURE, 1,
    [80] = COOLING, 0,
    [116] = VOLTAGE, 2,
    [341] = 40,
    [357] = 100, 0, 100,
    [373] = 100, 0, 100,
    [380] = 'T', [412] = 't', '0', [444] = 'F', [476] = 'V', [508] = 'v', '1', [540] = 'v', '2',
};

/* 8 + 6 x 4 + 9 = 41 bytes. */
static const uint8_t page_of_b[41] = {
    HEADER(0x00, 0x0025, 9),
    0x00, 0x00, 0x00, 0x01, 'T',
    0x00, 0x00, 0x00, 0x02, 't', '0',
    0x00, 0x00, 0x00, 0x01, 'F',
    0x00, 0x00, 0x00, 0x01, 'V',
    0x00, 0x00, 0x00, 0x02, 'v', '1',
    0x00, 0x00, 0x00, 0x02, 'v', '2',
};

/* Read, a page makes the record of these bytes, and the others of the record are kept. The record makes the page again, and nothing
 * behind its last entry is looked at, nor its first two bytes. */
static void hold_read(const char *what, const uint8_t *shelf, const uint8_t *page, size_t length, const uint8_t *record,
                      size_t in_use)
{
    struct ses_names read, wanted;
    struct output out;
    uint32_t offset;
    fill(&wanted, sizeof wanted);
    memcpy(&wanted, record, in_use);
    fill(&read, sizeof read);
    fill(&offset, sizeof offset);
    hold(what, ses_read_descriptors(shelf, 332, page, length, &read, &offset), 0);
    hold(what, offset, 0);
    hold_bytes(what, &read, &wanted, sizeof wanted);
    fill(&wanted, 2);
    empty(&out);
    hold(what, ses_rewrite_descriptors(shelf, 332, &wanted, out.bytes, length, &out.written), 0);
    hold_output(what, &out, page, length);
}

static void hold_accepted(void)
{
    static const uint8_t record_of_b[196] = {
        [3] = 6, [4] = 'T', [36] = 't', '0', [68] = 'F', [100] = 'V', [132] = 'v', '1', [164] = 'v', '2',
    };
    /* The least and the greatest printable byte, and 32 bytes: 8 + 16 + 2 + 32 = 58. */
    static const uint8_t edges[58] = {
        HEADER(0x00, 0x0036, 7), EMPTY, 0x00, 0x00, 0x00, 0x02, 0x20, 0x7E, EMPTY,
        0x00, 0x00, 0x00, 0x20, 'a', 'b', 'c', 'd', 'e', 'f', 'g', 'h', 'i', 'j', 'k', 'l', 'm', 'n', 'o', 'p',
        'q', 'r', 's', 't', 'u', 'v', 'w', 'x', 'y', 'z', '0', '1', '2', '3', '4', '5',
    };
    static const uint8_t record_of_edges[132] = {
        [3] = 4, [36] = 0x20, 0x7E,
        [100] = 'a', 'b', 'c', 'd', 'e', 'f', 'g', 'h', 'i', 'j', 'k', 'l', 'm', 'n', 'o', 'p',
        'q', 'r', 's', 't', 'u', 'v', 'w', 'x', 'y', 'z', '0', '1', '2', '3', '4', '5',
    };
    hold_read("A's names read", shelf_a, page_of_a, A_PAGE, record_of_a, sizeof record_of_a);
    hold_read("edges read", shelf_a, edges, sizeof edges, record_of_edges, sizeof record_of_edges);
    hold_page("names of B", shelf_b, B_LENGTH, page_of_b, sizeof page_of_b);
    hold_read("B's names read", shelf_b, page_of_b, sizeof page_of_b, record_of_b, sizeof record_of_b);
}

/* Eight types of eight fans, each name of 32 bytes, different ones: the longest block, page and record. */
static void hold_longest(void)
{
    static uint8_t shelf[SES_LONGEST_BLOCK + 1], page[2600], record[2308];
    shelf[40] = 8;
    for (size_t t = 0; t < 8; t++) {
        shelf[44 + 36 * t] = COOLING;
        shelf[45 + 36 * t] = 8;
    }
    for (size_t j = 0; j < 64; j++)
        shelf[332 + 16 * j + 3] = 0x23;
    /* 2,600 - 4 = 0A24h. 72 = 48h. */
    memcpy(page, (const uint8_t[8]){0x07, 0x00, 0x0A, 0x24}, 8);
    memcpy(record, (const uint8_t[4]){0, 0, 0x00, 0x48}, 4);
    for (size_t i = 0; i < 72; i++) {
        uint8_t *name = shelf + 332 + 16 * 64 + 32 * i;
        memset(name, 'n', 32);
        name[30] = (uint8_t)('0' + i / 10);
        name[31] = (uint8_t)('0' + i % 10);
        memcpy(page + 8 + 36 * i, (const uint8_t[4]){0x00, 0x00, 0x00, 0x20}, 4);
        memcpy(page + 12 + 36 * i, name, 32);
        memcpy(record + 4 + 32 * i, name, 32);
    }
    hold("the longest block", ses_check(shelf, 3660), 0);
    hold("the longest block, a byte less", ses_check(shelf, 3659), 1);
    hold("the longest block, a byte more", ses_check(shelf, 3661), 1);
    hold_page("the longest page", shelf, 3660, page, sizeof page);
    hold_read("the longest page read", shelf, page, sizeof page, record, sizeof record);
}

/* A page for A that is refused. */
static struct told refuse(const uint8_t *page, size_t length)
{
    struct ses_names record, kept;
    struct told told;
    fill(&record, sizeof record);
    fill(&kept, sizeof kept);
    fill(&told, sizeof told);
    told.number = ses_read_descriptors(shelf_a, 332, page, length, &record, &told.offset);
    hold_bytes("no names handed back", &record, &kept, sizeof kept);
    return told;
}

/* One or two bytes of A's page changed. Its texts stand at 12 to 20, 25 to 37, 42 to 56 and 61 to 74. A change at 0 is none. */
static const struct {
    const char *what;
    struct {
        size_t at;
        uint8_t byte;
    } change[2];
    uint8_t number;
    uint32_t offset;
} changes[] = {
    {"byte 1", {{1, 0x01}}, 6, 1},
    {"byte 1 and a head", {{1, 0x80}, {8, 0x01}}, 6, 1},
    {"first zero byte", {{8, 0x01}}, 6, 8},
    {"second zero byte", {{9, 0x01}}, 6, 9},
    {"both zero bytes", {{8, 0xFF}, {9, 0xFF}}, 6, 8},
    {"first zero byte of a fan", {{21, 0x80}}, 6, 21},
    {"second zero byte of a fan", {{22, 0x80}}, 6, 22},
    {"first zero byte of the last fan", {{57, 0x20}}, 6, 57},
    {"second zero byte of the last fan", {{58, 0x20}}, 6, 58},
    {"1Fh", {{12, 0x1F}}, 6, 12},
    {"7Fh", {{25, 0x7F}}, 6, 25},
    {"00h", {{37, 0x00}}, 6, 37},
    {"80h", {{56, 0x80}}, 6, 56},
    {"FFh as the last byte", {{74, 0xFF}}, 6, 74},
    {"C1h as the first byte of the last text", {{61, 0xC1}}, 6, 61},
    {"two bytes of a text", {{43, 0x0A}, {44, 0x0A}}, 6, 43},
    {"a head and its text", {{22, 0x01}, {25, 0x00}}, 6, 22},
    {"a text and the head behind it", {{20, 0x00}, {21, 0x01}}, 6, 20},
    {"a text and the last text", {{37, 0x00}, {74, 0x00}}, 6, 37},
    /* The descriptors end elsewhere, or do not end on the page. */
    {"a length of one less", {{60, 0x0D}}, 12, 0},
    {"a length of one more", {{60, 0x0F}}, 12, 0},
    {"a length of 256 more", {{59, 0x01}}, 12, 0},
    {"a length of FFFFh", {{10, 0xFF}, {11, 0xFF}}, 12, 0},
    {"a last length of FFFFh", {{59, 0xFF}, {60, 0xFF}}, 12, 0},
    /* 12 is tested before 5, and 5 before 6. */
    {"a length of one less, generation 8", {{60, 0x0D}, {7, 8}}, 12, 0},
    {"a length of one less, byte 1", {{60, 0x0D}, {1, 1}}, 12, 0},
    {"generation 8", {{7, 8}}, 5, 0},
    {"generation 01000007h", {{4, 1}}, 5, 0},
    {"generation 8, byte 1", {{7, 8}, {1, 1}}, 5, 0},
    {"generation 8, a text", {{7, 8}, {74, 0}}, 5, 0},
    /* 4 is tested before 12, and 3 before 4. */
    {"length field 0046h", {{3, 0x46}}, 4, 0},
    {"length field 0147h", {{2, 0x01}}, 4, 0},
    {"length field 0046h, a length of one less", {{3, 0x46}, {60, 0x0D}}, 4, 0},
};

static void hold_changes(void)
{
    static const uint8_t others[] = {0x00, 0x01, 0x02, 0x05, 0x06, 0x08, 0x87};
    uint8_t page[A_PAGE];
    for (size_t i = 0; i < LENGTH_OF(changes); i++) {
        memcpy(page, page_of_a, A_PAGE);
        for (int k = 0; k < 2; k++)
            if (changes[i].change[k].at != 0)
                page[changes[i].change[k].at] = changes[i].change[k].byte;
        hold_told(changes[i].what, refuse(page, A_PAGE), changes[i].number, changes[i].offset);
    }
    for (size_t i = 0; i < LENGTH_OF(others); i++) {
        memcpy(page, page_of_a, A_PAGE);
        page[0] = others[i];
        page[3]++;
        hold_told("another page code", refuse(page, A_PAGE), 3, 0);
        hold_told("3 bytes of another page", refuse(page, 3), 2, 0);
    }
    hold_told("no bytes", refuse(page_of_a, 0), 2, 0);
    hold_told("3 bytes", refuse(page_of_a, 3), 2, 0);
    hold_told("74 bytes that say they are 75", refuse(page_of_a, A_PAGE - 1), 4, 0);
}

/* Pages whose bytes are just as many as they say. Behind the header each has descriptors for A, or the first bytes of some, and as
 * many zeros as are missing. Four descriptors without text need 24 bytes. */
static const struct {
    const char *what;
    size_t length;
    uint8_t descriptors[20];
    uint8_t number;
    uint32_t offset;
} lengths[] = {
    {"no header", 4, {0}, 12, 0},
    {"7 bytes of a header", 7, {0}, 12, 0},
    {"a header", 8, {0}, 12, 0},
    {"a byte of the first head", 9, {0}, 12, 0},
    {"three descriptors", 20, {0}, 12, 0},
    {"three bytes of the last head", 23, {0}, 12, 0},
    {"a byte left over", 25, {0}, 12, 0},
    {"five descriptors", 28, {0}, 12, 0},
    {"a last text that is not there", 24, {EMPTY, EMPTY, EMPTY, 0x00, 0x00, 0x00, 0x01}, 12, 0},
    {"a first text over the last head", 24, {0x00, 0x00, 0x00, 0x01}, 12, 0},
    {"a first text up to the end", 24, {0x00, 0x00, 0x00, 0x0C}, 12, 0},
    /* A descriptor that offends does not come before a length: 12, and not 6. */
    {"a zero byte, and a byte left over", 25, {0x01}, 12, 0},
    /* A text of 33 bytes: 24 + 33 = 57. Zeros in it offend later, bytes before the length sooner. */
    {"overall text of 0021h bytes", 57, {0x00, 0x00, 0x00, 0x21}, 6, 10},
    {"overall text of 0021h bytes, second zero byte", 57, {0x00, 0x01, 0x00, 0x21}, 6, 9},
    {"first fan's text of 0021h bytes", 57, {EMPTY, 0x00, 0x00, 0x00, 0x21}, 6, 14},
    {"last fan's text of 0021h bytes", 57, {EMPTY, EMPTY, EMPTY, 0x00, 0x00, 0x00, 0x21, 'a'}, 6, 22},
    {"last fan's text of 0021h bytes, cut", 56, {EMPTY, EMPTY, EMPTY, 0x00, 0x00, 0x00, 0x21, 'a'}, 12, 0},
    {"last fan's text of 0021h bytes, and one more", 58, {EMPTY, EMPTY, EMPTY, 0x00, 0x00, 0x00, 0x21, 'a'}, 12, 0},
    /* Of 32 bytes the text is looked at. */
    {"last fan's text of 0020h bytes", 56, {EMPTY, EMPTY, EMPTY, 0x00, 0x00, 0x00, 0x20, 'a', 'b'}, 6, 26},
    /* A text of 256: 24 + 256 = 280. */
    {"overall text of 0100h bytes", 280, {0x00, 0x00, 0x01, 0x00}, 6, 10},
    {"last fan's text of 0100h bytes", 280, {EMPTY, EMPTY, EMPTY, 0x00, 0x00, 0x01, 0x00}, 6, 22},
    /* The longest page that can say its length has 65,539 bytes: a text of 65,515 = FFEBh. */
    {"overall text of FFEBh bytes", 65539, {0x00, 0x00, 0xFF, 0xEB}, 6, 10},
    {"overall text of FFECh bytes", 65539, {0x00, 0x00, 0xFF, 0xEC}, 12, 0},
    {"overall text of FFFFh bytes", 65539, {0x00, 0x00, 0xFF, 0xFF}, 12, 0},
};

static void hold_needed_lengths(void)
{
    static uint8_t page[65540 + 65536];
    for (size_t i = 0; i < LENGTH_OF(lengths); i++) {
        size_t said = lengths[i].length - 4;
        memset(page, 0, sizeof page);
        memcpy(page, (const uint8_t[8]){HEADER(0x00, said, 7)}, 8);
        memcpy(page + 8, lengths[i].descriptors, sizeof lengths[i].descriptors);
        hold_told(lengths[i].what, refuse(page, lengths[i].length), lengths[i].number, lengths[i].offset);
    }
    /* What two bytes say of 24 bytes is not said of 65,536 more. */
    memset(page, 0, sizeof page);
    memcpy(page, (const uint8_t[8]){HEADER(0x00, 0x0014, 7)}, 8);
    hold_told("65,560 bytes that say they are 24", refuse(page, 24 + 65536), 4, 0);
}

static void hold_configurations(void)
{
    struct ses_names record, kept;
    struct output out;
    uint32_t offset;
    fill(&record, sizeof record);
    fill(&kept, sizeof kept);
    /* One byte too few, and A's whole block. 1 is tested first. */
    for (size_t length = 331; length <= A_LENGTH; length += A_LENGTH - 331) {
        fill(&offset, sizeof offset);
        hold("no configuration", ses_read_descriptors(shelf_a, length, page_of_a, 3, &record, &offset), 1);
        hold("no configuration", offset, 0);
        hold_bytes("no configuration", &record, &kept, sizeof kept);
        empty(&out);
        hold("no configuration", ses_rewrite_descriptors(shelf_a, length, &record, out.bytes, 0, &out.written), 1);
        hold_no_output("no configuration", &out);
    }
}

/* Bytes of A's record changed, as above. Entry i stands at 4 + 32 i; the names end at 13, 49, 83 and 114, the last entry at 132. */
static const struct {
    const char *what;
    struct {
        size_t at;
        uint8_t byte;
    } change[2];
    uint8_t number;
} rewritings[] = {
    {"three entries", {{3, 3}}, 9},
    {"five entries", {{3, 5}}, 9},
    {"no entries", {{3, 0x00}}, 9},
    {"260 entries", {{2, 0x01}}, 9},
    {"five entries, and 1Fh", {{3, 5}, {4, 0x1F}}, 9},
    {"1Fh in a name", {{4, 0x1F}}, 6},
    {"7Fh in a name", {{36, 0x7F}}, 6},
    {"80h in a name", {{68, 0x80}}, 6},
    {"00h in a name", {{104, 0x00}}, 6},
    {"00h as the first byte", {{100, 0x00}}, 6},
    {"01h behind a name", {{13, 0x01}}, 6},
    {"a letter behind a zero", {{14, 'a'}}, 6},
    {"a letter at the end of an entry", {{67, 'a'}}, 6},
    {"FFh at the end of the last entry", {{131, 0xFF}}, 6},
    {"a blank behind a zero of the last entry", {{115, ' '}}, 6},
};

static void hold_rewritings(void)
{
    struct ses_names record;
    struct output out;
    for (size_t i = 0; i < LENGTH_OF(rewritings); i++) {
        fill(&record, sizeof record);
        memcpy(&record, record_of_a, sizeof record_of_a);
        for (int k = 0; k < 2; k++)
            if (rewritings[i].change[k].at != 0)
                ((uint8_t *)&record)[rewritings[i].change[k].at] = rewritings[i].change[k].byte;
        empty(&out);
        /* The output is too short as well, which is tested last. */
        hold(rewritings[i].what, ses_rewrite_descriptors(shelf_a, 332, &record, out.bytes, 7, &out.written), rewritings[i].number);
        hold_no_output(rewritings[i].what, &out);
    }
    fill(&record, sizeof record);
    memcpy(&record, record_of_a, sizeof record_of_a);
    for (size_t room = 0; room < A_PAGE; room++) {
        empty(&out);
        hold("short output", ses_rewrite_descriptors(shelf_a, 332, &record, out.bytes, room, &out.written), 11);
        hold_no_output("short output", &out);
    }
    /* A name of one byte more, and one of one less: the same lengths of page and entries, other bytes. */
    record.entry[0].text[9] = '!';
    record.entry[3].text[13] = 0;
    empty(&out);
    hold("other names", ses_rewrite_descriptors(shelf_a, 332, &record, out.bytes, A_PAGE, &out.written), 0);
    static const uint8_t other[A_PAGE] = {
        HEADER(0x00, 0x0047, 7), 0x00, 0x00, 0x00, 0x0A, 'R', 'e', 'a', 'r', ' ', 'f', 'a', 'n', 's', '!', LEFT, MIDDLE,
        0x00, 0x00, 0x00, 0x0D, 'F', 'a', 'n', ' ', 'r', 'e', 'a', 'r', ' ', 'r', 'i', 'g', 'h',
    };
    hold_output("other names", &out, other, A_PAGE);
}

enum { NONE = 0xFFFFFFFF };

static void hold_found(const char *what, const uint8_t *shelf, size_t length, const char *text, size_t text_length, uint32_t wanted)
{
    uint32_t element;
    fill(&element, sizeof element);
    hold(what, ses_find_name(shelf, length, (const uint8_t *)text, text_length, &element), 0);
    hold(what, element, wanted);
}

#define FIND(what, text, wanted) hold_found(what, shelf, A_LENGTH, text, sizeof text - 1, wanted)
#define FIND_IN_B(what, text, wanted) hold_found(what, shelf_b, B_LENGTH, text, sizeof text - 1, wanted)

/* 32 bytes, and a 33rd. */
#define OF_32 "abcdefghijklmnopqrstuvwxyz012345"
#define OF_33 OF_32 "6"

static void hold_finding(void)
{
    uint8_t shelf[A_LENGTH];
    char many[96];
    uint32_t element;
    memcpy(shelf, shelf_a, A_LENGTH);
    FIND("first fan", "Fan rear left", 0);
    FIND("middle fan", "Fan rear middle", 1);
    FIND("last fan", "Fan rear right", 2);
    FIND("an overall name", "Rear fans", NONE);
    FIND("no such name", "Fan rear up", NONE);
    FIND("no empty name", "", NONE);
    FIND("what names start with", "Fan rear", NONE);
    FIND("a name without its last byte", "Fan rear lef", NONE);
    FIND("a name and more", "Fan rear left ", NONE);
    FIND("a name and a zero", "Fan rear left\0", NONE);
    FIND("another case", "fan rear left", NONE);
    /* Two equal names, and the overall one besides. */
    memcpy(shelf + LAST_FAN, shelf_a + MIDDLE_FAN, 32);
    memcpy(shelf + OVERALL, shelf_a + MIDDLE_FAN, 32);
    FIND("first of two", "Fan rear middle", 1);
    FIND("gone", "Fan rear right", NONE);
    /* An empty name, of zeros or of other bytes. An overall one does not count. */
    memset(shelf + OVERALL, 0, 32);
    FIND("an empty overall name", "", NONE);
    memset(shelf + LAST_FAN, 0, 32);
    FIND("the last is empty", "", 2);
    shelf[MIDDLE_FAN] = 0x1F;
    FIND("the middle one too", "", 1);
    FIND("what stands behind it", "an rear middle", NONE);
    /* A name that ends at a byte which is not printable: a text with this byte is none. */
    memcpy(shelf + FIRST_FAN, "Fan\x7Frear", 9);
    FIND("up to 7Fh", "Fan", 0);
    FIND("7Fh", "Fan\x7F", NONE);
    FIND("beyond 7Fh", "Fan\x7Frear", NONE);
    FIND("1Fh", "\x1F", NONE);
    FIND("zeros", "\0\0", NONE);
    /* Names of 32 bytes, each in front of another. */
    memcpy(shelf + FIRST_FAN, OF_32, 32);
    memcpy(shelf + MIDDLE_FAN, OF_32, 31);
    shelf[MIDDLE_FAN + 31] = '6';
    shelf[LAST_FAN] = '6';
    FIND("32 bytes", OF_32, 0);
    FIND("32 bytes, the last another", "abcdefghijklmnopqrstuvwxyz012346", 1);
    FIND("31 bytes", "abcdefghijklmnopqrstuvwxyz01234", NONE);
    FIND("33 bytes", OF_33, NONE);
    memset(shelf + FIRST_FAN, 'n', 96);
    memset(many, 'n', 96);
    FIND("33 bytes that stand there", "nnnnnnnnnnnnnnnnnnnnnnnnnnnnnnnnn", NONE);
    hold_found("96 bytes that stand there", shelf, A_LENGTH, many, 96, NONE);

    FIND_IN_B("in B", "t0", 0);
    FIND_IN_B("in B, behind a type without elements", "v1", 1);
    FIND_IN_B("in B, the last", "v2", 2);
    FIND_IN_B("in B, first overall", "T", NONE);
    FIND_IN_B("in B, overall without elements", "F", NONE);
    FIND_IN_B("in B, last overall", "V", NONE);

    fill(&element, sizeof element);
    hold("in no shelf", ses_find_name(shelf_a, A_LENGTH - 1, (const uint8_t *)"Fan rear left", 13, &element), 1);
    hold("in no shelf", element, NONE);
}

typedef uint8_t set_call(uint8_t *, size_t, uint32_t, const uint8_t *, size_t);

/* From 32 bytes that are all FFh, the 32 bytes at a place become the text and zeros. */
static void hold_set(const char *what, set_call *set, const uint8_t *block, size_t length, uint32_t number, size_t place,
                     const char *text, size_t text_length)
{
    uint8_t shelf[B_LENGTH], wanted[B_LENGTH];
    memcpy(shelf, block, length);
    memset(shelf + place, 0xFF, 32);
    memcpy(wanted, shelf, length);
    memset(wanted + place, 0, 32);
    memcpy(wanted + place, text, text_length);
    hold(what, set(shelf, length, number, (const uint8_t *)text, text_length), 0);
    hold_bytes(what, shelf, wanted, length);
}

static void hold_not_set(const char *what, set_call *set, size_t length, uint32_t number, const char *text, size_t text_length,
                         unsigned refusal)
{
    uint8_t shelf[A_LENGTH];
    memcpy(shelf, shelf_a, A_LENGTH);
    hold(what, set(shelf, length, number, (const uint8_t *)text, text_length), refusal);
    hold_bytes(what, shelf, shelf_a, A_LENGTH);
}

/* Refused for A by either call; `past` is the first number that is too large. */
static void hold_no_set(const char *what, set_call *set, uint32_t past)
{
    hold_not_set(what, set, A_LENGTH - 1, past, OF_33, 33, 1);
    hold_not_set(what, set, 380, 0, "Fan", 3, 1);
    hold_not_set(what, set, A_LENGTH, past, "Fan", 3, 15);
    hold_not_set(what, set, A_LENGTH, past, OF_33, 33, 15);
    hold_not_set(what, set, A_LENGTH, 64, "Fan", 3, 15);
    hold_not_set(what, set, A_LENGTH, 256, "Fan", 3, 15);
    hold_not_set(what, set, A_LENGTH, 65536, "Fan", 3, 15);
    hold_not_set(what, set, A_LENGTH, 0xFFFFFFFF, "\x1F", 1, 15);
    hold_not_set(what, set, A_LENGTH, past - 1, OF_33, 33, 6);
    hold_not_set(what, set, A_LENGTH, past - 1, (const char[256 + 3]){"Fan"}, 256 + 3, 6);
    hold_not_set(what, set, A_LENGTH, past - 1, "\x1F", 1, 6);
    hold_not_set(what, set, A_LENGTH, past - 1, "Fan\x7F", 4, 6);
    hold_not_set(what, set, A_LENGTH, past - 1, "Fan\0rear", 8, 6);
    hold_not_set(what, set, A_LENGTH, past - 1, "abcdefghijklmnopqrstuvwxyz01234\x80", 32, 6);
}

#define SET(what, number, place, text) hold_set(what, ses_set_name, shelf_a, A_LENGTH, number, place, text, sizeof text - 1)
#define SET_OVERALL(what, number, place, text)                                                                         \
    hold_set(what, ses_set_overall_name, shelf_a, A_LENGTH, number, place, text, sizeof text - 1)
#define SET_IN_B(what, number, place, text)                                                                            \
    hold_set(what, ses_set_name, shelf_b, B_LENGTH, number, place, text, sizeof text - 1)
#define SET_OVERALL_IN_B(what, number, place, text)                                                                    \
    hold_set(what, ses_set_overall_name, shelf_b, B_LENGTH, number, place, text, sizeof text - 1)

static void hold_setting(void)
{
    SET("first fan named", 0, FIRST_FAN, "Fan rear left");
    SET("middle fan named", 1, MIDDLE_FAN, OF_32);
    SET("last fan named", 2, LAST_FAN, "");
    SET("a name of blanks", 1, MIDDLE_FAN, "  ");
    SET("a name of 7Eh", 1, MIDDLE_FAN, "~");
    SET_OVERALL("fans named", 0, OVERALL, "Fans");
    SET_OVERALL("fans named with 32 bytes", 0, OVERALL, OF_32);
    SET_OVERALL("fans without a name", 0, OVERALL, "");
    SET_IN_B("B's element 0 named", 0, 412, "zero");
    SET_IN_B("B's element 1 named", 1, 508, "one");
    SET_IN_B("B's element 2 named", 2, 540, "two");
    SET_OVERALL_IN_B("B's type 0 named", 0, 380, "zero");
    SET_OVERALL_IN_B("B's type 1 named", 1, 444, "one");
    SET_OVERALL_IN_B("B's type 2 named", 2, 476, "two");
    hold_no_set("no name set", ses_set_name, 3);
    hold_no_set("no overall name set", ses_set_overall_name, 1);
}

void hold_names(void)
{
    hold_written();
    hold_accepted();
    hold_longest();
    hold_changes();
    hold_needed_lengths();
    hold_configurations();
    hold_rewritings();
    hold_finding();
    hold_setting();
}
