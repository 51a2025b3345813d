/* agree ROUNDS: every call on random shelves, pages, records, wishes, names and chunks, good and spoilt, by the library and by plain
 * C. Both get the same memory and must leave the same: answers, lengths, offsets, elements found and every lent byte. A page in
 * chunks must do what it does as a whole. Each answer that a call can give must come up, each byte of a page must be told as the
 * first offending one and each byte of a record's entry be the reason of a refusal, elements be written and read with each code
 * and FAIL, texts of each kind be found and not be found, if they can, and chunks of each kind be put. The random numbers are the
 * same in every run. */
#include "plain.h"

#include <stdio.h>
#include <stdlib.h>
#include <string.h>

enum { ROOM = 4000, OUT_ROOM = 400, DESCRIPTORS_ROOM = 2700, TEXT_ROOM = 100 };
enum { COOLING = 0x03, TEMPERATURE = 0x04, VOLTAGE = 0x12, CURRENT = 0x13 };

/* All memory that a call may be lent, and its answer. */
struct lent {
    uint8_t shelf[ROOM], configuration[ROOM], page[ROOM], wanted[ROOM], out[ROOM], told[SES_CONFIGURATION_LENGTH];
    struct ses_status status;
    struct ses_thresholds thresholds;
    struct ses_names names;
    struct ses_collector collector;
    uint8_t text[TEXT_ROOM];
    uint32_t written, selects, offset, element, answer;
};

static const struct {
    const char *name;
    size_t start, length;
} parts[] = {
#define PART(name) {#name, offsetof(struct lent, name), sizeof((struct lent *)0)->name}
    PART(shelf), PART(configuration), PART(page), PART(wanted), PART(out), PART(told),
    PART(status), PART(thresholds), PART(names), PART(collector), PART(text),
    PART(written), PART(selects), PART(offset), PART(element), PART(answer),
};

enum call {
    CHECK,
    WRITE_CONFIGURATION, READ_CONFIGURATION, REWRITE_CONFIGURATION,
    WRITE_STATUS, READ_STATUS, REWRITE_STATUS,
    WRITE_THRESHOLDS, READ_THRESHOLDS, REWRITE_THRESHOLDS,
    WRITE_DESCRIPTORS, READ_DESCRIPTORS, REWRITE_DESCRIPTORS,
    APPLY_CONTROL, APPLY_THRESHOLDS, BUILD_CONTROL,
    EMPTY_COLLECTOR, PUT_CHUNK, END_PAGE,
    FIND_NAME, SET_NAME, SET_OVERALL_NAME,
    CALLS
};

enum { ANSWERS = 16 };

/* Where on a page the byte stands that a refusal tells by its offset. All bytes of a configuration's texts count as one. So does
 * what is told behind a byte that was told before and mended. */
enum region { FIXED_PART, HEADER, TEXTS, OVERALL, INDIVIDUAL, DESCRIPTOR, BEHIND, REGIONS };

enum { LONGEST_REGION = 48 };

static const char *const regions[REGIONS] = {
    "the fixed part", "a header", "the texts", "an overall element", "an individual element", "a descriptor",
    "what is behind a mended byte",
};

/* The calls with the refusals that each can give, and with the bytes that it can tell, a bit for each. */
static const struct {
    const char *name;
    uint8_t refusals[ANSWERS];
    uint64_t told_at[REGIONS];
} calls[CALLS] = {
    [CHECK] = {"check", {1}, {0}},
    [WRITE_CONFIGURATION] = {"write_configuration", {1, 11}, {0}},
    [READ_CONFIGURATION] = {"read_configuration", {2, 3, 4, 12, 6},
                            {[FIXED_PART] = 0xF02, [HEADER] = 0xF, [TEXTS] = 1, [BEHIND] = 1}},
    [REWRITE_CONFIGURATION] = {"rewrite_configuration", {1, 11}, {0}},
    [WRITE_STATUS] = {"write_status", {1, 11}, {0}},
    /* No type has a reserved bit in byte 2. */
    [READ_STATUS] = {"read_status", {1, 2, 3, 4, 12, 5, 6},
                     {[FIXED_PART] = 0x2, [OVERALL] = 0xF, [INDIVIDUAL] = 0xB, [BEHIND] = 1}},
    [REWRITE_STATUS] = {"rewrite_status", {1, 6, 9, 11}, {0}},
    [WRITE_THRESHOLDS] = {"write_thresholds", {1, 11}, {0}},
    [READ_THRESHOLDS] = {"read_thresholds", {1, 2, 3, 4, 12, 5, 6, 7, 8},
                         {[FIXED_PART] = 0x2, [OVERALL] = 0xF, [BEHIND] = 1}},
    [REWRITE_THRESHOLDS] = {"rewrite_thresholds", {1, 6, 7, 8, 9, 11}, {0}},
    [WRITE_DESCRIPTORS] = {"write_descriptors", {1, 11}, {0}},
    /* Of a descriptor not the second byte of the length, and 32 bytes of text. */
    [READ_DESCRIPTORS] = {"read_descriptors", {1, 2, 3, 4, 12, 5, 6},
                          {[FIXED_PART] = 0x2, [DESCRIPTOR] = 0xFFFFFFFF7, [BEHIND] = 1}},
    [REWRITE_DESCRIPTORS] = {"rewrite_descriptors", {1, 6, 9, 11}, {0}},
    [APPLY_CONTROL] = {"apply_control", {1, 2, 3, 4, 12, 5, 6},
                       {[FIXED_PART] = 0x2, [OVERALL] = 0xF, [INDIVIDUAL] = 0xF, [BEHIND] = 1}},
    [APPLY_THRESHOLDS] = {"apply_thresholds", {1, 2, 3, 4, 12, 5, 6, 7, 8}, {[FIXED_PART] = 0x2}},
    [BUILD_CONTROL] = {"build_control", {1, 9, 10, 11}, {0}},
    [EMPTY_COLLECTOR] = {"empty_collector", {0}, {0}},
    [PUT_CHUNK] = {"put_chunk", {0}, {0}},
    [END_PAGE] = {"end_page", {1, 2, 3, 4, 12, 5, 6, 7, 8},
                  {[FIXED_PART] = 0x2, [OVERALL] = 0xF, [INDIVIDUAL] = 0xF}},
    [FIND_NAME] = {"find_name", {1}, {0}},
    [SET_NAME] = {"set_name", {1, 15, 6}, {0}},
    [SET_OVERALL_NAME] = {"set_overall_name", {1, 15, 6}, {0}},
};

static unsigned given[CALLS][ANSWERS], told_at[CALLS][REGIONS][LONGEST_REGION];

/* The entries of a status record by what they stand for, the bytes of each that may have any value, and the codes that a shelf gives
 * to elements, a bit for each. How often the record was refused for each byte of them, because it was one too large. */
enum { SORTS = 5, ENTRY_LENGTH = sizeof(struct ses_shown) };

#define BYTE(field) (1u << offsetof(struct ses_shown, of.field))

static const struct {
    const char *name;
    unsigned any_value, codes;
} sorts[SORTS] = {
    {"overall", 0, 0},
    {"cooling", BYTE(cooling.speed[1]), 1u << 1 | 1u << 2},
    {"temperature", BYTE(temperature.temperature), 1u << 1 | 1u << 2 | 1u << 3 | 1u << 6},
    {"voltage", BYTE(voltage.voltage[0]) | BYTE(voltage.voltage[1]), 1u << 1 | 1u << 2 | 1u << 3},
    {"current", BYTE(current.current[0]) | BYTE(current.current[1]), 1u << 1 | 1u << 2 | 1u << 3},
};

static unsigned refused_for[SORTS][ENTRY_LENGTH];

/* The same for a record of names, whose entries are all of one sort. */
static unsigned name_refused_for[SES_NAME_LENGTH];

/* How often an element of each sort had each code on a page that was written, with FAIL not stored and stored; and on one that was
 * read, with FAIL not shown and shown. Spoilt shelves and pages have a few by chance. */
enum { CODES = 9, FEW = 100 };

static unsigned written_with[SORTS][CODES][2], read_with[SORTS][CODES][2];

/* The texts to find, by how they come from the names of a shelf, and whether a name can be equal to one. How often each was not
 * found, and found. */
enum kind { OF_ELEMENT, OF_OVERALL, SHORTER, LONGER, CHANGED, NO_BYTES, TOO_LONG, NOT_PRINTABLE, KINDS };

static const struct {
    const char *name;
    int can_be_found;
} kinds[KINDS] = {
    [OF_ELEMENT] = {"an element's name", 1},
    [OF_OVERALL] = {"an overall element's name", 1},
    [SHORTER] = {"a name without its last byte", 1},
    [LONGER] = {"a name and one byte more", 1},
    [CHANGED] = {"a name with another byte", 1},
    [NO_BYTES] = {"the empty text", 1},
    [TOO_LONG] = {"a name and what stands behind its 32 bytes", 0},
    [NOT_PRINTABLE] = {"a name with a byte that is not printable", 0},
};

static unsigned found[KINDS][2];

/* The chunks of a page by where they end, and how often each was put. */
enum end { NOWHERE, IN_ROOM, AT_ROOM_END, PAST_ROOM_END, BEHIND_ROOM, AT_STOP, PAST_STOP, BEHIND_STOP, ABOVE_STOP, ENDS };

static const char *const ends[ENDS] = {
    [NOWHERE] = "of no bytes",
    [IN_ROOM] = "that ends in the room",
    [AT_ROOM_END] = "that fills the room",
    [PAST_ROOM_END] = "that goes past the room",
    [BEHIND_ROOM] = "behind a full room",
    [AT_STOP] = "with which the count stops",
    [PAST_STOP] = "that goes past where the count stops",
    [BEHIND_STOP] = "behind a stopped count",
    [ABOVE_STOP] = "behind a count that is too large",
};

static unsigned ended[ENDS];

/* How often pages from nothing that are longer than any shelf needs, by more than a byte or two, had each answer. */
static unsigned given_to_long[ANSWERS];

/* What both sides start from, and what each left. */
static struct lent start, library, plain;
static size_t shelf_length, configuration_length, page_length, wanted_length, out_length, text_length;
static uint32_t number;
static long round_number;

/* The shelf and the page before they were spoilt. */
static uint8_t good[ROOM], good_page[ROOM];
static unsigned elements;

/* The byte of the page that was mended last, 0 if none was. */
static uint32_t mended;

static uint32_t below(uint32_t limit)
{
    static uint64_t state = 0x5E5;
    state = state * 6364136223846793005u + 1442695040888963407u;
    return (uint32_t)((state >> 32) * limit >> 32);
}

static int one_in(uint32_t n)
{
    return below(n) == 0;
}

static void fill(void *memory, size_t length)
{
    uint8_t *p = memory;
    for (size_t i = 0; i < length; i++)
        p[i] = (uint8_t)below(256);
}

static void put2(uint8_t *p, unsigned n)
{
    p[0] = (uint8_t)(n >> 8);
    p[1] = (uint8_t)n;
}

/* Random shelves. */

/* Mostly of few kinds, so that equal ones are frequent. */
static void make_settings(uint8_t *settings, uint8_t type)
{
    unsigned few = !one_in(4);
    settings[0] = few ? (uint8_t)(0x10u << below(4)) & 0x70 : (uint8_t)(below(8) << 4);
    settings[1] = (uint8_t)(below(2) << 7);
    settings[2] = 0;
    settings[3] = 0;
    if (type == COOLING)
        settings[3] = (uint8_t)(below(few ? 2 : 4) << 5 | (1 + below(few ? 2 : 7)));
    else
        settings[1] |= (uint8_t)(below(2) << 6);
}

static void make_pair(uint8_t *greater, uint8_t *lesser)
{
    *greater = one_in(3) ? 0 : (uint8_t)below(256);
    *lesser = one_in(3) ? 0 : (uint8_t)below(*greater == 0 ? 256 : *greater + 1);
}

static void make_limits(uint8_t *limits, uint8_t type)
{
    memset(limits, 0, 4);
    if (type != COOLING)
        make_pair(&limits[0], &limits[1]);
    if (type == TEMPERATURE)
        make_pair(&limits[2], &limits[3]);
    if (type == VOLTAGE)
        make_pair(&limits[3], &limits[2]);
}

/* Readings of volts and amperes are mostly near a limit. */
static void make_measures(uint8_t *element, uint8_t type)
{
    if (type == COOLING) {
        put2(element + 8, one_in(3) ? 0 : below(2048));
    } else if (type == TEMPERATURE) {
        element[9] = one_in(5) ? 0 : (uint8_t)below(256);
    } else {
        int nominal = 1 + (int)below(one_in(2) ? 2000 : 32767), limit = element[4 + below(4)];
        int away = nominal * limit / 200 + (int)below(3) - 1, reading = one_in(2) ? nominal + away : nominal - away;
        put2(element + 8, one_in(4) ? below(65536) : (unsigned)reading);
        put2(element + 10, (unsigned)nominal);
    }
}

static unsigned make_type(uint8_t *type, unsigned room)
{
    static const uint8_t codes[] = {COOLING, TEMPERATURE, VOLTAGE, CURRENT};
    unsigned most = one_in(3) || room < 9 ? room : 9;
    type[0] = codes[below(4)];
    type[1] = (uint8_t)(one_in(8) ? room : below(most + 1));
    type[2] = (uint8_t)below(33);
    for (unsigned i = 0; i < type[2]; i++)
        type[4 + i] = (uint8_t)(0x20 + below(0x5F));
    return type[1];
}

/* Bytes at which a name ends. */
static uint8_t not_printable(void)
{
    static const uint8_t bytes[] = {0x00, 0x01, 0x1F, 0x7F, 0x80, 0xA0, 0xFF};
    return bytes[below(sizeof bytes)];
}

static uint8_t printable(void)
{
    return (uint8_t)(0x20 + below(0x5F));
}

/* Mostly short and of few letters, so that equal ones are frequent. Behind its end are zeros, or any bytes. */
static void make_name(uint8_t *name)
{
    unsigned few = !one_in(3), length = few && !one_in(4) ? below(4) : one_in(3) ? SES_NAME_LENGTH : below(SES_NAME_LENGTH + 1);
    for (unsigned i = 0; i < length; i++)
        name[i] = few ? (uint8_t)('a' + below(2)) : printable();
    if (length < SES_NAME_LENGTH && one_in(4)) {
        name[length] = not_printable();
        fill(name + length + 1, SES_NAME_LENGTH - length - 1);
    }
}

static uint8_t *name_of_slot(uint8_t *shelf, unsigned slot)
{
    return shelf + SES_CONFIGURATION_LENGTH + 16 * elements + 32 * slot;
}

static size_t length_of_good(void)
{
    return SES_CONFIGURATION_LENGTH + 16 * elements + 32 * (good[40] + elements);
}

static void make_shelf(void)
{
    memset(good, 0, sizeof good);
    fill(good, 40);
    good[40] = (uint8_t)(1 + below(8));
    elements = 0;
    for (unsigned t = 0; t < good[40]; t++) {
        uint8_t *type = good + 44 + 36 * t;
        unsigned end = elements + make_type(type, 64 - elements);
        for (; elements < end; elements++) {
            uint8_t *element = good + SES_CONFIGURATION_LENGTH + 16 * elements;
            make_settings(element, type[0]);
            make_limits(element + 4, type[0]);
            make_measures(element, type[0]);
        }
    }
    for (unsigned slot = 0; slot < good[40] + elements; slot++)
        make_name(name_of_slot(good, slot));
}

static uint8_t type_of(unsigned j)
{
    const uint8_t *type = good + 44;
    for (; j >= type[1]; type += 36)
        j -= type[1];
    return type[0];
}

/* Spoils some bytes or the length, the bytes at the front more often than the others. */
static void spoil(uint8_t *bytes, size_t *length, uint32_t front)
{
    uint8_t *place = bytes + below(*length == 0 || one_in(3) ? front : (uint32_t)*length);
    switch (below(5)) {
    case 0: *place ^= (uint8_t)(1u << below(8)); break;
    case 1: *place = (uint8_t)below(256); break;
    case 2: memset(place, 0, 2); break;
    case 3: *length = *length == 0 || one_in(2) ? *length + 1 : *length - 1; break;
    default: *length = below(one_in(2) ? 8 : (uint32_t)*length + 1);
    }
}

/* Puts one number just past its limit. */
static void pass_limit(void)
{
    unsigned j = below(elements);
    uint8_t *element = start.shelf + SES_CONFIGURATION_LENGTH + 16 * j;
    if (type_of(j) == COOLING)
        put2(element + 8, 2048);
    else if (type_of(j) == TEMPERATURE)
        put2(element + 8, 256);
    else
        put2(element + 10, 32768);
    start.configuration[45] = (uint8_t)(good[45] + 65 - elements);
}

static void lend_shelf(void)
{
    fill(&start, sizeof start);
    shelf_length = length_of_good();
    configuration_length = SES_CONFIGURATION_LENGTH;
    memcpy(start.shelf, good, shelf_length);
    memcpy(start.configuration, good, configuration_length);
    if (one_in(20) && elements > 0)
        pass_limit();
    /* Most bytes of a shelf are those of its names, of which none is wrong. */
    if (one_in(4))
        spoil(start.shelf, &shelf_length, one_in(2) ? 80 : SES_CONFIGURATION_LENGTH + 16 * elements);
    if (one_in(5))
        spoil(start.configuration, &configuration_length, 80);
}

static void choose_out_length(void)
{
    out_length = one_in(4) ? below(OUT_ROOM) : OUT_ROOM;
}

/* The library first, then plain C, each on a copy of its own. */

static struct lent *lend(struct lent *side)
{
    memcpy(side, &start, sizeof start);
    return side;
}

static void differ(enum call call, size_t at)
{
    size_t part = 0;
    while (at - parts[part].start >= parts[part].length)
        part++;
    fprintf(stderr, "agree: round %ld, %s: the library answers %u, plain C %u\n", round_number, calls[call].name,
            library.answer, plain.answer);
    fprintf(stderr, "agree: byte %u of %s is %02Xh after the library, %02Xh after plain C\n",
            (unsigned)(at - parts[part].start), parts[part].name, ((uint8_t *)&library)[at], ((uint8_t *)&plain)[at]);
    exit(1);
}

static void compare(enum call call)
{
    if (memcmp(&library, &plain, sizeof library) != 0)
        for (size_t at = 0;; at++)
            if (((uint8_t *)&library)[at] != ((uint8_t *)&plain)[at])
                differ(call, at);
    if (library.answer >= ANSWERS) {
        fprintf(stderr, "agree: round %ld, %s: both answer %u\n", round_number, calls[call].name, library.answer);
        exit(1);
    }
    given[call][library.answer]++;
}

#define BOTH(number, name, ...)                                                                                        \
    do {                                                                                                               \
        struct lent *at = lend(&library);                                                                              \
        uint32_t answer = ses_##name(__VA_ARGS__);                                                                     \
        at->answer = answer;                                                                                           \
        at = lend(&plain);                                                                                             \
        answer = plain_##name(__VA_ARGS__);                                                                            \
        at->answer = answer;                                                                                           \
        compare(number);                                                                                               \
    } while (0)

/* A call that does not answer counts as one that accepts. */
#define BOTH_SILENT(number, name, ...)                                                                                 \
    do {                                                                                                               \
        struct lent *at = lend(&library);                                                                              \
        ses_##name(__VA_ARGS__);                                                                                       \
        at->answer = 0;                                                                                                \
        at = lend(&plain);                                                                                             \
        plain_##name(__VA_ARGS__);                                                                                     \
        at->answer = 0;                                                                                                \
        compare(number);                                                                                               \
    } while (0)

#define SHELF at->shelf, shelf_length
#define CONFIGURATION at->configuration, configuration_length
#define PAGE at->page, page_length
#define WANTED at->wanted, wanted_length
#define TEXT at->text, text_length
#define OUT at->out, out_length, &at->written

/* The pages that tell. */

/* The page that the good shelf has. */
static void make_page(uint8_t (*write)(const uint8_t *, size_t, uint8_t *, size_t, uint32_t *))
{
    uint32_t length;
    write(good, length_of_good(), start.page, ROOM, &length);
    page_length = length;
}

static void put_page_length(void)
{
    put2(start.page + 2, (unsigned)page_length - 4);
}

/* A page of a wrong length sometimes says its own. */
static void spoil_page(void)
{
    memcpy(good_page, start.page, sizeof good_page);
    mended = 0;
    if (one_in(2))
        return;
    do
        spoil(start.page, &page_length, 12);
    while (one_in(3));
    if (page_length >= 4 && one_in(4))
        put_page_length();
}

/* A configuration page whose length is right for its types and texts, though these may be more or others than a shelf can have. */
static void make_odd_configuration_page(void)
{
    unsigned types = below(11);
    uint8_t *header = start.page + 48, *end = header + 4 * types, *text = end;
    if (one_in(8))
        fill(start.page + 8, 2);
    start.page[10] = (uint8_t)types;
    for (; header < end; header += 4) {
        header[0] = COOLING + (uint8_t)(one_in(32) ? 2 : below(2));
        header[1] = (uint8_t)below(16);
        header[2] = (uint8_t)one_in(16);
        header[3] = (uint8_t)below(34);
        memset(text, one_in(8) ? 0x7F : ' ', header[3]);
        text += header[3];
    }
    page_length = (size_t)(text - start.page);
    put_page_length();
}

/* Fans whose ON, OFF and speed code do not go together, and elements whose code and FAIL do not: no shelf shows them, and they are
 * read all the same. */
static void make_odd_elements(void)
{
    uint8_t *slot = start.page + 8;
    for (unsigned t = 0; t < good[40]; t++, slot += 4)
        for (unsigned i = 0; i < good[45 + 36 * t]; i++) {
            slot += 4;
            slot[0] = (uint8_t)((slot[0] & 0x70) | below(CODES));
            if (good[44 + 36 * t] == COOLING)
                slot[3] = (uint8_t)(below(8) << 4 | below(8));
            else
                slot[1] ^= (uint8_t)(below(2) << 6);
        }
}

/* Spoils a byte of a record of this many bytes in use, its head now and then. Hands back which. */
static size_t spoil_record(void *record, size_t length)
{
    size_t at = below(one_in(4) ? 4 : (uint32_t)length);
    uint8_t *place = (uint8_t *)record + at;
    switch (below(6)) {
    case 0: *place = (uint8_t)below(3); break;
    case 1: *place = (uint8_t)(1u << below(8)); break;
    case 2: *place = (uint8_t)below(256); break;
    }
    return at;
}

/* 0 for an overall entry, else 1 and up by the type. */
static unsigned sort_of_entry(const uint8_t *front, size_t entry)
{
    const uint8_t *type = front + 44;
    for (; entry > type[1]; type += 36)
        entry -= 1u + type[1];
    if (entry == 0)
        return 0;
    switch (type[0]) {
    case COOLING: return 1;
    case TEMPERATURE: return 2;
    case VOLTAGE: return 3;
    default: return 4;
    }
}

static void count_in_configuration(uint32_t offset)
{
    if (offset < 48)
        told_at[READ_CONFIGURATION][FIXED_PART][offset]++;
    else if (offset < 48 + 4u * start.page[10])
        told_at[READ_CONFIGURATION][HEADER][offset % 4]++;
    else
        told_at[READ_CONFIGURATION][TEXTS][0]++;
}

static void count_in_slots(enum call call, const uint8_t *front, uint32_t offset)
{
    if (offset < 8)
        told_at[call][FIXED_PART][offset]++;
    else
        told_at[call][sort_of_entry(front, offset / 4 - 2) == 0 ? OVERALL : INDIVIDUAL][offset % 4]++;
}

static void count_in_descriptors(uint32_t offset)
{
    uint32_t start_of = 8, end;
    if (offset < 8) {
        told_at[READ_DESCRIPTORS][FIXED_PART][offset]++;
        return;
    }
    while (end = start_of + 4 + start.page[start_of + 2] * 256u + start.page[start_of + 3], end <= offset)
        start_of = end;
    told_at[READ_DESCRIPTORS][DESCRIPTOR][offset - start_of]++;
}

/* Counts the byte of the page that the answer tells, if it tells one. If that byte was spoilt, it is mended, and the call has to
 * be made again; what offends then is not before it. It may be the same byte, since not every page is good before it is spoilt. */
static int mend_told(enum call call, const uint8_t *front)
{
    uint32_t offset = plain.offset;
    if (plain.answer != SES_NOT_ALLOWED)
        return 0;
    if (offset == 0 || offset < mended || offset >= page_length) {
        fprintf(stderr, "agree: round %ld, %s: both tell byte %u of %zu after byte %u\n", round_number, calls[call].name, offset,
                page_length, mended);
        exit(1);
    }
    if (call == READ_CONFIGURATION)
        count_in_configuration(offset);
    else if (call == READ_DESCRIPTORS)
        count_in_descriptors(offset);
    else
        count_in_slots(call, front, offset);
    told_at[call][BEHIND][0] += mended != 0 && offset > mended;
    if (start.page[offset] == good_page[offset])
        return 0;
    start.page[offset] = good_page[offset];
    mended = offset;
    return 1;
}

/* A call that tells the offset of a byte. The type list of a page with slots of four bytes is in `front`. */
#define BOTH_TELL(number, name, front, ...)                                                                            \
    do                                                                                                                 \
        BOTH(number, name, __VA_ARGS__, &at->offset);                                                                  \
    while (mend_told(number, front))

/* Puts a number that is just past some field's limit into any byte of an entry, overall or not. Hands back which. */
static size_t pass_limit_in_entry(void)
{
    static const uint8_t just_past[] = {1, 2, 8, 9};
    unsigned t = below(good[40]), entry = t, count = good[45 + 36 * t];
    for (unsigned before = 0; before < t; before++)
        entry += good[45 + 36 * before];
    if (count > 0 && !one_in(5))
        entry += 1 + below(count);
    size_t at = 4 + ENTRY_LENGTH * entry + below(ENTRY_LENGTH);
    ((uint8_t *)&start.status)[at] = just_past[below(sizeof just_past)];
    return at;
}

/* Would the status record be as it should if its byte `at` were one less? */
static int one_too_large(size_t at)
{
    struct ses_status less = start.status;
    uint8_t page[OUT_ROOM];
    uint32_t length;
    ((uint8_t *)&less)[at]--;
    return plain_rewrite_status(good, SES_CONFIGURATION_LENGTH, &less, page, sizeof page, &length) == SES_ACCEPTED;
}

static int own_configuration(void)
{
    return configuration_length == SES_CONFIGURATION_LENGTH &&
           memcmp(start.configuration, good, SES_CONFIGURATION_LENGTH) == 0;
}

/* Counts a status record that was refused only for its byte `at`, which is not as the reader handed it back. */
static void count_refused_byte(size_t at)
{
    if (at >= 4 && own_configuration() && plain.answer == SES_NOT_ALLOWED && one_too_large(at))
        refused_for[sort_of_entry(good, (at - 4) / ENTRY_LENGTH)][(at - 4) % ENTRY_LENGTH]++;
}

/* FAIL of settings, and of a status element. */
static unsigned fail_in(const uint8_t *bytes, unsigned sort)
{
    return bytes[sort == 1 ? 3 : 1] >> 6 & 1;
}

/* Counts the elements of a page by their codes and by FAIL: the stored one if there are stored elements, else that of the page. */
static void count_fails(unsigned counts[SORTS][CODES][2], const uint8_t *front, const uint8_t *page, const uint8_t *element)
{
    unsigned slots = front[40];
    for (unsigned t = 0; t < front[40]; t++)
        slots += front[45 + 36 * t];
    for (unsigned i = 0; i < slots; i++) {
        const uint8_t *slot = page + 8 + 4 * i;
        unsigned sort = sort_of_entry(front, i);
        if (sort == 0)
            continue;
        counts[sort][slot[0] & 0x0F][fail_in(element == NULL ? slot : element, sort)]++;
        if (element != NULL)
            element += 16;
    }
}

static void compare_configuration(void)
{
    choose_out_length();
    BOTH(CHECK, check, SHELF);
    BOTH(WRITE_CONFIGURATION, write_configuration, SHELF, OUT);
    BOTH(REWRITE_CONFIGURATION, rewrite_configuration, CONFIGURATION, OUT);
    make_page(ses_write_configuration);
    if (one_in(4))
        make_odd_configuration_page();
    spoil_page();
    BOTH_TELL(READ_CONFIGURATION, read_configuration, NULL, PAGE, at->told);
}

static void compare_status(void)
{
    choose_out_length();
    BOTH(WRITE_STATUS, write_status, SHELF, OUT);
    if (plain.answer == SES_ACCEPTED)
        count_fails(written_with, start.shelf, plain.out, start.shelf + SES_CONFIGURATION_LENGTH);
    make_page(ses_write_status);
    if (one_in(4))
        make_odd_elements();
    struct ses_status record = start.status;
    uint32_t offset;
    ses_read_status(good, SES_CONFIGURATION_LENGTH, start.page, page_length, &record, &offset);
    spoil_page();
    BOTH_TELL(READ_STATUS, read_status, start.configuration, CONFIGURATION, PAGE, &at->status);
    if (plain.answer == SES_ACCEPTED)
        count_fails(read_with, start.configuration, start.page, NULL);
    start.status = record;
    size_t in_use = 4 + ENTRY_LENGTH * (good[40] + elements);
    size_t spoilt = one_in(2) ? pass_limit_in_entry() : spoil_record(&start.status, in_use);
    BOTH(REWRITE_STATUS, rewrite_status, CONFIGURATION, &at->status, OUT);
    count_refused_byte(spoilt);
}

static void compare_thresholds(void)
{
    choose_out_length();
    BOTH(WRITE_THRESHOLDS, write_thresholds, SHELF, OUT);
    make_page(ses_write_thresholds);
    struct ses_thresholds record = start.thresholds;
    uint32_t offset;
    ses_read_thresholds(good, SES_CONFIGURATION_LENGTH, start.page, page_length, &record, &offset);
    spoil_page();
    BOTH_TELL(READ_THRESHOLDS, read_thresholds, start.configuration, CONFIGURATION, PAGE, &at->thresholds);
    start.thresholds = record;
    spoil_record(&start.thresholds, 4 + 4 * (good[40] + elements));
    BOTH(REWRITE_THRESHOLDS, rewrite_thresholds, CONFIGURATION, &at->thresholds, OUT);
}

/* Descriptors whose lengths are right for the page, though a text may be longer than a name, and any byte wrong. */
static void make_odd_descriptors(void)
{
    unsigned slots = good[40] + elements, too_long = one_in(2) ? slots : below(slots);
    uint8_t *descriptor = start.page + 8;
    start.page[1] = (uint8_t)one_in(16);
    for (unsigned i = 0; i < slots; i++) {
        unsigned text = below(SES_NAME_LENGTH + 1);
        if (i == too_long)
            text = one_in(2) ? SES_NAME_LENGTH + 1 : 256 + below(48);
        descriptor[0] = (uint8_t)one_in(100);
        descriptor[1] = (uint8_t)one_in(descriptor[0] != 0 ? 2 : 100);
        put2(descriptor + 2, text);
        for (unsigned at = 0; at < text; at++)
            descriptor[4 + at] = one_in(200) ? not_printable() : printable();
        descriptor += 4 + text;
    }
    page_length = (size_t)(descriptor - start.page);
    put_page_length();
}

/* A page that is written from the shelf or the record mostly has this length, and the output is about as long. */
static void choose_out_length_for_page(void)
{
    out_length = one_in(4) ? page_length + below(3) - 1 : one_in(8) ? below(DESCRIPTORS_ROOM) : DESCRIPTORS_ROOM;
}

static void compare_descriptors(void)
{
    make_page(ses_write_descriptors);
    choose_out_length_for_page();
    BOTH(WRITE_DESCRIPTORS, write_descriptors, SHELF, OUT);
    struct ses_names record = start.names;
    uint32_t offset;
    ses_read_descriptors(good, SES_CONFIGURATION_LENGTH, start.page, page_length, &record, &offset);
    if (one_in(3))
        make_odd_descriptors();
    spoil_page();
    BOTH_TELL(READ_DESCRIPTORS, read_descriptors, NULL, CONFIGURATION, PAGE, &at->names);
    start.names = record;
    size_t spoilt = spoil_record(&start.names, 4 + 32 * (good[40] + elements));
    BOTH(REWRITE_DESCRIPTORS, rewrite_descriptors, CONFIGURATION, &at->names, OUT);
    if (spoilt >= 4 && own_configuration() && plain.answer == SES_NOT_ALLOWED)
        name_refused_for[(spoilt - 4) % SES_NAME_LENGTH]++;
}

/* The pages that act. */

/* Now and then with reserved bits, from some byte on. */
static void make_control(uint8_t *slot, uint8_t type)
{
    unsigned right = one_in(5) ? below(4) : 4;
    make_settings(slot, type);
    if (one_in(2))
        slot[3] &= 0xF8;
    fill(slot + right, 4 - right);
    slot[0] = one_in(4) ? slot[0] & 0x7F : slot[0] | 0x80;
}

/* How many slots ask for something is different from page to page: with many, a threshold page is mostly out of order. */
static void make_out_page(uint8_t code, void (*make)(uint8_t *, uint8_t))
{
    unsigned slots = good[40] + elements, quiet = 1 + below(40);
    uint8_t *slot = start.page + 8;
    page_length = 8 + 4 * slots;
    memset(start.page, 0, page_length);
    start.page[0] = code;
    start.page[1] = code == 0x02 ? (uint8_t)below(16) : 0;
    put_page_length();
    memcpy(start.page + 4, good, 4);
    for (unsigned t = 0; t < good[40]; t++)
        for (unsigned i = 0; i <= good[44 + 36 * t + 1]; i++, slot += 4)
            if (one_in(quiet))
                make(slot, good[44 + 36 * t]);
}

static void compare_apply(void)
{
    make_out_page(0x02, make_control);
    spoil_page();
    BOTH_TELL(APPLY_CONTROL, apply_control, start.shelf, SHELF, PAGE);
    make_out_page(0x05, make_limits);
    spoil_page();
    BOTH_TELL(APPLY_THRESHOLDS, apply_thresholds, start.shelf, SHELF, PAGE);
}

/* Pages in chunks. */

/* The next call starts from what the last one left. */
static void go_on(void)
{
    memcpy(&start, &plain, sizeof start);
}

static uint64_t collected(void)
{
    const uint8_t *count = start.collector.count;
    return (uint32_t)count[0] << 24 | (uint32_t)count[1] << 16 | (uint32_t)count[2] << 8 | count[3];
}

static enum end end_of_chunk(uint64_t count, size_t length)
{
    uint64_t end = count + length;
    if (count > 65540)
        return ABOVE_STOP;
    if (length == 0)
        return NOWHERE;
    if (count >= 296)
        return count == 65540 ? BEHIND_STOP : end < 65540 ? BEHIND_ROOM : end == 65540 ? AT_STOP : PAST_STOP;
    return end < 296 ? IN_ROOM : end == 296 ? AT_ROOM_END : PAST_ROOM_END;
}

static void put_chunk(size_t at_byte, size_t length)
{
    ended[end_of_chunk(collected(), length)]++;
    BOTH_SILENT(PUT_CHUNK, put_chunk, &at->collector, at->page + at_byte, length);
    go_on();
}

/* The page in chunks, now and then in single bytes. */
static void put_page(void)
{
    int single = one_in(page_length > 300 ? 100 : 10);
    for (size_t at_byte = 0, length; at_byte < page_length; at_byte += length) {
        length = single ? 1 : below((uint32_t)(page_length - at_byte) + 1);
        put_chunk(at_byte, length);
    }
    if (one_in(8))
        put_chunk(page_length, 0);
}

/* Any bytes are a collector. This one has a count near to where something ends or where its bytes run over, or any. */
static void make_collector(void)
{
    static const uint32_t near[] = {1, 4, 24, 296, 65536, 65540, 0x1000000, 0xFFFFFFFF};
    uint32_t count = near[below(sizeof near / sizeof *near)] + below(3) - 1;
    fill(&start.collector, sizeof start.collector);
    if (one_in(3))
        return;
    put2(start.collector.count, count >> 16);
    put2(start.collector.count + 2, count & 0xFFFF);
}

/* Now and then longer than any page, and then mostly of the length that it says. */
static void make_page_to_put(uint8_t code)
{
    make_out_page(code, code == 0x02 ? make_control : make_limits);
    spoil_page();
    if (!one_in(8))
        return;
    page_length = 297 + below(one_in(2) ? 4 : 3000);
    if (!one_in(4))
        put_page_length();
}

/* The same page as a whole, on the shelf as it was before the end call, has to have the same answer and to leave the same shelf. */
static void compare_with_whole(uint8_t code)
{
    uint32_t offset, answer;
    answer = code == 0x02 ? plain_apply_control(start.shelf, shelf_length, start.page, page_length, &offset)
                          : plain_apply_thresholds(start.shelf, shelf_length, start.page, page_length, &offset);
    int same_shelf = memcmp(start.shelf, plain.shelf, ROOM) == 0;
    if (answer == plain.answer && offset == plain.offset && same_shelf)
        return;
    fprintf(stderr, "agree: round %ld: in chunks a page is answered %u with byte %u, as a whole %u with byte %u and %s shelf\n",
            round_number, plain.answer, plain.offset, answer, offset, same_shelf ? "the same" : "another");
    exit(1);
}

static void end_page(uint8_t code, int from_nothing)
{
    BOTH(END_PAGE, end_page, &at->collector, SHELF, code, &at->offset);
    if (plain.answer == SES_NOT_ALLOWED)
        count_in_slots(END_PAGE, start.shelf, plain.offset);
    if (from_nothing && page_length > 300)
        given_to_long[plain.answer]++;
    if (from_nothing && (code == 0x02 || code == 0x05))
        compare_with_whole(code);
    go_on();
}

/* Pages one after the other in one collector. The first is put into an empty one, or into any. */
static void compare_chunks(void)
{
    int from_nothing = !one_in(4);
    make_collector();
    if (from_nothing) {
        BOTH_SILENT(EMPTY_COLLECTOR, empty_collector, &at->collector);
        go_on();
    }
    do {
        uint8_t code = one_in(2) ? 0x02 : 0x05;
        make_page_to_put(code);
        put_page();
        end_page(one_in(8) ? (uint8_t)below(8) : one_in(32) ? (uint8_t)below(256) : code, from_nothing);
        from_nothing = 1;
    } while (one_in(2));
}

/* The builder. */

/* Of the elements of a type, these parts are wanted otherwise, mostly like the one before. SWAP is seldom wanted where it is not
 * stored. */
static void make_wish(void)
{
    unsigned otherwise = 1 + below(6), alike = 1 + below(6);
    wanted_length = 4 * elements;
    for (unsigned j = 0; j < elements; j++) {
        uint8_t *record = start.wanted + 4 * j, *stored = good + SES_CONFIGURATION_LENGTH + 16 * j;
        memcpy(record, stored, 4);
        if (one_in(otherwise) && j > 0 && type_of(j) == type_of(j - 1) && !one_in(alike))
            memcpy(record, record - 4, 4);
        else if (one_in(otherwise))
            make_settings(record, type_of(j));
        if ((stored[0] & 0x10) == 0 && !one_in(500))
            record[0] &= 0xEF;
    }
}

static void compare_build(void)
{
    choose_out_length();
    make_wish();
    if (one_in(6))
        spoil(start.wanted, &wanted_length, 4);
    BOTH(BUILD_CONTROL, build_control, SHELF, WANTED, OUT, &at->selects);
}

/* Names found and set. */

static unsigned name_length(const uint8_t *name)
{
    unsigned length = 0;
    while (length < SES_NAME_LENGTH && name[length] >= 0x20 && name[length] <= 0x7E)
        length++;
    return length;
}

/* The slot of an element, or of an overall element if there is none. */
static unsigned some_slot(int overall)
{
    unsigned t = below(good[40]), slot = t;
    for (unsigned before = 0; before < t; before++)
        slot += good[45 + 36 * before];
    return overall || good[45 + 36 * t] == 0 ? slot : slot + 1 + below(good[45 + 36 * t]);
}

static void make_text(enum kind kind)
{
    const uint8_t *name = name_of_slot(good, some_slot(kind == OF_OVERALL));
    size_t behind = (size_t)(good + length_of_good() - name);
    text_length = name_length(name);
    memcpy(start.text, name, behind < TEXT_ROOM ? behind : TEXT_ROOM);
    switch (kind) {
    case SHORTER:
        text_length -= text_length > 0;
        break;
    case LONGER:
        start.text[text_length++] = one_in(2) ? (uint8_t)('a' + below(2)) : printable();
        break;
    case CHANGED:
        if (text_length > 0)
            start.text[below((uint32_t)text_length)] = one_in(2) ? (uint8_t)('a' + below(2)) : printable();
        break;
    case NO_BYTES:
        text_length = 0;
        break;
    case TOO_LONG:
        text_length = SES_NAME_LENGTH + 1 + below(SES_NAME_LENGTH);
        break;
    case NOT_PRINTABLE:
        if (text_length == SES_NAME_LENGTH)
            start.text[below(SES_NAME_LENGTH)] = not_printable();
        else
            text_length += 1 + below(SES_NAME_LENGTH - (uint32_t)text_length);
        break;
    default:
        break;
    }
}

/* Sometimes past the last, by little or by so much that its last two bytes are not. */
static void choose_number(unsigned count)
{
    number = one_in(4) || count == 0 ? count + below(3) : below(count);
    if (one_in(16))
        number += (1 + below(65535)) << 16;
}

static void compare_names(void)
{
    enum kind kind = (enum kind)below(KINDS);
    make_text(kind);
    BOTH(FIND_NAME, find_name, SHELF, TEXT, &at->element);
    if (plain.answer == SES_ACCEPTED)
        found[kind][plain.element != SES_NO_ELEMENT]++;
    choose_number(elements);
    BOTH(SET_NAME, set_name, SHELF, number, TEXT);
    choose_number(good[40]);
    BOTH(SET_OVERALL_NAME, set_overall_name, SHELF, number, TEXT);
}

/* What came up. */

static int possible(enum call call, unsigned answer)
{
    return answer == 0 || memchr(calls[call].refusals, (int)answer, ANSWERS) != NULL;
}

/* Each answer that a call can give came up, and no other. */
static int all_given(void)
{
    int right = 1;
    for (int call = 0; call < CALLS; call++)
        for (unsigned answer = 0; answer < ANSWERS; answer++)
            if ((given[call][answer] != 0) != possible((enum call)call, answer)) {
                fprintf(stderr, "agree: %s answered %u %u times\n", calls[call].name, answer, given[call][answer]);
                right = 0;
            }
    return right;
}

/* Each byte of a page that can be told was, and no other. */
static int all_told(void)
{
    int right = 1;
    for (int call = 0; call < CALLS; call++)
        for (int region = 0; region < REGIONS; region++)
            for (unsigned at = 0; at < LONGEST_REGION; at++)
                if ((told_at[call][region][at] != 0) != (calls[call].told_at[region] >> at & 1)) {
                    fprintf(stderr, "agree: %s told byte %u of %s %u times\n", calls[call].name, at, regions[region],
                            told_at[call][region][at]);
                    right = 0;
                }
    return right;
}

/* Each byte of an entry that can be the reason of a refusal was, and no other. */
static int all_refused(void)
{
    int right = 1;
    for (unsigned sort = 0; sort < SORTS; sort++)
        for (unsigned at = 0; at < ENTRY_LENGTH; at++)
            if ((refused_for[sort][at] == 0) != (sorts[sort].any_value >> at & 1)) {
                fprintf(stderr, "agree: byte %u of a status record's %s entry was refused %u times\n", at, sorts[sort].name,
                        refused_for[sort][at]);
                right = 0;
            }
    return right;
}

/* Each code that a shelf gives was written with FAIL not stored and stored, and no other; any was read with FAIL 0 and 1. */
static int all_shown(void)
{
    int right = 1;
    for (unsigned sort = 1; sort < SORTS; sort++)
        for (unsigned code = 0; code < CODES; code++)
            for (unsigned fail = 0; fail < 2; fail++) {
                unsigned wrote = written_with[sort][code][fail], read = read_with[sort][code][fail];
                if ((sorts[sort].codes >> code & 1 ? wrote > FEW : wrote == 0) && read > FEW)
                    continue;
                fprintf(stderr, "agree: a %s element with code %u and FAIL %u was written %u times and read %u times\n",
                        sorts[sort].name, code, fail, wrote, read);
                right = 0;
            }
    return right;
}

/* Each byte of an entry of names can be. */
static int all_names_refused(void)
{
    int right = 1;
    for (unsigned at = 0; at < SES_NAME_LENGTH; at++)
        if (name_refused_for[at] == 0) {
            fprintf(stderr, "agree: byte %u of an entry of names was not refused\n", at);
            right = 0;
        }
    return right;
}

/* Each kind of text was not found, and found if it can be. */
static int all_found(void)
{
    int right = 1;
    for (int kind = 0; kind < KINDS; kind++)
        if (found[kind][0] == 0 || (found[kind][1] != 0) != kinds[kind].can_be_found) {
            fprintf(stderr, "agree: %s was not found %u times and found %u times\n", kinds[kind].name, found[kind][0],
                    found[kind][1]);
            right = 0;
        }
    return right;
}

static int all_ended(void)
{
    int right = 1;
    for (int end = 0; end < ENDS; end++)
        if (ended[end] == 0) {
            fprintf(stderr, "agree: no chunk %s was put\n", ends[end]);
            right = 0;
        }
    return right;
}

/* Long pages are refused with 1, 3, 4 and 12, and with no other. */
static int all_long(void)
{
    int right = 1;
    for (unsigned answer = 0; answer < ANSWERS; answer++)
        if ((given_to_long[answer] != 0) != (answer == 1 || answer == 3 || answer == 4 || answer == 12)) {
            fprintf(stderr, "agree: a page in chunks that is too long was answered %u %u times\n", answer, given_to_long[answer]);
            right = 0;
        }
    return right;
}

static void print_given(void)
{
    printf("%-22s", "");
    for (int answer = 0; answer < ANSWERS; answer++)
        printf("%7d", answer);
    for (int call = 0; call < CALLS; call++) {
        printf("\n%-22s", calls[call].name);
        for (int answer = 0; answer < ANSWERS; answer++)
            if (given[call][answer] != 0)
                printf("%7u", given[call][answer]);
            else
                printf("%7s", "-");
    }
    printf("\n");
}

int main(int argc, char **argv)
{
    long rounds = argc == 2 ? atol(argv[1]) : 0;
    for (round_number = 1; round_number <= rounds; round_number++) {
        make_shelf();
        lend_shelf();
        compare_configuration();
        compare_status();
        compare_thresholds();
        compare_descriptors();
        compare_apply();
        compare_build();
        compare_names();
        compare_chunks();
    }
    if (!(all_given() & all_told() & all_refused() & all_shown() & all_names_refused() & all_found() & all_ended() & all_long()))
        return 1;
    printf("The library and plain C agree on %ld random shelves and their pages. How often each call gave each answer:\n", rounds);
    print_given();
    return 0;
}
