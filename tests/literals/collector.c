/* Request Four: pages that come in chunks. A collector is 300 bytes: how many bytes came, in four bytes with the high byte first,
 * and the first 296 of them. All 300 are held after each call. The pages are document 01's for A, and such as refusals.c has: in
 * chunks, each has to do what it does as a whole, or to be refused as it is. */
#define _DEFAULT_SOURCE
#include "literals.h"

#include <string.h>
#include <sys/mman.h>

#define LENGTH_OF(table) (sizeof table / sizeof *table)

#define HEADER(code, byte_1, length, generation) code, byte_1, (length) >> 8, (length) & 0xFF, 0x00, 0x00, 0x00, generation
#define NOTHING 0x00, 0x00, 0x00, 0x00
#define SPEED_3 0x00, 0x00, 0x00, 0x23
#define SPEED_4 0x00, 0x00, 0x00, 0x24
#define SPEED_5 0x00, 0x00, 0x00, 0x25
#define ASKS_5 0x80, 0x00, 0x00, 0x25

enum { CONTROL = 0x02, THRESHOLDS = 0x05 };
enum { ROOM = 296, LARGEST_SHELF = 3660, MOST = 131100 };

/* What comes from the bus. */
static uint8_t stream[MOST];
static struct ses_collector collector;

/* All 300 bytes: the count, bytes of pages, and behind them what the collector was filled with. */
static void hold_room(const char *what, const uint8_t count[4], const uint8_t *kept, size_t length)
{
    uint8_t wanted[300];
    fill(wanted, sizeof wanted);
    memcpy(wanted, count, 4);
    memcpy(wanted + 4, kept, length);
    hold_bytes(what, &collector, wanted, sizeof wanted);
}

static void hold_count(const char *what, unsigned long count, const uint8_t *kept, size_t length)
{
    const uint8_t bytes[4] = {0, (uint8_t)(count >> 16), (uint8_t)(count >> 8), (uint8_t)count};
    hold_room(what, bytes, kept, length);
}

/* Of 300 bytes that are not zero, the four of the count become so. */
static void start_empty(const char *what)
{
    fill(&collector, sizeof collector);
    ses_empty_collector(&collector);
    hold_room(what, (const uint8_t[4]){0, 0, 0, 0}, stream, 0);
}

static void fill_stream(void)
{
    for (size_t i = 0; i < MOST; i++)
        stream[i] = (uint8_t)(i * 7 + i / 256 + 1);
}

static size_t fewer(size_t a, size_t b)
{
    return a < b ? a : b;
}

/* Chunks, and the count after each. A chunk is what comes next from the bus; a line with `again` starts with an empty collector.
 * 295, 296 and 297 are 127h to 129h; 65,535 is FFFFh, 65,540 is 10004h. */
static const struct {
    int again;
    size_t chunk;
    uint8_t count[4];
    size_t kept;
} chunks[] = {
    {1, 0, {0, 0, 0, 0}, 0},
    {0, 1, {0, 0, 0, 1}, 1},
    {0, 0, {0, 0, 0, 1}, 1},
    {0, 3, {0, 0, 0, 4}, 4},
    {0, 20, {0, 0, 0, 24}, 24},
    {0, 0, {0, 0, 0, 24}, 24},
    {0, 231, {0, 0, 0, 255}, 255},
    {0, 1, {0, 0, 1, 0}, 256},
    {0, 39, {0, 0, 1, 0x27}, 295},
    {0, 0, {0, 0, 1, 0x27}, 295},
    {0, 1, {0, 0, 1, 0x28}, 296},
    {0, 0, {0, 0, 1, 0x28}, 296},
    {0, 1, {0, 0, 1, 0x29}, 296},
    {0, 0, {0, 0, 1, 0x29}, 296},
    {0, 65238, {0, 0, 0xFF, 0xFF}, 296},
    {0, 1, {0, 1, 0, 0}, 296},
    {0, 2, {0, 1, 0, 2}, 296},
    {0, 1, {0, 1, 0, 3}, 296},
    {0, 0, {0, 1, 0, 3}, 296},
    {0, 1, {0, 1, 0, 4}, 296},
    {0, 0, {0, 1, 0, 4}, 296},
    {0, 1, {0, 1, 0, 4}, 296},
    {0, 300, {0, 1, 0, 4}, 296},
    /* Over the end of the room, and of the count. */
    {1, 290, {0, 0, 1, 0x22}, 290},
    {0, 10, {0, 0, 1, 0x2C}, 296},
    {0, 65300, {0, 1, 0, 4}, 296},
    {1, 295, {0, 0, 1, 0x27}, 295},
    {0, 2, {0, 0, 1, 0x29}, 296},
    {1, 1, {0, 0, 0, 1}, 1},
    {0, 65538, {0, 1, 0, 3}, 296},
    {0, 2, {0, 1, 0, 4}, 296},
    {1, 1, {0, 0, 0, 1}, 1},
    {0, 65539, {0, 1, 0, 4}, 296},
    /* At once. */
    {1, 296, {0, 0, 1, 0x28}, 296},
    {1, 297, {0, 0, 1, 0x29}, 296},
    {1, 65539, {0, 1, 0, 3}, 296},
    {1, 65540, {0, 1, 0, 4}, 296},
    {1, 65541, {0, 1, 0, 4}, 296},
    {1, 131072, {0, 1, 0, 4}, 296},
    {1, 131096, {0, 1, 0, 4}, 296},
};

static void hold_chunks(void)
{
    size_t at = 0;
    fill_stream();
    for (size_t i = 0; i < LENGTH_OF(chunks); i++) {
        if (chunks[i].again) {
            start_empty("a collector emptied");
            at = 0;
        }
        ses_put_chunk(&collector, stream + at, chunks[i].chunk);
        at += chunks[i].chunk;
        hold_room("a chunk", chunks[i].count, stream, chunks[i].kept);
    }
    /* What was put stays where it is, with another count. */
    ses_empty_collector(&collector);
    hold_room("emptied again", (const uint8_t[4]){0, 0, 0, 0}, stream, 296);
    ses_put_chunk(&collector, stream + 1, 0);
    hold_room("emptied again, no bytes", (const uint8_t[4]){0, 0, 0, 0}, stream, 296);
}

/* Chunks of 2^32 - 10 and of 2^32 bytes, behind ten: in 32 bits the sums are 0 and 10. All their bytes are zero, and none past the
 * room is looked at, so they take no memory. */
static void hold_longest_chunks(void)
{
    static const uint8_t kept[ROOM] = {1, 2, 3, 4, 5, 6, 7, 8, 9, 10};
    const size_t lengths[] = {0xFFFFFFF6, 0x100000000};
    uint8_t *zeros = mmap(NULL, 0x100000000, PROT_READ, MAP_PRIVATE | MAP_ANONYMOUS, -1, 0);
    hold("memory for the longest chunk", zeros == MAP_FAILED, 0);
    if (zeros == MAP_FAILED)
        return;
    for (size_t i = 0; i < LENGTH_OF(lengths); i++) {
        start_empty("before the longest chunk");
        ses_put_chunk(&collector, kept, 10);
        ses_put_chunk(&collector, zeros, lengths[i]);
        hold_room("the longest chunk", (const uint8_t[4]){0, 1, 0, 4}, kept, ROOM);
    }
    munmap(zeros, 0x100000000);
}

/* A shelf, as it is and as it has to be after a page. */
static uint8_t shelf[LARGEST_SHELF], after[LARGEST_SHELF];
static size_t shelf_length;

static void lend_nothing(void)
{
    memset(shelf, 0, sizeof shelf);
    memset(after, 0, sizeof after);
}

static void lend_fans(const uint8_t stored[12], const uint8_t wanted[12])
{
    lend_nothing();
    shelf_length = A_LENGTH;
    put_fans(shelf, stored);
    put_fans(after, wanted);
}

static void lend_sensor(const uint8_t stored[4], const uint8_t wanted[4])
{
    lend_nothing();
    shelf_length = SENSOR_LENGTH;
    put_sensor(shelf, TEMPERATURE, stored, 0, 0);
    put_sensor(after, TEMPERATURE, wanted, 0, 0);
}

/* The end of a page whose bytes up to the room's end are `kept`: the collector has them still, behind a count of 0. */
static void hold_end(const char *what, uint8_t code, const uint8_t *kept, size_t length, unsigned number, unsigned offset)
{
    struct told told;
    fill(&told, sizeof told);
    told.number = ses_end_page(&collector, shelf, shelf_length, code, &told.offset);
    hold_told(what, told, number, offset);
    hold_bytes(what, shelf, after, sizeof shelf);
    hold_room(what, (const uint8_t[4]){0, 0, 0, 0}, kept, length);
}

/* A page in three chunks, cut at these places; one or more of them may be empty. */
static void put_cut(const char *what, const uint8_t *page, size_t length, size_t first, size_t second)
{
    start_empty(what);
    ses_put_chunk(&collector, page, first);
    hold_count(what, first, page, first);
    ses_put_chunk(&collector, page + first, second - first);
    hold_count(what, second, page, second);
    ses_put_chunk(&collector, page + second, length - second);
    hold_count(what, length, page, length);
}

static void put_bytes(const char *what, const uint8_t *page, size_t length)
{
    start_empty(what);
    for (size_t i = 0; i < length; i++) {
        ses_put_chunk(&collector, page + i, 1);
        hold_count(what, i + 1, page, i + 1);
    }
}

/* Whole, by single bytes, and cut at every two places; each time from the same shelf. */
static void hold_cut_everywhere(const char *what, uint8_t code, const uint8_t *page, size_t length, unsigned number,
                                unsigned offset)
{
    uint8_t before[LARGEST_SHELF];
    memcpy(before, shelf, sizeof shelf);
    for (size_t first = 0; first <= length; first++)
        for (size_t second = first; second <= length; second++) {
            memcpy(shelf, before, sizeof shelf);
            put_cut(what, page, length, first, second);
            hold_end(what, code, page, length, number, offset);
        }
    memcpy(shelf, before, sizeof shelf);
    put_bytes(what, page, length);
    hold_end(what, code, page, length, number, offset);
}

/* Document 01's pages for A and one more, and what its fans store after them. */
static const struct {
    const char *what;
    uint8_t stored[12], page[24], after[12];
} accepted[] = {
    {"in chunks, SPEED 5 for all",
     {SPEED_3, SPEED_3, SPEED_3}, {HEADER(0x02, 0x00, 0x14, 7), ASKS_5, NOTHING, NOTHING, NOTHING}, {SPEED_5, SPEED_5, SPEED_5}},
    {"in chunks, SPEED 5 for the middle fan",
     {SPEED_3, SPEED_3, SPEED_3}, {HEADER(0x02, 0x00, 0x14, 7), NOTHING, NOTHING, ASKS_5, NOTHING}, {SPEED_3, SPEED_5, SPEED_3}},
    {"in chunks, SPEED 5 for the first two",
     {SPEED_3, SPEED_3, SPEED_3}, {HEADER(0x02, 0x00, 0x14, 7), NOTHING, ASKS_5, ASKS_5, NOTHING}, {SPEED_5, SPEED_5, SPEED_3}},
    {"in chunks, SPEED 5 for the last",
     {SPEED_3, SPEED_3, SPEED_3}, {HEADER(0x02, 0x00, 0x14, 7), NOTHING, NOTHING, NOTHING, ASKS_5}, {SPEED_3, SPEED_3, SPEED_5}},
    {"in chunks, IDENT on all",
     {SPEED_3, SPEED_4, SPEED_5}, {HEADER(0x02, 0x00, 0x14, 7), 0x80, 0x80, 0x00, 0x20, NOTHING, NOTHING, NOTHING},
     {0x00, 0x80, 0x00, 0x23, 0x00, 0x80, 0x00, 0x24, 0x00, 0x80, 0x00, 0x25}},
    {"in chunks, SWAP cleared",
     {0x10, 0x00, 0x00, 0x23, SPEED_3, SPEED_3}, {HEADER(0x02, 0x00, 0x14, 7), NOTHING, 0x90, 0x00, 0x00, 0x20, NOTHING, NOTHING},
     {SPEED_3, SPEED_3, SPEED_3}},
    {"in chunks, wanted equal to stored",
     {SPEED_3, SPEED_3, SPEED_3}, {HEADER(0x02, 0x00, 0x14, 7), NOTHING, NOTHING, NOTHING, NOTHING}, {SPEED_3, SPEED_3, SPEED_3}},
};

/* Pages for A that are refused, with the code meant. The control pages ask for SPEED 5 for all, which must not be done. */
static const struct {
    const char *what;
    uint8_t code;
    uint8_t page[28];
    size_t length;
    unsigned number, offset;
} refused[] = {
    {"no bytes", CONTROL, {0}, 0, 2, 0},
    {"no bytes of thresholds", THRESHOLDS, {0}, 0, 2, 0},
    {"3 bytes", CONTROL, {0x02, 0x00, 0x00}, 3, 2, 0},
    {"3 bytes of another page", CONTROL, {0x05, 0x00, 0x00}, 3, 2, 0},
    {"thresholds meant as control", CONTROL, {HEADER(0x05, 0x00, 0x14, 7)}, 24, 3, 0},
    {"control meant as thresholds", THRESHOLDS, {HEADER(0x02, 0x00, 0x14, 7), ASKS_5}, 24, 3, 0},
    {"23 bytes of another page", THRESHOLDS, {HEADER(0x02, 0x00, 0x14, 7), ASKS_5}, 23, 3, 0},
    {"23 bytes of 24", CONTROL, {HEADER(0x02, 0x00, 0x14, 7), ASKS_5}, 23, 4, 0},
    {"25 bytes of 24", CONTROL, {HEADER(0x02, 0x00, 0x14, 7), ASKS_5}, 25, 4, 0},
    {"23 bytes, generation 8", CONTROL, {HEADER(0x02, 0x00, 0x14, 8), ASKS_5}, 23, 4, 0},
    {"24 bytes that say they are 28", CONTROL, {HEADER(0x02, 0x00, 0x18, 7), ASKS_5}, 24, 4, 0},
    {"24 bytes that say they are 280", CONTROL, {HEADER(0x02, 0x00, 0x0114, 7), ASKS_5}, 24, 4, 0},
    {"28 bytes that say so", CONTROL, {HEADER(0x02, 0x00, 0x18, 7), ASKS_5}, 28, 12, 0},
    {"4 bytes that say so", CONTROL, {0x02, 0x00, 0x00, 0x00}, 4, 12, 0},
    {"28 bytes of thresholds that say so", THRESHOLDS, {HEADER(0x05, 0x00, 0x18, 7)}, 28, 12, 0},
    {"generation 8", CONTROL, {HEADER(0x02, 0x00, 0x14, 8), ASKS_5, [16] = 0x88}, 24, 5, 0},
    {"a reserved bit of the middle fan", CONTROL, {HEADER(0x02, 0x00, 0x14, 7), ASKS_5, [16] = 0x88}, 24, 6, 16},
    {"the same and one of byte 1", CONTROL, {HEADER(0x02, 0x10, 0x14, 7), ASKS_5, [16] = 0x88}, 24, 6, 1},
    {"a reserved bit of the last fan", CONTROL, {HEADER(0x02, 0x00, 0x14, 7), ASKS_5, [20] = 0x80, 0x00, 0x00, 0x08}, 24, 6, 23},
    {"byte 1 of thresholds", THRESHOLDS, {HEADER(0x05, 0x80, 0x14, 7), [8] = 1}, 24, 6, 1},
    {"a fan's threshold", THRESHOLDS, {HEADER(0x05, 0x00, 0x14, 7), [23] = 1}, 24, 7, 0},
};

/* A temperature sensor: high critical, high warning, low warning, low critical. An individual byte that is not zero is taken, else
 * an overall one, else the stored one stays. A page of 16 bytes has the overall element at 8 and the sensor at 12. */
static const struct {
    const char *what;
    uint8_t stored[4], page[16], after[4];
    unsigned number;
} limits[] = {
    {"in chunks, high critical 11 at 11", {0, 11, 0, 0}, {HEADER(0x05, 0x00, 0x0C, 7), NOTHING, 11}, {11, 11, 0, 0}, 0},
    {"in chunks, high critical 10 under 11", {0, 11, 0, 0}, {HEADER(0x05, 0x00, 0x0C, 7), NOTHING, 10}, {0, 11, 0, 0}, 8},
    {"in chunks, overall and individual", {80, 70, 20, 10}, {HEADER(0x05, 0x00, 0x0C, 7), 90, 75, 0, 0, 0, 65, 0, 15},
     {90, 65, 20, 15}, 0},
};

static void hold_pages(void)
{
    for (size_t i = 0; i < LENGTH_OF(accepted); i++) {
        lend_fans(accepted[i].stored, accepted[i].after);
        hold_cut_everywhere(accepted[i].what, CONTROL, accepted[i].page, 24, 0, 0);
    }
    for (size_t i = 0; i < LENGTH_OF(refused); i++) {
        lend_fans(accepted[0].stored, accepted[0].stored);
        hold_cut_everywhere(refused[i].what, refused[i].code, refused[i].page, refused[i].length, refused[i].number,
                            refused[i].offset);
    }
    for (size_t i = 0; i < LENGTH_OF(limits); i++) {
        lend_sensor(limits[i].stored, limits[i].after);
        hold_cut_everywhere(limits[i].what, THRESHOLDS, limits[i].page, 16, limits[i].number, 0);
    }
}

/* Eight types of eight fans make 72 slots: a block of 332 + 16 x 64 + 32 x 72 bytes, and a page of 296. All fans have SPEED 3. Each
 * overall element asks for 5, and the last fan, at 292, for 7. */
static void put_largest_page(uint8_t page[ROOM])
{
    memset(shelf, 0, sizeof shelf);
    memset(page, 0, ROOM);
    memcpy(page, (const uint8_t[8]){HEADER(0x02, 0x00, 0x0124, 7)}, 8);
    shelf_length = LARGEST_SHELF;
    shelf[3] = 7;
    shelf[40] = 8;
    for (size_t t = 0; t < 8; t++) {
        shelf[44 + 36 * t] = COOLING;
        shelf[45 + 36 * t] = 8;
        memcpy(page + 8 + 36 * t, (const uint8_t[4]){ASKS_5}, 4);
    }
    memcpy(page + 292, (const uint8_t[4]){0x80, 0x00, 0x00, 0x27}, 4);
    for (size_t j = 0; j < 64; j++)
        shelf[335 + 16 * j] = 0x23;
    memcpy(after, shelf, sizeof shelf);
    for (size_t j = 0; j < 64; j++)
        after[335 + 16 * j] = 0x25;
    after[335 + 16 * 63] = 0x27;
}

static void hold_largest_page(void)
{
    uint8_t page[ROOM], before[LARGEST_SHELF];
    put_largest_page(page);
    memcpy(before, shelf, sizeof shelf);
    for (size_t cut = 0; cut <= ROOM; cut++) {
        memcpy(shelf, before, sizeof shelf);
        put_cut("the largest page", page, ROOM, cut, cut);
        hold_end("the largest page", CONTROL, page, ROOM, 0, 0);
    }
    memcpy(shelf, before, sizeof shelf);
    put_bytes("the largest page, by single bytes", page, ROOM);
    hold_end("the largest page, by single bytes", CONTROL, page, ROOM, 0, 0);
    /* A byte behind it. The page is kept whole, and refused. */
    memcpy(shelf, before, sizeof shelf);
    memcpy(after, before, sizeof after);
    put_cut("a byte behind the largest page", page, ROOM, 1, 2);
    ses_put_chunk(&collector, page, 1);
    hold_count("a byte behind the largest page", 297, page, ROOM);
    hold_end("a byte behind the largest page", CONTROL, page, ROOM, 4, 0);
    page[3] = 0x25;
    put_cut("a byte more that the page says", page, ROOM, 1, 2);
    ses_put_chunk(&collector, page, 1);
    hold_end("a byte more that the page says", CONTROL, page, ROOM, 12, 0);
}

/* Pages by their length and by their length field. That is at most FFFFh, and says 65,539 bytes then. 65,560 is 10018h, and without
 * its highest bit 24, which A needs; so is 131,096, 20018h. */
static const struct {
    const char *what;
    size_t length;
    unsigned field, number;
} long_pages[] = {
    {"296 bytes that say 295", 296, 0x0123, 4},
    {"296 bytes that say so, for A", 296, 0x0124, 12},
    {"297 bytes that say 24", 297, 0x0014, 4},
    {"297 bytes that say 296", 297, 0x0124, 4},
    {"297 bytes that say so", 297, 0x0125, 12},
    {"300 bytes that say so", 300, 0x0128, 12},
    {"4,136 bytes that say so", 4136, 0x1024, 12},
    {"65,535 bytes that say so", 65535, 0xFFFB, 12},
    {"65,536 bytes that say so", 65536, 0xFFFC, 12},
    {"65,538 bytes that say 65,539", 65538, 0xFFFF, 4},
    {"65,539 bytes that say 65,538", 65539, 0xFFFE, 4},
    {"65,539 bytes that say so", 65539, 0xFFFF, 12},
    {"65,540 bytes that say 65,539", 65540, 0xFFFF, 4},
    {"65,540 bytes that say 4", 65540, 0x0000, 4},
    {"65,540 bytes that say 8", 65540, 0x0004, 4},
    {"65,541 bytes that say 65,539", 65541, 0xFFFF, 4},
    {"65,541 bytes that say 4", 65541, 0x0000, 4},
    {"65,541 bytes that say 5", 65541, 0x0001, 4},
    {"65,560 bytes that say 24", 65560, 0x0014, 4},
    {"131,075 bytes that say 65,539", 131075, 0xFFFF, 4},
    {"131,096 bytes that say 24", 131096, 0x0014, 4},
};

/* The stream as a page, in chunks of at most this length. */
static void put_stream(const char *what, size_t length, size_t chunk)
{
    start_empty(what);
    for (size_t at = 0; at < length; at += chunk)
        ses_put_chunk(&collector, stream + at, fewer(chunk, length - at));
    hold_count(what, fewer(length, 65540), stream, ROOM);
}

static void hold_long_page(const char *what, size_t length, uint8_t code, unsigned number)
{
    static const size_t sizes[] = {MOST, 65540, 65539, 4096, 297, 296, 295, 24};
    for (size_t i = 0; i < LENGTH_OF(sizes); i++) {
        put_stream(what, length, sizes[i]);
        hold_end(what, code, stream, ROOM, number, 0);
    }
}

static void hold_long_pages(void)
{
    fill_stream();
    lend_fans(accepted[0].stored, accepted[0].stored);
    for (size_t i = 0; i < LENGTH_OF(long_pages); i++) {
        const char *what = long_pages[i].what;
        size_t length = long_pages[i].length;
        memcpy(stream, (const uint8_t[8]){HEADER(0x02, 0x00, long_pages[i].field, 7)}, 8);
        hold_long_page(what, length, CONTROL, long_pages[i].number);
        hold_long_page(what, length, THRESHOLDS, 3);
        hold_long_page(what, length, 0x07, 3);
        stream[0] = 0x05;
        hold_long_page(what, length, THRESHOLDS, long_pages[i].number);
        hold_long_page(what, length, CONTROL, 3);
        shelf_length = A_LENGTH - 1;
        hold_long_page(what, length, CONTROL, 1);
        hold_long_page(what, length, THRESHOLDS, 1);
        shelf_length = A_LENGTH;
    }
}

/* A code meant that is neither 02h nor 05h, whatever byte 0 is: 3, behind 1 and 2. */
static void hold_codes(void)
{
    static const struct {
        size_t given;
        unsigned number;
    } lengths[] = {{0, 2}, {3, 2}, {4, 3}, {23, 3}, {24, 3}};
    uint8_t page[24] = {HEADER(0x02, 0x00, 0x14, 7), ASKS_5};
    lend_fans(accepted[0].stored, accepted[0].stored);
    for (unsigned code = 0; code < 256; code++) {
        if (code == 0x02 || code == 0x05)
            continue;
        for (size_t i = 0; i < LENGTH_OF(lengths); i++)
            for (int its_own = 0; its_own < 2; its_own++) {
                page[0] = its_own ? (uint8_t)code : 0x02;
                shelf_length = A_LENGTH;
                put_cut("another code meant", page, lengths[i].given, 0, 0);
                hold_end("another code meant", (uint8_t)code, page, lengths[i].given, lengths[i].number, 0);
                shelf_length = A_LENGTH - 1;
                put_cut("another code meant, no shelf", page, lengths[i].given, 0, 0);
                hold_end("another code meant, no shelf", (uint8_t)code, page, lengths[i].given, 1, 0);
            }
    }
    shelf_length = A_LENGTH - 1;
    page[0] = 0x02;
    for (size_t length = 0; length <= 24; length++) {
        put_cut("no shelf", page, length, 0, 0);
        hold_end("no shelf", CONTROL, page, length, 1, 0);
        put_cut("no shelf, thresholds", page, length, 0, 0);
        hold_end("no shelf, thresholds", THRESHOLDS, page, length, 1, 0);
    }
}

static const uint8_t all[24] = {HEADER(0x02, 0x00, 0x14, 7), ASKS_5};
static const uint8_t ident[24] = {HEADER(0x02, 0x00, 0x14, 7), 0x80, 0x80, 0x00, 0x20};

/* IDENT on all, put while the shelf is another one than at the end call. */
static void hold_shelf_of_the_end(void)
{
    static const uint8_t ident_of_8[24] = {HEADER(0x02, 0x00, 0x14, 8), 0x80, 0x80, 0x00, 0x20};

    lend_fans(accepted[0].stored, accepted[4].after);
    put_cut("SPEED 3, 4, 5 at the end", ident, 24, 12, 12);
    put_fans(shelf, accepted[4].stored);
    hold_end("SPEED 3, 4, 5 at the end", CONTROL, ident, 24, 0, 0);

    lend_fans(accepted[4].stored, accepted[4].after);
    shelf[40] = 9;
    put_cut("a shelf at the end", ident, 24, 12, 12);
    shelf[40] = 1;
    hold_end("a shelf at the end", CONTROL, ident, 24, 0, 0);

    lend_fans(accepted[4].stored, accepted[4].stored);
    put_cut("no shelf at the end", ident, 24, 12, 12);
    shelf[40] = after[40] = 9;
    hold_end("no shelf at the end", CONTROL, ident, 24, 1, 0);

    lend_fans(accepted[4].stored, accepted[4].stored);
    put_cut("generation 8 at the end", ident, 24, 12, 12);
    shelf[3] = after[3] = 8;
    hold_end("generation 8 at the end", CONTROL, ident, 24, 5, 0);

    lend_fans(accepted[4].stored, accepted[4].after);
    put_cut("generation 8 on both", ident_of_8, 24, 12, 12);
    shelf[3] = after[3] = 8;
    hold_end("generation 8 on both", CONTROL, ident_of_8, 24, 0, 0);

    lend_fans(accepted[4].stored, accepted[4].stored);
    put_cut("another shelf at the end", ident, 24, 12, 12);
    lend_sensor((const uint8_t[4]){0, 11, 0, 0}, (const uint8_t[4]){0, 11, 0, 0});
    hold_end("another shelf at the end", CONTROL, ident, 24, 12, 0);
}

/* The next page in the same collector starts from nothing, whatever became of the one before. The room has at each place what was
 * put there last. */
static void hold_after_acceptance(void)
{
    static const uint8_t room[24] = {0};
    lend_fans(accepted[0].stored, accepted[0].after);
    put_cut("the first page", all, 24, 8, 16);
    hold_end("the first page", CONTROL, all, 24, 0, 0);
    hold_end("no page behind an accepted one", CONTROL, all, 24, 2, 0);
    hold_end("no page behind a refused one", THRESHOLDS, all, 24, 2, 0);
    /* The second half of a page, which is all zero, is no page. */
    ses_put_chunk(&collector, all + 12, 12);
    hold_count("half a page", 12, room, 24);
    hold_end("half a page", CONTROL, room, 24, 3, 0);
}

static void hold_after_refusal(void)
{
    uint8_t room[23];
    lend_fans(accepted[0].stored, accepted[0].stored);
    /* All but one byte; then that byte, which is zero. */
    put_cut("23 bytes", ident, 23, 8, 16);
    hold_end("23 bytes", CONTROL, ident, 23, 4, 0);
    memcpy(room, ident, 23);
    room[0] = 0x00;
    ses_put_chunk(&collector, ident + 23, 1);
    hold_count("the 24th byte", 1, room, 23);
    hold_end("the 24th byte", CONTROL, room, 23, 2, 0);
    /* A page that is good, but for the code meant, is gone then. */
    ses_put_chunk(&collector, ident, 24);
    hold_count("a page, another one meant", 24, ident, 24);
    hold_end("a page, another one meant", THRESHOLDS, ident, 24, 3, 0);
    hold_end("that page again", CONTROL, ident, 24, 2, 0);
    ses_put_chunk(&collector, ident, 24);
    hold_end("a page, 07h meant", 0x07, ident, 24, 3, 0);
    hold_end("that page again", CONTROL, ident, 24, 2, 0);
    /* Behind a page that is longer than any. */
    fill_stream();
    memcpy(stream, all, 24);
    put_stream("a page too long", 131096, 4096);
    hold_end("a page too long", CONTROL, stream, ROOM, 4, 0);
    lend_fans(accepted[0].stored, accepted[0].after);
    ses_put_chunk(&collector, all, 24);
    hold_count("behind a page too long", 24, stream, ROOM);
    hold_end("behind a page too long", CONTROL, stream, ROOM, 0, 0);
}

/* A longer page, a shorter one for another shelf, and one of which the first bytes are put twice. */
static void hold_after_others(void)
{
    static const uint8_t quiet[16] = {HEADER(0x05, 0x00, 0x0C, 7)};
    uint8_t room[24];
    lend_fans(accepted[4].stored, accepted[4].after);
    put_cut("a longer page", ident, 24, 11, 11);
    hold_end("a longer page", CONTROL, ident, 24, 0, 0);
    lend_sensor((const uint8_t[4]){0, 11, 0, 0}, (const uint8_t[4]){0, 11, 0, 0});
    ses_put_chunk(&collector, quiet, 16);
    memcpy(room, ident, 24);
    memcpy(room, quiet, 16);
    hold_count("a shorter page", 16, room, 24);
    hold_end("a shorter page", THRESHOLDS, room, 24, 0, 0);
    lend_fans(accepted[0].stored, accepted[0].after);
    ses_put_chunk(&collector, all, 7);
    memcpy(room, all, 7);
    ses_empty_collector(&collector);
    hold_count("emptied in the middle", 0, room, 24);
    ses_put_chunk(&collector, all, 24);
    hold_end("emptied in the middle", CONTROL, all, 24, 0, 0);
}

/* Any bytes are a collector. With A's page in the room, it is accepted with one count alone, 24. A chunk of no bytes leaves the
 * count, but for one above 65,540, and the answer in any case. */
static const struct {
    uint8_t count[4], stopped[4];
    unsigned number;
} counts[] = {
    {{0, 0, 0, 0}, {0, 0, 0, 0}, 2},
    {{0, 0, 0, 3}, {0, 0, 0, 3}, 2},
    {{0, 0, 0, 4}, {0, 0, 0, 4}, 4},
    {{0, 0, 0, 23}, {0, 0, 0, 23}, 4},
    {{0, 0, 0, 24}, {0, 0, 0, 24}, 0},
    {{0, 0, 0, 25}, {0, 0, 0, 25}, 4},
    {{0, 0, 1, 24}, {0, 0, 1, 24}, 4},
    {{0, 0, 24, 0}, {0, 0, 24, 0}, 4},
    {{0, 0, 0xFF, 0xFF}, {0, 0, 0xFF, 0xFF}, 4},
    {{0, 1, 0, 3}, {0, 1, 0, 3}, 4},
    {{0, 1, 0, 4}, {0, 1, 0, 4}, 4},
    {{0, 1, 0, 5}, {0, 1, 0, 4}, 4},
    {{0, 1, 0, 24}, {0, 1, 0, 4}, 4},
    {{0, 24, 0, 0}, {0, 1, 0, 4}, 4},
    {{1, 0, 0, 24}, {0, 1, 0, 4}, 4},
    {{24, 0, 0, 0}, {0, 1, 0, 4}, 4},
    {{0x7F, 0xFF, 0xFF, 0xFF}, {0, 1, 0, 4}, 4},
    {{0x80, 0, 0, 24}, {0, 1, 0, 4}, 4},
    {{0xFF, 0xFF, 0xFF, 0xFF}, {0, 1, 0, 4}, 4},
};

static void fill_collector(const uint8_t count[4], const uint8_t *page, size_t length)
{
    fill(&collector, sizeof collector);
    memcpy(&collector, count, 4);
    memcpy((uint8_t *)&collector + 4, page, length);
}

static void hold_any_bytes(void)
{
    const uint8_t *page = accepted[0].page;
    for (size_t i = 0; i < LENGTH_OF(counts); i++) {
        const uint8_t *settings = counts[i].number == 0 ? accepted[0].after : accepted[0].stored;
        for (int put = 0; put < 2; put++) {
            fill_collector(counts[i].count, page, 24);
            if (put) {
                ses_put_chunk(&collector, page, 0);
                hold_room("no bytes behind any count", counts[i].stopped, page, 24);
            }
            lend_fans(accepted[0].stored, settings);
            hold_end("any count", CONTROL, page, 24, counts[i].number, 0);
        }
        /* The codes of other pages. */
        lend_fans(accepted[0].stored, accepted[0].stored);
        fill_collector(counts[i].count, page, 24);
        hold_end("any count, thresholds meant", THRESHOLDS, page, 24, counts[i].number == 2 ? 2 : 3, 0);
        fill_collector(counts[i].count, page, 24);
        hold_end("any count, FFh meant", 0xFF, page, 24, counts[i].number == 2 ? 2 : 3, 0);
        fill_collector(counts[i].count, page, 24);
        ses_empty_collector(&collector);
        hold_room("any count emptied", (const uint8_t[4]){0, 0, 0, 0}, page, 24);
    }
    /* A chunk behind 20 bytes that nobody put, and behind more bytes than there can be. */
    lend_fans(accepted[0].stored, accepted[0].after);
    fill_collector((const uint8_t[4]){0, 0, 0, 20}, page, 20);
    ses_put_chunk(&collector, page + 20, 4);
    hold_room("behind 20 bytes", (const uint8_t[4]){0, 0, 0, 24}, page, 24);
    hold_end("behind 20 bytes", CONTROL, page, 24, 0, 0);
    fill_collector((const uint8_t[4]){0xFF, 0xFF, 0xFF, 0xFF}, page, 24);
    ses_put_chunk(&collector, page, 24);
    hold_room("behind FFFFFFFFh bytes", (const uint8_t[4]){0, 1, 0, 4}, page, 24);
    fill_collector((const uint8_t[4]){0xFF, 0xFF, 0xFF, 0xE8}, page, 24);
    ses_put_chunk(&collector, page, 24);
    hold_room("behind FFFFFFE8h bytes", (const uint8_t[4]){0, 1, 0, 4}, page, 24);
}

void hold_collector(void)
{
    hold_chunks();
    hold_longest_chunks();
    hold_pages();
    hold_largest_page();
    hold_long_pages();
    hold_codes();
    hold_shelf_of_the_end();
    hold_after_acceptance();
    hold_after_refusal();
    hold_after_others();
    hold_any_bytes();
}
