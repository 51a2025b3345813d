/* The SES enclosure library for C.
 *
 * A shelf is one block of bytes that the caller owns (docs/LAYOUT.md). The library keeps no state and
 * allocates nothing. Every call takes whatever bytes it is given and answers with a refusal number, 0 if
 * it accepted, but for ses_empty_collector and ses_put_chunk, which have nothing to refuse. A refused call
 * leaves every lent byte as it was, but for the collector of ses_end_page, which is empty after any answer,
 * and for `written`, `selects`, `element` and `offset`, which it sets: the first two to 0; `element` to
 * SES_NO_ELEMENT; `offset` to the place on the page, counted from 0, of the first byte that is not allowed if
 * the answer is 6 (SES_NOT_ALLOWED), else to 0, as after acceptance. Byte 0 is never that byte. Only calls that
 * are given a page, whole or in a collector, have an `offset`: what is not allowed in a record or in a text is
 * told by the number alone. No call has to be preceded by a check, but for what C's types cannot say: a pointer
 * is to as many bytes as its length or its type says, and is not NULL, also where the length is 0; and what one
 * call is lent does not overlap.
 *
 * Link with libses.a (`tools/library`, x86-64).
 */
#ifndef SES_H
#define SES_H

#include <stddef.h>
#include <stdint.h>

#ifdef __cplusplus
extern "C" {
#endif

enum ses_refusal {
    SES_ACCEPTED = 0,
    SES_SHELF_NOT_WELL_FORMED = 1,
    SES_PAGE_TOO_SHORT = 2,
    SES_PAGE_CODE = 3,
    SES_PAGE_LENGTH = 4,
    SES_GENERATION = 5,
    SES_NOT_ALLOWED = 6,
    SES_NO_SUCH_THRESHOLD = 7,
    SES_THRESHOLD_ORDER = 8,
    SES_WANTED_LIST = 9,
    SES_UNREACHABLE = 10,
    SES_OUTPUT_TOO_SHORT = 11,
    SES_NEEDED_LENGTH = 12,
    SES_NO_SUCH_ELEMENT = 15
};

/* What a refusal number means, in a few words. */
static inline const char *ses_meaning(uint8_t number)
{
    switch (number) {
    case SES_ACCEPTED: return "accepted";
    case SES_SHELF_NOT_WELL_FORMED: return "the shelf record is not well formed";
    case SES_PAGE_TOO_SHORT: return "the page has fewer than 4 bytes";
    case SES_PAGE_CODE: return "byte 0 is not the page code wanted";
    case SES_PAGE_LENGTH: return "the bytes given are not the page length + 4";
    case SES_GENERATION: return "the generation code differs from the shelf's";
    case SES_NOT_ALLOWED: return "a reserved bit is set, or a value is not allowed";
    case SES_NO_SUCH_THRESHOLD: return "a threshold is set that the type does not have";
    case SES_THRESHOLD_ORDER: return "an element would break the threshold order";
    case SES_WANTED_LIST: return "the list does not fit the shelf's elements";
    case SES_UNREACHABLE: return "no valid control page reaches the wanted settings";
    case SES_OUTPUT_TOO_SHORT: return "the output buffer is shorter than the page";
    case SES_NEEDED_LENGTH: return "the page needs another length than it has";
    case SES_NO_SUCH_ELEMENT: return "a number past the last element";
    default: return "no refusal has this number";
    }
}

/* The most that a shelf has: types, elements in all, bytes of a type's text or of a name, and slots of a page,
 * one for each type (its overall element) and one for each element. */
#define SES_MOST_TYPES 8
#define SES_MOST_ELEMENTS 64
#define SES_MOST_TEXT 32
#define SES_MOST_SLOTS (SES_MOST_TYPES + SES_MOST_ELEMENTS)

/* The front of a shelf block, without its elements: what a configuration page tells. */
#define SES_TYPE_LENGTH (4 + SES_MOST_TEXT)
#define SES_CONFIGURATION_LENGTH (44 + SES_TYPE_LENGTH * SES_MOST_TYPES)

/* Then its elements. Each starts with its settings, which have the form of a record in a wanted list. */
#define SES_FIRST_ELEMENT SES_CONFIGURATION_LENGTH
#define SES_ELEMENT_LENGTH 16
#define SES_SETTINGS_LENGTH 4
#define SES_LONGEST_WANTED_LIST (SES_SETTINGS_LENGTH * SES_MOST_ELEMENTS)

/* Behind the last element the names, one for each slot of a page and in that order: for each type that of its
 * overall element, then those of its elements. Any bytes are a name: it ends at the first that is not
 * printable (20h to 7Eh), or after 32. A call that puts a name fills up with zeros; behind one of 32 bytes
 * there is none, so it is no string of C's. The block ends with the last name. */
#define SES_NAME_LENGTH SES_MOST_TEXT
#define SES_FIRST_NAME(elements) (SES_FIRST_ELEMENT + SES_ELEMENT_LENGTH * (elements))
#define SES_BLOCK_LENGTH(types, elements) (SES_FIRST_NAME(elements) + SES_NAME_LENGTH * ((types) + (elements)))
#define SES_LONGEST_BLOCK SES_BLOCK_LENGTH(SES_MOST_TYPES, SES_MOST_ELEMENTS)

/* A status, control or threshold page (02h, 05h); and a configuration page (01h) and an element descriptor
 * page (07h), which may be longer. */
#define SES_LONGEST_SLOT_PAGE (8 + 4 * SES_MOST_SLOTS)
#define SES_LONGEST_CONFIGURATION_PAGE (48 + (4 + SES_MOST_TEXT) * SES_MOST_TYPES)
#define SES_LONGEST_DESCRIPTOR_PAGE (8 + (4 + SES_NAME_LENGTH) * SES_MOST_SLOTS)

/* The number that tells of no element. */
#define SES_NO_ELEMENT 0xFFFFFFFF

/* What a status element shows, field by field. An entry has four bytes that all types have and twelve that
 * its type lays out: the fields of bytes 1 to 3 of the element in page order, then zeros. Flags are 0 or 1; a
 * number of two bytes has its high byte first. An overall element shows its code alone, all else is zero.
 * For a fan that is not ON a shelf shows speed code 0, whatever SPEED it stores; that stays, and shows again
 * once the fan is ON. For a sensor it shows FAIL if it stores FAIL or the code is 2 or 3. A control page changes
 * the stored one alone, so one that clears it leaves FAIL showing while a limit is tripped. A reader hands back
 * what the page shows: settings to want come from the shelf block, not from an entry. Written again, a byte
 * `none` that is not zero is a field set where the type shows none (6). */
struct ses_cooling {
    uint8_t ident, speed[2], fail, rqsted_on, off, speed_code, none[5];
};

struct ses_temperature {
    uint8_t ident, fail, temperature, ot_failure, ot_warning, ut_failure, ut_warning, none[5];
};

struct ses_voltage {
    uint8_t ident, fail, warn_over, warn_under, crit_over, crit_under, voltage[2], none[4];
};

struct ses_current {
    uint8_t ident, fail, warn_over, crit_over, current[2], none[6];
};

struct ses_shown {
    uint8_t code, prdfail, disabled, swap;
    union {
        struct ses_cooling cooling;
        struct ses_temperature temperature;
        struct ses_voltage voltage;
        struct ses_current current;
        uint8_t bytes[12];
    } of;
};

/* A status page. The entries stand as on the page: for each type its overall element, then its elements.
 * Their number has its high byte first. */
struct ses_status {
    uint8_t noncritical, critical;
    uint8_t entries[2];
    struct ses_shown entry[SES_MOST_SLOTS];
};

/* The thresholds of an element, as the shelf block stores them and the pages have them. */
struct ses_limits {
    uint8_t high_critical, high_warning, low_warning, low_critical;
};

/* A threshold status page, its entries in the same order; overall ones are zero. */
struct ses_thresholds {
    uint8_t spare[2];
    uint8_t entries[2];
    struct ses_limits entry[SES_MOST_SLOTS];
};

/* A name with zeros behind it; of 32 bytes it has none. Written again, a byte that is not printable is not
 * allowed (6), unless it and all behind it are zero. */
struct ses_name {
    uint8_t text[SES_NAME_LENGTH];
};

/* An element descriptor page, its entries in the same order: the names of the overall elements among them. */
struct ses_names {
    uint8_t spare[2];
    uint8_t entries[2];
    struct ses_name entry[SES_MOST_SLOTS];
};

/* A control or threshold page that comes in chunks: how many bytes of it came, high byte first, and the first
 * of them, as many as the longest such page has. The others are counted and not kept. The count stops at
 * SES_COUNT_STOPS, one byte more than a page can say that it has; a count above that means that. */
#define SES_COUNT_STOPS 65540

struct ses_collector {
    uint8_t count[4];
    uint8_t page[SES_LONGEST_SLOT_PAGE];
};

/* Is the block a well-formed shelf?  0, or 1 (SES_SHELF_NOT_WELL_FORMED). */
uint8_t ses_check(const uint8_t *shelf, size_t shelf_length);

/* Write a page of the shelf: configuration (01h), status (02h), threshold status (05h), element descriptor
 * (07h).  Refusals 1, 11. `written` gets the bytes written, 0 if refused; output after the page is kept. */
uint8_t ses_write_configuration(const uint8_t *shelf, size_t shelf_length,
                                uint8_t *out, size_t out_length, uint32_t *written);
uint8_t ses_write_status(const uint8_t *shelf, size_t shelf_length,
                         uint8_t *out, size_t out_length, uint32_t *written);
uint8_t ses_write_thresholds(const uint8_t *shelf, size_t shelf_length,
                             uint8_t *out, size_t out_length, uint32_t *written);
uint8_t ses_write_descriptors(const uint8_t *shelf, size_t shelf_length,
                              uint8_t *out, size_t out_length, uint32_t *written);

/* Read a configuration page.  Refusals 2, 3, 4, 12, 6, in this order. With 6 `offset` tells the first byte in
 * page order that is not allowed: fixed part, headers, texts. Too many elements in all are told at the count
 * that passes the limit. */
uint8_t ses_read_configuration(const uint8_t *page, size_t page_length,
                               uint8_t configuration[SES_CONFIGURATION_LENGTH], uint32_t *offset);

/* Read a status page or a threshold status page, whose type list and generation code are those of a
 * configuration.  Refusals 1, 2, 3, 4, 12, 5, 6; for thresholds 1, 2, 3, 4, 12, 5, 6, 7, 8, each in this order.
 * With 6 `offset` tells the first byte that is not allowed. A record's bytes after its last entry are kept. */
uint8_t ses_read_status(const uint8_t *configuration, size_t configuration_length,
                        const uint8_t *page, size_t page_length, struct ses_status *record, uint32_t *offset);
uint8_t ses_read_thresholds(const uint8_t *configuration, size_t configuration_length,
                            const uint8_t *page, size_t page_length, struct ses_thresholds *record,
                            uint32_t *offset);

/* Read an element descriptor page in the same way. It has for each slot a descriptor: two zero bytes, the
 * length of the text in two bytes, and the text.  Refusals 1, 2, 3, 4, 12, 5, 6, in this order. It is 12 unless
 * the last descriptor ends where the page ends, whatever lengths they declare. With 6 `offset` tells the
 * first byte that is not allowed: byte 1, one of the two zero bytes, the first byte of a length above 32, or
 * a byte of a text that is not printable (20h to 7Eh). */
uint8_t ses_read_descriptors(const uint8_t *configuration, size_t configuration_length,
                             const uint8_t *page, size_t page_length, struct ses_names *record,
                             uint32_t *offset);

/* Write again what a reader handed back.  Refusals 1, 11; for status and descriptors 1, 9, 6, 11; for
 * thresholds 1, 9, 6, 7, 8, 11, each in this order. What a record holds after its last entry, and `spare`, is
 * not looked at. */
uint8_t ses_rewrite_configuration(const uint8_t *configuration, size_t configuration_length,
                                  uint8_t *out, size_t out_length, uint32_t *written);
uint8_t ses_rewrite_status(const uint8_t *configuration, size_t configuration_length,
                           const struct ses_status *record,
                           uint8_t *out, size_t out_length, uint32_t *written);
uint8_t ses_rewrite_thresholds(const uint8_t *configuration, size_t configuration_length,
                               const struct ses_thresholds *record,
                               uint8_t *out, size_t out_length, uint32_t *written);
uint8_t ses_rewrite_descriptors(const uint8_t *configuration, size_t configuration_length,
                                const struct ses_names *record,
                                uint8_t *out, size_t out_length, uint32_t *written);

/* Apply an enclosure control page (02h) to the shelf.  Refusals 1, 2, 3, 4, 12, 5, 6, in this order. With 6
 * `offset` tells the first byte with a reserved bit: byte 1, or one of an element with SELECT.
 * An individual element with SELECT acts alone on its element. One without leaves its element to the overall
 * element of the type, if that has SELECT, else to nothing; its other bits have no effect. PRDFAIL, DISABLED,
 * IDENT, FAIL and a fan's ON become the bits of what acts. RST SWAP 1 clears SWAP, 0 keeps it. Speed code 0
 * keeps a fan's speed. */
uint8_t ses_apply_control(uint8_t *shelf, size_t shelf_length, const uint8_t *page, size_t page_length,
                          uint32_t *offset);

/* Apply a threshold page (05h, Out) to the shelf.  Refusals 1, 2, 3, 4, 12, 5, 6, 7, 8, in this order. Only
 * byte 1 is tested for 6, so `offset` is then 1.
 * For each of an element's four thresholds the individual byte is taken if it is not zero, else the overall
 * byte of the type if that is not zero, else the stored one stays. If one element would break the order of
 * its thresholds, the whole page is refused. */
uint8_t ses_apply_thresholds(uint8_t *shelf, size_t shelf_length, const uint8_t *page, size_t page_length,
                             uint32_t *offset);

/* Make a collector empty: its count becomes 0, and the bytes behind that stay. To be called once, before the
 * first page. Whatever bytes a collector holds, every call on it ends; without this call they count as the
 * start of the first page. */
void ses_empty_collector(struct ses_collector *collector);

/* Put the next chunk of a page behind those that came before. It may have any length: 0 adds nothing to the
 * page, and what is past the longest page is only counted. Of the bytes behind the count no other changes. */
void ses_put_chunk(struct ses_collector *collector, const uint8_t *chunk, size_t chunk_length);

/* End the page in a collector: apply it to the shelf, as an enclosure control page if the code meant is 02h, as
 * a threshold page (Out) if it is 05h. Answer, `offset` and shelf are those of ses_apply_control or
 * ses_apply_thresholds on the bytes of all chunks joined, wherever they were cut. The shelf is the one of this
 * call; those before are lent none.  Refusals 1, 2, 3, 4, 12, 5, 6; for thresholds 1, 2, 3, 4, 12, 5, 6, 7, 8,
 * each in this order. A code meant that is neither is 3, whatever byte 0 of the page is. A page of
 * SES_COUNT_STOPS bytes or more that is not refused before is 4.
 * Accepted or refused, the collector is empty then, and the next chunk starts the next page; its bytes behind
 * the count stay. A refused page leaves the shelf as it was. */
uint8_t ses_end_page(struct ses_collector *collector, uint8_t *shelf, size_t shelf_length, uint8_t code,
                     uint32_t *offset);

/* Write the enclosure control page (02h) that brings every element to exactly the settings wanted: four bytes
 * for each element, in their order, as the shelf block stores them.  Refusals 1, 9, 10, 11.
 * Of all pages that the shelf accepts and that do so it has the fewest SELECTs, overall ones counted, and is
 * the first in dictionary order of those. `written` gets the bytes written, `selects` the SELECTs on the
 * page; both are 0 if refused. Output after the page is kept. */
uint8_t ses_build_control(const uint8_t *shelf, size_t shelf_length,
                          const uint8_t *wanted, size_t wanted_length,
                          uint8_t *out, size_t out_length,
                          uint32_t *written, uint32_t *selects);

/* Find the element whose name is this text, in length and every byte.  Refusal 1. `element` gets the number of
 * the first, counted from 0 through all types, or SES_NO_ELEMENT if none has the name or the call is refused.
 * Names of overall elements are not searched. An empty text finds the first empty name; one that is no name,
 * longer than 32 bytes or not printable, finds nothing. */
uint8_t ses_find_name(const uint8_t *shelf, size_t shelf_length, const uint8_t *text, size_t text_length,
                      uint32_t *element);

/* Set the name of an element, counted from 0 through all types; or of the overall element of a type, counted
 * from 0.  Refusals 1, 15 (a number that the shelf has not), 6 (a text longer than 32 bytes, or with a byte
 * that is not printable), in this order. The 32 bytes of this name become the text and zeros behind it;
 * nothing else of the block changes. */
uint8_t ses_set_name(uint8_t *shelf, size_t shelf_length, uint32_t element,
                     const uint8_t *text, size_t text_length);
uint8_t ses_set_overall_name(uint8_t *shelf, size_t shelf_length, uint32_t type,
                             const uint8_t *text, size_t text_length);

#ifdef __cplusplus
}
#endif

#endif
