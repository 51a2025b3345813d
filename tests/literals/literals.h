/* What the files of this folder share.
 *
 * Expected numbers and bytes are document 01's, or worked out from its rules in a comment beside them. Shelf blocks and records are
 * laid out as docs/LAYOUT.md says, by literal places. The words of a meaning are ours; which number they are for is document 01's,
 * for 12 request One's, for 15 request Twelve's. */
#ifndef LITERALS_H
#define LITERALS_H

#include "ses.h"

enum { COOLING = 0x03, TEMPERATURE = 0x04, VOLTAGE = 0x12, CURRENT = 0x13 };
/* 332 + 16 for each element, and 32 for each name: four of A's type and fans, two of a type with one sensor. */
enum { A_LENGTH = 508, SENSOR_LENGTH = 412 };

/* Document 01's shelf A, with zeros for identification. Its names start at 380: "Rear fans" is that of the overall element, then
 * "Fan rear left", "Fan rear middle" and "Fan rear right". */
extern const uint8_t shelf_a[A_LENGTH];

/* A with other settings. */
void put_fans(uint8_t shelf[A_LENGTH], const uint8_t settings[12]);

/* A shelf with one sensor, of generation 7 and without a text. Its two names are of bytes that are not printable. */
void put_sensor(uint8_t shelf[SENSOR_LENGTH], uint8_t type, const uint8_t thresholds[4], uint16_t reading, uint16_t nominal);

/* What is, and what it has to be. A difference is told, and fails the program. */
void hold(const char *what, unsigned long is, unsigned long wanted);
void hold_words(const char *what, const char *is, const char *wanted);
void hold_bytes(const char *what, const void *is, const void *wanted, size_t length);

/* What a call that tests a page tells. The offset must be set, whatever the answer. */
struct told {
    uint8_t number;
    uint32_t offset;
};

void hold_told(const char *what, struct told is, unsigned number, unsigned offset);

/* Memory to lend, filled with bytes that nothing else here has. */
void fill(void *memory, size_t length);

struct output {
    uint8_t bytes[2700];
    uint32_t written, selects;
};

void empty(struct output *out);

/* A page was written and every byte behind it kept; or, by a refused call, nothing. */
void hold_output(const char *what, const struct output *out, const uint8_t *page, size_t length);
void hold_no_output(const char *what, const struct output *out);

/* What is wanted of A with these settings, and the page built for it with its SELECTs. */
struct wish {
    const char *what;
    uint8_t stored[12], wanted[12], page[24];
    uint32_t selects;
};

/* That page is built, and applied it brings A to what is wanted. */
void hold_wish(const struct wish *w);

void hold_fans_a(void);
void hold_stopped(void);
void hold_fail_shown(void);
void hold_names(void);
void hold_collector(void);
void hold_refusals(void);
void hold_meanings(const char *file);
void hold_lengths(void);
void hold_fields(void);

#endif
