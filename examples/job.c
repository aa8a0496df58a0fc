// A job record from nothing: the empty record of the specimen table, updates, reads of what was stored, and three refusals.
#include "lyrecanyon.h"
#include <stdio.h>
#include <string.h>

// The specimen's table. An entry is a name, a level, a format, a standard length and an option: 1 has multiple values, 2 is periodic.
static const uint8_t table[] = {
    0xE5, 0xC6, 0xE3, 0x00, 0x01, 10,
    0xC1, 0xC1, 1, 0xC1, 5, 0, // AA, alphanumeric
    0xC1, 0xC2, 1, 0xD7, 3, 0, // AB, packed
    0xD4, 0xC6, 1, 0xE4, 2, 1, // MF, unpacked, multiple values
    0xC7, 0xC2, 1, 0x40, 0, 2, // GB, a periodic group of
    0xC2, 0xC1, 2, 0xC2, 1, 0, //   BA, binary
    0xC3, 0xC2, 2, 0xE4, 1, 1, //   CB, unpacked, multiple values
    0xC8, 0xC2, 1, 0x40, 0, 2, // HB, a periodic group of
    0xC2, 0xC2, 2, 0xC2, 1, 0, //   BB, binary
    0xC2, 0xC4, 2, 0xC1, 2, 0, //   BD, alphanumeric
    0xE9, 0xE5, 1, 0xC1, 0, 0, // ZV, alphanumeric of variable length
};

// The EBCDIC character of a format buffer.
static uint8_t ebcdic(char character)
{
    static const char characters[] = " .(-,)'ABCDEFGHIJKLMNOPQRSTUVWXYZ0123456789";
    static const uint8_t codes[] = {
        0x40, 0x4B, 0x4D, 0x60, 0x6B, 0x5D, 0x7D, 0xC1, 0xC2, 0xC3, 0xC4, 0xC5, 0xC6, 0xC7, 0xC8, 0xC9, 0xD1, 0xD2, 0xD3, 0xD4, 0xD5, 0xD6,
        0xD7, 0xD8, 0xD9, 0xE2, 0xE3, 0xE4, 0xE5, 0xE6, 0xE7, 0xE8, 0xE9, 0xF0, 0xF1, 0xF2, 0xF3, 0xF4, 0xF5, 0xF6, 0xF7, 0xF8, 0xF9,
    };
    const char *at = strchr(characters, character);
    return at != NULL && character != '\0' ? codes[at - characters] : 0;
}

// A format buffer, in EBCDIC.
struct format {
    uint8_t bytes[64];
    size_t length;
};

static struct format format_of(const char *text)
{
    struct format format = {{0}, 0};
    while (text[format.length] != '\0' && format.length < sizeof format.bytes) {
        format.bytes[format.length] = ebcdic(text[format.length]);
        format.length++;
    }
    return format;
}

// Says what a call gave: its bytes, or why it was refused.
static void show(const char *call, uint8_t number, const uint8_t *bytes, size_t length)
{
    if (number != LYRECANYON_DONE) {
        printf("%s refused with %d: %s\n", call, number, lyrecanyon_meaning(number));
        return;
    }
    printf("%s gives %lu bytes: ", call, (unsigned long)length);
    for (size_t i = 0; i < length; i++)
        printf("%02X", bytes[i]);
    printf("\n");
}

static void show_read(const uint8_t *record, size_t length, const char *text)
{
    struct format format = format_of(text);
    uint8_t buffer[64];
    size_t used;
    uint8_t number = lyrecanyon_read(table, sizeof table, record, length, format.bytes, format.length, buffer, sizeof buffer, &used);
    show(text, number, buffer, used);
}

// The same, and the length that a value needs where it does not fit.
static void show_read_needing(const uint8_t *record, size_t length, const char *text)
{
    struct format format = format_of(text);
    uint8_t buffer[64];
    size_t used, needed;
    uint8_t number = lyrecanyon_read_needing(table, sizeof table, record, length, format.bytes, format.length, buffer, sizeof buffer, &used,
                                             &needed);
    show(text, number, buffer, used);
    if (needed != 0)
        printf("%s needs length %lu\n", text, (unsigned long)needed);
}

int main(void)
{
    uint8_t empty[LYRECANYON_LONGEST_RECORD], job[LYRECANYON_LONGEST_RECORD];
    size_t empty_length, job_length;
    uint8_t number = lyrecanyon_empty(table, sizeof table, empty, sizeof empty, &empty_length);
    show("the empty record", number, empty, empty_length);

    // CAB, 150 kilograms, and the values 15 and 50.
    const uint8_t values[] = {0xC3, 0xC1, 0xC2, 0x40, 0x40, 0x00, 0x15, 0x0F, 0xF1, 0xF5, 0xF5, 0xF0};
    struct format format = format_of("AA,AB,MF,MF.");
    number = lyrecanyon_update(table, sizeof table, empty, empty_length, format.bytes, format.length, values, sizeof values, job,
                               sizeof job, &job_length);
    show("the update", number, job, job_length);
    show_read(job, job_length, "AA,AB,5,U,MFC,MF1-3.");
    show_read(job, job_length, "AA,QQ.");
    show_read_needing(job, job_length, "AB,1.");

    // In place: 1,200 kilograms, and then a value with A for a digit, which leaves the record as it is.
    const uint8_t weights[][3] = {{0x01, 0x20, 0x0F}, {0x00, 0x1A, 0x5F}};
    format = format_of("AB.");
    for (size_t i = 0; i < 2; i++) {
        number = lyrecanyon_apply(table, sizeof table, job, sizeof job, &job_length, format.bytes, format.length, weights[i], 3);
        show("the update in place", number, job, job_length);
    }
    show_read(job, job_length, "AB.");
    return 0;
}
