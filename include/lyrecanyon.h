// Lyrecanyon: stored records, read and updated by format buffers. C99 and later, and C++. Link with liblyrecanyon.a (x86-64).
// What tables, records and formats are, and when each number is returned, are the rules of document 01, in crates/rules/specs, with three
// requests of document 02: a format of a read may have N, the last occurrence or value (M-100), a packed or unpacked value of an update may
// have any of the signs A, C, E and F for plus and B and D for minus, of which F and D are stored (M-101), and a read that is refused with
// 9 can say which length the value needs (M-103).
//
// Every call takes all inputs, ends, and does nothing undefined: no byte of a lent slice has to be checked before. Each returns a number:
// LYRECANYON_DONE, or the number of a refusal. A refusal changes no byte of the slices; done writes as many bytes as the length used says,
// from the start of the slice, and none after.
//
// A slice is a pointer to its first byte and the number of its bytes. Where the number is 0 the pointer may be null; `used` and `needed`
// are never null. Slices that are only read may overlap each other in any way. The slice that is written, `used` and `needed` overlap
// nothing else that is lent.
//
// The library has no state, calls nothing but memcpy and memset, and takes no memory but the stack. Any number of threads may call it at
// once, each with its own slices to write.
#ifndef LYRECANYON_H
#define LYRECANYON_H

#include <stddef.h>
#include <stdint.h>

// The minor version rises with each function, number, form of a format or of a value that is added. A function keeps its parameters, and a
// number its meaning, for as long as the major version stays.
#define LYRECANYON_VERSION_MAJOR 1
#define LYRECANYON_VERSION_MINOR 3

// The longest that a record and the answer of a read can be: slices of these lengths have room for every one.
#define LYRECANYON_LONGEST_RECORD 4096
#define LYRECANYON_LONGEST_ANSWER 32767

// The bytes of the stack that a call of each function needs at most.
#define LYRECANYON_STACK_READ 20480
#define LYRECANYON_STACK_READ_NEEDING 20480
#define LYRECANYON_STACK_UPDATE 24576
#define LYRECANYON_STACK_APPLY 24576
#define LYRECANYON_STACK_EMPTY 12288

#ifdef __cplusplus
extern "C" {
#endif

// The numbers that are returned. Others may be added: a number that is not here is a refusal too.
enum lyrecanyon_number {
    LYRECANYON_DONE = 0,
    LYRECANYON_BAD_TABLE = 1,
    LYRECANYON_BAD_RECORD = 2,
    LYRECANYON_BAD_SYNTAX = 3,
    LYRECANYON_UNKNOWN_NAME = 4,
    LYRECANYON_USE_RULE = 5,
    LYRECANYON_NAMED_TWICE = 6,
    LYRECANYON_BEYOND_BUFFER = 7,
    LYRECANYON_BAD_VALUE = 8,
    LYRECANYON_OUT_OF_RANGE = 9,
    LYRECANYON_NO_ROOM = 10
};

// What a number means.
static inline const char *lyrecanyon_meaning(uint8_t number)
{
    switch (number) {
    case LYRECANYON_DONE:
        return "done";
    case LYRECANYON_BAD_TABLE:
        return "the table is not as the rules say";
    case LYRECANYON_BAD_RECORD:
        return "the record is not as the rules and its table say, or is over 4,096 bytes";
    case LYRECANYON_BAD_SYNTAX:
        return "the format has bad syntax or no period, or is over 2,048 bytes";
    case LYRECANYON_UNKNOWN_NAME:
        return "the format has a name that is not in the table";
    case LYRECANYON_USE_RULE:
        return "the format breaks a use rule";
    case LYRECANYON_NAMED_TWICE:
        return "the update names an occurrence twice";
    case LYRECANYON_BEYOND_BUFFER:
        return "an item ends beyond the record buffer or beyond 32,767 bytes";
    case LYRECANYON_BAD_VALUE:
        return "the record buffer has a bad value";
    case LYRECANYON_OUT_OF_RANGE:
        return "a value is outside the conversion range or does not fit";
    case LYRECANYON_NO_ROOM:
        return "the new record is over 4,096 bytes or over the lent room";
    default:
        return "refused by a number that this header does not know";
    }
}

// Reads: fills the record buffer with the items that a format calls for. Done: *used is the length of the answer. Refused: *used is 0 and
// the buffer is as it was.
uint8_t lyrecanyon_read(const uint8_t *table, size_t table_length, const uint8_t *stored, size_t stored_length, const uint8_t *format,
                        size_t format_length, uint8_t *buffer, size_t buffer_length, size_t *used);

// Reads as lyrecanyon_read does, and also says how long. With LYRECANYON_OUT_OF_RANGE, *needed is the smallest length from 1 up, in the
// format in effect, that would have held the value that was refused, or 0 where that value is outside the conversion range. With every
// other number, LYRECANYON_DONE among them, *needed is 0.
uint8_t lyrecanyon_read_needing(const uint8_t *table, size_t table_length, const uint8_t *stored, size_t stored_length,
                                const uint8_t *format, size_t format_length, uint8_t *buffer, size_t buffer_length, size_t *used,
                                size_t *needed);

// Updates: stores the values of the record buffer by a format, and writes the new record to the room, which lies apart from the old one.
// Done: *used is the length of the new record. Refused: *used is 0 and the room is as it was.
uint8_t lyrecanyon_update(const uint8_t *table, size_t table_length, const uint8_t *stored, size_t stored_length, const uint8_t *format,
                          size_t format_length, const uint8_t *buffer, size_t buffer_length, uint8_t *room, size_t room_length,
                          size_t *used);

// Updates in place: the record is the first *used bytes of a slice, and the new record takes its place, up to the end of the slice. Done:
// *used is the length of the new record. Refused: the slice and *used are as they were. A *used over `room` means the whole slice.
uint8_t lyrecanyon_apply(const uint8_t *table, size_t table_length, uint8_t *stored, size_t room, size_t *used, const uint8_t *format,
                         size_t format_length, const uint8_t *buffer, size_t buffer_length);

// Makes the empty record of a table: every value is null and every count 0. Done: *used is its length. Refused: *used is 0 and the room is
// as it was.
uint8_t lyrecanyon_empty(const uint8_t *table, size_t table_length, uint8_t *room, size_t room_length, size_t *used);

#ifdef __cplusplus
}
#endif

#endif
