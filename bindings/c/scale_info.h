/* Tables of types for callers in C and C++: read, pruned, searched, and values read and written by them.
 *
 * A table is the SCALE encoding of a list of type descriptions, as a node's metadata holds it. An id of a type is its index in the table,
 * counted from 0. Each call reads what it is given anew and keeps nothing: no pointer, no memory, no state. So calls may run on several
 * threads at once, where the rooms and counts of one are touched by no other. No call is made from a signal handler, or in the child of a
 * fork of a process with threads.
 *
 * The caller owns all memory. A call reads its inputs, and writes its output to the start of `room`, which has `room_length` items: bytes,
 * or ids where `room` is a `uint32_t *`. A length of bytes is a number of bytes, and one of ids a number of ids. Texts are UTF-8, without a
 * zero byte at their end.
 *
 * What a call returns is one of the statuses below. At SCALE_INFO_DONE the output is the first `*count` items of the room, and the rest of
 * the room is as it was. At each other status all of the room is as it was. To find how much room is wanted, call with room_length 0, and
 * again with room for `*count` items; where a bound is known, it is said below, and one call is enough.
 *
 * A call needs memory for its work, from malloc, realloc and free, and has given all of it back when it returns.
 */
#ifndef SCALE_INFO_H
#define SCALE_INFO_H

#include <stddef.h>
#include <stdint.h>

#ifdef __cplusplus
extern "C" {
#endif

enum {
    SCALE_INFO_DONE = 0,            /* *count: how many items of the room the output takes */
    SCALE_INFO_MALFORMED = 1,       /* no prefix of the input is a table; *count: 0 */
    SCALE_INFO_TRAILING_BYTES = 2,  /* bytes come after the table; *count: 0 */
    SCALE_INFO_NO_SUCH_TYPE = 3,    /* a given id is no index of the table, or values of its type lead to one; *count: the given id */
    SCALE_INFO_DANGLING = 4,        /* an id is reached from the given ones that is no index of the table; *count: that id */
    SCALE_INFO_OUT_OF_MEMORY = 5,   /* an allocation failed; *count: 0 */
    SCALE_INFO_NO_ROOM = 6,         /* the output does not fit; *count: how many items of room are wanted */
    SCALE_INFO_VERSION = 7,         /* metadata of a version that is not read; *count: the version */
    SCALE_INFO_NO_TEXT = 8,         /* the path is not UTF-8; *count: 0 */
    SCALE_INFO_NO_JSON = 9,         /* the text is no JSON; *count: 0 */
    SCALE_INFO_UNSUPPORTED = 10,    /* values of a type are neither read nor written: char, u256, i256, bit sequences; *count: 0 */
    SCALE_INFO_TOO_DEEP = 11,       /* the value is more than 128 deep; *count: 0 */
    SCALE_INFO_MALFORMED_VALUE = 12, /* no prefix of the bytes is a value of the type; *count: 0 */
    SCALE_INFO_TRAILING_VALUE = 13, /* bytes come after the value; *count: 0 */
    SCALE_INFO_MISMATCH = 14,       /* the JSON is no value of the type; *count: 0 */
    SCALE_INFO_BAD_ARGUMENT = 255   /* an argument is not as it must be, and nothing was done; *count is as it was */
};

/* Each call below first looks at its arguments, and returns SCALE_INFO_BAD_ARGUMENT where a pointer is null and its length is not 0; a
 * pointer to ids or `count` is misaligned; a length is of more than PTRDIFF_MAX bytes; `count` is null; or `room` or `count` overlaps what
 * the call reads, or one another. It cannot see whether the memory is there. Null with length 0 is an empty input or an empty room. */

/* Whether the input is one table, with nothing after it: DONE, MALFORMED or TRAILING_BYTES. It needs no memory, and time in the length. */
uint8_t scale_info_check(const uint8_t *input, size_t input_length);

/* The table of what these ids reach, in depth-first order of discovery from the ids in ascending order, each once. No more bytes than the
 * input. Statuses 0 to 6. */
uint8_t scale_info_prune(const uint8_t *input, size_t input_length, const uint32_t *ids, size_t ids_length,
                         uint8_t *room, size_t room_length, size_t *count);

/* The table as compact JSON text. Statuses 0, 1, 2, 5, 6. */
uint8_t scale_info_json(const uint8_t *input, size_t input_length, uint8_t *room, size_t room_length, size_t *count);

/* The table without the docs of its types, fields and variants. No more bytes than the input. Statuses 0, 1, 2, 5, 6. */
uint8_t scale_info_strip(const uint8_t *input, size_t input_length, uint8_t *room, size_t room_length, size_t *count);

/* The table of a node's metadata of version 14, 15 or 16, or of an input that is a table and nothing else; each also as a text of
 * hexadecimal digits. No more bytes than the input. Statuses 0, 1, 2, 5, 6, 7. */
uint8_t scale_info_table(const uint8_t *input, size_t input_length, uint8_t *room, size_t room_length, size_t *count);

/* The ids, ascending, of the types with this path, as "sp_core::crypto::AccountId32"; none, where no type has it. `room_length` and
 * `*count` are numbers of ids. Statuses 0, 1, 2, 5, 6, 8. */
uint8_t scale_info_find(const uint8_t *input, size_t input_length, const uint8_t *path, size_t path_length,
                        uint32_t *room, size_t room_length, size_t *count);

/* The type as Rust declares it, with its docs, without a line feed at its end. Statuses 0, 1, 2, 3, 5, 6. */
uint8_t scale_info_describe(const uint8_t *input, size_t input_length, uint32_t id, uint8_t *room, size_t room_length, size_t *count);

/* The JSON text of the bytes as one value of the type. A table can ask for much text from few bytes: for as many as 4294967295 values that
 * take none. Statuses 0, 1, 2, 3, 5, 6, 10, 11, 12, 13. */
uint8_t scale_info_value(const uint8_t *input, size_t input_length, uint32_t id, const uint8_t *bytes, size_t bytes_length,
                         uint8_t *room, size_t room_length, size_t *count);

/* The encoding of the value of the type that the JSON text gives. Statuses 0, 1, 2, 3, 5, 6, 9, 10, 11, 14. */
uint8_t scale_info_encode(const uint8_t *input, size_t input_length, uint32_t id, const uint8_t *json, size_t json_length,
                          uint8_t *room, size_t room_length, size_t *count);

/* Compares a type of one table with one of another. Where they are the same, whatever ids they have, `*count` is 0; else the output is a
 * text that says what differs first, as "demo::Inner: z: u8, -> z: u16,". Errors are those of either table. Statuses 0 to 6. */
uint8_t scale_info_same(const uint8_t *first, size_t first_length, uint32_t id, const uint8_t *second, size_t second_length, uint32_t other,
                        uint8_t *room, size_t room_length, size_t *count);

/* What changed between two tables, by the paths of their types: a line for each path, "- PATH" where only the old table has it, "+ PATH"
 * where only the new one has it, and "~ PATH" where both have it and the types are not the same. Docs count: give both tables as
 * scale_info_strip writes them where they should not. Errors are those of either table. Statuses 0, 1, 2, 4, 5, 6. */
uint8_t scale_info_changes(const uint8_t *old, size_t old_length, const uint8_t *new_table, size_t new_length,
                           uint8_t *room, size_t room_length, size_t *count);

/* The proved functions, which the calls above hand good arguments on to. They look at nothing: no pointer is null, also with length 0; each
 * is aligned; no length is of more than PTRDIFF_MAX bytes; `room` and `count` overlap nothing. */
uint8_t scale_info_ffi_check(const uint8_t *input, size_t input_length);
uint8_t scale_info_ffi_prune(const uint8_t *input, size_t input_length, const uint32_t *ids, size_t ids_length,
                             uint8_t *room, size_t room_length, size_t *count);
uint8_t scale_info_ffi_json(const uint8_t *input, size_t input_length, uint8_t *room, size_t room_length, size_t *count);
uint8_t scale_info_ffi_strip(const uint8_t *input, size_t input_length, uint8_t *room, size_t room_length, size_t *count);
uint8_t scale_info_ffi_table(const uint8_t *input, size_t input_length, uint8_t *room, size_t room_length, size_t *count);
uint8_t scale_info_ffi_find(const uint8_t *input, size_t input_length, const uint8_t *path, size_t path_length,
                            uint32_t *room, size_t room_length, size_t *count);
uint8_t scale_info_ffi_describe(const uint8_t *input, size_t input_length, uint32_t id,
                                uint8_t *room, size_t room_length, size_t *count);
uint8_t scale_info_ffi_value(const uint8_t *input, size_t input_length, uint32_t id, const uint8_t *bytes, size_t bytes_length,
                             uint8_t *room, size_t room_length, size_t *count);
uint8_t scale_info_ffi_encode(const uint8_t *input, size_t input_length, uint32_t id, const uint8_t *json, size_t json_length,
                              uint8_t *room, size_t room_length, size_t *count);
uint8_t scale_info_ffi_same(const uint8_t *first, size_t first_length, uint32_t id,
                            const uint8_t *second, size_t second_length, uint32_t other,
                            uint8_t *room, size_t room_length, size_t *count);
uint8_t scale_info_ffi_changes(const uint8_t *old, size_t old_length, const uint8_t *new_table, size_t new_length,
                               uint8_t *room, size_t room_length, size_t *count);

#ifdef __cplusplus
}
#endif
#endif
