/* The calls of scale_info.h: they look at their arguments, and hand good ones on to the proved functions. */
#include "scale_info.h"

/* A part of memory that a caller names: so many items of this size. */
struct part {
    const void *at;
    size_t length;
    size_t size;
};

/* What an empty part points to, as the proved functions take no null. */
static const uint64_t nothing[1];

/* Whether a part can be one. Null without items becomes a pointer to nothing. */
static int is_part(struct part *part) {
    uintptr_t at;
    if (part->length > (size_t)PTRDIFF_MAX / part->size) return 0;
    if (part->at == NULL) {
        if (part->length != 0) return 0;
        part->at = nothing;
    }
    at = (uintptr_t)part->at;
    return at % part->size == 0 && at <= UINTPTR_MAX - part->length * part->size;
}

/* Whether two parts have a byte in common. */
static int overlap(const struct part *part, const struct part *other) {
    size_t bytes = part->length * part->size, others = other->length * other->size;
    uintptr_t at = (uintptr_t)part->at, there = (uintptr_t)other->at;
    return bytes != 0 && others != 0 && at < there + others && there < at + bytes;
}

/* Whether the arguments of a call are good: the parts that it reads, the room, and where it writes the count. */
static int are_good(struct part *reads, size_t number, struct part *room, size_t *count) {
    struct part counts = {count, 1, sizeof *count};
    size_t i;
    if (count == NULL || !is_part(&counts) || !is_part(room) || overlap(room, &counts)) return 0;
    for (i = 0; i < number; i++) {
        if (!is_part(&reads[i]) || overlap(&reads[i], room) || overlap(&reads[i], &counts)) return 0;
    }
    return 1;
}

uint8_t scale_info_check(const uint8_t *input, size_t input_length) {
    struct part reads = {input, input_length, 1};
    if (!is_part(&reads)) return SCALE_INFO_BAD_ARGUMENT;
    return scale_info_ffi_check(reads.at, input_length);
}

uint8_t scale_info_prune(const uint8_t *input, size_t input_length, const uint32_t *ids, size_t ids_length,
                         uint8_t *room, size_t room_length, size_t *count) {
    struct part reads[] = {{input, input_length, 1}, {ids, ids_length, sizeof *ids}}, to = {room, room_length, 1};
    if (!are_good(reads, 2, &to, count)) return SCALE_INFO_BAD_ARGUMENT;
    return scale_info_ffi_prune(reads[0].at, input_length, reads[1].at, ids_length, (uint8_t *)to.at, room_length, count);
}

uint8_t scale_info_json(const uint8_t *input, size_t input_length, uint8_t *room, size_t room_length, size_t *count) {
    struct part reads = {input, input_length, 1}, to = {room, room_length, 1};
    if (!are_good(&reads, 1, &to, count)) return SCALE_INFO_BAD_ARGUMENT;
    return scale_info_ffi_json(reads.at, input_length, (uint8_t *)to.at, room_length, count);
}

uint8_t scale_info_strip(const uint8_t *input, size_t input_length, uint8_t *room, size_t room_length, size_t *count) {
    struct part reads = {input, input_length, 1}, to = {room, room_length, 1};
    if (!are_good(&reads, 1, &to, count)) return SCALE_INFO_BAD_ARGUMENT;
    return scale_info_ffi_strip(reads.at, input_length, (uint8_t *)to.at, room_length, count);
}

uint8_t scale_info_table(const uint8_t *input, size_t input_length, uint8_t *room, size_t room_length, size_t *count) {
    struct part reads = {input, input_length, 1}, to = {room, room_length, 1};
    if (!are_good(&reads, 1, &to, count)) return SCALE_INFO_BAD_ARGUMENT;
    return scale_info_ffi_table(reads.at, input_length, (uint8_t *)to.at, room_length, count);
}

uint8_t scale_info_find(const uint8_t *input, size_t input_length, const uint8_t *path, size_t path_length,
                        uint32_t *room, size_t room_length, size_t *count) {
    struct part reads[] = {{input, input_length, 1}, {path, path_length, 1}}, to = {room, room_length, sizeof *room};
    if (!are_good(reads, 2, &to, count)) return SCALE_INFO_BAD_ARGUMENT;
    return scale_info_ffi_find(reads[0].at, input_length, reads[1].at, path_length, (uint32_t *)to.at, room_length, count);
}

uint8_t scale_info_describe(const uint8_t *input, size_t input_length, uint32_t id,
                            uint8_t *room, size_t room_length, size_t *count) {
    struct part reads = {input, input_length, 1}, to = {room, room_length, 1};
    if (!are_good(&reads, 1, &to, count)) return SCALE_INFO_BAD_ARGUMENT;
    return scale_info_ffi_describe(reads.at, input_length, id, (uint8_t *)to.at, room_length, count);
}

uint8_t scale_info_value(const uint8_t *input, size_t input_length, uint32_t id, const uint8_t *bytes, size_t bytes_length,
                         uint8_t *room, size_t room_length, size_t *count) {
    struct part reads[] = {{input, input_length, 1}, {bytes, bytes_length, 1}}, to = {room, room_length, 1};
    if (!are_good(reads, 2, &to, count)) return SCALE_INFO_BAD_ARGUMENT;
    return scale_info_ffi_value(reads[0].at, input_length, id, reads[1].at, bytes_length, (uint8_t *)to.at, room_length, count);
}

uint8_t scale_info_encode(const uint8_t *input, size_t input_length, uint32_t id, const uint8_t *json, size_t json_length,
                          uint8_t *room, size_t room_length, size_t *count) {
    struct part reads[] = {{input, input_length, 1}, {json, json_length, 1}}, to = {room, room_length, 1};
    if (!are_good(reads, 2, &to, count)) return SCALE_INFO_BAD_ARGUMENT;
    return scale_info_ffi_encode(reads[0].at, input_length, id, reads[1].at, json_length, (uint8_t *)to.at, room_length, count);
}

uint8_t scale_info_same(const uint8_t *first, size_t first_length, uint32_t id, const uint8_t *second, size_t second_length, uint32_t other,
                        uint8_t *room, size_t room_length, size_t *count) {
    struct part reads[] = {{first, first_length, 1}, {second, second_length, 1}}, to = {room, room_length, 1};
    if (!are_good(reads, 2, &to, count)) return SCALE_INFO_BAD_ARGUMENT;
    return scale_info_ffi_same(reads[0].at, first_length, id, reads[1].at, second_length, other, (uint8_t *)to.at, room_length, count);
}

uint8_t scale_info_changes(const uint8_t *old, size_t old_length, const uint8_t *new_table, size_t new_length,
                           uint8_t *room, size_t room_length, size_t *count) {
    struct part reads[] = {{old, old_length, 1}, {new_table, new_length, 1}}, to = {room, room_length, 1};
    if (!are_good(reads, 2, &to, count)) return SCALE_INFO_BAD_ARGUMENT;
    return scale_info_ffi_changes(reads[0].at, old_length, reads[1].at, new_length, (uint8_t *)to.at, room_length, count);
}
