/* Tests of the calls: on worked tables, in rooms that are too short, on changed and cut tables, and with bad arguments.
 *
 *     test SAMPLES    the folder with the samples; status 0: all is as it must be, else each line says what is not
 */
#include "scale_info.h"
#include <stdio.h>
#include <stdlib.h>
#include <string.h>

static int failed;
#define WANT(condition)                                                    \
    do {                                                                   \
        if (!(condition)) {                                                \
            printf("test.c:%d: not so: %s\n", __LINE__, #condition);       \
            failed = 1;                                                    \
        }                                                                  \
    } while (0)

enum { ROOM = 4096, MARK = 0xa5 };

/* Bytes in a block of their own size, so that tools see each read past their end. */
struct bytes {
    uint8_t *at;
    size_t length;
};

static struct bytes bytes_of(const void *from, size_t length) {
    struct bytes made = {malloc(length ? length : 1), length};
    if (made.at == NULL) abort();
    if (length) memcpy(made.at, from, length);
    return made;
}

static struct bytes sample(const char *folder, const char *name) {
    static uint8_t data[1 << 16];
    char path[4096];
    FILE *file;
    size_t length;
    snprintf(path, sizeof path, "%s/%s", folder, name);
    file = fopen(path, "rb");
    if (file == NULL) {
        printf("test.c: no file %s\n", path);
        exit(1);
    }
    length = fread(data, 1, sizeof data, file);
    fclose(file);
    return bytes_of(data, length);
}

/* The calls with a room of bytes, on one table, as one function each. */
typedef uint8_t call(struct bytes table, uint8_t *room, size_t room_length, size_t *count);

static const uint32_t SOME_IDS[] = {2, 0};
static const char JSON[] = "{\"left\":1,\"right\":{\"Just\":[2]}}";
static const uint8_t VALUE[] = {1, 0, 0, 0, 7, 2, 0, 0, 0};

static uint8_t call_prune(struct bytes t, uint8_t *room, size_t length, size_t *count) {
    return scale_info_prune(t.at, t.length, SOME_IDS, 2, room, length, count);
}
static uint8_t call_json(struct bytes t, uint8_t *room, size_t length, size_t *count) {
    return scale_info_json(t.at, t.length, room, length, count);
}
static uint8_t call_strip(struct bytes t, uint8_t *room, size_t length, size_t *count) {
    return scale_info_strip(t.at, t.length, room, length, count);
}
static uint8_t call_table(struct bytes t, uint8_t *room, size_t length, size_t *count) {
    return scale_info_table(t.at, t.length, room, length, count);
}
static uint8_t call_describe(struct bytes t, uint8_t *room, size_t length, size_t *count) {
    return scale_info_describe(t.at, t.length, 0, room, length, count);
}
static uint8_t call_value(struct bytes t, uint8_t *room, size_t length, size_t *count) {
    return scale_info_value(t.at, t.length, 0, VALUE, sizeof VALUE, room, length, count);
}
static uint8_t call_encode(struct bytes t, uint8_t *room, size_t length, size_t *count) {
    return scale_info_encode(t.at, t.length, 0, (const uint8_t *)JSON, sizeof JSON - 1, room, length, count);
}
static uint8_t call_same(struct bytes t, uint8_t *room, size_t length, size_t *count) {
    return scale_info_same(t.at, t.length, 0, t.at, t.length, 2, room, length, count);
}
static uint8_t call_changes(struct bytes t, uint8_t *room, size_t length, size_t *count) {
    static const uint8_t other[] = {4, 0, 4, 4, 'a', 0, 5, 5, 0}; /* a table with the type `a` */
    return scale_info_changes(other, sizeof other, t.at, t.length, room, length, count);
}

static call *const CALLS[] = {call_prune,  call_json,   call_strip, call_table,  call_describe,
                              call_value, call_encode, call_same,  call_changes};
enum { NUMBER_OF_CALLS = sizeof CALLS / sizeof *CALLS };

/* Whether the output of a call is this text, and the rest of the room is as before. */
static int gives(call *it, struct bytes table, const void *wanted, size_t length) {
    uint8_t room[ROOM];
    size_t count = 77, i;
    memset(room, MARK, sizeof room);
    if (it(table, room, sizeof room, &count) != SCALE_INFO_DONE || count != length || memcmp(room, wanted, length) != 0) return 0;
    for (i = length; i < sizeof room; i++)
        if (room[i] != MARK) return 0;
    return 1;
}

static int gives_text(call *it, struct bytes table, const char *wanted) { return gives(it, table, wanted, strlen(wanted)); }

/* What each call gives for the table with each kind of type. */
static void worked(const char *folder) {
    struct bytes kinds = sample(folder, "kinds.scale"), vec = sample(folder, "vec_u32.scale");
    struct bytes metadata = sample(folder, "metadata_15.scale"), text = sample(folder, "metadata.hex");
    static const uint8_t pruned[] = {4, 0, 0, 0, 5, 5, 0};
    static const char path[] = "demo::Choice";
    uint8_t room[ROOM];
    uint32_t ids[4] = {9, 9, 9, 9}, one = 1, seven = 7;
    size_t count = 77;
    WANT(scale_info_check(kinds.at, kinds.length) == SCALE_INFO_DONE);
    WANT(scale_info_check(metadata.at, metadata.length) != SCALE_INFO_DONE);
    WANT(gives_text(call_json, vec,
                    "{\"types\":[{\"id\":0,\"type\":{\"def\":{\"sequence\":{\"type\":1}}}},"
                    "{\"id\":1,\"type\":{\"def\":{\"primitive\":\"u32\"}}}]}"));
    WANT(scale_info_prune(vec.at, vec.length, &one, 1, room, sizeof room, &count) == SCALE_INFO_DONE);
    WANT(count == sizeof pruned && memcmp(room, pruned, count) == 0);
    WANT(scale_info_prune(vec.at, vec.length, NULL, 0, room, sizeof room, &count) == SCALE_INFO_DONE && count == 1 && room[0] == 0);
    WANT(scale_info_prune(vec.at, vec.length, &seven, 1, room, sizeof room, &count) == SCALE_INFO_NO_SUCH_TYPE && count == 7);
    WANT(gives(call_table, metadata, vec.at, vec.length) && gives(call_table, text, vec.at, vec.length));
    WANT(gives(call_strip, vec, vec.at, vec.length));
    WANT(call_strip(kinds, room, sizeof room, &count) == SCALE_INFO_DONE && count < kinds.length);
    WANT(scale_info_find(kinds.at, kinds.length, (const uint8_t *)path, sizeof path - 1, ids, 4, &count) == SCALE_INFO_DONE);
    WANT(count == 1 && ids[0] == 2 && ids[1] == 9);
    WANT(scale_info_find(kinds.at, kinds.length, (const uint8_t *)path, 4, ids, 4, &count) == SCALE_INFO_DONE && count == 0 && ids[0] == 2);
    WANT(scale_info_find(kinds.at, kinds.length, (const uint8_t *)"\xff", 1, ids, 4, &count) == SCALE_INFO_NO_TEXT && count == 0);
    WANT(scale_info_find(kinds.at, kinds.length, (const uint8_t *)path, sizeof path - 1, ids, 0, &count) == SCALE_INFO_NO_ROOM && count == 1);
    WANT(scale_info_describe(kinds.at, kinds.length, 4, room, sizeof room, &count) == SCALE_INFO_DONE);
    WANT(count == 7 && memcmp(room, "[u8; 3]", 7) == 0);
    WANT(scale_info_describe(kinds.at, kinds.length, 11, room, sizeof room, &count) == SCALE_INFO_NO_SUCH_TYPE && count == 11);
    WANT(gives_text(call_value, kinds, JSON));
    WANT(gives(call_encode, kinds, VALUE, sizeof VALUE));
    WANT(scale_info_same(kinds.at, kinds.length, 1, vec.at, vec.length, 1, room, sizeof room, &count) == SCALE_INFO_DONE && count == 0);
    WANT(scale_info_same(kinds.at, kinds.length, 3, vec.at, vec.length, 1, room, sizeof room, &count) == SCALE_INFO_DONE);
    WANT(count == 15 && memcmp(room, "Vec<u32> -> u32", 15) == 0);
    WANT(gives_text(call_changes, kinds, "- a\n+ demo::Pair\n+ demo::Choice\n+ bitvec::order::Lsb0\n"));
    free(kinds.at), free(vec.at), free(metadata.at), free(text.at);
}

/* What comes of values that are none, and of metadata that is not read. */
static void refused(const char *folder) {
    struct bytes kinds = sample(folder, "kinds.scale"), deep = sample(folder, "recursive.scale");
    static const uint8_t version[] = {'m', 'e', 't', 'a', 13, 0}, many[200] = {0};
    static const uint8_t dangles[] = {4, 0, 0, 0, 2, 36, 0}; /* a list of a type with id 9 */
    uint8_t room[ROOM];
    size_t count = 77;
    uint32_t zero = 0;
    memset(room, MARK, sizeof room);
    WANT(scale_info_table(version, sizeof version, room, sizeof room, &count) == SCALE_INFO_VERSION && count == 13);
    WANT(scale_info_prune(dangles, sizeof dangles, &zero, 1, room, sizeof room, &count) == SCALE_INFO_DANGLING && count == 9);
    WANT(scale_info_same(dangles, sizeof dangles, 0, kinds.at, kinds.length, 1, room, sizeof room, &count) == SCALE_INFO_DANGLING && count == 9);
    WANT(scale_info_value(dangles, sizeof dangles, 0, dangles, 2, room, sizeof room, &count) == SCALE_INFO_NO_SUCH_TYPE && count == 0);
    WANT(scale_info_value(kinds.at, kinds.length, 11, VALUE, 9, room, sizeof room, &count) == SCALE_INFO_NO_SUCH_TYPE && count == 11);
    WANT(scale_info_value(kinds.at, kinds.length, 7, VALUE, 9, room, sizeof room, &count) == SCALE_INFO_UNSUPPORTED && count == 0);
    WANT(scale_info_value(deep.at, deep.length, 0, many, sizeof many, room, sizeof room, &count) == SCALE_INFO_TOO_DEEP && count == 0);
    WANT(scale_info_value(kinds.at, kinds.length, 0, VALUE, 8, room, sizeof room, &count) == SCALE_INFO_MALFORMED_VALUE && count == 0);
    WANT(scale_info_value(kinds.at, kinds.length, 1, VALUE, 9, room, sizeof room, &count) == SCALE_INFO_TRAILING_VALUE && count == 0);
    WANT(scale_info_encode(kinds.at, kinds.length, 1, (const uint8_t *)"[", 1, room, sizeof room, &count) == SCALE_INFO_NO_JSON && count == 0);
    WANT(scale_info_encode(kinds.at, kinds.length, 1, (const uint8_t *)"true", 4, room, sizeof room, &count) == SCALE_INFO_MISMATCH && count == 0);
    WANT(room[0] == MARK && memcmp(room, room + 1, sizeof room - 1) == 0);
    free(kinds.at), free(deep.at);
}

/* Each room that is too short: it is as before, and the room that is wanted is told. */
static void short_rooms(const char *folder) {
    struct bytes kinds = sample(folder, "kinds.scale");
    size_t i, length, whole, count;
    for (i = 0; i < NUMBER_OF_CALLS; i++) {
        WANT(CALLS[i](kinds, NULL, 0, &whole) == SCALE_INFO_NO_ROOM);
        for (length = 0; length <= whole; length++) {
            uint8_t *room = malloc(length + 1);
            if (room == NULL) abort();
            memset(room, MARK, length + 1);
            count = 77;
            WANT(CALLS[i](kinds, room, length, &count) == (length < whole ? SCALE_INFO_NO_ROOM : SCALE_INFO_DONE) && count == whole);
            WANT(length == whole || room[0] == MARK);
            WANT(length == whole || memcmp(room, room + 1, length) == 0);
            WANT(room[length] == MARK);
            free(room);
        }
    }
    free(kinds.at);
}

/* Each prefix of the table with each kind of type, and each of its bytes as each other byte: no call does anything else than it may. */
static void changed(const char *folder) {
    struct bytes kinds = sample(folder, "kinds.scale");
    size_t length, at, i;
    int byte;
    for (length = 0; length <= kinds.length; length++) {
        for (at = length == kinds.length ? 0 : length; at < length || (at == length && length < kinds.length); at++) {
            for (byte = 0; byte < (length == kinds.length ? 256 : 1); byte++) {
                struct bytes it = bytes_of(kinds.at, length);
                uint8_t room[ROOM], status, own;
                size_t count;
                if (length == kinds.length) it.at[at] = (uint8_t)byte;
                status = scale_info_check(it.at, it.length);
                WANT(status <= SCALE_INFO_TRAILING_BYTES);
                for (i = 0; i < NUMBER_OF_CALLS; i++) {
                    memset(room, MARK, sizeof room);
                    count = 77;
                    own = CALLS[i](it, room, sizeof room, &count);
                    WANT(own <= SCALE_INFO_MISMATCH && own != SCALE_INFO_OUT_OF_MEMORY && own != SCALE_INFO_NO_ROOM);
                    WANT(own == SCALE_INFO_DONE ? count <= sizeof room : memcmp(room, room + 1, sizeof room - 1) == 0 && room[0] == MARK);
                    if (CALLS[i] != call_table) WANT(status == SCALE_INFO_DONE || own == status);
                }
                free(it.at);
            }
        }
    }
    free(kinds.at);
}

/* Arguments that no slices are made of: nothing is done. */
static void bad_arguments(const char *folder) {
    struct bytes vec = sample(folder, "vec_u32.scale");
    uint8_t room[64];
    uint32_t ids[4] = {1, 0, 0, 0};
    size_t counts[2] = {77, 77}, *count = counts;
    size_t half = (size_t)PTRDIFF_MAX + 1, all = SIZE_MAX;
    size_t *odd = (size_t *)(void *)((uint8_t *)counts + 1);
    uint32_t *odd_ids = (uint32_t *)(void *)((uint8_t *)ids + 1);
    memset(room, MARK, sizeof room);
    WANT(scale_info_check(NULL, 0) == SCALE_INFO_MALFORMED);
    WANT(scale_info_check(NULL, 5) == SCALE_INFO_BAD_ARGUMENT);
    WANT(scale_info_check(vec.at, half) == SCALE_INFO_BAD_ARGUMENT && scale_info_check(vec.at, all) == SCALE_INFO_BAD_ARGUMENT);
    WANT(scale_info_json(vec.at, vec.length, NULL, 9, count) == SCALE_INFO_BAD_ARGUMENT);
    WANT(scale_info_json(vec.at, vec.length, room, all, count) == SCALE_INFO_BAD_ARGUMENT);
    WANT(scale_info_json(vec.at, vec.length, room, sizeof room, NULL) == SCALE_INFO_BAD_ARGUMENT);
    WANT(scale_info_json(vec.at, vec.length, room, sizeof room, odd) == SCALE_INFO_BAD_ARGUMENT);
    WANT(scale_info_json(vec.at, vec.length, vec.at, vec.length, count) == SCALE_INFO_BAD_ARGUMENT);
    WANT(scale_info_json(vec.at, vec.length, vec.at + vec.length - 1, 1, count) == SCALE_INFO_BAD_ARGUMENT);
    WANT(scale_info_json((const uint8_t *)count, sizeof *count, room, sizeof room, count) == SCALE_INFO_BAD_ARGUMENT);
    WANT(scale_info_json(vec.at, vec.length, (uint8_t *)count, sizeof *count, count) == SCALE_INFO_BAD_ARGUMENT);
    WANT(scale_info_prune(vec.at, vec.length, NULL, 1, room, sizeof room, count) == SCALE_INFO_BAD_ARGUMENT);
    WANT(scale_info_prune(vec.at, vec.length, odd_ids, 1, room, sizeof room, count) == SCALE_INFO_BAD_ARGUMENT);
    WANT(scale_info_prune(vec.at, vec.length, ids, half / 4, room, sizeof room, count) == SCALE_INFO_BAD_ARGUMENT);
    WANT(scale_info_prune(vec.at, vec.length, ids, 1, (uint8_t *)ids, 4, count) == SCALE_INFO_BAD_ARGUMENT);
    WANT(scale_info_find(vec.at, vec.length, vec.at, 1, odd_ids, 1, count) == SCALE_INFO_BAD_ARGUMENT);
    WANT(scale_info_find(vec.at, vec.length, NULL, 1, ids, 1, count) == SCALE_INFO_BAD_ARGUMENT);
    WANT(scale_info_describe(NULL, 1, 0, room, sizeof room, count) == SCALE_INFO_BAD_ARGUMENT);
    WANT(scale_info_strip(NULL, 1, room, sizeof room, count) == SCALE_INFO_BAD_ARGUMENT);
    WANT(scale_info_table(NULL, 1, room, sizeof room, count) == SCALE_INFO_BAD_ARGUMENT);
    WANT(scale_info_value(vec.at, vec.length, 0, room, 4, room, sizeof room, count) == SCALE_INFO_BAD_ARGUMENT);
    WANT(scale_info_encode(vec.at, vec.length, 0, NULL, 4, room, sizeof room, count) == SCALE_INFO_BAD_ARGUMENT);
    WANT(scale_info_same(vec.at, vec.length, 0, NULL, 4, 0, room, sizeof room, count) == SCALE_INFO_BAD_ARGUMENT);
    WANT(scale_info_changes(vec.at, vec.length, room, 4, room, sizeof room, count) == SCALE_INFO_BAD_ARGUMENT);
    WANT(counts[0] == 77 && counts[1] == 77 && ids[0] == 1 && room[0] == MARK && memcmp(room, room + 1, sizeof room - 1) == 0);
    WANT(scale_info_same(vec.at, vec.length, 0, vec.at, vec.length, 0, NULL, 0, count) == SCALE_INFO_DONE && *count == 0);
    free(vec.at);
}

int main(int argc, char **argv) {
    const char *folder = argc > 1 ? argv[1] : "samples";
    worked(folder);
    refused(folder);
    short_rooms(folder);
    changed(folder);
    bad_arguments(folder);
    if (!failed) puts("test.c: all is as it must be");
    return failed;
}
