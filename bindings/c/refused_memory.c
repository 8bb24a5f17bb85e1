/* Each request for memory refused in turn, and all after it: the status is OUT_OF_MEMORY or that with ample memory, and nothing is left over.
 *
 * Linked with --wrap=malloc, --wrap=realloc and --wrap=free.
 *
 *     refused_memory TABLE
 */
#include "scale_info.h"
#include <stdio.h>
#include <stdlib.h>

/* How many requests are granted before all others are refused; -1: all are granted. How many blocks are held. */
static long granted = -1, held;

void *__real_malloc(size_t);
void *__real_realloc(void *, size_t);
void __real_free(void *);

static int is_refused(void) {
    if (granted == 0) return 1;
    if (granted > 0) granted--;
    return 0;
}

void *__wrap_malloc(size_t size) {
    void *made = is_refused() ? NULL : __real_malloc(size);
    held += made != NULL;
    return made;
}

void *__wrap_realloc(void *old, size_t size) {
    void *made = is_refused() ? NULL : __real_realloc(old, size);
    held += made != NULL && old == NULL;
    return made;
}

void __wrap_free(void *old) {
    held -= old != NULL;
    __real_free(old);
}

static uint8_t table[1 << 16], room[1 << 20];
static size_t length, count;

static uint8_t called(int which) {
    static const uint32_t ids[] = {0};
    static const uint8_t value[] = {1, 0, 0, 0, 7, 2, 0, 0, 0}, json[] = "[1,{\"Just\":[2]}]", path[] = "demo::Pair";
    static uint32_t found[8];
    switch (which) {
    case 0: return scale_info_check(table, length);
    case 1: return scale_info_prune(table, length, ids, 1, room, sizeof room, &count);
    case 2: return scale_info_json(table, length, room, sizeof room, &count);
    case 3: return scale_info_strip(table, length, room, sizeof room, &count);
    case 4: return scale_info_table(table, length, room, sizeof room, &count);
    case 5: return scale_info_find(table, length, path, sizeof path - 1, found, 8, &count);
    case 6: return scale_info_describe(table, length, 0, room, sizeof room, &count);
    case 7: return scale_info_value(table, length, 0, value, sizeof value, room, sizeof room, &count);
    case 8: return scale_info_encode(table, length, 5, json, sizeof json - 1, room, sizeof room, &count);
    case 9: return scale_info_same(table, length, 0, table, length, 2, room, sizeof room, &count);
    default: return scale_info_changes(table, length, table, length, room, sizeof room, &count);
    }
}

int main(int argc, char **argv) {
    FILE *file = argc > 1 ? fopen(argv[1], "rb") : NULL;
    long before, refused, turn;
    int which;
    if (file == NULL) return 2;
    length = fread(table, 1, sizeof table, file);
    fclose(file);
    before = held;
    for (which = 0; which <= 10; which++) {
        uint8_t ample = called(which), status;
        if (ample != SCALE_INFO_DONE) return printf("refused_memory.c: call %d: status %d with ample memory\n", which, ample), 1;
        for (turn = 0, refused = 0; turn < 100000; turn++) {
            granted = turn;
            status = called(which);
            granted = -1;
            if (held != before) return printf("refused_memory.c: call %d: %ld blocks left over\n", which, held - before), 1;
            if (status == ample) break;
            if (status != SCALE_INFO_OUT_OF_MEMORY || count != 0) return printf("refused_memory.c: call %d: status %d\n", which, status), 1;
            refused++;
        }
        printf("refused_memory.c: call %d: refused at each of %ld requests\n", which, refused);
    }
    return 0;
}
