/* Calls made by chance: what each returns, counts and writes is what the model of the formats says.
 *
 *     bindings/cases NUMBER SEED --lines | cases    status 0: all is so, else the first line that is not is printed
 */
#include "scale_info.h"
#include <stdio.h>
#include <stdlib.h>
#include <string.h>

enum { MARK = 0xa5, WORDS = 8 };

/* A word of a line: bytes, or ids, or a number. */
struct word {
    uint8_t *at;
    uint32_t *ids;
    size_t length;
    uint32_t number;
};

/* A call: it writes to a room of so many bytes, or ids, and counts what it writes. */
struct call {
    const char *name;
    const struct word *given;
};

static void *block(size_t length) {
    void *made = malloc(length ? length : 1);
    if (made == NULL) abort();
    return made;
}

static uint8_t digit(char it) { return (uint8_t)(it <= '9' ? it - '0' : it - 'a' + 10); }

/* The word of this text, each list in a block of its own size, so that tools see each read past its end. */
static struct word word_of(const char *text) {
    struct word made = {NULL, NULL, 0, 0};
    size_t i;
    if (text[0] == 'x') {
        made.length = strlen(text + 1) / 2;
        made.at = block(made.length);
        for (i = 0; i < made.length; i++) made.at[i] = (uint8_t)(digit(text[1 + 2 * i]) * 16 + digit(text[2 + 2 * i]));
    } else if (text[0] == 'n') {
        made.number = (uint32_t)strtoul(text + 1, NULL, 10);
    } else {
        const char *rest = text + 1;
        for (i = 1; text[i]; i++) made.length += text[i] == ',';
        made.length += text[1] != 0;
        made.ids = block(4 * made.length);
        for (i = 0; i < made.length; i++, rest++) made.ids[i] = (uint32_t)strtoul(rest, (char **)&rest, 10);
    }
    return made;
}

/* What a call returns, which has a room of so many bytes; of `find`, of ids. */
static uint8_t called(struct call call, void *room, size_t length, size_t *count) {
    const struct word *g = call.given;
    const char *name = call.name;
    if (!strcmp(name, "check")) return *count = 0, scale_info_check(g[0].at, g[0].length);
    if (!strcmp(name, "prune")) return scale_info_prune(g[0].at, g[0].length, g[1].ids, g[1].length, room, length, count);
    if (!strcmp(name, "json")) return scale_info_json(g[0].at, g[0].length, room, length, count);
    if (!strcmp(name, "strip")) return scale_info_strip(g[0].at, g[0].length, room, length, count);
    if (!strcmp(name, "table")) return scale_info_table(g[0].at, g[0].length, room, length, count);
    if (!strcmp(name, "find")) return scale_info_find(g[0].at, g[0].length, g[1].at, g[1].length, room, length / 4, count);
    if (!strcmp(name, "describe")) return scale_info_describe(g[0].at, g[0].length, g[1].number, room, length, count);
    if (!strcmp(name, "value")) return scale_info_value(g[0].at, g[0].length, g[1].number, g[2].at, g[2].length, room, length, count);
    if (!strcmp(name, "encode")) return scale_info_encode(g[0].at, g[0].length, g[1].number, g[2].at, g[2].length, room, length, count);
    if (!strcmp(name, "changes")) return scale_info_changes(g[0].at, g[0].length, g[1].at, g[1].length, room, length, count);
    if (!strcmp(name, "difference"))
        return scale_info_same(g[0].at, g[0].length, g[1].number, g[2].at, g[2].length, g[3].number, room, length, count);
    printf("cases.c: there is no call %s\n", name);
    exit(1);
}

/* Whether a call does so in a room of just the size that it needs, and refuses one that is a byte, or an id, shorter and leaves it. */
static int is_so(struct call call, uint8_t status, size_t wanted, struct word written) {
    const void *output = written.ids ? (const void *)written.ids : (const void *)written.at;
    size_t item = written.ids ? 4 : 1, length = item * written.length, count = 77, i;
    uint8_t *room = block(length);
    int so = called(call, room, length, &count) == status && count == wanted && (length == 0 || memcmp(room, output, length) == 0);
    if (so && length) {
        memset(room, MARK, length);
        so = called(call, room, length - item, &count) == SCALE_INFO_NO_ROOM && count == wanted;
        for (i = 0; i < length; i++) so = so && room[i] == MARK;
    }
    free(room);
    return so;
}

/* Whether the call of a line is as the line says; the line is taken apart. */
static int line_is_so(char *line) {
    struct word given[WORDS], written;
    struct call call = {strtok(line, " "), given};
    uint8_t status = (uint8_t)strtoul(strtok(NULL, " "), NULL, 10);
    size_t wanted = strtoul(strtok(NULL, " "), NULL, 10), number = 0;
    char *text;
    int so;
    written = word_of(strtok(NULL, " "));
    while (number < WORDS && (text = strtok(NULL, " ")) != NULL) given[number++] = word_of(text);
    so = is_so(call, status, wanted, written);
    free(written.at), free(written.ids);
    while (number--) free(given[number].at), free(given[number].ids);
    return so;
}

int main(void) {
    static char line[1 << 22], copy[1 << 22];
    size_t lines = 0;
    while (fgets(line, sizeof line, stdin)) {
        line[strcspn(line, "\n")] = 0;
        strcpy(copy, line);
        if (!line_is_so(line)) {
            printf("cases.c: not so: %s\n", copy);
            return 1;
        }
        lines++;
    }
    printf("cases.c: %zu calls are as the model says\n", lines);
    return lines == 0;
}
