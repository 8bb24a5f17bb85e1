/* A program with one planted fault around another, which REAL names: it gives its whole input to that one, with the same arguments, and
   hands on its output, its errors and its status. FAULT says which fault it has. */
#include <stdint.h>
#include <stdio.h>
#include <stdlib.h>
#include <string.h>
#include <sys/wait.h>
#include <unistd.h>

#define LAST_BYTE 1 /* drops the last byte of the output */
#define ANNOUNCED 2 /* asks for room by the count that the input announces */
#define QUADRATIC 3 /* does work by the square of the input's length */

static unsigned char *bytes;
static size_t length;

/* Reads a stream to its end. */
static void read_all(FILE *stream) {
    size_t room = 1 << 16, got;
    bytes = malloc(room);
    length = 0;
    while (bytes && (got = fread(bytes + length, 1, room - length, stream)) > 0) {
        length += got;
        if (length == room) bytes = realloc(bytes, room *= 2);
    }
    if (!bytes) _exit(99);
}

/* The compact integer of four bytes at the start of the input, which is its count where its mode says so. */
static uint64_t announced(void) {
    uint32_t word = 0;
    memcpy(&word, bytes, length < 4 ? length : 4);
    return (word & 3) == 2 ? word >> 2 : (word & 3) == 3 ? 0xffffffff : 0;
}

static void ask_for(uint64_t count) {
    volatile unsigned char *room = malloc(count * 8 + 1);
    if (!room) {
        fputs("type_table: out of memory\n", stderr);
        exit(1);
    }
    for (uint64_t at = 0; at < count * 8; at += 4096) room[at] = 1;
}

static void square(void) {
    volatile uint64_t sum = 0;
    for (size_t one = 0; one < length; one += 64)
        for (size_t other = 0; other < length; other += 64) sum += bytes[one] ^ bytes[other];
}

int main(int argc, char **argv) {
    (void)argc;
    int in[2], out[2], status = 0;
    read_all(stdin);
    if (FAULT == ANNOUNCED) ask_for(announced());
    if (FAULT == QUADRATIC) square();
    if (pipe(in) || pipe(out)) return 99;
    pid_t writer = fork();
    if (writer == 0) {
        FILE *to = fdopen(in[1], "wb");
        close(in[0]), close(out[0]), close(out[1]);
        fwrite(bytes, 1, length, to);
        fclose(to);
        _exit(0);
    }
    pid_t child = fork();
    if (child == 0) {
        dup2(in[0], 0), dup2(out[1], 1);
        close(in[0]), close(in[1]), close(out[0]), close(out[1]);
        execv(getenv("REAL"), argv);
        _exit(98);
    }
    close(in[0]), close(in[1]), close(out[1]);
    read_all(fdopen(out[0], "rb"));
    if (FAULT == LAST_BYTE && length) length--;
    fwrite(bytes, 1, length, stdout);
    fflush(stdout);
    waitpid(writer, &status, 0);
    waitpid(child, &status, 0);
    return WIFEXITED(status) ? WEXITSTATUS(status) : 97;
}
