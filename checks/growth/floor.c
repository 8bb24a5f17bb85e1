/* The floor of the figures: a program that reads its standard input to the end and writes it to its standard output. */
#include <stdio.h>
#include <stdlib.h>
#include <unistd.h>

int main(void)
{
    size_t room = 65536, length = 0;
    char *bytes = malloc(room);
    for (;;) {
        if (bytes == NULL)
            return 1;
        ssize_t count = read(0, bytes + length, room - length);
        if (count < 0)
            return 1;
        if (count == 0)
            break;
        length += (size_t)count;
        if (length == room)
            bytes = realloc(bytes, room *= 2);
    }
    for (size_t written = 0; written < length;) {
        ssize_t count = write(1, bytes + written, length - written);
        if (count < 0)
            return 1;
        written += (size_t)count;
    }
    return 0;
}
