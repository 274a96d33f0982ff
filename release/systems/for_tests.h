/* What the programs that test the library find on Linux and not on Windows: streams without carriage returns, and getline. */
#include <fcntl.h>
#include <io.h>
#include <stdio.h>
#include <stdlib.h>
#include <sys/types.h>

__attribute__((constructor)) static void make_streams_binary(void)
{
    _setmode(0, _O_BINARY);
    _setmode(1, _O_BINARY);
}

static inline ssize_t getline(char **line, size_t *room, FILE *file)
{
    size_t length = 0;
    int byte;
    while ((byte = getc(file)) != EOF) {
        if (length + 2 > *room) {
            *room = 2 * *room + 128;
            *line = realloc(*line, *room);
            if (!*line)
                abort();
        }
        (*line)[length++] = (char)byte;
        if (byte == '\n')
            break;
    }
    if (!length)
        return -1;
    (*line)[length] = 0;
    return (ssize_t)length;
}
