/* A plain scan of a dump's records: header lines to the empty line, then Content-length bytes. Prints how many there are. */
#include <stdio.h>
#include <stdlib.h>
#include <string.h>

int main(void) {
    static char buffer[1 << 16];
    char *line = NULL;
    size_t room = 0;
    ssize_t n;
    long records = 0;
    unsigned long length = 0;
    int begun = 0;
    while ((n = getline(&line, &room, stdin)) > 0) {
        if (n > 1) {
            begun = 1;
            if (strncmp(line, "Content-length: ", 16) == 0) length = strtoul(line + 16, NULL, 10);
            continue;
        }
        if (!begun) continue;
        records++;
        begun = 0;
        while (length > 0) {
            size_t part = length < sizeof buffer ? length : sizeof buffer;
            if (fread(buffer, 1, part, stdin) != part) return 1;
            length -= part;
        }
    }
    printf("%ld\n", records);
    free(line);
    return 0;
}
