/*
 * frames pack <text >frames: each line of hexadecimal bytes becomes one frame, its 32-bit length before it.
 * frames unpack <frames >text: the reverse. Empty lines and lines that begin with # are left out.
 */
#include <stdint.h>
#include <stdio.h>
#include <string.h>

static uint8_t frame[65536];

static size_t read_hex(const char *line)
{
    size_t length = 0;
    unsigned byte;
    int used;

    for (; sscanf(line, "%2x%n", &byte, &used) == 1; line += used)
        frame[length++] = (uint8_t)byte;
    return length;
}

static void pack(void)
{
    static char line[4 * sizeof frame];

    while (fgets(line, sizeof line, stdin) != NULL) {
        if (line[0] == '#' || line[0] == '\n')
            continue;
        uint32_t length = (uint32_t)read_hex(line);
        fwrite(&length, 4, 1, stdout);
        fwrite(frame, 1, length, stdout);
    }
}

static void unpack(void)
{
    uint32_t length;

    while (fread(&length, 4, 1, stdin) == 1 && length <= sizeof frame && fread(frame, 1, length, stdin) == length) {
        for (uint32_t byte = 0; byte < length; byte++)
            printf(byte == 0 ? "%02x" : " %02x", frame[byte]);
        putchar('\n');
    }
}

int main(int argc, char **argv)
{
    if (argc == 2 && strcmp(argv[1], "pack") == 0)
        pack();
    else if (argc == 2 && strcmp(argv[1], "unpack") == 0)
        unpack();
    else
        return 2;
    return 0;
}
