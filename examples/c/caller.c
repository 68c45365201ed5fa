/* Asks a question through the C boundary: document 01's worked example, or the query and table of a file.
 *
 *   gcc -O2 examples/c/caller.c $(pkg-config --cflags --libs needlevale) -o caller
 *   gcc -O2 -Iinclude examples/c/caller.c crates/needlevale_c/out/libneedlevale_c.a -o caller
 *   ./caller [FILE]
 *
 * The answer goes to standard output, exit status 0; a refusal's name to standard error, 1; wrong usage is 2.
 * Assumes an x86-64 Linux and, of the first two lines, that `make install` was run, or `rt lib` in crates/needlevale_c; on
 * Arm examples/README.md says how. */
#include <stdio.h>
#include <string.h>

#include "needlevale.h"

static const uint8_t worked_example[] = {
    0x00, 0x02, 0x00, 0x11, 0x40, 0x30, 0x04, 0x00, 0x00, 0x00, 0x00, 0x00, 0x00, 0x00, 0x14, 0x10, 0xd3,
    0x9d, 0x5b, 0x40, 0x04, 0x23, 0x41, 0x64, 0x64, 0x80, 0x00, 0x00, 0x00, 0x00, 0x00, 0x00, 0x01, 0x00,
    0x20, 0x00, 0x01, 0x80, 0x00, 0x00, 0x00, 0x40, 0x00, 0x00, 0x04, 0x08, 0x02, 0x01, 0x01, 0x00,
};

int main(int count, char **words)
{
    /* One byte over the longest input tells a longer one: what follows changes no answer. */
    static uint8_t input[NEEDLEVALE_LONGEST_INPUT + 1], output[NEEDLEVALE_PROGRAM_OUTPUT];
    size_t length = sizeof worked_example;

    if (count > 2) {
        fputs("caller: give one file, or none for the worked example\n", stderr);
        return 2;
    }
    memcpy(input, worked_example, length);
    if (count == 2) {
        FILE *file = fopen(words[1], "rb");
        if (!file) {
            fprintf(stderr, "caller: '%s' cannot be read\n", words[1]);
            return 2;
        }
        length = fread(input, 1, sizeof input, file);
        fclose(file);
    }

    int64_t answer = needlevale_answer(input, length, output, sizeof output);
    if (answer < 0) {
        fprintf(stderr, "refused: %s (%d)\n", needlevale_name(answer), (int)-answer);
        return 1;
    }
    return fwrite(output, 1, (size_t)answer, stdout) == (size_t)answer && !fflush(stdout) ? 0 : 2;
}
