/* Prints the key of each entry of a .bib file, with its place in bytes, or what the file is refused with. */
#include <bib.h>
#include <stdio.h>

static uint8_t file[BIB_MOST_BYTES + 1];
static uint32_t rows[BIB_ENOUGH_NUMBERS(BIB_MOST_BYTES)];

int main(int argc, char **argv) {
    FILE *from = argc == 2 ? fopen(argv[1], "rb") : NULL;
    if (from == NULL) {
        fprintf(stderr, "keys: give a file that can be read\n");
        return 2;
    }
    size_t length = fread(file, 1, sizeof file, from);
    uint64_t count, start, end;
    uint32_t status = bib_read(file, length, rows, sizeof rows / sizeof *rows, &count, &start, &end);
    if (status != BIB_OK) {
        printf("refused with %u at byte %u\n", (unsigned)status, (unsigned)start);
        return 1;
    }
    for (const uint32_t *row = rows; row < rows + count * BIB_ROW_NUMBERS; row += BIB_ROW_NUMBERS)
        if (row[0] == BIB_KEY)
            printf("%.*s %u %u\n", (int)(row[3] - row[2]), (const char *)file + row[2], (unsigned)row[2], (unsigned)row[3]);
    return 0;
}
