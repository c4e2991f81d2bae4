/* Reads the NURL file named on the command line, and prints the answer and, if
 * it is accepted, the rows of its tree, a row on a line. */
#include "nurl.h"

#include <inttypes.h>
#include <stdio.h>

/* One byte more than the limit, so that a longer file is refused 1. */
static uint8_t source[NURL_SOURCE_LIMIT + 1];
static uint32_t tokens[NURL_TOKENS_ENOUGH(NURL_SOURCE_LIMIT + 1)];
static uint32_t rows[NURL_ROWS_ENOUGH(NURL_SOURCE_LIMIT + 1)];

static void print_answer(const uint32_t answer[3])
{
    if (answer[0] != 0)
        printf("refused %" PRIu32 " %" PRIu32 "\n", answer[0], answer[1]);
    else
        printf("accepted %" PRIu32 " %" PRIu32 "\n", answer[1], answer[2]);
}

static void print_rows(uint32_t count)
{
    for (const uint32_t *row = rows; count > 0; count--, row += NURL_ROW_WIDTH)
        printf("%" PRIu32 " %" PRIu32 " %" PRIu32 " %" PRIu32 "\n", row[0], row[1], row[2], row[3]);
}

int main(int argc, char **argv)
{
    FILE *file = argc == 2 ? fopen(argv[1], "rb") : NULL;
    if (file == NULL) {
        fprintf(stderr, "usage: read_file FILE (a file that can be read)\n");
        return 2;
    }
    size_t length = fread(source, 1, sizeof source, file);
    if (ferror(file)) {
        perror(argv[1]);
        return 2;
    }
    fclose(file);

    static const uint8_t no_names[1];
    uint32_t answer[3];
    nurl_read(source, length, no_names, 0, tokens, NURL_TOKENS_ENOUGH(length), rows,
              NURL_ROWS_ENOUGH(length), answer);
    print_answer(answer);
    if (answer[0] == 0)
        print_rows(answer[2]);
    return answer[0] == 0 ? 0 : 1;
}
