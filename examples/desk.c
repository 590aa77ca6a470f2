/* The allotment program in C: reads a register from the file named on the command line, or from
   standard input, and prints its listing or `refused,number,line`, and then on standard error what is
   wrong and what to mend. From the repository's root:

       cc -std=c99 -Iinclude examples/desk.c target/staticlib/libdesk.a -o target/desk
       target/desk examples/hungary-counties.register

   It ends with 0 after a listing, 1 after a refusal, and 2 if the file cannot be read or the text
   cannot be written. */
#include "desk.h"

#include <inttypes.h>
#include <stdio.h>

/* One byte more than a register may have, so that a longer file is refused as such. */
static uint8_t bytes[DESK_REGISTER_LIMIT + 1];
static uint8_t listing[DESK_LISTING_ROOM];

int main(int argc, char **argv)
{
    FILE *in = argc > 1 ? fopen(argv[1], "rb") : stdin;
    if (in == NULL) {
        perror(argv[1]);
        return 2;
    }
    size_t length = fread(bytes, 1, sizeof bytes, in);
    if (ferror(in)) {
        perror("reading the register");
        return 2;
    }

    desk_written written = desk_listing(bytes, length, listing, sizeof listing);
    if (written.refusal != 0)
        printf("refused,%" PRIu64 ",%" PRIu64 "\n", written.refusal, written.line);
    else
        fwrite(listing, 1, written.length, stdout);
    /* What is written may wait in a buffer, so that an error shows at the latest here. */
    if (fclose(stdout) != 0) {
        perror("standard output");
        return 2;
    }
    if (written.refusal != 0)
        fprintf(stderr, "What is wrong: %s.\nMend: %s.\n", desk_refusal_sentence(written.refusal),
                desk_refusal_remedy(written.refusal));
    return written.refusal != 0;
}
