/* Tells what became of a byte of a recording of at most 65,536 bytes, which comes on standard input as raw bytes: in
 * which frame it was handed out, why it was skipped, or that it is still held.
 *
 *     why PLACE < recording
 *
 * PLACE is the byte's place, counted from 0. The exit status is 0 if it is told, 1 if the recording has no such place, is
 * longer or cannot be read, and 2 if the argument is wrong. */
#include <hpsdr.h>

#include <stdio.h>
#include <stdlib.h>
#include <string.h>

enum { BAD_ARGUMENT = 2 };

static int is_number(const char *argument) {
    return argument[0] != '\0' && argument[strspn(argument, "0123456789")] == '\0';
}

int main(int count, char **arguments) {
    static uint8_t recording[HPSDR_INPUT_MOST + 1]; /* a byte more than is taken, which shows a longer recording */
    char text[HPSDR_TEXT];
    if (count != 2 || !is_number(arguments[1])) {
        fputs("usage: why PLACE < recording (PLACE is counted from 0)\n", stderr);
        return BAD_ARGUMENT;
    }
    const size_t length = fread(recording, 1, sizeof recording, stdin);
    if (ferror(stdin)) {
        perror("why: standard input");
        return EXIT_FAILURE;
    }
    const struct hpsdr_why why = hpsdr_explain(recording, length, strtoul(arguments[1], NULL, 10));
    hpsdr_why_text(why, text);
    if (hpsdr_answer_of(why.got) != HPSDR_ACCEPTED) {
        fprintf(stderr, "why: refused: %s\n", text);
        return EXIT_FAILURE;
    }
    puts(text);
    if (fflush(stdout) != 0)
        perror("why: standard output");
    return ferror(stdout) ? EXIT_FAILURE : EXIT_SUCCESS;
}
