/* Opens the book of a book.dat and serves the records of standard input to standard output, as claimrun does:
       serve_stream book.dat < messages.dat > claims.dat */
#include <claim_tracker.h>
#include <stdio.h>
#include <string.h>
#include <unistd.h>

#ifndef INPUT_ROOM
#define INPUT_ROOM 65536 /* at least CLAIM_TRACKER_TRANSFER_BYTES */
#endif
#ifndef OUTPUT_ROOM
#define OUTPUT_ROOM CLAIM_TRACKER_RECORD_ROOM /* at least this */
#endif

static uint32_t words[CLAIM_TRACKER_BOOK_FILE_BYTES / 4];
static uint64_t balances[CLAIM_TRACKER_BALANCE_WORDS];
static uint8_t input[INPUT_ROOM], output[OUTPUT_ROOM];

/* Reads book.dat: calendar, tables and day, one behind the other. A file that is missing or of another size gets 1. */
static uint16_t read_book(const char *path) {
    FILE *file = fopen(path, "rb");
    if (file == NULL) return CLAIM_TRACKER_WRONG_LENGTH;
    int whole = fread(words, 1, sizeof words, file) == sizeof words && fgetc(file) == EOF;
    fclose(file);
    return whole ? CLAIM_TRACKER_ACCEPTED : CLAIM_TRACKER_WRONG_LENGTH;
}

static int failed(const char *words) {
    fprintf(stderr, "serve_stream: %s\n", words);
    return 1;
}

int main(int count, char **arguments) {
    const uint32_t *calendar = words, *tables = words + CLAIM_TRACKER_CALENDAR_WORDS, *day = tables + CLAIM_TRACKER_TABLE_WORDS;
    struct claim_tracker_done opened = {.number = read_book(count == 2 ? arguments[1] : "book.dat")};
    if (opened.number == 0) opened = claim_tracker_open(calendar, 480, tables, 1824, balances, CLAIM_TRACKER_BALANCE_WORDS, *day);
    if (opened.number != 0) {
        if (claim_tracker_write_answer(output, sizeof output, (struct claim_tracker_answer){opened.number}) != 0) return 1;
        return fwrite(output, 1, CLAIM_TRACKER_ANSWER_BYTES, stdout) != CLAIM_TRACKER_ANSWER_BYTES;
    }
    struct claim_tracker_book book = opened.book;
    size_t held = 0;
    bool ended = false;
    for (;;) {
        struct claim_tracker_served served =
            claim_tracker_serve(calendar, 480, tables, 1824, book, balances, CLAIM_TRACKER_BALANCE_WORDS, input, held, ended, output,
                                sizeof output);
        if (served.number != 0) return failed(claim_tracker_text(served.number));
        if (fwrite(output, 1, served.written, stdout) != served.written || fflush(stdout) != 0) return failed("standard output");
        book = served.book;
        held -= served.consumed;
        memmove(input, input + served.consumed, held);
        if (served.over) return 0;
        if (served.full && served.written == 0) return failed("the output buffer has no room for a record");
        if (served.full) continue;
        if (ended) return 0;
        ssize_t got = read(STDIN_FILENO, input + held, sizeof input - held);
        if (got < 0) return failed("standard input");
        held += (size_t)got;
        ended = got == 0;
    }
}
