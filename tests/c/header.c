/* Takes the header as C99, C11 and C++17: sizes, the room for claims and the version when it is compiled; when it is run, each number
   that has words. */
#include "claim_tracker.h"

#include <stdio.h>
#include <string.h>

#define HOLDS(name, holds) typedef char name[(holds) ? 1 : -1]

HOLDS(records_add_up, CLAIM_TRACKER_TRANSFER_BYTES == 2 + 2 + 5 + 4 + 2 * CLAIM_TRACKER_LINE_BYTES
                          && CLAIM_TRACKER_CLAIM_BYTES == 2 + 2 + 6 + 4 + 8 + 8 + 4 + 1);
HOLDS(words_add_up, CLAIM_TRACKER_SECURITY_WORDS == 2 + CLAIM_TRACKER_ROWS * CLAIM_TRACKER_ROW_WORDS
                        && CLAIM_TRACKER_TABLE_WORDS == CLAIM_TRACKER_SECURITIES * CLAIM_TRACKER_SECURITY_WORDS
                        && CLAIM_TRACKER_BALANCE_WORDS == 2 * CLAIM_TRACKER_SECURITIES * CLAIM_TRACKER_ACCOUNTS * CLAIM_TRACKER_ACCOUNTS
                        && CLAIM_TRACKER_LENDING_WORDS == CLAIM_TRACKER_SECURITIES * CLAIM_TRACKER_ACCOUNTS * CLAIM_TRACKER_ACCOUNTS
                        && CLAIM_TRACKER_MARK_WORDS == 1 + 1 + 1 + CLAIM_TRACKER_BALANCE_WORDS
                        && CLAIM_TRACKER_STORE_WORDS == CLAIM_TRACKER_MARKS * CLAIM_TRACKER_MARK_WORDS
                        && CLAIM_TRACKER_LIMIT_WORDS == 1 + CLAIM_TRACKER_FREQUENCY_ANNUAL
                        && CLAIM_TRACKER_PIECE_WORDS == CLAIM_TRACKER_SECURITIES
                        && CLAIM_TRACKER_BOOK_FILE_BYTES == 4 * (CLAIM_TRACKER_CALENDAR_WORDS + CLAIM_TRACKER_TABLE_WORDS + 1));
HOLDS(room_of_a_close, CLAIM_TRACKER_CLAIM_ROOM(CLAIM_TRACKER_MOST_CLOSE_CLAIMS) == 4300800
                           && CLAIM_TRACKER_MOST_CLOSE_CLAIMS == 2 * CLAIM_TRACKER_SECURITIES * CLAIM_TRACKER_ROWS * 240);
HOLDS(room_of_a_sum, CLAIM_TRACKER_CLAIM_ROOM(1 + 1) == 70 && sizeof(CLAIM_TRACKER_CLAIM_ROOM(1)) == sizeof(size_t));
HOLDS(room_of_a_record, CLAIM_TRACKER_RECORD_ROOM == 65536 + CLAIM_TRACKER_ANSWER_BYTES
                            && CLAIM_TRACKER_CLAIM_ROOM(1872) <= 65536 && CLAIM_TRACKER_CLAIM_ROOM(1873) > 65536);
HOLDS(sum_of_a_forecast, CLAIM_TRACKER_MOST_FORECAST_CENTS == UINT64_C(1) << 53);
HOLDS(sizes_of_structs, sizeof(struct claim_tracker_book) == 8 && sizeof(struct claim_tracker_done) == 24
                            && sizeof(struct claim_tracker_reply) == 16 && sizeof(struct claim_tracker_served) == 40
                            && sizeof(struct claim_tracker_claim) == 40 && sizeof(struct claim_tracker_transfer_fields) == 12
                            && sizeof(struct claim_tracker_cash) == 24 && sizeof(struct claim_tracker_cash_forecast) == 32);

int main(void) {
    char version[32];
    snprintf(version, sizeof version, "%d.%d.%d", CLAIM_TRACKER_VERSION_MAJOR, CLAIM_TRACKER_VERSION_MINOR, CLAIM_TRACKER_VERSION_PATCH);
    if (strcmp(version, CLAIM_TRACKER_VERSION) != 0) return 1;
    for (unsigned number = 0; number <= UINT16_MAX + 1U; number++) {
        const char *words = claim_tracker_text(number);
        if (strcmp(words, "unknown number") != 0) printf("%u %s\n", number, words);
    }
    return strcmp(claim_tracker_text(UINT32_MAX), "unknown number") != 0;
}
