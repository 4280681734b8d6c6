/* Forecasts an account's cash on a release date from what claimrun wrote: cash_forecast ACCOUNT DATE < CLAIMS. The answers between the claims
   are left out; all else goes to the library, which judges it. */
#include <claim_tracker.h>
#include <inttypes.h>
#include <stdio.h>
#include <stdlib.h>
#include <string.h>

/* Takes the answers out of claimrun's output and gives the number of bytes that are left. What begins no claim and no answer stays, with all
   that stands behind it. */
static size_t without_answers(uint8_t *data, size_t bytes) {
    size_t at = 0, kept = 0;
    for (;;) {
        if (claim_tracker_read_answer(data + at, bytes - at).number == CLAIM_TRACKER_ACCEPTED) {
            at += CLAIM_TRACKER_ANSWER_BYTES;
        } else if (claim_tracker_read_claim(data + at, bytes - at).number == CLAIM_TRACKER_ACCEPTED) {
            memmove(data + kept, data + at, CLAIM_TRACKER_CLAIM_BYTES);
            at += CLAIM_TRACKER_CLAIM_BYTES;
            kept += CLAIM_TRACKER_CLAIM_BYTES;
        } else {
            memmove(data + kept, data + at, bytes - at);
            return kept + bytes - at;
        }
    }
}

/* Reads standard input to its end. */
static uint8_t *read_all(size_t *bytes) {
    size_t room = 65536;
    uint8_t *data = malloc(room);
    *bytes = 0;
    while (data != NULL) {
        size_t found = fread(data + *bytes, 1, room - *bytes, stdin);
        *bytes += found;
        if (*bytes < room) return data;
        uint8_t *more = realloc(data, room *= 2);
        if (more == NULL) free(data);
        data = more;
    }
    return NULL;
}

int main(int count, char **words) {
    size_t bytes;
    uint8_t *data = read_all(&bytes);
    if (count != 3 || data == NULL) {
        fprintf(stderr, count == 3 ? "cash_forecast: no memory\n" : "usage: cash_forecast ACCOUNT DATE < CLAIMS\n");
        free(data);
        return 2;
    }
    uint32_t account = (uint32_t)strtoul(words[1], NULL, 10), date = (uint32_t)strtoul(words[2], NULL, 10);
    struct claim_tracker_cash_forecast found = claim_tracker_forecast(data, without_answers(data, bytes), account, date);
    free(data);
    printf("%u %s\n", found.number, claim_tracker_text(found.number));
    if (found.number != CLAIM_TRACKER_ACCEPTED) return 1;
    printf("account %" PRIu32 " on %" PRIu32 ": pays %.0f cents, receives %.0f, receive less pay %.0f\n", account, date, found.cash.pay,
           found.cash.receive, found.cash.difference);
    return 0;
}
