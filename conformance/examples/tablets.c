/* Three tablets claim one hold, and one of them goes flat. The same from Rust: rust/examples/tablets.rs. */
#include <stdio.h>

#include "dagmuize.h"

static uint8_t hold[DAGMUIZE_IMAGE_BYTES];

/* Steps until one is refused: the tablet waits for an answer, or has decided. */
static void advance(uint8_t tablet) {
    uint8_t number;
    do number = dagmuize_step(hold, sizeof hold, tablet);
    while (number == DAGMUIZE_ACCEPTED);
    printf("tablet %d stops: %d\n", tablet, number);
}

/* Who cast which bit in a ballot, and the answer. */
static void tally(uint8_t ballot) {
    uint8_t votes[DAGMUIZE_LOOK_BALLOT_BYTES], bit, tablet;
    if (dagmuize_look_ballot(hold, sizeof hold, ballot, votes, sizeof votes) != DAGMUIZE_LOOK_BALLOT_BYTES) return;
    printf("ballot %d:", ballot);
    for (bit = 0; bit < 2; bit++) {
        printf(" %d cast by %d tablets:", bit, dagmuize_ballot_count(votes, bit));
        for (tablet = 0; tablet < 3; tablet++)
            if (dagmuize_ballot_has(dagmuize_ballot_set(votes, bit), tablet)) printf(" %d", tablet);
        printf(";");
    }
    if (dagmuize_ballot_answered(votes)) printf(" answer %d\n", dagmuize_ballot_answer(votes));
    else printf(" no answer\n");
}

static void show(uint8_t tablet, uint64_t look) {
    if (dagmuize_look_decided(look))
        printf("tablet %d shows %lu after %d votes\n", tablet, (unsigned long)dagmuize_look_claim(look), dagmuize_look_votes(look));
    else
        printf("tablet %d shows nothing after %d votes\n", tablet, dagmuize_look_votes(look));
}

int main(void) {
    uint8_t looks[DAGMUIZE_LOOK_ALL_BYTES], text[DAGMUIZE_REPORT_BYTES];
    uint8_t tablet, to, ballot;
    if (dagmuize_open(hold, sizeof hold, 3, DAGMUIZE_BY_STATION) != DAGMUIZE_ACCEPTED) return 1;
    for (tablet = 0; tablet < 3; tablet++)
        if (dagmuize_claim(hold, sizeof hold, tablet, 401u + tablet) != DAGMUIZE_ACCEPTED) return 1;
    /* each claim reaches every tablet, its own too */
    for (tablet = 0; tablet < 3; tablet++)
        for (to = 0; to < 3; to++)
            if (dagmuize_deliver(hold, sizeof hold, tablet, to) != DAGMUIZE_ACCEPTED) return 1;
    /* each votes in ballot 0 on bit 0 of its own number; then tablet 2 goes flat */
    for (tablet = 0; tablet < 3; tablet++) advance(tablet);
    if (dagmuize_lose(hold, sizeof hold, 2) != DAGMUIZE_ACCEPTED) return 1;
    tally(0);
    /* tablet 2's number is 10 in binary, lowest bit last: ballot 0 settles on 0 and ballot 1 on 1 */
    for (ballot = 0; ballot < 2; ballot++) {
        if (dagmuize_answer(hold, sizeof hold, ballot, ballot) != DAGMUIZE_ACCEPTED) return 1;
        for (tablet = 0; tablet < 3; tablet++) advance(tablet);
        /* an answer may come twice: it changes nothing then, and the other bit is refused */
        if (dagmuize_answer(hold, sizeof hold, ballot, ballot) != DAGMUIZE_ACCEPTED) return 1;
        if (dagmuize_answer(hold, sizeof hold, ballot, 1 - ballot) != DAGMUIZE_ANSWERED) return 1;
        tally(ballot);
    }
    if (dagmuize_look_all(hold, sizeof hold, looks, sizeof looks) != 3 * 8) return 1;
    for (tablet = 0; tablet < 3; tablet++) show(tablet, dagmuize_look_of(looks, tablet));
    /* what is kept can be read at any time, and a changed version byte is turned away */
    fwrite(text, 1, dagmuize_image_report(hold, sizeof hold, 0, 0, 0, text, sizeof text), stdout);
    hold[0] = 9;
    printf("a changed version: %d\n", dagmuize_look_number(dagmuize_look(hold, sizeof hold, 0)));
    return 0;
}
