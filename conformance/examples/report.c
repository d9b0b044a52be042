/* The same as report.rs, from C: a small log is built with PUT, and its report is printed. With tablets.c, every function of the header is called. */
#include <stdio.h>
#include <string.h>

#include "dagmuize.h"

int main(void) {
    /* tag, two one-byte numbers, a claim: one station under rule 1 claims 5, holds its claim and takes a step */
    static const uint32_t fields[4][4] = {{0x01, 1, 1, 0}, {0x10, 0, 0, 5}, {0x11, 0, 0, 0}, {0x12, 0, 0, 0}};
    uint8_t log[64];
    uint8_t text[24576];
    size_t end = 0;
    for (int i = 0; i < 4; i++) {
        const uint32_t *f = fields[i];
        uint32_t answer = dagmuize_put((uint8_t)f[0], (uint8_t)f[1], (uint8_t)f[2], f[3], NULL, 0, log, sizeof log, end);
        if (answer >> 16 != 0 || dagmuize_read_number(log + end, answer & 0xffff) != 0 || dagmuize_read_taken(log + end, answer & 0xffff) != (answer & 0xffff)) return 1;
        end += answer & 0xffff;
    }
    if (dagmuize_status(log, end, 3) != 0 || dagmuize_events(log, end, 3) != 3 || dagmuize_taken(log, end, 3) != end) return 2;
    /* no room: nothing is written, and the count is 0 */
    if (dagmuize_report(log, end, NULL, 0) != 0 || dagmuize_status(NULL, 0, 3) != 20) return 3;
    /* the settlement that the log plays to has the same report */
    uint8_t image[DAGMUIZE_IMAGE_BYTES], again[DAGMUIZE_REPORT_BYTES];
    if (dagmuize_play(log, end, 3, image, sizeof image) != 0 || dagmuize_play(log, end, 3, NULL, 0) != DAGMUIZE_IMAGE_LENGTH) return 4;
    size_t length = dagmuize_report(log, end, text, sizeof text);
    if (dagmuize_image_report(image, sizeof image, 3, end, 0, again, sizeof again) != length || memcmp(text, again, length) != 0) return 5;
    /* closed after its opening and its claim, in 5 and 8 bytes, the log is the same again: the claim held, and a step; now nothing is left to close */
    uint8_t closing[DAGMUIZE_CLOSING_BYTES];
    uint64_t closed = dagmuize_close(log, 13, 1, 1, closing, sizeof closing);
    if (dagmuize_close_number(closed) != 0 || dagmuize_close_count(closed) != end - 13 || memcmp(closing, log + 13, end - 13) != 0) return 6;
    if (dagmuize_close(log, end, 3, 0, NULL, 0) != 0 || dagmuize_close_number(dagmuize_close(log, 13, 1, 1, closing, 8)) != DAGMUIZE_NO_ROOM) return 7;
    /* one log of two: the same opening alone adds nothing, a station in both is refused, and so is a byte too few */
    uint8_t both[sizeof log + 5];
    uint64_t merged = dagmuize_merge(log, end, log, 5, both, sizeof both);
    if (dagmuize_merge_number(merged) != 0 || dagmuize_merge_count(merged) != end || memcmp(both, log, end) != 0) return 9;
    if (dagmuize_merge_number(dagmuize_merge(log, end, log, end, both, sizeof both)) != DAGMUIZE_STATION_IN_BOTH) return 10;
    if (dagmuize_merge_number(dagmuize_merge(log, 5, log, end, both, end - 1)) != DAGMUIZE_NO_ROOM) return 11;
    return fwrite(text, 1, length, stdout) == length ? 0 : 8;
}
