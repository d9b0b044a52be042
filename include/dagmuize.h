/* Hold settlement: the functions that the library exports, for x86-64 Linux. Link target/libdagmuize.a, which ./library writes.

   What a caller owes:
   - A buffer is a pointer to as many bytes as its length says. They may be read, and written where it is not const.
   - A length is that of a real object: (size_t)-1 is none. At length 0 the pointer is not followed and may be NULL.
   - A buffer that is written overlaps no other of its call. During the call nobody else writes any of them, nor reads the one that is written.
   - Room on the stack: `./bench` prints how much a report took; no bound is proved.
   Nothing else is asked of any argument. No function allocates, and none keeps a pointer. */
#ifndef DAGMUIZE_H
#define DAGMUIZE_H

#include <stddef.h>
#include <stdint.h>

#ifdef __cplusplus
extern "C" {
#endif

/* The numbers that a call answers. What they say is that of include/numbers.txt; which call meets which, in which order: README.md. */
enum {
    DAGMUIZE_ACCEPTED = 0, /* accepted */
    DAGMUIZE_NO_STATION = 1, /* no such station */
    DAGMUIZE_LOST = 2, /* the station is lost (of a DELIVER, the receiver) */
    DAGMUIZE_CLAIMED = 3, /* the station has put in a claim already */
    DAGMUIZE_NOT_CLAIMED = 4, /* the sender has put in no claim */
    DAGMUIZE_HELD = 5, /* the receiver holds that claim already */
    DAGMUIZE_IDLE = 6, /* the station is idle: it has put in no claim */
    DAGMUIZE_DECIDED = 7, /* the station has decided already */
    DAGMUIZE_WAITS = 8, /* the station waits for its own claim, or for the ballot's answer */
    DAGMUIZE_NO_BALLOT = 9, /* no such ballot */
    DAGMUIZE_NO_BIT = 10, /* the answer, or the preferred bit, is above 1, so it is no bit */
    DAGMUIZE_ANSWERED = 11, /* the ballot has the other bit as its answer */
    DAGMUIZE_NOT_CAST = 12, /* no station cast that bit in the ballot */
    DAGMUIZE_SHORT = 20, /* fewer than three bytes are left, too few for a field */
    DAGMUIZE_TAG = 21, /* no field has this tag */
    DAGMUIZE_LENGTH = 22, /* a length that such a field does not have (a note has 64 bytes at most) */
    DAGMUIZE_CUT = 23, /* the field's body is cut short */
    DAGMUIZE_NO_OPENING = 24, /* the first field is no opening */
    DAGMUIZE_SECOND_OPENING = 25, /* a second opening */
    DAGMUIZE_LIMIT = 26, /* the limit of events is reached, and there is more */
    DAGMUIZE_NO_ROOM = 30, /* not enough room in the buffer, or the place is past its end */
    DAGMUIZE_STATIONS = 40, /* no station, or more than 32 */
    DAGMUIZE_RULE = 41, /* a rule other than 1 and 2 */
    DAGMUIZE_RECORD = 42, /* made-up bytes: a record outside its ranges, or a STEP that takes answer 0 from the last ballot */
    DAGMUIZE_NOT_CLOSED = 43, /* a made-up settlement: an event of the closing log is refused, or a station uses up its steps undecided */
    DAGMUIZE_OPENINGS_DIFFER = 60, /* the logs' openings differ */
    DAGMUIZE_STATION_IN_BOTH = 61, /* a station has events in both logs */
    DAGMUIZE_NO_ORDER = 62, /* no order of both logs' events that keeps each log's own is accepted whole */
    DAGMUIZE_IMAGE_LENGTH = 80, /* an image has 1,283 bytes, no more and no fewer */
    DAGMUIZE_IMAGE_VERSION = 81 /* the image's first byte is another version than 3 */
};

/* A settlement is an image: this many bytes that the caller keeps, on the stack, in a file or in a database. Its layout: README.md. */
#define DAGMUIZE_IMAGE_BYTES 1283
/* Bytes that dagmuize_look_ballot writes. */
#define DAGMUIZE_LOOK_BALLOT_BYTES 12
/* Bytes that are always enough, for dagmuize_look_all, for a report and for a closing log. */
#define DAGMUIZE_LOOK_ALL_BYTES 256
#define DAGMUIZE_REPORT_BYTES 24576
#define DAGMUIZE_CLOSING_BYTES 153024
/* The rules. */
#define DAGMUIZE_BY_STATION 1
#define DAGMUIZE_BY_CLAIM 2

/* OPEN: n stations under a rule, written into image. 80, then 40, 41. Whatever stood there is written over. With 40 or 41 it is the image of
   the blank settlement, which has no stations; with 80 no byte is written. */
uint8_t dagmuize_open(uint8_t *image, size_t image_len, uint8_t n, uint8_t rule);

/* The events. Each tests the image first: 80 for another length, 81 for another version, 42 for a stage or a mark that does not exist or a record
   outside its ranges. Then come the event's own numbers. Accepted, it answers 0 and the image is that of the next settlement; refused, every byte
   is as it was. */
/* CLAIM: station s puts in claim v. 1, 2, 3. */
uint8_t dagmuize_claim(uint8_t *image, size_t image_len, uint8_t s, uint32_t v);
/* DELIVER: the claim of t reaches s, which may be t itself. 1, 2, 4, 5. */
uint8_t dagmuize_deliver(uint8_t *image, size_t image_len, uint8_t t, uint8_t s);
/* STEP: station s does its next thing. 1, 2, 6, 7, 8; and 42 where it takes answer 0 from ballot 63. */
uint8_t dagmuize_step(uint8_t *image, size_t image_len, uint8_t s);
/* LOSE: station s is lost for good. 1, 2. */
uint8_t dagmuize_lose(uint8_t *image, size_t image_len, uint8_t s);
/* ANSWER: ballot b settles on bit a, which some station cast there. 9, 10, 11, 12. The answer that b has is accepted again: every byte stays. */
uint8_t dagmuize_answer(uint8_t *image, size_t image_len, uint8_t b, uint8_t a);

/* LOOK: how station s stands. 80, 81, 42, 1. The answer's eight bytes, highest first: number, decided (0 or 1), votes, 0, and the claim in four;
   the helpers below take it apart. Refused: undecided, no votes, claim 0. */
uint64_t dagmuize_look(const uint8_t *image, size_t image_len, uint8_t s);

/* LOOK's number; whether the station has decided; the ballots it voted in; the claim that it decided, 0 if none. */
static inline uint8_t dagmuize_look_number(uint64_t look) { return (uint8_t)(look >> 56); }
static inline int dagmuize_look_decided(uint64_t look) { return (int)(look >> 48 & 1); }
static inline uint8_t dagmuize_look_votes(uint64_t look) { return (uint8_t)(look >> 40 & 255); }
static inline uint32_t dagmuize_look_claim(uint64_t look) { return (uint32_t)(look & 0xffffffffu); }

/* LOOK at every station: the eight bytes of each answer, highest first, station after station from the start of out. The answer is 65,536 times the
   number (80, 81, 42, then 30 where out has fewer than 8 bytes for each station), plus the bytes written. Refused: no byte is written and the
   count is 0. 256 bytes are always enough. */
uint32_t dagmuize_look_all(const uint8_t *image, size_t image_len, uint8_t *out, size_t out_len);

/* Station s of what dagmuize_look_all wrote, as LOOK answers it: s is below n, and the number was 0. */
static inline uint64_t dagmuize_look_of(const uint8_t *out, uint8_t s) {
    uint64_t look = 0;
    for (size_t i = 0; i < 8; i++) look = look << 8 | out[8 * (size_t)s + i];
    return look;
}

/* A look at ballot b: who voted which way, lost since or not. Twelve bytes from the start of out: the set of stations that cast 0 and the set of those
   that cast 1 (four bytes each, high byte first; station s is bit s), how many are in each, answered (0 or 1), the answer (0 where there is none).
   The answer is 65,536 times the number (80, 81, 42, 9, then 30 where out has fewer than 12 bytes), plus the bytes written. Refused: no byte is
   written and the count is 0. */
uint32_t dagmuize_look_ballot(const uint8_t *image, size_t image_len, uint8_t b, uint8_t *out, size_t out_len);

/* What dagmuize_look_ballot wrote: the set of stations that cast bit a, 0 or 1; whether station s is in a set; how many cast bit a; whether the ballot
   is answered; its answer. */
static inline uint32_t dagmuize_ballot_set(const uint8_t *out, uint8_t a) {
    uint32_t set = 0;
    for (size_t i = 0; i < 4; i++) set = set << 8 | out[4 * (size_t)a + i];
    return set;
}
static inline int dagmuize_ballot_has(uint32_t set, uint8_t s) { return s < 32 && (set >> s & 1) != 0; }
static inline uint8_t dagmuize_ballot_count(const uint8_t *out, uint8_t a) { return out[8 + (size_t)a]; }
static inline int dagmuize_ballot_answered(const uint8_t *out) { return out[10]; }
static inline uint8_t dagmuize_ballot_answer(const uint8_t *out) { return out[11]; }

/* The report of an image, written to the start of out: the text of `./settle` with these events, taken and status in its first line. Its length in
   bytes, or 0 and nothing written where it does not fit. An image that is refused (80, 81, 42) has the text of the blank settlement with events 0,
   taken 0 and that number as its status. */
size_t dagmuize_image_report(const uint8_t *image, size_t image_len, size_t events, size_t taken, uint8_t status, uint8_t *out, size_t out_len);

/* RUN, its settlement written into image: the blank one where the opening is refused. The answer is RUN's status, or 80 and no byte written. */
uint8_t dagmuize_play(const uint8_t *log, size_t log_len, size_t limit, uint8_t *image, size_t image_len);

/* The report of a log, written to the start of out: its length in bytes, or 0 and nothing written where it does not fit.
   24,576 bytes are always enough. A log of more than 65,536 bytes is not played: its report is the line `too long`. */
size_t dagmuize_report(const uint8_t *log, size_t log_len, uint8_t *out, size_t out_len);

/* RUN: plays at most limit events of a log. Its status (0, or the number of what stopped it), the events played and the bytes taken. */
uint8_t dagmuize_status(const uint8_t *log, size_t log_len, size_t limit);
size_t dagmuize_events(const uint8_t *log, size_t log_len, size_t limit);
size_t dagmuize_taken(const uint8_t *log, size_t log_len, size_t limit);

/* READ: the field at the start of a log. Its number (0, 20, 21, 22 or 23) and the bytes it takes. */
uint8_t dagmuize_read_number(const uint8_t *log, size_t log_len);
size_t dagmuize_read_taken(const uint8_t *log, size_t log_len);

/* PUT: writes one field at a place of a buffer. The answer is 65,536 times the number (0, 22 or 30; 21 for an unknown tag), plus the bytes
   written. x and y are the field's one-byte numbers in the table's order, v a claim, note a note's body. What a field does not have is not read:
   beside any tag but 0x30, note may be NULL with length 0. */
uint32_t dagmuize_put(uint8_t tag, uint8_t x, uint8_t y, uint32_t v, const uint8_t *note, size_t note_len, uint8_t *buffer, size_t buffer_len,
                      size_t place);

/* CLOSE: plays a log as RUN does, and writes the closing log of the settlement that it plays to, to the start of out: events only, which after the log
   bring every live station that has claimed to its decision. Passes over these stations in rising order, until all have decided: each gets its own claim
   if it lacks it, then every claim that it lacks and any station holds, in rising order; then, if the ballot that it awaits has no answer, one, the
   preferred bit if some station cast it, else the other; then one STEP. The answer is 4,294,967,296 times the number, plus the bytes written. The number
   is RUN's status where the log stops early (26 at the limit, too); then 10 for a preferred bit above 1, then 30. 43 is for made-up settlements, to which
   no log plays. Refused: no byte is written and the count is 0. DAGMUIZE_CLOSING_BYTES are always enough: for each of 32 stations at most 32 deliveries
   of 5 bytes and 1,153 steps of 4, and 64 answers of 5. */
uint64_t dagmuize_close(const uint8_t *log, size_t log_len, size_t limit, uint8_t preferred, uint8_t *out, size_t out_len);

/* CLOSE's number, and the bytes that it wrote. */
static inline uint8_t dagmuize_close_number(uint64_t close) { return (uint8_t)(close >> 32); }
static inline size_t dagmuize_close_count(uint64_t close) { return (size_t)(close & 0xffffffffu); }

/* MERGE: one log out of two with the same opening, of kiosks that each record their own stations, written to the start of out: the opening once, then the
   events of both, without notes. Each log's own order is kept: wherever the first log's next event is accepted it goes next, else the second log's. The
   answer's eight bytes, highest first: the number, and the bytes written in seven; the helpers below take it apart. The number is that of the first log's
   earliest fault in reading (READ's numbers, 24, 40, 41, 25), whatever its events do; then of the second log's. Then 60 where the openings differ; 61 where
   a station number, existing or not, has events in both (CLAIM, STEP and LOSE belong to the station named, DELIVER to the receiver, ANSWER to nobody); 62
   exactly where no order that keeps both logs' own is accepted whole; then 30. Refused: no byte is written and the count is 0. The two logs' lengths
   together are always enough. */
uint64_t dagmuize_merge(const uint8_t *first, size_t first_len, const uint8_t *second, size_t second_len, uint8_t *out, size_t out_len);

/* MERGE's number, and the bytes that it wrote. */
static inline uint8_t dagmuize_merge_number(uint64_t merge) { return (uint8_t)(merge >> 56); }
static inline size_t dagmuize_merge_count(uint64_t merge) { return (size_t)(merge & 0xffffffffffffffu); }

#ifdef __cplusplus
}
#endif

#endif
