/*
 * The crew cover board: its nine calls for C11 and C++ on x86-64, in the static library libboard.a.
 *
 * A board says which operator is cleared for which ride, which operators are on shift and which rides are in service.
 * Operators have the numbers 0 to operators - 1, rides 0 to rides - 1. A pair of an operator and a ride counts if it is
 * cleared, its operator is on and its ride is in. Cover (alpha, beta) is the largest set of operators who are on and
 * rides that are in, in which each operator has at least alpha rides of the set by pairs that count, and each ride at
 * least beta operators of it. A limit of 0 is no limit, but whoever is off or out is in no cover. The level of an
 * operator or ride in row alpha is the largest beta from 1 whose cover (alpha, beta) holds it, or 0.
 *
 * The library has no memory of its own and asks for none: the caller lends every part of the board to each call. A
 * board of 200 operators and 60 rides in static memory, a message, and a dispatch permit for one ride:
 *
 *     BOARD_STORAGE(memory, 200, 60);
 *     static Board board = BOARD_OVER(memory, 200, 60, 0);
 *     static uint16_t marks[BOARD_MARK_PLACES(200, 60)];
 *
 *     uint16_t code = board_build_on(&board, 1);
 *
 *     BoardMessage grant = {.kind = BOARD_GRANT, .operator_number = 17, .ride = 5, .stamp = 1700000000};
 *     BoardAnswer answer = board_message_on(&board, grant);
 *
 *     BoardCounts counts = board_query_on(&board, 2, 3, marks, BOARD_LENGTH(marks));
 *     int permit = counts.code == BOARD_DONE && marks[BOARD_RIDE_MARK(board.head.operators, 5)] == 1;
 *
 * Operator 17 goes home; the clearance stays in the pair arrays, and counts again once the operator is on:
 *
 *     BoardMessage home = {.kind = BOARD_OPERATOR_OFF, .operator_number = 17, .stamp = 1700003600};
 *     answer = board_message_on(&board, home);
 *     int on = board.presence[BOARD_OPERATOR_PRESENCE(17)] == BOARD_PRESENT;
 *
 * Minimums: a ride may need more or fewer operators than beta says. Here ride 4 needs two and ride 5 five; 0 is none,
 * and every other ride needs beta, three:
 *
 *     static const uint16_t minimums[BOARD_MINIMUM_PLACES(60)] = {0, 0, 0, 0, 2, 5};
 *     counts = board_own_cover_on(&board, minimums, BOARD_LENGTH(minimums), 2, 3, marks, BOARD_LENGTH(marks));
 *
 * Limits by crowd: a band has a first and a last guest count, alpha and beta, and the cover for a guest count is that
 * for the limits of its band. Rides 4 and 5 keep their own minimums, and every other ride needs the band's beta:
 *
 *     static const BoardBand list[] = {{0, 7999, 1, 2}, {8000, 20000, 2, 3}};
 *     BoardBands bands = board_bands(list, BOARD_LENGTH(list));
 *     counts = board_crowd_cover_on(&board, bands, guests, minimums, BOARD_LENGTH(minimums), marks,
 *                                   BOARD_LENGTH(marks));
 *
 * The functions that end in _on lend a Board's parts to the plain calls, which take each part as a pointer to its first
 * place and the number of its places.
 *
 * What every call asks of its caller, and cannot check:
 * - A pointer is not null, also where the length beside it is 0; it is aligned for its type; and it stands for as many
 *   places as its length says.
 * - No two parts lent to one call overlap, where the call writes one of them. A head that is lent counts as a part. So
 *   the spare memory of a preview lies apart from the board.
 * - No other thread writes a lent part during the call, or reads one that the call writes.
 *
 * Everything else is checked: a call that refuses answers a number from 1 and leaves every lent word as it was. Lent
 * parts may be longer than needed; places past the needed lengths are left as they were.
 *
 * For firmware (docs/INTERFACE.md says more):
 * - x86-64, System V calling convention, SSE2 and no more; no use of the red zone below the stack pointer.
 * - Deepest stack in bytes, measured at 200 x 60 (docs/BENCHMARK.md): build 26,864, query 208, peel 26,368, own cover
 *   26,768, look-up 128, crowd cover 26,848, message 27,120, message list 27,168, preview 27,520.
 * - No writable data; of the program it needs memcpy, memmove and memset at most.
 * - A reset in the middle of a call leaves a mixture of old and new words in what the call writes: build again from a
 *   pair table, and send the messages again. A preview writes the spare memory alone.
 * - Time grows with rides x rides x (operators + rides) for build and message, for a message list as for one message
 *   and with messages x pairs, for a preview as for one message and one copy of the board, with operators + rides for a
 *   query, with operators x rides + steps x (operators + rides) for a peel, for an own cover and a crowd cover as for
 *   such a peel from all ones, with bands x bands for a look-up.
 */
#ifndef BOARD_H
#define BOARD_H

#if !defined(__x86_64__) || defined(_WIN32) || defined(__CYGWIN__) || defined(__ILP32__)
#error "board.h: libboard.a is for x86-64 with the System V calling convention and 64-bit pointers"
#endif

#include <stddef.h>
#include <stdint.h>

#ifdef __cplusplus
extern "C" {
#endif

/* The version of this header (docs/CHANGELOG.md), as a number to compare: 1.2.3 is 10203. */
#define BOARD_VERSION_MAJOR 5
#define BOARD_VERSION_MINOR 0
#define BOARD_VERSION_PATCH 0
#define BOARD_VERSION (BOARD_VERSION_MAJOR * 10000 + BOARD_VERSION_MINOR * 100 + BOARD_VERSION_PATCH)

/* Sizes */

#define BOARD_OPERATORS_MOST 200
#define BOARD_RIDES_MOST 60

/* The largest revision of a message. */
#define BOARD_REVISION_MOST 255

/* The most bands of a table, and the largest guest count. */
#define BOARD_BANDS_MOST 8
#define BOARD_GUESTS_MOST 20000

/*
 * The presence word of an operator who is on, and of a ride that is in. Any other word is off or out; a taken message
 * of the kinds 4 and 6 writes 0.
 */
#define BOARD_PRESENT 1

/* Needed lengths, in places */

/* Each of the two pair arrays. */
#define BOARD_PAIR_PLACES(operators, rides) ((size_t)(operators) * (size_t)(rides))

/* The stamps. */
#define BOARD_STAMP_PLACES(operators, rides) ((size_t)(operators) * (size_t)(rides))

/* The revisions. */
#define BOARD_REVISION_PLACES(operators, rides) ((size_t)(operators) * (size_t)(rides))

/* The index: rides rows, each with a level for each operator and then each ride. */
#define BOARD_INDEX_PLACES(operators, rides) ((size_t)(rides) * ((size_t)(operators) + (size_t)(rides)))

/* The presence stamps, the presence revisions and the presence words, each: as the marks. */
#define BOARD_PRESENCE_PLACES(operators, rides) ((size_t)(operators) + (size_t)(rides))

/* The marks: each operator, then each ride. */
#define BOARD_MARK_PLACES(operators, rides) ((size_t)(operators) + (size_t)(rides))

/* The minimums: each ride, from place 0 on. Operators have none. */
#define BOARD_MINIMUM_PLACES(rides) ((size_t)(rides))

/* The answer list of a message list. */
#define BOARD_ANSWER_PLACES(messages) ((size_t)(messages))

/* The length of a part that is an array in scope. */
#define BOARD_LENGTH(array) (sizeof(array) / sizeof((array)[0]))

/* Places */

/* The stamp of a pair. */
#define BOARD_STAMP(rides, operator_number, ride) ((size_t)(operator_number) * (size_t)(rides) + (size_t)(ride))

/* The revision of a pair: the same place of another part. */
#define BOARD_REVISION(rides, operator_number, ride) BOARD_STAMP(rides, operator_number, ride)

/* The mark of an operator, and of a ride. */
#define BOARD_OPERATOR_MARK(operator_number) ((size_t)(operator_number))
#define BOARD_RIDE_MARK(operators, ride) ((size_t)(operators) + (size_t)(ride))

/* The presence stamp, revision and word of an operator, and of a ride: the same place of other parts. */
#define BOARD_OPERATOR_PRESENCE(operator_number) BOARD_OPERATOR_MARK(operator_number)
#define BOARD_RIDE_PRESENCE(operators, ride) BOARD_RIDE_MARK(operators, ride)

/*
 * The first word of row alpha in the index, for alpha from 1 to rides; in a row the levels lie as marks do. The index
 * has no row 0: a query with alpha 0 reads row 1.
 */
#define BOARD_ROW(operators, rides, alpha) (((size_t)(alpha) - 1) * ((size_t)(operators) + (size_t)(rides)))

/*
 * The numbers of documents 01 and 02 (docs/SCOPE.md). A call checks those named beside it below and gives the first one
 * that applies, in the order 1 to 9, 14, 15, 10, 12, 16 to 18.
 */
enum BoardNumber {
    BOARD_DONE = 0,                /* done or taken */
    BOARD_OPERATORS_OVER = 1,      /* operators over 200 */
    BOARD_RIDES_OVER = 2,          /* rides over 60 */
    BOARD_PART_SHORT = 3,          /* a lent part is too short */
    BOARD_PAIRS_OVER = 4,          /* pairs over operators x rides */
    BOARD_PAIR_MISPLACED = 5,      /* a pair out of range, or not strictly ascending */
    BOARD_STAMP_MISSING = 6,       /* message: a listed pair has stamp 0 */
    BOARD_KIND_UNKNOWN = 7,        /* message: kind not 1 to 6 */
    BOARD_OUT_OF_RANGE = 8,        /* message: operator or ride out of range, where the kind uses it */
    BOARD_STAMP_ZERO = 9,          /* message or starting stamp is 0 */
    BOARD_NOT_LATER = 10,          /* message not later than the last of its pair, operator or ride */
    BOARD_LIMIT_ZERO = 11,         /* retired: never given since 1.2.0 */
    BOARD_MARK_UNKNOWN = 12,       /* peel: a mark in use is not 0 or 1 */
    BOARD_INPUT_LENGTH_WRONG = 13, /* program `cover`: input length wrong; no call answers it */
    BOARD_REVISION_OVER = 14,      /* message: revision over 255 */
    BOARD_UNUSED_FIELD = 15,       /* message: an unused field is not 0 */
    BOARD_BANDS_MALFORMED = 16,    /* a band count outside 1 to 8, a band whose first count exceeds its last, or a guest
                                      count above 20,000, that of the call included */
    BOARD_BANDS_OVERLAP = 17,      /* an overlap: two bands share a guest count */
    BOARD_BANDS_GAP = 18           /* a gap: a guest count from 0 to 20,000 falls in no band */
};

/* The kinds of a message, and what each is for: a pair, an operator or a ride. */
enum BoardKind {
    BOARD_GRANT = 1,        /* a pair: the operator is cleared for the ride */
    BOARD_WITHDRAWAL = 2,   /* a pair: the clearance is taken away */
    BOARD_OPERATOR_ON = 3,  /* an operator: on shift */
    BOARD_OPERATOR_OFF = 4, /* an operator: off shift */
    BOARD_RIDE_IN = 5,      /* a ride: in service */
    BOARD_RIDE_OUT = 6      /* a ride: out of service */
};

/* What a peel answers in `settled`. */
enum BoardSettled { BOARD_UNSETTLED = 0, BOARD_SETTLED = 1 };

/* Head: the sizes, and the number of pairs. */
typedef struct BoardHead {
    uint16_t operators;
    uint16_t rides;
    uint16_t pairs;
} BoardHead;

/* What a query, an own cover or a crowd cover answers: the number, and how many operators and rides it marked. */
typedef struct BoardCounts {
    uint16_t code;
    uint16_t operators;
    uint16_t rides;
} BoardCounts;

/* What a peel answers: the number, settled (1) or unsettled (0), and the steps taken. */
typedef struct BoardPeeled {
    uint16_t code;
    uint16_t settled;
    uint16_t steps;
} BoardPeeled;

/*
 * Message: for one pair a grant or a withdrawal, for one operator on or off, for one ride in or out. A message for an
 * operator has ride 0, one for a ride has operator 0, else 15. The revision, 0 to 255, orders corrections within one
 * stamp. (`operator` is a word that C++ reserves.)
 */
typedef struct BoardMessage {
    uint16_t kind;
    uint16_t operator_number;
    uint16_t ride;
    uint16_t revision;
    uint32_t stamp;
} BoardMessage;

/* What a message or a preview answers: the number, and how many index words differ before and after. */
typedef struct BoardAnswer {
    uint16_t code;
    uint16_t differ;
} BoardAnswer;

/* Band: the limits for the guest counts from `first` to `last`, both included. */
typedef struct BoardBand {
    uint16_t first;
    uint16_t last;
    uint16_t alpha;
    uint16_t beta;
} BoardBand;

/* A table of one to eight bands in any order, best made by board_bands. Bands past the count are not read. */
typedef struct BoardBands {
    uint16_t count;
    BoardBand bands[BOARD_BANDS_MOST];
} BoardBands;

/* What a look-up answers: the number, and the limits of the band that the guest count falls in. */
typedef struct BoardCrowdLimits {
    uint16_t code;
    uint16_t alpha;
    uint16_t beta;
} BoardCrowdLimits;

#ifdef __cplusplus
#define BOARD_ASSERT(condition) static_assert(condition, #condition)
#else
#define BOARD_ASSERT(condition) _Static_assert(condition, #condition)
#endif

BOARD_ASSERT(sizeof(BoardHead) == 6);
BOARD_ASSERT(offsetof(BoardHead, operators) == 0);
BOARD_ASSERT(offsetof(BoardHead, rides) == 2);
BOARD_ASSERT(offsetof(BoardHead, pairs) == 4);
BOARD_ASSERT(sizeof(BoardCounts) == 6);
BOARD_ASSERT(offsetof(BoardCounts, code) == 0);
BOARD_ASSERT(offsetof(BoardCounts, operators) == 2);
BOARD_ASSERT(offsetof(BoardCounts, rides) == 4);
BOARD_ASSERT(sizeof(BoardPeeled) == 6);
BOARD_ASSERT(offsetof(BoardPeeled, code) == 0);
BOARD_ASSERT(offsetof(BoardPeeled, settled) == 2);
BOARD_ASSERT(offsetof(BoardPeeled, steps) == 4);
BOARD_ASSERT(sizeof(BoardMessage) == 12);
BOARD_ASSERT(offsetof(BoardMessage, kind) == 0);
BOARD_ASSERT(offsetof(BoardMessage, operator_number) == 2);
BOARD_ASSERT(offsetof(BoardMessage, ride) == 4);
BOARD_ASSERT(offsetof(BoardMessage, revision) == 6);
BOARD_ASSERT(offsetof(BoardMessage, stamp) == 8);
BOARD_ASSERT(sizeof(BoardAnswer) == 4);
BOARD_ASSERT(offsetof(BoardAnswer, code) == 0);
BOARD_ASSERT(offsetof(BoardAnswer, differ) == 2);
BOARD_ASSERT(sizeof(BoardBand) == 8);
BOARD_ASSERT(offsetof(BoardBand, first) == 0);
BOARD_ASSERT(offsetof(BoardBand, last) == 2);
BOARD_ASSERT(offsetof(BoardBand, alpha) == 4);
BOARD_ASSERT(offsetof(BoardBand, beta) == 6);
BOARD_ASSERT(sizeof(BoardBands) == 66);
BOARD_ASSERT(offsetof(BoardBands, count) == 0);
BOARD_ASSERT(offsetof(BoardBands, bands) == 2);
BOARD_ASSERT(sizeof(BoardCrowdLimits) == 6);
BOARD_ASSERT(offsetof(BoardCrowdLimits, code) == 0);
BOARD_ASSERT(offsetof(BoardCrowdLimits, alpha) == 2);
BOARD_ASSERT(offsetof(BoardCrowdLimits, beta) == 4);

#undef BOARD_ASSERT

/*
 * Build: makes a board of a pair table.
 *
 * Reads the head and the first `head.pairs` places of the two pair arrays: operator numbers and ride numbers, the same
 * place the same pair, strictly ascending by operator and then ride. `start` is the stamp that they count as granted at.
 *
 * Writes zeros into both pair arrays from place `head.pairs` to operators x rides; into the stamps `start` for each
 * listed pair and 0 for every other one; into the revisions 0 for every pair; into the presence words 1 for every
 * operator and every ride, whatever stood there, and into the presence stamps and revisions 0; into the index every
 * level. So everybody is on and in after a build: send messages of the kinds 4 and 6 for those who are not.
 *
 * Answers BOARD_DONE, or of 1 to 5 and 9 the lowest that applies. A refusal leaves every lent word as it was.
 */
uint16_t board_build(BoardHead head, uint16_t *operators, size_t operators_length, uint16_t *rides,
                     size_t rides_length, uint32_t start, uint32_t *stamps, size_t stamps_length, uint16_t *revisions,
                     size_t revisions_length, uint16_t *index, size_t index_length, uint32_t *presence_stamps,
                     size_t presence_stamps_length, uint16_t *presence_revisions, size_t presence_revisions_length,
                     uint16_t *presence, size_t presence_length);

/*
 * Query: who is in cover (alpha, beta). A limit of 0 is no limit.
 *
 * Reads the head's operators and rides, the presence words, and row alpha of the index as a build or a message left it,
 * row 1 for alpha 0. Where the index has no such row, levels are 0.
 *
 * Writes a mark for each operator, then each ride, 1 or 0. An operator's is 1 exactly if the operator is on, and alpha
 * is 0 or its level is at least beta and at least 1; a ride's exactly if the ride is in, and beta is 0 or its level is
 * at least beta. Nobody who is off or out is marked, whatever the index holds. So an alpha above rides marks nobody, or
 * with beta 0 the rides that are in alone; with both limits 0 everybody who is on or in is marked.
 *
 * Answers BOARD_DONE with the counts of operators and rides marked, or of 1, 2 and 3 the lowest that applies, with
 * counts 0. An index that is too short is 3 also where no level decides. A refusal leaves every lent word as it was.
 *
 * Never take a dispatch permit from beta 0: every ride that is in is then marked, also one that no operator is cleared
 * for. A permit needs a query with beta from 1. A query knows no minimums: where rides have them, permits come from an
 * own cover or a crowd cover.
 *
 * Index and presence words are those of one board, as its last build or message left them: the levels already leave out
 * the pairs of whoever is off or out. With presence words of another board, or with a word that was written without a
 * message, the marks are no cover: a ride can be marked by levels that count operators who are off by those words.
 *
 * A damaged index gives permits: where a word of the row was set to 60,000, say, its operator or ride is marked, if it
 * is on or in. All operators who are on where alpha is 0, and all rides that are in where beta is 0, are marked
 * whatever the index holds. To check the marks, peel all ones on the same board under the same limits with minimums of
 * 0 and operators + rides steps: this gives the cover from the pair arrays and the presence words alone, and its marks
 * must equal the query's.
 */
BoardCounts board_query(BoardHead head, const uint16_t *index, size_t index_length, const uint16_t *presence,
                        size_t presence_length, uint16_t alpha, uint16_t beta, uint16_t *marks, size_t marks_length);

/*
 * Peel: drops whoever falls short, one step at a time, with no use of the index.
 *
 * Reads the head, the listed pairs, the presence words, the marks, each 0 or 1, and the minimums. The minimum of ride v
 * stands at place v, 0 for none; lend zeros where no ride has one. The limit of a ride is its own minimum, also where
 * that is smaller than beta, and beta where it has none. One step clears the mark of the lowest-numbered marked
 * operator who is off or has fewer than alpha marked rides; if there is none, of the lowest-numbered marked ride that
 * is out or has fewer marked operators than its limit. Only pairs that count are counted. A limit of 0 is no limit:
 * only whoever is off or out falls short of it. So a peel with beta 0 keeps every marked ride that is in and has no
 * minimum, and no dispatch permit for such a ride comes from it.
 *
 * Writes the marks as the steps leave them, at most `steps` of them. Whoever is off or out takes a step like anybody
 * else, and stays marked where the steps do not suffice.
 *
 * Answers BOARD_DONE with BOARD_SETTLED when nobody falls short, or with BOARD_UNSETTLED exactly if all allowed steps
 * were taken and somebody still falls short, and with the steps taken. Settled marks are the largest set under these
 * limits inside the marks that came in. From all ones that is cover (alpha, beta) where all minimums are 0, and cover
 * (alpha, m) where all are the same m from 1. Or of 1 to 5 and 12 the lowest that applies, with settled and steps 0; 12
 * looks at the marks of those who are off or out too. A refusal leaves every lent word as it was.
 */
BoardPeeled board_peel(BoardHead head, const uint16_t *operators, size_t operators_length, const uint16_t *rides,
                       size_t rides_length, const uint16_t *presence, size_t presence_length, const uint16_t *minimums,
                       size_t minimums_length, uint16_t *marks, size_t marks_length, uint16_t alpha, uint16_t beta,
                       uint16_t steps);

/*
 * Own cover: who is in the cover with minimums, the largest set in which each operator has at least alpha rides of the
 * set and each ride at least as many operators of it as its limit, found by a peel from all ones. A limit of 0 is no
 * limit.
 *
 * Reads the head, the listed pairs, the presence words and the minimums as a peel does. It uses no index, so that a
 * damaged one does not matter, and the marks that come in are not read.
 *
 * Writes a mark for each operator, then each ride, 1 for those in the cover and 0 for all others. Nobody who is off or
 * out is marked, under limits of 0 neither. Where all minimums are 0 this is cover (alpha, beta), and where all are the
 * same m from 1 cover (alpha, m): the marks are those of a query, if the index is that of the board.
 *
 * Answers BOARD_DONE with the counts of operators and rides marked, or of 1 to 5 the lowest that applies, with counts
 * 0. A refusal leaves every lent word as it was.
 *
 * A dispatch permit needs a limit from 1 for its ride: a minimum of its own, or a beta from 1.
 */
BoardCounts board_own_cover(BoardHead head, const uint16_t *operators, size_t operators_length, const uint16_t *rides,
                            size_t rides_length, const uint16_t *presence, size_t presence_length,
                            const uint16_t *minimums, size_t minimums_length, uint16_t alpha, uint16_t beta,
                            uint16_t *marks, size_t marks_length);

/*
 * Look-up: the limits of the band that a guest count falls in.
 *
 * Reads the first `bands.count` bands of the table, and the guest count. Every guest count from 0 to 20,000 must fall
 * in exactly one of these bands. `guests` has 16 bits: compare a wider number with BOARD_GUESTS_MOST before the call,
 * since 65,536 guests would become 0.
 *
 * Answers BOARD_DONE with the band's alpha and beta, or of 16, 17 and 18 the lowest that applies, with both 0. A table
 * that is accepted for one guest count is accepted for every one from 0 to 20,000, so that a look-up of 0 checks a
 * table.
 */
BoardCrowdLimits board_crowd_limits(BoardBands bands, uint16_t guests);

/*
 * Crowd cover: who is in the cover for a guest count, the cover with minimums under the limits of its band. The limit
 * of an operator is the band's alpha. That of a ride is its own minimum, also where that is smaller than the band's
 * beta, and the band's beta where it has none. A limit of 0 is no limit.
 *
 * Reads the head, the listed pairs, the presence words and the minimums as a peel does, the table and the guest count
 * as a look-up does. It uses no index, so that a damaged one does not matter, and the marks that come in are not read.
 *
 * Writes the marks that board_own_cover writes with the band's alpha and beta and the same minimums. Where each minimum
 * is 0 or the band's beta, they are those of a query with the band's limits, if the index is that of the board.
 *
 * Answers BOARD_DONE with the counts of operators and rides marked, or of 1 to 5 and 16 to 18 the lowest that applies,
 * with counts 0. A refusal leaves every lent word as it was.
 *
 * A dispatch permit needs a limit from 1 for its ride: a minimum of its own, or a band with beta from 1. A look-up
 * gives the band's beta.
 */
BoardCounts board_crowd_cover(BoardHead head, const uint16_t *operators, size_t operators_length, const uint16_t *rides,
                              size_t rides_length, const uint16_t *presence, size_t presence_length, BoardBands bands,
                              uint16_t guests, const uint16_t *minimums, size_t minimums_length, uint16_t *marks,
                              size_t marks_length);

/*
 * Message: takes one message, if it is later than the last one that the board took for its pair, its operator or its
 * ride.
 *
 * Reads the whole board and the message. The kinds 1 and 2 are for a pair, 3 and 4 for an operator, 5 and 6 for a ride.
 * Of two messages for one pair, operator or ride the later has the larger stamp; at equal stamps the larger revision;
 * at both equal a withdrawal is later than a grant, off later than on, and out later than in. Pairs listed at the build
 * count as grants of the starting stamp and revision 0. The pair's last has the stamp and the revision that the board
 * holds for it, and is a grant exactly if the pair is listed; an operator's or a ride's last has its presence stamp and
 * revision, and is on or in exactly if its presence word is 1. A revision in the board is compared as it stands, also
 * over 255.
 *
 * Writes, where it is taken: for a pair its stamp and revision, and the pair arrays with the pair added or removed
 * where needed; for an operator or a ride its presence stamp, revision and word, 1 for on or in and 0 for off or out.
 * For every kind: zeros in the pair arrays past the pairs up to their end; the head's pair count; and the whole index
 * of the pairs that count, whatever words came in. A withdrawal of a pair that was never granted is taken too, for its
 * stamp and revision. A grant is listed also where its operator is off or its ride is out, and counts once both are on
 * and in.
 *
 * Answers BOARD_DONE with the number of index words that differ before and after, or of 1 to 9, 14, 15 and 10, in this
 * order, the first that applies, with count 0. 6 looks at every listed pair, for every kind. 8 looks only at the fields
 * that the kind uses; 15 says that the one it doesn't use is not 0. A refusal leaves every lent word as it was.
 *
 * A message is valid if none of 7, 8, 9, 14 and 15 applies to it. After a build and any messages the board is that of
 * the latest valid message of each pair, operator and ride, in whatever order they came.
 */
BoardAnswer board_message(BoardHead *head, uint16_t *operators, size_t operators_length, uint16_t *rides,
                          size_t rides_length, uint32_t *stamps, size_t stamps_length, uint16_t *revisions,
                          size_t revisions_length, uint16_t *index, size_t index_length, uint32_t *presence_stamps,
                          size_t presence_stamps_length, uint16_t *presence_revisions,
                          size_t presence_revisions_length, uint16_t *presence, size_t presence_length,
                          BoardMessage message);

/*
 * Message list: takes messages in order, each as board_message does.
 *
 * Reads the whole board and the messages. The answer list needs at least as many places as the message list.
 *
 * Writes what each taken message writes, and each message's number to its own place of the answer list. A refused
 * message leaves the board as it was and does not stop the next.
 *
 * Answers BOARD_DONE, or of 1 to 6 the lowest that applies to the board before the first message. Such a refusal
 * refuses the whole list and leaves every lent word as it was, the answer list too.
 */
uint16_t board_messages(BoardHead *head, uint16_t *operators, size_t operators_length, uint16_t *rides,
                        size_t rides_length, uint32_t *stamps, size_t stamps_length, uint16_t *revisions,
                        size_t revisions_length, uint16_t *index, size_t index_length, uint32_t *presence_stamps,
                        size_t presence_stamps_length, uint16_t *presence_revisions, size_t presence_revisions_length,
                        uint16_t *presence, size_t presence_length, const BoardMessage *messages,
                        size_t messages_length, uint16_t *answers, size_t answers_length);

/*
 * Preview: what a message would do, worked out in spare memory. The board is read and never written.
 *
 * Reads the whole board and the message. The spare parts need the lengths that the board needs. What they and the spare
 * head hold does not matter.
 *
 * Writes, where the message would be taken: into the spare head and the spare parts, to those lengths, every word that
 * board_message would leave on a copy of the board. The spare memory is then a board of its own, for any call; no
 * dispatch permit comes from it. Sent as the board's next message, the message gets the same answer and leaves the same
 * words in the board.
 *
 * Answers what board_message would answer: BOARD_DONE with the number of index words that differ before and after, or
 * of 1 to 9, 14, 15 and 10, in this order, the first that applies, with count 0. A spare part that is too short is 3. A
 * refusal leaves every lent word as it was, the spare head too.
 */
BoardAnswer board_preview(BoardHead head, const uint16_t *operators, size_t operators_length, const uint16_t *rides,
                          size_t rides_length, const uint32_t *stamps, size_t stamps_length, const uint16_t *revisions,
                          size_t revisions_length, const uint16_t *index, size_t index_length,
                          const uint32_t *presence_stamps, size_t presence_stamps_length,
                          const uint16_t *presence_revisions, size_t presence_revisions_length,
                          const uint16_t *presence, size_t presence_length, BoardMessage message,
                          BoardHead *spare_head, uint16_t *spare_operators, size_t spare_operators_length,
                          uint16_t *spare_rides, size_t spare_rides_length, uint32_t *spare_stamps,
                          size_t spare_stamps_length, uint16_t *spare_revisions, size_t spare_revisions_length,
                          uint16_t *spare_index, size_t spare_index_length, uint32_t *spare_presence_stamps,
                          size_t spare_presence_stamps_length, uint16_t *spare_presence_revisions,
                          size_t spare_presence_revisions_length, uint16_t *spare_presence,
                          size_t spare_presence_length);

/*
 * A board as one thing: its head, and each part with its length. Keep one Board for one board: a copy has a head of its
 * own, and misses the pair count that a message leaves.
 */
typedef struct Board {
    BoardHead head;
    uint16_t *operators;
    size_t operators_length;
    uint16_t *rides;
    size_t rides_length;
    uint32_t *stamps;
    size_t stamps_length;
    uint16_t *revisions;
    size_t revisions_length;
    uint16_t *index;
    size_t index_length;
    uint32_t *presence_stamps;
    size_t presence_stamps_length;
    uint16_t *presence_revisions;
    size_t presence_revisions_length;
    uint16_t *presence;
    size_t presence_length;
} Board;

/*
 * Declares static storage for the parts of a board, all zeros where no initialiser stands behind it. With one, here for
 * the pairs (0, 5), (3, 5) and (17, 4):
 *
 *     BOARD_STORAGE(memory, 200, 60) = {{0, 3, 17}, {5, 5, 4}, {0}, {0}, {0}, {0}, {0}, {0}};
 *
 * A build fills what is {0} here, and sets everybody on and in.
 */
#define BOARD_STORAGE(name, operator_count, ride_count)                                              \
    static struct {                                                                                  \
        uint16_t operators[BOARD_ARRAY(BOARD_PAIR_PLACES(operator_count, ride_count))];              \
        uint16_t rides[BOARD_ARRAY(BOARD_PAIR_PLACES(operator_count, ride_count))];                  \
        uint32_t stamps[BOARD_ARRAY(BOARD_STAMP_PLACES(operator_count, ride_count))];                \
        uint16_t revisions[BOARD_ARRAY(BOARD_REVISION_PLACES(operator_count, ride_count))];          \
        uint16_t index[BOARD_ARRAY(BOARD_INDEX_PLACES(operator_count, ride_count))];                 \
        uint32_t presence_stamps[BOARD_ARRAY(BOARD_PRESENCE_PLACES(operator_count, ride_count))];    \
        uint16_t presence_revisions[BOARD_ARRAY(BOARD_PRESENCE_PLACES(operator_count, ride_count))]; \
        uint16_t presence[BOARD_ARRAY(BOARD_PRESENCE_PLACES(operator_count, ride_count))];           \
    } name

/* An array has a place at least, also where a board needs none. */
#define BOARD_ARRAY(places) ((places) == 0 ? 1 : (places))

/* The initialiser of a Board over such storage. Storage for a smaller board is too short: the calls answer 3. */
#define BOARD_OVER(storage, operator_count, ride_count, pair_count)               \
    {                                                                             \
        {operator_count, ride_count, pair_count},                                 \
        (storage).operators, BOARD_LENGTH((storage).operators),                   \
        (storage).rides, BOARD_LENGTH((storage).rides),                           \
        (storage).stamps, BOARD_LENGTH((storage).stamps),                         \
        (storage).revisions, BOARD_LENGTH((storage).revisions),                   \
        (storage).index, BOARD_LENGTH((storage).index),                           \
        (storage).presence_stamps, BOARD_LENGTH((storage).presence_stamps),       \
        (storage).presence_revisions, BOARD_LENGTH((storage).presence_revisions), \
        (storage).presence, BOARD_LENGTH((storage).presence)                      \
    }

/*
 * The table of these bands, from an array of any length. A table of no band, or of more than 8, is refused with 16
 * wherever it is used.
 */
static inline BoardBands board_bands(const BoardBand *bands, size_t count) {
    BoardBands table = {0, {{0, 0, 0, 0}}};
    table.count = (uint16_t)(count < UINT16_MAX ? count : UINT16_MAX);
    for (size_t i = 0; i < count && i < BOARD_BANDS_MOST; i++)
        table.bands[i] = bands[i];
    return table;
}

/* Each call that is lent parts of a board, over a Board: the plain call with the parts of the board. */

static inline uint16_t board_build_on(const Board *board, uint32_t start) {
    return board_build(board->head, board->operators, board->operators_length, board->rides, board->rides_length, start,
                       board->stamps, board->stamps_length, board->revisions, board->revisions_length, board->index,
                       board->index_length, board->presence_stamps, board->presence_stamps_length,
                       board->presence_revisions, board->presence_revisions_length, board->presence,
                       board->presence_length);
}

static inline BoardCounts board_query_on(const Board *board, uint16_t alpha, uint16_t beta, uint16_t *marks,
                                         size_t marks_length) {
    return board_query(board->head, board->index, board->index_length, board->presence, board->presence_length, alpha,
                       beta, marks, marks_length);
}

static inline BoardPeeled board_peel_on(const Board *board, const uint16_t *minimums, size_t minimums_length,
                                        uint16_t *marks, size_t marks_length, uint16_t alpha, uint16_t beta,
                                        uint16_t steps) {
    return board_peel(board->head, board->operators, board->operators_length, board->rides, board->rides_length,
                      board->presence, board->presence_length, minimums, minimums_length, marks, marks_length, alpha,
                      beta, steps);
}

static inline BoardCounts board_own_cover_on(const Board *board, const uint16_t *minimums, size_t minimums_length,
                                             uint16_t alpha, uint16_t beta, uint16_t *marks, size_t marks_length) {
    return board_own_cover(board->head, board->operators, board->operators_length, board->rides, board->rides_length,
                           board->presence, board->presence_length, minimums, minimums_length, alpha, beta, marks,
                           marks_length);
}

static inline BoardCounts board_crowd_cover_on(const Board *board, BoardBands bands, uint16_t guests,
                                               const uint16_t *minimums, size_t minimums_length, uint16_t *marks,
                                               size_t marks_length) {
    return board_crowd_cover(board->head, board->operators, board->operators_length, board->rides, board->rides_length,
                             board->presence, board->presence_length, bands, guests, minimums, minimums_length, marks,
                             marks_length);
}

static inline BoardAnswer board_message_on(Board *board, BoardMessage message) {
    return board_message(&board->head, board->operators, board->operators_length, board->rides, board->rides_length,
                         board->stamps, board->stamps_length, board->revisions, board->revisions_length, board->index,
                         board->index_length, board->presence_stamps, board->presence_stamps_length,
                         board->presence_revisions, board->presence_revisions_length, board->presence,
                         board->presence_length, message);
}

static inline uint16_t board_messages_on(Board *board, const BoardMessage *messages, size_t messages_length,
                                         uint16_t *answers, size_t answers_length) {
    return board_messages(&board->head, board->operators, board->operators_length, board->rides, board->rides_length,
                          board->stamps, board->stamps_length, board->revisions, board->revisions_length, board->index,
                          board->index_length, board->presence_stamps, board->presence_stamps_length,
                          board->presence_revisions, board->presence_revisions_length, board->presence,
                          board->presence_length, messages, messages_length, answers, answers_length);
}

/* `spare` is another Board, over storage of its own. */
static inline BoardAnswer board_preview_on(const Board *board, BoardMessage message, Board *spare) {
    return board_preview(board->head, board->operators, board->operators_length, board->rides, board->rides_length,
                         board->stamps, board->stamps_length, board->revisions, board->revisions_length, board->index,
                         board->index_length, board->presence_stamps, board->presence_stamps_length,
                         board->presence_revisions, board->presence_revisions_length, board->presence,
                         board->presence_length, message, &spare->head, spare->operators, spare->operators_length,
                         spare->rides, spare->rides_length, spare->stamps, spare->stamps_length, spare->revisions,
                         spare->revisions_length, spare->index, spare->index_length, spare->presence_stamps,
                         spare->presence_stamps_length, spare->presence_revisions, spare->presence_revisions_length,
                         spare->presence, spare->presence_length);
}

/* The text of a number. */
static inline const char *board_text(uint16_t code) {
    switch (code) {
    case BOARD_DONE:
        return "done or taken";
    case BOARD_OPERATORS_OVER:
        return "operators over 200";
    case BOARD_RIDES_OVER:
        return "rides over 60";
    case BOARD_PART_SHORT:
        return "a lent part is too short";
    case BOARD_PAIRS_OVER:
        return "pairs over operators x rides";
    case BOARD_PAIR_MISPLACED:
        return "a pair out of range, or not strictly ascending";
    case BOARD_STAMP_MISSING:
        return "message: a listed pair has stamp 0";
    case BOARD_KIND_UNKNOWN:
        return "message: kind not 1 to 6";
    case BOARD_OUT_OF_RANGE:
        return "message: operator or ride out of range";
    case BOARD_STAMP_ZERO:
        return "message or starting stamp is 0";
    case BOARD_NOT_LATER:
        return "message not later than the last of its pair, operator or ride";
    case BOARD_LIMIT_ZERO:
        return "retired: limits may be 0";
    case BOARD_MARK_UNKNOWN:
        return "peel: a mark in use is not 0 or 1";
    case BOARD_INPUT_LENGTH_WRONG:
        return "program: input length wrong";
    case BOARD_REVISION_OVER:
        return "message: revision over 255";
    case BOARD_UNUSED_FIELD:
        return "message: an unused field is not 0";
    case BOARD_BANDS_MALFORMED:
        return "a band count outside 1 to 8, a band whose first count exceeds its last, or a guest count above 20,000";
    case BOARD_BANDS_OVERLAP:
        return "an overlap: two bands share a guest count";
    case BOARD_BANDS_GAP:
        return "a gap: a guest count falls in no band";
    default:
        return "no number of the board";
    }
}

#ifdef __cplusplus
}
#endif

#endif
