/*
 * The plain calls beside the functions over a Board: both ways on equal memory, with parts as long as needed, with one
 * part after another too short by a place, with limits of 0, and with minimums. Query, peel, own cover and crowd cover
 * come twice: after the build, with everybody on and in, and after the list, with operator 1 off and ride 2 out. The
 * crowd cover finds the limits of the query in its table, and has the minimums of the own cover. Then come the crowd
 * covers of document 02 without and with minimums, and look-ups in tables of no band to too many. Prints what the calls
 * answer. Exit status 0 says that each answer and every lent word was the same both ways.
 */
#include <stdio.h>
#include <string.h>

#include "board.h"

#define OPERATORS 4
#define RIDES 3
#define PAIRS 7
#define SAMPLE {{0, 0, 1, 1, 2, 2, 3}, {0, 1, 0, 1, 1, 2, 2}, {0}, {0}, {0}, {0}, {0}, {0}}
#define MARKS BOARD_MARK_PLACES(OPERATORS, RIDES)
#define MESSAGES 7
#define GUESTS 8000

BOARD_STORAGE(table, OPERATORS, RIDES) = SAMPLE;
BOARD_STORAGE(memory, OPERATORS, RIDES);
BOARD_STORAGE(other, OPERATORS, RIDES);
BOARD_STORAGE(spare_memory, OPERATORS, RIDES);
BOARD_STORAGE(spare_other, OPERATORS, RIDES);
BOARD_STORAGE(empty, 0, 0);

/*
 * Kind, operator, ride, revision, stamp. The list corrects the grant with a smaller revision, and with one over 255.
 * It has operator 1 off with a ride that isn't 0, then with ride 0, then on at the same stamp, and ride 2 out.
 */
static const BoardMessage grant = {BOARD_GRANT, 3, 1, 2, 20};
static const BoardMessage list[MESSAGES] = {
    {BOARD_WITHDRAWAL, 3, 1, 1, 20},   {BOARD_WITHDRAWAL, 3, 1, 256, 20}, {BOARD_WITHDRAWAL, 0, 0, 255, 10},
    {BOARD_OPERATOR_OFF, 1, 2, 0, 30}, {BOARD_OPERATOR_OFF, 1, 0, 0, 10}, {BOARD_OPERATOR_ON, 1, 0, 0, 10},
    {BOARD_RIDE_OUT, 0, 2, 255, 10},
};

/* First and last guest count, alpha, beta. The first 8 are a table; the number of all has 8 in its last 16 bits. */
static const BoardBand bands[65536 + 8] = {
    {17500, 20000, 2, 4}, {0, 2499, 1, 0},      {15000, 17499, 2, 3}, {2500, 4999, 1, 1},
    {5000, 7499, 1, 2},   {12500, 14999, 2, 2}, {7500, 9999, 1, 3},   {10000, 12499, 2, 1},
};
static const size_t band_counts[] = {0, 7, 8, 9, 65535, 65536, 65536 + 8};

/* The lengths of a board's parts, in places. */
typedef struct Lengths {
    size_t operators, rides, stamps, revisions, index, presence_stamps, presence_revisions, presence;
} Lengths;

/* The lengths that are lent, in places, the limits of query, peel and covers, and the minimums of peel and covers. */
typedef struct Given {
    const char *title;
    Lengths board, spare;
    size_t marks, answers, minimums_length;
    uint16_t alpha, beta;
    uint16_t minimums[BOARD_MINIMUM_PLACES(RIDES)];
} Given;

#define NEEDED {12, 12, 12, 12, 21, 7, 7, 7}
#define NONE {0, 0, 0}

static const Given rows[] = {
    {"as needed", NEEDED, NEEDED, 7, 7, 3, 1, 3, NONE},
    {"operators short", {11, 12, 12, 12, 21, 7, 7, 7}, NEEDED, 7, 7, 3, 1, 3, NONE},
    {"rides short", {12, 11, 12, 12, 21, 7, 7, 7}, NEEDED, 7, 7, 3, 1, 3, NONE},
    {"stamps short", {12, 12, 11, 12, 21, 7, 7, 7}, NEEDED, 7, 7, 3, 1, 3, NONE},
    {"revisions short", {12, 12, 12, 11, 21, 7, 7, 7}, NEEDED, 7, 7, 3, 1, 3, NONE},
    {"index short", {12, 12, 12, 12, 20, 7, 7, 7}, NEEDED, 7, 7, 3, 1, 3, NONE},
    {"presence stamps short", {12, 12, 12, 12, 21, 6, 7, 7}, NEEDED, 7, 7, 3, 1, 3, NONE},
    {"presence revisions short", {12, 12, 12, 12, 21, 7, 6, 7}, NEEDED, 7, 7, 3, 1, 3, NONE},
    {"presence short", {12, 12, 12, 12, 21, 7, 7, 6}, NEEDED, 7, 7, 3, 1, 3, NONE},
    {"spare operators short", NEEDED, {11, 12, 12, 12, 21, 7, 7, 7}, 7, 7, 3, 1, 3, NONE},
    {"spare rides short", NEEDED, {12, 11, 12, 12, 21, 7, 7, 7}, 7, 7, 3, 1, 3, NONE},
    {"spare stamps short", NEEDED, {12, 12, 11, 12, 21, 7, 7, 7}, 7, 7, 3, 1, 3, NONE},
    {"spare revisions short", NEEDED, {12, 12, 12, 11, 21, 7, 7, 7}, 7, 7, 3, 1, 3, NONE},
    {"spare index short", NEEDED, {12, 12, 12, 12, 20, 7, 7, 7}, 7, 7, 3, 1, 3, NONE},
    {"spare presence stamps short", NEEDED, {12, 12, 12, 12, 21, 6, 7, 7}, 7, 7, 3, 1, 3, NONE},
    {"spare presence revisions short", NEEDED, {12, 12, 12, 12, 21, 7, 6, 7}, 7, 7, 3, 1, 3, NONE},
    {"spare presence short", NEEDED, {12, 12, 12, 12, 21, 7, 7, 6}, 7, 7, 3, 1, 3, NONE},
    {"marks short", NEEDED, NEEDED, 6, 7, 3, 1, 3, NONE},
    {"answers short", NEEDED, NEEDED, 7, 6, 3, 1, 3, NONE},
    {"minimums short", NEEDED, NEEDED, 7, 7, 2, 1, 3, NONE},
    {"alpha 0, beta 3", NEEDED, NEEDED, 7, 7, 3, 0, 3, NONE},
    {"alpha 2, beta 0", NEEDED, NEEDED, 7, 7, 3, 2, 0, NONE},
    {"alpha 4, beta 0", NEEDED, NEEDED, 7, 7, 3, 4, 0, NONE},
    {"alpha 0, beta 0", NEEDED, NEEDED, 7, 7, 3, 0, 0, NONE},
    {"beta 3, minimum 2 at ride 0", NEEDED, NEEDED, 7, 7, 3, 1, 3, {2, 0, 0}},
    {"beta 2, minimum 4 at ride 1", NEEDED, NEEDED, 7, 7, 3, 1, 2, {0, 4, 0}},
    {"beta 0, minimums 3 2 1", NEEDED, NEEDED, 7, 7, 3, 1, 0, {3, 2, 1}},
};

/* Band limits and minimums: document 02's crowd covers on document 01's board, each without minimums first. */
static const struct {
    uint16_t alpha, beta, minimums[BOARD_MINIMUM_PLACES(RIDES)];
} samples[] = {{1, 3, NONE}, {1, 3, {2, 0, 0}}, {1, 2, NONE}, {1, 2, {0, 4, 0}}};

/* What the calls answer, and the lent words outside the storage. */
typedef struct Outcome {
    BoardHead head;
    uint16_t build;
    BoardCounts query;
    uint16_t queried[MARKS];
    BoardPeeled peel;
    uint16_t peeled[MARKS];
    BoardCounts own;
    uint16_t own_marks[MARKS];
    BoardCounts crowd;
    uint16_t crowded[MARKS];
    BoardAnswer preview;
    BoardHead spare_head;
    BoardAnswer message;
    uint16_t messages;
    uint16_t answers[MESSAGES];
    BoardCounts query_again;
    uint16_t queried_again[MARKS];
    BoardPeeled peel_again;
    uint16_t peeled_again[MARKS];
    BoardCounts own_again;
    uint16_t own_marks_again[MARKS];
    BoardCounts crowd_again;
    uint16_t crowded_again[MARKS];
} Outcome;

static const Outcome before = {
    {OPERATORS, RIDES, PAIRS},
    0,
    {0, 0, 0},
    {9, 9, 9, 9, 9, 9, 9},
    {0, 0, 0},
    {1, 1, 1, 1, 1, 1, 1},
    {0, 0, 0},
    {9, 9, 9, 9, 9, 9, 9},
    {0, 0, 0},
    {9, 9, 9, 9, 9, 9, 9},
    {0, 0},
    {9, 9, 9},
    {0, 0},
    0,
    {9, 9, 9, 9, 9, 9, 9},
    {0, 0, 0},
    {9, 9, 9, 9, 9, 9, 9},
    {0, 0, 0},
    {1, 1, 1, 1, 1, 1, 1},
    {0, 0, 0},
    {9, 9, 9, 9, 9, 9, 9},
    {0, 0, 0},
    {9, 9, 9, 9, 9, 9, 9},
};

/* Lends so many places of each part. */
static Board lend(Board board, Lengths n) {
    board.operators_length = n.operators;
    board.rides_length = n.rides;
    board.stamps_length = n.stamps;
    board.revisions_length = n.revisions;
    board.index_length = n.index;
    board.presence_stamps_length = n.presence_stamps;
    board.presence_revisions_length = n.presence_revisions;
    board.presence_length = n.presence;
    return board;
}

/* A table with these limits for this guest count and more, and with others for fewer. */
static BoardBands two_bands(uint16_t alpha, uint16_t beta) {
    BoardBand two[] = {{GUESTS, BOARD_GUESTS_MOST, alpha, beta}, {0, GUESTS - 1, 9, 9}};
    return board_bands(two, BOARD_LENGTH(two));
}

static Outcome over_a_board(const Given *given) {
    Outcome out = before;
    Board whole = BOARD_OVER(memory, OPERATORS, RIDES, PAIRS), whole_spare = BOARD_OVER(spare_memory, 9, 9, 9);
    Board board = lend(whole, given->board), spare = lend(whole_spare, given->spare);
    out.build = board_build_on(&board, 10);
    out.query = board_query_on(&board, given->alpha, given->beta, out.queried, given->marks);
    out.peel = board_peel_on(&board, given->minimums, given->minimums_length, out.peeled, given->marks, given->alpha,
                             given->beta, 2);
    out.own = board_own_cover_on(&board, given->minimums, given->minimums_length, given->alpha, given->beta,
                                 out.own_marks, given->marks);
    out.crowd = board_crowd_cover_on(&board, two_bands(given->alpha, given->beta), GUESTS, given->minimums,
                                     given->minimums_length, out.crowded, given->marks);
    out.preview = board_preview_on(&board, grant, &spare);
    out.spare_head = spare.head;
    out.message = board_message_on(&board, grant);
    out.messages = board_messages_on(&board, list, MESSAGES, out.answers, given->answers);
    out.query_again = board_query_on(&board, given->alpha, given->beta, out.queried_again, given->marks);
    out.peel_again = board_peel_on(&board, given->minimums, given->minimums_length, out.peeled_again, given->marks,
                                   given->alpha, given->beta, 2);
    out.own_again = board_own_cover_on(&board, given->minimums, given->minimums_length, given->alpha, given->beta,
                                       out.own_marks_again, given->marks);
    out.crowd_again = board_crowd_cover_on(&board, two_bands(given->alpha, given->beta), GUESTS, given->minimums,
                                           given->minimums_length, out.crowded_again, given->marks);
    out.head = board.head;
    return out;
}

static Outcome plainly(const Given *given) {
    Outcome out = before;
    Lengths n = given->board, s = given->spare;
    out.build = board_build(out.head, other.operators, n.operators, other.rides, n.rides, 10, other.stamps, n.stamps,
                            other.revisions, n.revisions, other.index, n.index, other.presence_stamps,
                            n.presence_stamps, other.presence_revisions, n.presence_revisions, other.presence,
                            n.presence);
    out.query = board_query(out.head, other.index, n.index, other.presence, n.presence, given->alpha, given->beta,
                            out.queried, given->marks);
    out.peel = board_peel(out.head, other.operators, n.operators, other.rides, n.rides, other.presence, n.presence,
                          given->minimums, given->minimums_length, out.peeled, given->marks, given->alpha, given->beta,
                          2);
    out.own = board_own_cover(out.head, other.operators, n.operators, other.rides, n.rides, other.presence, n.presence,
                              given->minimums, given->minimums_length, given->alpha, given->beta, out.own_marks,
                              given->marks);
    out.crowd = board_crowd_cover(out.head, other.operators, n.operators, other.rides, n.rides, other.presence,
                                  n.presence, two_bands(given->alpha, given->beta), GUESTS, given->minimums,
                                  given->minimums_length, out.crowded, given->marks);
    out.preview = board_preview(
        out.head, other.operators, n.operators, other.rides, n.rides, other.stamps, n.stamps, other.revisions,
        n.revisions, other.index, n.index, other.presence_stamps, n.presence_stamps, other.presence_revisions,
        n.presence_revisions, other.presence, n.presence, grant, &out.spare_head, spare_other.operators, s.operators,
        spare_other.rides, s.rides, spare_other.stamps, s.stamps, spare_other.revisions, s.revisions,
        spare_other.index, s.index, spare_other.presence_stamps, s.presence_stamps, spare_other.presence_revisions,
        s.presence_revisions, spare_other.presence, s.presence);
    out.message = board_message(&out.head, other.operators, n.operators, other.rides, n.rides, other.stamps, n.stamps,
                                other.revisions, n.revisions, other.index, n.index, other.presence_stamps,
                                n.presence_stamps, other.presence_revisions, n.presence_revisions, other.presence,
                                n.presence, grant);
    out.messages = board_messages(&out.head, other.operators, n.operators, other.rides, n.rides, other.stamps, n.stamps,
                                  other.revisions, n.revisions, other.index, n.index, other.presence_stamps,
                                  n.presence_stamps, other.presence_revisions, n.presence_revisions, other.presence,
                                  n.presence, list, MESSAGES, out.answers, given->answers);
    out.query_again = board_query(out.head, other.index, n.index, other.presence, n.presence, given->alpha,
                                  given->beta, out.queried_again, given->marks);
    out.peel_again = board_peel(out.head, other.operators, n.operators, other.rides, n.rides, other.presence,
                                n.presence, given->minimums, given->minimums_length, out.peeled_again, given->marks,
                                given->alpha, given->beta, 2);
    out.own_again = board_own_cover(out.head, other.operators, n.operators, other.rides, n.rides, other.presence,
                                    n.presence, given->minimums, given->minimums_length, given->alpha, given->beta,
                                    out.own_marks_again, given->marks);
    out.crowd_again = board_crowd_cover(out.head, other.operators, n.operators, other.rides, n.rides, other.presence,
                                        n.presence, two_bands(given->alpha, given->beta), GUESTS, given->minimums,
                                        given->minimums_length, out.crowded_again, given->marks);
    return out;
}

static void print_marked(BoardCounts query, BoardPeeled peel, BoardCounts own, BoardCounts crowd) {
    printf(" %6u: %u + %u %6u: %5u", query.code, query.operators, query.rides, peel.code, peel.steps);
    printf(" %5u: %u + %u %6u: %u + %u", own.code, own.operators, own.rides, crowd.code, crowd.operators, crowd.rides);
}

static void print_outcome(const char *title, const Outcome *out, int same) {
    printf("%-30s %5u", title, out->build);
    print_marked(out->query, out->peel, out->own, out->crowd);
    printf("  %8u: %5u %8u: %5u %5u:", out->preview.code, out->preview.differ, out->message.code, out->message.differ,
           out->messages);
    for (size_t i = 0; i < MESSAGES; i++)
        printf(" %2u", out->answers[i]);
    print_marked(out->query_again, out->peel_again, out->own_again, out->crowd_again);
    printf("   %s\n", same ? "the same" : "ANOTHER");
}

/* Who is in document 02's crowd covers. */
static void print_samples(void) {
    uint16_t marks[MARKS] = {0};
    Board board = BOARD_OVER(memory, OPERATORS, RIDES, PAIRS);
    memcpy(&memory, &table, sizeof memory);
    board_build_on(&board, 10);
    for (size_t i = 0; i < BOARD_LENGTH(samples); i++) {
        const uint16_t *minimums = samples[i].minimums;
        BoardBands two = two_bands(samples[i].alpha, samples[i].beta);
        BoardCounts counts = board_crowd_cover_on(&board, two, GUESTS, minimums, RIDES, marks, MARKS);
        printf("crowd cover (%u,%u), minimums %u %u %u: %u, operators", samples[i].alpha, samples[i].beta, minimums[0],
               minimums[1], minimums[2], counts.code);
        for (unsigned u = 0; u < OPERATORS; u++)
            if (marks[BOARD_OPERATOR_MARK(u)] == 1)
                printf(" %u", u);
        printf(", rides");
        for (unsigned v = 0; v < RIDES; v++)
            if (marks[BOARD_RIDE_MARK(OPERATORS, v)] == 1)
                printf(" %u", v);
        printf("\n");
    }
}

int main(void) {
    int differs = 0;
    printf("%-30s build  query: marked  peel: steps  own: marked  crowd: marked  preview: words  message: words", "");
    printf("  list: answers               query: marked  peel: steps  own: marked  crowd: marked\n");
    for (size_t i = 0; i < BOARD_LENGTH(rows); i++) {
        memcpy(&memory, &table, sizeof memory);
        memcpy(&other, &table, sizeof other);
        memset(&spare_memory, 9, sizeof spare_memory);
        memset(&spare_other, 9, sizeof spare_other);
        Outcome a = over_a_board(&rows[i]), b = plainly(&rows[i]);
        int same = memcmp(&a, &b, sizeof a) == 0 && memcmp(&memory, &other, sizeof memory) == 0 &&
                   memcmp(&spare_memory, &spare_other, sizeof spare_memory) == 0;
        differs |= !same;
        print_outcome(rows[i].title, &a, same);
    }
    print_samples();
    Board nobody = BOARD_OVER(empty, 0, 0, 0);
    printf("%-30s %5u\n", "0 x 0", board_build_on(&nobody, 10));
    for (size_t i = 0; i < BOARD_LENGTH(band_counts); i++) {
        BoardCrowdLimits limits = board_crowd_limits(board_bands(bands, band_counts[i]), GUESTS);
        printf("look-up in %5zu bands         %5u: (%u,%u)\n", band_counts[i], limits.code, limits.alpha, limits.beta);
    }
    return differs;
}
