/*
 * A controller over the board: it takes the messages of a radio trace in the order in which they arrive, and prints for
 * each ride whether it gets its dispatch permit, before and after each message. A ride gets it while it is in cover
 * (alpha, beta). A withdrawal, an operator off or a ride out is previewed in spare memory before it is sent to the
 * board: the permits that would be given after it are printed. The controller stops where the message then does
 * anything else. After a message for an operator or a ride it prints which operators are on and which rides are in.
 *
 *     controller TRACE ALPHA BETA
 *
 * ALPHA may be 0, no limit. BETA is from 1: under no limit each ride would get a permit, also one without operators.
 *
 * A line of the trace is `KIND OPERATOR RIDE REVISION STAMP`, all numbers, kind 1 a grant, 2 a withdrawal, 3 operator
 * on, 4 operator off, 5 ride in, 6 ride out; what follows a # is a comment. After the last message the permits where
 * rides have minimums are printed, first by own covers; then by crowd covers, for no guest, for a quiet and for a busy
 * guest count, where no ride has a minimum and where some have; and the answers to a list with a ride too few and to a
 * table with an overlap. At the end the same messages are given to a second board in the order of their stamps and
 * revisions, as one message list. Exit status 0 says that the two boards are the same, word for word.
 */
#include <stdio.h>
#include <stdlib.h>
#include <string.h>

#include "board.h"

#define OPERATORS 4
#define RIDES 3
#define MESSAGES_MOST 64
#define START 10

/* Document 01's board, twice, and spare memory for previews. */
#define PAIRS 7
#define SAMPLE {{0, 0, 1, 1, 2, 2, 3}, {0, 1, 0, 1, 1, 2, 2}, {0}, {0}, {0}, {0}, {0}, {0}}

BOARD_STORAGE(arriving_memory, OPERATORS, RIDES) = SAMPLE;
BOARD_STORAGE(in_order_memory, OPERATORS, RIDES) = SAMPLE;
BOARD_STORAGE(spare_memory, OPERATORS, RIDES);
static Board arriving = BOARD_OVER(arriving_memory, OPERATORS, RIDES, PAIRS);
static Board in_order = BOARD_OVER(in_order_memory, OPERATORS, RIDES, PAIRS);
static Board spare = BOARD_OVER(spare_memory, OPERATORS, RIDES, 0);

/*
 * Limits by crowd: first and last guest count, alpha, beta. Without guests a ride that has no minimum of its own has no
 * limit, and gets no permit. In the second table both bands have guest count 8,000.
 */
static const BoardBand day[] = {{8001, 20000, 2, 3}, {1, 8000, 1, 2}, {0, 0, 1, 0}};
static const BoardBand overlapping[] = {{8000, 20000, 2, 3}, {0, 8000, 1, 2}};

/* Minimums of the rides, 0 for none. Ride 2 as a coaster needs four operators, ride 0 as a carousel two. */
static const uint16_t none[BOARD_MINIMUM_PLACES(RIDES)] = {0, 0, 0};
static const uint16_t coaster[BOARD_MINIMUM_PLACES(RIDES)] = {0, 0, 4};
static const uint16_t carousel[BOARD_MINIMUM_PLACES(RIDES)] = {2, 0, 0};

static BoardMessage trace[MESSAGES_MOST];
static uint16_t answers[BOARD_ANSWER_PLACES(MESSAGES_MOST)];
static uint16_t marks[BOARD_MARK_PLACES(OPERATORS, RIDES)], peeled[BOARD_MARK_PLACES(OPERATORS, RIDES)];

static void stop(const char *reason) {
    fprintf(stderr, "controller: %s\n", reason);
    exit(2);
}

static void check(uint16_t code) {
    if (code != BOARD_DONE)
        stop(board_text(code));
}

/* A permit needs a mark under a limit from 1: a minimum of the ride, or beta. */
static void print_rides(const char *when, const uint16_t *minimums, uint16_t beta) {
    printf("  %-8s", when);
    for (unsigned ride = 0; ride < RIDES; ride++) {
        int limited = minimums[ride] != 0 || beta != 0;
        int permit = limited && marks[BOARD_RIDE_MARK(OPERATORS, ride)] == 1;
        printf("   ride %u: %9s", ride, permit ? "permit" : "no permit");
    }
    printf("\n");
}

/* Whether each ride gets its dispatch permit. The marks are compared with a peel, which does not use the index. */
static void print_permits(const char *when, const Board *board, uint16_t alpha, uint16_t beta) {
    check(board_query_on(board, alpha, beta, marks, BOARD_LENGTH(marks)).code);
    for (size_t i = 0; i < BOARD_LENGTH(peeled); i++)
        peeled[i] = 1;
    check(board_peel_on(board, none, RIDES, peeled, BOARD_LENGTH(peeled), alpha, beta, OPERATORS + RIDES).code);
    if (memcmp(marks, peeled, sizeof marks) != 0)
        stop("the board is damaged: its index is not that of its pairs that count");
    print_rides(when, none, beta);
}

/* The minimums of a cover, and the permits of its marks or why there are none. */
static void print_cover(BoardCounts counts, const uint16_t *minimums, size_t length, uint16_t alpha, uint16_t beta) {
    printf("minimums");
    for (size_t ride = 0; ride < length; ride++)
        printf(" %u", minimums[ride]);
    if (counts.code != BOARD_DONE) {
        printf(": %u, %s\n", counts.code, board_text(counts.code));
        return;
    }
    printf(": limits (%u,%u)\n", alpha, beta);
    print_rides("permits", minimums, beta);
}

/* Whether each ride gets its dispatch permit with these minimums. An own cover does not use the index. */
static void print_own(const Board *board, const uint16_t *minimums, size_t length, uint16_t alpha, uint16_t beta) {
    BoardCounts counts = board_own_cover_on(board, minimums, length, alpha, beta, marks, BOARD_LENGTH(marks));
    print_cover(counts, minimums, length, alpha, beta);
}

/* Whether each ride gets it at a guest count. A crowd cover does not use the index either. */
static void print_crowd(const Board *board, BoardBands bands, uint16_t guests, const uint16_t *minimums,
                        size_t length) {
    BoardCounts counts = board_crowd_cover_on(board, bands, guests, minimums, length, marks, BOARD_LENGTH(marks));
    BoardCrowdLimits limits = board_crowd_limits(bands, guests);
    printf("guests %u, ", guests);
    print_cover(counts, minimums, length, limits.alpha, limits.beta);
}

/* Which operators are on and which rides are in: those whose presence word is 1. */
static void print_presence(const Board *board) {
    printf("  %-8s   operators on:", "presence");
    for (unsigned i = 0; i < OPERATORS; i++)
        if (board->presence[BOARD_OPERATOR_PRESENCE(i)] == BOARD_PRESENT)
            printf(" %u", i);
    printf("; rides in:");
    for (unsigned i = 0; i < RIDES; i++)
        if (board->presence[BOARD_RIDE_PRESENCE(OPERATORS, i)] == BOARD_PRESENT)
            printf(" %u", i);
    printf("\n");
}

static const char *kind_text(uint16_t kind) {
    switch (kind) {
    case BOARD_GRANT:
        return "grant";
    case BOARD_WITHDRAWAL:
        return "withdrawal";
    case BOARD_OPERATOR_ON:
        return "operator on";
    case BOARD_OPERATOR_OFF:
        return "operator off";
    case BOARD_RIDE_IN:
        return "ride in";
    case BOARD_RIDE_OUT:
        return "ride out";
    default:
        return "unknown kind";
    }
}

static int is_for_operator_or_ride(BoardMessage m) {
    return BOARD_OPERATOR_ON <= m.kind && m.kind <= BOARD_RIDE_OUT;
}

/* A withdrawal, an operator off or a ride out. */
static int takes_away(BoardMessage m) {
    return m.kind == BOARD_WITHDRAWAL || m.kind == BOARD_OPERATOR_OFF || m.kind == BOARD_RIDE_OUT;
}

static void print_message(size_t number, BoardMessage m) {
    printf("message %zu: %s, operator %u, ride %u, stamp %lu, revision %u\n", number, kind_text(m.kind),
           m.operator_number, m.ride, (unsigned long)m.stamp, m.revision);
}

static void print_answer(const char *what, BoardAnswer answer) {
    printf("  %-8s   %u, %s", what, answer.code, board_text(answer.code));
    if (answer.code == BOARD_DONE)
        printf("; index words that differ: %u", answer.differ);
    printf("\n");
}

/* Reads the trace; the number of its messages. */
static size_t read_trace(const char *name) {
    FILE *file = fopen(name, "r");
    char line[256];
    size_t count = 0;
    if (file == NULL)
        stop("the trace cannot be opened");
    while (fgets(line, sizeof line, file) != NULL) {
        unsigned kind, operator_number, ride, revision;
        unsigned long stamp;
        line[strcspn(line, "#")] = '\0';
        if (line[strspn(line, " \t\r\n")] == '\0')
            continue;
        if (count == MESSAGES_MOST)
            stop("the trace has too many messages");
        if (sscanf(line, "%u %u %u %u %lu", &kind, &operator_number, &ride, &revision, &stamp) != 5 ||
            kind > UINT16_MAX || operator_number > UINT16_MAX || ride > UINT16_MAX || revision > UINT16_MAX ||
            stamp > UINT32_MAX)
            stop("a line of the trace is not KIND OPERATOR RIDE REVISION STAMP");
        trace[count++] = (BoardMessage){.kind = (uint16_t)kind,
                                        .operator_number = (uint16_t)operator_number,
                                        .ride = (uint16_t)ride,
                                        .revision = (uint16_t)revision,
                                        .stamp = (uint32_t)stamp};
    }
    fclose(file);
    return count;
}

/* The order of two messages: by stamp, then revision, then kind. Of two for the same the later comes behind. */
static int by_stamp(const void *left, const void *right) {
    const BoardMessage *a = left, *b = right;
    if (a->stamp != b->stamp)
        return a->stamp < b->stamp ? -1 : 1;
    if (a->revision != b->revision)
        return a->revision < b->revision ? -1 : 1;
    return (int)a->kind - (int)b->kind;
}

/* Whether two boards over storage of the same size are the same, word for word. */
static int same(const Board *a, const Board *b) {
    return memcmp(&a->head, &b->head, sizeof a->head) == 0 &&
           memcmp(a->operators, b->operators, a->operators_length * sizeof a->operators[0]) == 0 &&
           memcmp(a->rides, b->rides, a->rides_length * sizeof a->rides[0]) == 0 &&
           memcmp(a->stamps, b->stamps, a->stamps_length * sizeof a->stamps[0]) == 0 &&
           memcmp(a->revisions, b->revisions, a->revisions_length * sizeof a->revisions[0]) == 0 &&
           memcmp(a->index, b->index, a->index_length * sizeof a->index[0]) == 0 &&
           memcmp(a->presence_stamps, b->presence_stamps,
                  a->presence_stamps_length * sizeof a->presence_stamps[0]) == 0 &&
           memcmp(a->presence_revisions, b->presence_revisions,
                  a->presence_revisions_length * sizeof a->presence_revisions[0]) == 0 &&
           memcmp(a->presence, b->presence, a->presence_length * sizeof a->presence[0]) == 0;
}

/* Prints what a message would do. Where it would be taken, the spare memory then holds the board after it. */
static BoardAnswer print_preview(BoardMessage m, uint16_t alpha, uint16_t beta) {
    BoardAnswer preview = board_preview_on(&arriving, m, &spare);
    print_answer("preview", preview);
    if (preview.code == BOARD_DONE)
        print_permits("would be", &spare, alpha, beta);
    return preview;
}

/* Compares what a message did with what its preview gave. */
static void check_preview(BoardAnswer preview, BoardAnswer answer) {
    if (answer.code != preview.code || answer.differ != preview.differ)
        stop("the answer to a message is not that of its preview");
    if (answer.code == BOARD_DONE && !same(&arriving, &spare))
        stop("the board after a message is not that of its preview");
}

/* Previews a message, sends it to the board, and prints both answers. */
static void send_previewed(BoardMessage m, uint16_t alpha, uint16_t beta) {
    BoardAnswer preview = print_preview(m, alpha, beta);
    BoardAnswer answer = board_message_on(&arriving, m);
    check_preview(preview, answer);
    print_answer("answer", answer);
}

/* A limit, 16 bits. */
static uint16_t read_limit(const char *word) {
    char *end;
    unsigned long limit = strtoul(word, &end, 10);
    if (end == word || *end != '\0' || limit > UINT16_MAX)
        stop("a limit is not a number of 16 bits");
    return (uint16_t)limit;
}

int main(int count, char **words) {
    if (count != 4)
        stop("usage: controller TRACE ALPHA BETA");
    size_t messages = read_trace(words[1]);
    uint16_t alpha = read_limit(words[2]), beta = read_limit(words[3]);
    if (beta == 0)
        stop("beta is 0, no limit: a permit needs a limit from 1");

    check(board_build_on(&arriving, START));
    printf("board: %u operators, %u rides, %u pairs, built at stamp %u; limits (%u,%u)\n", arriving.head.operators,
           arriving.head.rides, arriving.head.pairs, START, alpha, beta);
    for (size_t i = 0; i < messages; i++) {
        print_message(i + 1, trace[i]);
        print_permits("before", &arriving, alpha, beta);
        if (takes_away(trace[i]))
            send_previewed(trace[i], alpha, beta);
        else
            print_answer("answer", board_message_on(&arriving, trace[i]));
        print_permits("after", &arriving, alpha, beta);
        if (is_for_operator_or_ride(trace[i]))
            print_presence(&arriving);
    }
    print_own(&arriving, coaster, RIDES, 2, 2);
    print_own(&arriving, carousel, RIDES, 2, 3);
    print_own(&arriving, carousel, RIDES - 1, 2, 3);
    BoardBands bands = board_bands(day, BOARD_LENGTH(day));
    print_crowd(&arriving, bands, 0, carousel, RIDES);
    print_crowd(&arriving, bands, 1500, none, RIDES);
    print_crowd(&arriving, bands, 1500, coaster, RIDES);
    print_crowd(&arriving, bands, 18000, none, RIDES);
    print_crowd(&arriving, bands, 18000, carousel, RIDES);
    print_crowd(&arriving, bands, 18000, carousel, RIDES - 1);
    print_crowd(&arriving, board_bands(overlapping, BOARD_LENGTH(overlapping)), 18000, none, RIDES);

    check(board_build_on(&in_order, START));
    qsort(trace, messages, sizeof trace[0], by_stamp);
    check(board_messages_on(&in_order, trace, messages, answers, BOARD_LENGTH(answers)));
    int equal = same(&arriving, &in_order);
    printf("the same messages in the order of their stamps and revisions: %s\n",
           equal ? "the same board, word for word" : "ANOTHER BOARD");
    return equal ? 0 : 1;
}
