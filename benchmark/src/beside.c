/*
 * Two archives in one program: build, peel, covers and message of 200 operators and 60 rides, in turns on equal boards. In
 * each round both make the same calls, and the one that begins changes from round to round. Prints for each call and number
 * of pairs the microseconds of both, medians of the rounds. Ends where they leave different words.
 *
 * The other archive has the same interface. With OTHER_WITHOUT_CROWD_MINIMUMS it has that of header 4.0.0, whose crowd
 * cover takes no minimums. Minimums are equal to beta, so that both find the same set.
 */
#define _POSIX_C_SOURCE 199309L
#include "board.h"
#include <stdio.h>
#include <stdlib.h>
#include <string.h>
#include <time.h>

extern uint16_t other_board_build(BoardHead, uint16_t *, size_t, uint16_t *, size_t, uint32_t, uint32_t *, size_t,
                                  uint16_t *, size_t, uint16_t *, size_t, uint32_t *, size_t, uint16_t *, size_t,
                                  uint16_t *, size_t);
extern BoardPeeled other_board_peel(BoardHead, const uint16_t *, size_t, const uint16_t *, size_t, const uint16_t *,
                                    size_t, const uint16_t *, size_t, uint16_t *, size_t, uint16_t, uint16_t, uint16_t);
extern BoardCounts other_board_own_cover(BoardHead, const uint16_t *, size_t, const uint16_t *, size_t,
                                         const uint16_t *, size_t, const uint16_t *, size_t, uint16_t, uint16_t,
                                         uint16_t *, size_t);
extern BoardAnswer other_board_message(BoardHead *, uint16_t *, size_t, uint16_t *, size_t, uint32_t *, size_t,
                                       uint16_t *, size_t, uint16_t *, size_t, uint32_t *, size_t, uint16_t *, size_t,
                                       uint16_t *, size_t, BoardMessage);

enum { OPERATORS = 200, RIDES = 60, PLACES = OPERATORS * RIDES, NODES = OPERATORS + RIDES, ROUNDS = 101, CALLS = 8 };

/* A board, and the minimums and marks of a peel or a cover. */
typedef struct Lent {
    BoardHead head;
    uint16_t operators[PLACES], rides[PLACES], revisions[PLACES], index[RIDES * NODES];
    uint32_t stamps[PLACES], presence_stamps[NODES];
    uint16_t presence_revisions[NODES], presence[NODES], minimums[RIDES], marks[NODES];
} Lent;

static Lent lent[2];
static uint16_t alpha, beta;
static BoardMessage messages[(ROUNDS + 2) * CALLS];

static uint64_t state;

/* A number below a limit (xorshift). */
static uint32_t below(uint32_t limit) {
    state ^= state << 13;
    state ^= state >> 7;
    state ^= state << 17;
    return (uint32_t)(state >> 16) % limit;
}

static void expect(int holds, const char *what) {
    if (!holds) {
        fprintf(stderr, "beside: %s\n", what);
        exit(1);
    }
}

static void build(int other, int place) {
    Lent *b = &lent[other];
    (void)place;
    uint16_t code = (other ? other_board_build : board_build)(
        b->head, b->operators, PLACES, b->rides, PLACES, 1, b->stamps, PLACES, b->revisions, PLACES, b->index,
        RIDES * NODES, b->presence_stamps, NODES, b->presence_revisions, NODES, b->presence, NODES);
    expect(code == BOARD_DONE, "a build is refused");
}

static void message(int other, int place) {
    Lent *b = &lent[other];
    BoardAnswer answer = (other ? other_board_message : board_message)(
        &b->head, b->operators, PLACES, b->rides, PLACES, b->stamps, PLACES, b->revisions, PLACES, b->index,
        RIDES * NODES, b->presence_stamps, NODES, b->presence_revisions, NODES, b->presence, NODES, messages[place]);
    expect(answer.code == BOARD_DONE, "a message is refused");
}

static BoardBands one_band(void) {
    return (BoardBands){.count = 1, .bands = {{.first = 0, .last = BOARD_GUESTS_MOST, .alpha = alpha, .beta = beta}}};
}

#ifdef OTHER_WITHOUT_CROWD_MINIMUMS

extern BoardCounts other_board_crowd_cover(BoardHead, const uint16_t *, size_t, const uint16_t *, size_t,
                                           const uint16_t *, size_t, BoardBands, uint16_t, uint16_t *, size_t);

static BoardCounts other_crowd_cover(Lent *b) {
    return other_board_crowd_cover(b->head, b->operators, PLACES, b->rides, PLACES, b->presence, NODES, one_band(), 0,
                                   b->marks, NODES);
}

#else

extern BoardCounts other_board_crowd_cover(BoardHead, const uint16_t *, size_t, const uint16_t *, size_t,
                                           const uint16_t *, size_t, BoardBands, uint16_t, const uint16_t *, size_t,
                                           uint16_t *, size_t);

static BoardCounts other_crowd_cover(Lent *b) {
    return other_board_crowd_cover(b->head, b->operators, PLACES, b->rides, PLACES, b->presence, NODES, one_band(), 0,
                                   b->minimums, RIDES, b->marks, NODES);
}

#endif

static void crowd_cover(int other, int place) {
    Lent *b = &lent[other];
    (void)place;
    BoardCounts counts = other ? other_crowd_cover(b)
                               : board_crowd_cover(b->head, b->operators, PLACES, b->rides, PLACES, b->presence, NODES,
                                                   one_band(), 0, b->minimums, RIDES, b->marks, NODES);
    expect(counts.code == BOARD_DONE, "a crowd cover is refused");
}

static void peel(int other, int place) {
    Lent *b = &lent[other];
    (void)place;
    for (int x = 0; x < NODES; x++) {
        b->marks[x] = 1;
    }
    BoardPeeled peeled = (other ? other_board_peel : board_peel)(
        b->head, b->operators, PLACES, b->rides, PLACES, b->presence, NODES, b->minimums, RIDES, b->marks, NODES, alpha,
        beta, 65535);
    expect(peeled.code == BOARD_DONE && peeled.settled == BOARD_SETTLED, "a peel doesn't settle");
}

static void own_cover(int other, int place) {
    Lent *b = &lent[other];
    (void)place;
    BoardCounts counts = (other ? other_board_own_cover : board_own_cover)(
        b->head, b->operators, PLACES, b->rides, PLACES, b->presence, NODES, b->minimums, RIDES, alpha, beta, b->marks,
        NODES);
    expect(counts.code == BOARD_DONE, "an own cover is refused");
}

static int compare(const void *a, const void *b) {
    double x = *(const double *)a, y = *(const double *)b;
    return (x > y) - (x < y);
}

static double median(const double *numbers) {
    double sorted[ROUNDS];
    memcpy(sorted, numbers, sizeof sorted);
    qsort(sorted, ROUNDS, sizeof *sorted, compare);
    return sorted[ROUNDS / 2];
}

static void measure(const char *call, int pairs, void (*run)(int other, int place)) {
    double times[2][ROUNDS];
    for (int round = -2; round < ROUNDS; round++) {
        for (int turn = 0; turn < 2; turn++) {
            int other = (turn + round) & 1;
            struct timespec begin, end;
            clock_gettime(CLOCK_MONOTONIC, &begin);
            for (int i = 0; i < CALLS; i++) {
                run(other, (round + 2) * CALLS + i);
            }
            clock_gettime(CLOCK_MONOTONIC, &end);
            if (0 <= round) {
                double seconds = (double)(end.tv_sec - begin.tv_sec) + (double)(end.tv_nsec - begin.tv_nsec) / 1e9;
                times[other][round] = seconds * 1e6 / CALLS;
            }
        }
    }
    expect(memcmp(&lent[0], &lent[1], sizeof *lent) == 0, "the archives leave different words");
    printf("%s\t%d\t%.3f\t%.3f\n", call, pairs, median(times[0]), median(times[1]));
}

/* A board with so many pairs at random; messages that in turn withdraw a listed pair and grant an unlisted one. */
static void make(int pairs) {
    static uint16_t order[PLACES];
    static uint8_t listed[PLACES];
    state = 0x9E3779B97F4A7C15u ^ (uint64_t)pairs;
    memset(lent, 0, sizeof lent);
    memset(listed, 0, sizeof listed);
    for (int i = 0; i < PLACES; i++) {
        uint32_t j = below((uint32_t)i + 1);
        order[i] = order[j];
        order[j] = (uint16_t)i;
    }
    for (int i = 0; i < pairs; i++) {
        listed[order[i]] = 1;
    }
    for (int i = 0; i < PLACES; i++) {
        if (listed[i]) {
            lent[0].operators[lent[0].head.pairs] = (uint16_t)(i / RIDES);
            lent[0].rides[lent[0].head.pairs++] = (uint16_t)(i % RIDES);
        }
    }
    lent[0].head.operators = OPERATORS;
    lent[0].head.rides = RIDES;
    lent[1] = lent[0];
    for (int i = 0; i < (ROUNDS + 2) * CALLS; i++) {
        int place = order[(i & 1) && pairs < PLACES ? pairs + i / 2 : i / 2];
        messages[i] = (BoardMessage){.kind = (i & 1) ? BOARD_GRANT : BOARD_WITHDRAWAL,
                                     .operator_number = (uint16_t)(place / RIDES),
                                     .ride = (uint16_t)(place % RIDES),
                                     .stamp = 2 + (uint32_t)i};
    }
}

/* Limits under which at least half of the rides are dropped: alpha is two thirds of the operators' mean degree. */
static void choose_limits(int pairs) {
    uint16_t levels[RIDES];
    alpha = (uint16_t)(pairs / OPERATORS * 2 / 3);
    memcpy(levels, &lent[0].index[(alpha - 1) * NODES + OPERATORS], sizeof levels);
    for (int i = 1; i < RIDES; i++) {
        for (int j = i; 0 < j && levels[j] < levels[j - 1]; j--) {
            uint16_t level = levels[j];
            levels[j] = levels[j - 1];
            levels[j - 1] = level;
        }
    }
    beta = (uint16_t)(levels[RIDES / 2] + 1);
}

/* The minimum of each ride. */
static void set_minimums(uint16_t minimum) {
    for (int v = 0; v < RIDES; v++) {
        lent[0].minimums[v] = lent[1].minimums[v] = minimum;
    }
}

int main(void) {
    static const int sizes[] = {3000, 6000, 12000};
    for (size_t size = 0; size < sizeof sizes / sizeof *sizes; size++) {
        make(sizes[size]);
        measure("build", sizes[size], build);
        choose_limits(sizes[size]);
        measure("peel", sizes[size], peel);
        measure("crowd cover", sizes[size], crowd_cover);
        measure("own cover", sizes[size], own_cover);
        set_minimums(beta);
        measure("peel, minimums", sizes[size], peel);
        measure("crowd cover, minimums", sizes[size], crowd_cover);
        measure("own cover, minimums", sizes[size], own_cover);
        measure("message", sizes[size], message);
    }
    return 0;
}
