/* A board in static memory: build it, take one message, ask for a ride's dispatch permit. */
#include <stdio.h>

#include "board.h"

/* The pairs (0, 5), (3, 5) and (17, 4). */
BOARD_STORAGE(memory, 200, 60) = {{0, 3, 17}, {5, 5, 4}, {0}, {0}, {0}, {0}, {0}, {0}};
static Board board = BOARD_OVER(memory, 200, 60, 3);
static uint16_t marks[BOARD_MARK_PLACES(200, 60)];

int main(void) {
    uint16_t code = board_build_on(&board, 1);
    printf("build: %s\n", board_text(code));

    BoardMessage grant = {BOARD_GRANT, 17, 5, 0, 1700000000}; /* kind, operator, ride, revision, stamp */
    BoardAnswer answer = board_message_on(&board, grant);
    printf("grant: %s\n", board_text(answer.code));

    BoardCounts counts = board_query_on(&board, 1, 3, marks, BOARD_LENGTH(marks));
    int permit = counts.code == BOARD_DONE && marks[BOARD_RIDE_MARK(board.head.operators, 5)] == 1;
    printf("ride 5 under limits (1,3): %s\n", permit ? "permit" : "no permit");
    return permit ? 0 : 1;
}
