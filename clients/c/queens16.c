/* Puts eight queens on a board so that none attacks another, and prints the first way and how many there are. Protected mode of 16 bits. */
#include "dos.h"

#define SIZE 8

static char column_of[SIZE];            /* of the queen in each row */
static unsigned ways;

static int is_attacked(int row, int column)
{
    for (int above = 0; above < row; above++) {
        int distance = column - column_of[above];
        if (distance == 0 || distance == row - above || distance == above - row)
            return 1;
    }
    return 0;
}

static void print_board(void)
{
    for (int row = 0; row < SIZE; row++) {
        for (int column = 0; column < SIZE; column++)
            put_text(column == column_of[row] ? "Q " : ". ");
        put_text("\r\n");
    }
}

static void place(int row)
{
    if (row == SIZE) {
        if (ways++ == 0)
            print_board();
        return;
    }
    for (int column = 0; column < SIZE; column++)
        if (!is_attacked(row, column)) {
            column_of[row] = column;
            place(row + 1);
        }
}

int main(void)
{
    place(0);
    put_number(ways);
    put_text(" ways\r\n");
    return 0;
}
