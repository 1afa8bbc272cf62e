/* The game of life on a torus of 16 by 16 cells, bit by bit, with an interrupt of timer 0 every 1,000 cycles. */
#include <8052.h>

static unsigned int rows[16], after[16];
static volatile unsigned char ticks;

void timer_0(void) __interrupt(1) {
    TH0 = 0xFC;
    TL0 = 0x18;
    ticks++;
}

static unsigned char is_alive(unsigned char row, unsigned char column) {
    return rows[row & 15] >> (column & 15) & 1;
}

static unsigned char around(unsigned char row, unsigned char column) {
    return is_alive(row - 1, column - 1) + is_alive(row - 1, column) + is_alive(row - 1, column + 1)
        + is_alive(row, column - 1) + is_alive(row, column + 1)
        + is_alive(row + 1, column - 1) + is_alive(row + 1, column) + is_alive(row + 1, column + 1);
}

void main(void) {
    rows[1] = 2;
    rows[2] = 4;
    rows[3] = 7;
    TMOD = 1;
    IE = 0x82;
    TR0 = 1;
    for (;;) {
        unsigned char row, column, count;
        for (row = 0; row < 16; row++) {
            after[row] = 0;
            for (column = 0; column < 16; column++) {
                count = around(row, column);
                if (count == 3 || (count == 2 && is_alive(row, column))) after[row] |= 1U << column;
            }
        }
        for (row = 0; row < 16; row++) rows[row] = after[row];
        P1 = ticks;
    }
}
