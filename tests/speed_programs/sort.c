/* Numbers of a congruence, sorted by insertion through pointers, again and again. */
#include <8052.h>

static __idata unsigned int numbers[40];
static unsigned int state = 1;

static unsigned int drawn(void) {
    state = state * 25173 + 13849;
    return state >> 3;
}

static void sort(unsigned int *first, unsigned char count) {
    unsigned char at, left;
    for (at = 1; at < count; at++) {
        unsigned int number = first[at];
        for (left = at; left && first[left - 1] > number; left--) first[left] = first[left - 1];
        first[left] = number;
    }
}

void main(void) {
    for (;;) {
        unsigned char at;
        for (at = 0; at < 40; at++) numbers[at] = drawn();
        sort(numbers, 40);
        P1 = numbers[20];
    }
}
