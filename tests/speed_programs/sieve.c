/* Primes below 8,192, with flags in external memory, again and again. */
#include <8052.h>

static __xdata unsigned char is_crossed[8192];

void main(void) {
    unsigned int number, multiple;
    for (;;) {
        unsigned int primes = 0;
        for (number = 0; number < 8192; number++) is_crossed[number] = 0;
        for (number = 2; number < 8192; number++) {
            if (is_crossed[number]) continue;
            primes++;
            for (multiple = number + number; multiple < 8192; multiple += number) is_crossed[multiple] = 1;
        }
        P1 = primes;
    }
}
