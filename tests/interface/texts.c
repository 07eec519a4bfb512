/* Prints the text of each number on standard input, a line each. */
#include <haqothwe.h>
#include <inttypes.h>
#include <stdio.h>

int main(void) {
    uint32_t number;
    while (scanf("%" SCNu32, &number) == 1)
        puts(haq_refusal_text(number));
    return 0;
}
