/* Names bodies: for each argument, the bytes of a message in hexadecimal, prints the name of the body that it is, or
 * the number of the refusal. */
#include "club_register.h"

#include <stdio.h>
#include <string.h>

/* More than any message has: a longer argument is cut there, and is malformed all the same. */
enum { MOST = 4096 };

static int digit_value(char c) {
    if (c >= '0' && c <= '9') return c - '0';
    if (c >= 'a' && c <= 'f') return c - 'a' + 10;
    if (c >= 'A' && c <= 'F') return c - 'A' + 10;
    return -1;
}

/* The bytes that the digits say, and how many; or -1 where their number is odd or one is no digit. */
static int decode(const char *digits, uint8_t *bytes) {
    int count = 0;
    for (; digits[0] != '\0' && count < MOST; digits += 2, count++) {
        int high = digit_value(digits[0]);
        int low = high < 0 ? -1 : digit_value(digits[1]);
        if (low < 0) return -1;
        bytes[count] = (uint8_t)(high * 16 + low);
    }
    return count;
}

/* Names one message; the output is filled first, so that a refusal shows that it writes nothing. */
static void print_name(const uint8_t *message, int length) {
    uint8_t name[32], untouched[32];
    memset(name, 0xa5, sizeof name);
    memset(untouched, 0xa5, sizeof untouched);
    int number = club_register_name(message, (size_t)length, name);
    if (number != 0) {
        printf("refused %d%s\n", number, memcmp(name, untouched, sizeof name) == 0 ? "" : ", but written");
        return;
    }
    for (size_t i = 0; i < sizeof name; i++) printf("%02x", name[i]);
    printf("\n");
}

int main(int argc, char **argv) {
    for (int i = 1; i < argc; i++) {
        uint8_t message[MOST];
        int length = decode(argv[i], message);
        if (length < 0)
            printf("not hexadecimal\n");
        else
            print_name(message, length);
    }
    return 0;
}
