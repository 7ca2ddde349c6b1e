/* Times pages of the setting long: encoding one, and reading one with 0 to 7 wrong bits. Every page that has at most 5 is compared. */
#define _POSIX_C_SOURCE 200809L
#include <stddef.h>
#include <stdint.h>
#include <stdio.h>
#include <stdlib.h>
#include <string.h>
#include <time.h>

enum { DATA = 1025, PAGE = 1037, WORD_BITS = 8281, ROUNDS = 2000 };

uint8_t fadedopal_long_encode_page(const uint8_t *bytes, size_t bytes_len, uint8_t *page, size_t page_len);
uint8_t fadedopal_long_read_page(const uint8_t *page, size_t page_len, uint8_t *bytes, size_t bytes_len);

static double now(void) {
    struct timespec t;
    clock_gettime(CLOCK_MONOTONIC, &t);
    return t.tv_sec * 1e9 + t.tv_nsec;
}

int main(void) {
    static uint8_t data[DATA], page[PAGE], damaged[PAGE], back[DATA];
    srand(1);
    for (int i = 0; i < DATA; i++)
        data[i] = rand();

    double start = now();
    for (int i = 0; i < ROUNDS; i++) {
        data[i % DATA]++;
        if (fadedopal_long_encode_page(data, DATA, page, PAGE) != 0)
            return 1;
    }
    printf("encode              %8.0f ns\n", (now() - start) / ROUNDS);

    for (int wrong = 0; wrong <= 7; wrong++) {
        double total = 0, most = 0;
        for (int i = 0; i < ROUNDS; i++) {
            memcpy(damaged, page, PAGE);
            for (int flips = 0; flips < wrong;) {
                int at = rand() % WORD_BITS, mask = 0x80 >> at % 8;
                if (((damaged[at / 8] ^ page[at / 8]) & mask) == 0) {
                    damaged[at / 8] ^= mask;
                    flips++;
                }
            }
            start = now();
            int answer = fadedopal_long_read_page(damaged, PAGE, back, DATA);
            double time = now() - start;
            total += time;
            if (time > most)
                most = time;
            if (wrong <= 5 && (answer != 0 || memcmp(back, data, DATA) != 0)) {
                printf("a page with %d wrong bits was not read back\n", wrong);
                return 1;
            }
        }
        printf("read, %d wrong bits  %8.0f ns, at most %.0f ns\n", wrong, total / ROUNDS, most);
    }
    return 0;
}
