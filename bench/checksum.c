/* The checksum of square roots that `cases` compares with, worked out by the processor's own instruction:
   cc -O2 -o checksum checksum.c -lm && ./checksum */
#include <math.h>
#include <stdint.h>
#include <stdio.h>
#include <string.h>

int main(void) {
    uint64_t sum = 1, x = 0x9e3779b97f4a7c15u;
    for (int i = 0; i < 300000; i++) {
        x ^= x << 13;
        x ^= x >> 7;
        x ^= x << 17;
        uint64_t word = x & 0x7fffffffffffffffu;
        double v;
        memcpy(&v, &word, 8);
        if (isfinite(v)) {
            v = sqrt(v);
            memcpy(&word, &v, 8);
        } else {
            word = 2; /* the refusal's number */
        }
        sum = (sum % 0x7fffffff * 69069 + word % 0x80000000u * 3 + word / 0x80000000u % 0x80000000u) % 0x7fffffff;
    }
    printf("%llu\n", (unsigned long long)sum);
    return 0;
}
