/* The compiled f64_to_f32 against C's own (float): every exponent with digits near ties, then random bits.
   `narrowing N` tries N million random inputs. */
#include <math.h>
#include <stdint.h>
#include <stdio.h>
#include <stdlib.h>
#include <string.h>

float kernel_f64_to_f32(double x);

static uint64_t tried;

static void compare(uint64_t bits)
{
    double x;
    uint32_t ours_bits, c_bits;
    memcpy(&x, &bits, sizeof x);
    float ours = kernel_f64_to_f32(x), c = (float)x;
    memcpy(&ours_bits, &ours, sizeof ours);
    memcpy(&c_bits, &c, sizeof c);
    tried++;
    if (ours_bits != c_bits && !(isnan(ours) && isnan(c))) {
        printf("narrowing: %016llx: ours %08x, C's %08x\n", (unsigned long long)bits, ours_bits, c_bits);
        exit(1);
    }
}

int main(int argc, char **argv)
{
    const uint64_t mask = ((uint64_t)1 << 52) - 1;
    for (uint64_t top = 0; top < 4096; top++)
        for (int k = 0; k < 52; k++)
            for (int64_t d = -2; d <= 2; d++) {
                uint64_t one = (uint64_t)1 << k;
                compare(top << 52 | ((one + d) & mask));
                compare(top << 52 | ((one + one / 2 + d) & mask));
                compare(top << 52 | ((d - (int64_t)one) & mask));
            }
    uint64_t s = 0x9e3779b97f4a7c15u;
    long millions = argc > 1 ? strtol(argv[1], NULL, 10) : 1;
    for (long i = 0; i < millions * 1000000; i++) {
        s ^= s << 13;
        s ^= s >> 7;
        s ^= s << 17;
        compare(s);
        compare((s & ~((uint64_t)0x7ff << 52)) | (uint64_t)(868 + s % 290) << 52);
    }
    printf("narrowing: %llu inputs agree with C's (float)\n", (unsigned long long)tried);
    return 0;
}
