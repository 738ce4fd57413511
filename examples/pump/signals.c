#include "flow.h"
#include "signals.h"

enum { TAPS = 8 };

static const int weights[TAPS] = {3, 7, 11, 13, 13, 11, 7, 3};
static int samples[TAPS];

/* The weighted mean of the newest samples. */
int filtered(int sample)
{
    int sum = 0;
    for (int i = TAPS - 1; i > 0; i--) {
        LOOP_BOUND(TAPS - 1);
        samples[i] = samples[i - 1];
        sum += weights[i] * samples[i];
    }
    samples[0] = sample;
    return (sum + weights[0] * sample) / 68;
}

int limited(int value, int least, int most)
{
    if (value < least)
        return least;
    return value > most ? most : value;
}

/* The CRC-32 of the bytes, bit by bit. */
unsigned checked(const unsigned char *bytes, int count)
{
    unsigned crc = ~0u;
    for (int i = 0; i < count; i++) {
        LOOP_BOUND(8);
        crc ^= bytes[i];
        for (int bit = 0; bit < 8; bit++) {
            LOOP_BOUND(8);
            if (crc & 1)
                crc = (crc >> 1) ^ 0xedb88320u;
            else
                crc >>= 1;
        }
    }
    return ~crc;
}

/* The decimal digits of the number, at most ten; how many they are. */
int written(unsigned number, unsigned char *place)
{
    unsigned char digits[10];
    int count = 0;
    do {
        LOOP_BOUND(10);
        digits[count++] = '0' + number % 10;
        number /= 10;
    } while (number != 0);
    for (int i = 0; i < count; i++) {
        LOOP_BOUND(10);
        place[i] = digits[count - 1 - i];
    }
    return count;
}
