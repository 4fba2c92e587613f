/* A stop of 901 samples, whose engine gives a New at tick 300 and Updates at 450, 600, 750 and 900. Of these messages two lie in any 300
 * ticks on end, the first two in those from 300 on, and three in 301.
 * Build: make lib && cc -I target examples/busiest.c target/libyoldrim.a -o target/busiest */
#include "yoldrim.h"
#include <stdio.h>

int main(void) {
    uint8_t engine[YOLDRIM_ENGINE_BYTES], records[5 * YOLDRIM_MESSAGE_BYTES + YOLDRIM_SAMPLE_OUT_BYTES];
    size_t used = 0;
    if (yoldrim_fresh(engine, sizeof engine) != 0) return 1;
    for (uint32_t tick = 0; tick <= 900; tick++) {
        uint8_t sample[YOLDRIM_SAMPLE_BYTES] = {tick & 255, tick >> 8, 0, 0, 0, 0, 3, 3};
        int32_t given = yoldrim_sample(engine, sizeof engine, sample, sizeof sample, records + used, YOLDRIM_SAMPLE_OUT_BYTES);
        if (given < 0 || used > 5 * YOLDRIM_MESSAGE_BYTES) return 1;
        used += (size_t)given * YOLDRIM_MESSAGE_BYTES;
    }
    uint32_t of_300 = 0, of_301 = 0, of_none = 7;
    int64_t in_300 = yoldrim_busiest_stretch(records, used, 300, &of_300);
    int64_t in_301 = yoldrim_busiest_stretch(records, used, 301, &of_301);
    int64_t in_none = yoldrim_busiest_stretch(records, 0, 301, &of_none);
    printf("%lld messages from tick %u, %lld from tick %u\n", (long long)in_300, of_300, (long long)in_301, of_301);
    return in_300 == 2 && of_300 == 300 && in_301 == 3 && of_301 == 300 && in_none == 0 && of_none == 7 ? 0 : 1;
}
