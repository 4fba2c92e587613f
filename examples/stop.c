/* A stop: 301 samples, speed 0, hazard lights and ignition on, forward gear. Warning 1 is given at tick 300.
 * Build: make lib && cc -I target examples/stop.c target/libyoldrim.a -o target/stop */
#include "yoldrim.h"
#include <stdio.h>

int main(void) {
    uint8_t engine[YOLDRIM_ENGINE_BYTES], out[YOLDRIM_SAMPLE_OUT_BYTES];
    int32_t given = yoldrim_fresh(engine, sizeof engine), news = 0;
    if (given != 0) return 1;
    for (uint32_t tick = 0; tick <= 300; tick++) {
        uint8_t sample[YOLDRIM_SAMPLE_BYTES] = {tick & 255, tick >> 8, 0, 0, 0, 0, 3, 3};
        given = yoldrim_sample(engine, sizeof engine, sample, sizeof sample, out, sizeof out);
        if (given < 0) {
            printf("%u refused %d\n", tick, -given);
            return 1;
        }
        for (int32_t i = 0; i < given; i++, news++) {
            const uint8_t *m = out + YOLDRIM_MESSAGE_BYTES * i;
            if (yoldrim_message_check(m, YOLDRIM_MESSAGE_BYTES) != 0) return 1;
            printf("%u %c %u %u %u\n", tick, "?NUC"[m[0]], m[1], m[4], m[8]);
        }
    }
    return news == 1 && given == 1 && out[0] == 1 && out[1] == 1 ? 0 : 1;
}
