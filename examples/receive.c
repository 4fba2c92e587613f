/* A stop whose hazard lights go off at tick 301: its engine gives a New at 300 and a Cancel at 301, which a receiver takes as those of
 * sender 7, on a clock of its own. The New is shown, the Cancel is not. Then the lamp, 150 m from a hazard at 20 m/s.
 * Build: make lib && cc -I target examples/receive.c target/libyoldrim.a -o target/receive */
#include "yoldrim.h"
#include <stdio.h>

int main(void) {
    uint8_t engine[YOLDRIM_ENGINE_BYTES], out[YOLDRIM_SAMPLE_OUT_BYTES];
    uint8_t receiver[YOLDRIM_RECEIVER_BYTES], shown[YOLDRIM_SHOW_OUT_BYTES];
    int32_t messages = 0, held = 0;
    if (yoldrim_fresh(engine, sizeof engine) != 0 || yoldrim_receiver_empty(receiver, sizeof receiver) != 0) return 1;
    for (uint32_t tick = 0; tick <= 301; tick++) {
        uint8_t sample[YOLDRIM_SAMPLE_BYTES] = {tick & 255, tick >> 8, 0, 0, 0, 0, 3, tick <= 300 ? 3 : 2};
        int32_t given = yoldrim_sample(engine, sizeof engine, sample, sizeof sample, out, sizeof out);
        for (int32_t i = 0; i < given; i++, messages++) {
            const uint8_t *m = out + YOLDRIM_MESSAGE_BYTES * i;
            if (yoldrim_receive(receiver, sizeof receiver, 5000 + tick, 7, m, YOLDRIM_MESSAGE_BYTES) != 1) return 1;
            held = yoldrim_show(receiver, sizeof receiver, shown, sizeof shown);
            printf("%u %c: %d shown", tick, "?NUC"[m[0]], held);
            for (int32_t n = 0; n < held; n++) {
                const uint8_t *s = shown + YOLDRIM_SHOWN_BYTES * n;
                printf(", warning %u of sender %u", s[5], s[0]);
            }
            printf("\n");
            if (messages == 0 && (m[0] != 1 || held != 1 || shown[0] != 7 || shown[4] != 1)) return 1;
        }
    }
    float seconds = 0;
    int32_t answer = yoldrim_lamp(15000, 2000, &seconds);
    if (answer == YOLDRIM_LAMP_SECONDS) printf("%.1f s\n", seconds);
    return messages == 2 && held == 0 && answer == YOLDRIM_LAMP_SECONDS && seconds == 7.5f ? 0 : 1;
}
