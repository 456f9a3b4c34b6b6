/* A mains dip, as an inverter under test sees it: the schedule of examples/mains-dip.txt, from C. First in blocks of 16 samples, then
 * all of it in one block of 480, which the second edition has room for. */
#include "../crackledray.h"
#include <stdio.h>

static uint64_t state[CRACKLEDRAY_STATE];
static float store[CRACKLEDRAY_STORE];
static float output[CRACKLEDRAY_LONG_COUNT];

/* Ends the program where a call is refused. */
static int done(const char *call, uint32_t number) {
    if (number != CRACKLEDRAY_ANSWERED)
        printf("%s refused: %u\n", call, (unsigned)number);
    return number == CRACKLEDRAY_ANSWERED;
}

static int schedule(void) {
    static const float flicker[] = {230, 236, 230, 224, 230};
    return done("step", crackledray_step(state, CRACKLEDRAY_STATE, 230, 0)) &&
           done("linear", crackledray_linear(state, CRACKLEDRAY_STATE, 230, 0.05)) &&
           done("linear", crackledray_linear(state, CRACKLEDRAY_STATE, 92, 0.08)) &&
           done("linear", crackledray_linear(state, CRACKLEDRAY_STATE, 92, 0.15)) &&
           done("linear", crackledray_linear(state, CRACKLEDRAY_STATE, 161, 0.19)) &&
           done("target", crackledray_target(state, CRACKLEDRAY_STATE, 230, 0.19, 0.03)) &&
           done("curve", crackledray_curve(state, CRACKLEDRAY_STATE, flicker, 5, 0.35, 0.08, store, CRACKLEDRAY_STORE));
}

/* A block, of which every so many samples are printed. */
static int play(double time, double period, size_t count, size_t every) {
    float silence[1] = {0}, current = 0;
    size_t steps = 0;
    bool one = false;
    if (!done("block", crackledray_block(state, CRACKLEDRAY_STATE, time, period, count, silence, 0, output, CRACKLEDRAY_LONG_COUNT,
                                         store, CRACKLEDRAY_STORE, &steps, &current, &one)))
        return 0;
    printf("%.2f s, %u samples, %u steps:", time, (unsigned)count, (unsigned)steps);
    for (size_t i = 0; i < count; i += every)
        printf(" %.3f", output[i]);
    printf("\n");
    return 1;
}

static int in_three(void) {
    return done("make", crackledray_make(state, CRACKLEDRAY_STATE, 0, 230, 400, false)) && schedule() && play(0, 0.01, 16, 1) &&
           play(0.16, 0.01, 16, 1) && play(0.32, 0.01, 16, 1);
}

static int at_once(void) {
    return done("make", crackledray_make_under(state, CRACKLEDRAY_STATE, 0, 230, 400, false, CRACKLEDRAY_SECOND_EDITION)) &&
           schedule() && play(0, 0.001, 480, 30);
}

int main(void) {
    if (crackledray_version() != CRACKLEDRAY_VERSION) {
        printf("the archive is not the header's: %06x, %06x\n", (unsigned)crackledray_version(), CRACKLEDRAY_VERSION);
        return 1;
    }
    return in_three() && at_once() ? 0 : 1;
}
