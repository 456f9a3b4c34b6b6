/* The schedule of mains-dip.c written to a card, and read back from it in parts of 7 bytes, as a slow card reader hands them over; then
 * played. */
#include "../crackledray.h"
#include <stdio.h>

static uint64_t state[CRACKLEDRAY_STATE], card[CRACKLEDRAY_CARD_LENGTH];
static float store[CRACKLEDRAY_STORE], numbers[CRACKLEDRAY_STORE], output[CRACKLEDRAY_COUNT];
static uint8_t file[CRACKLEDRAY_FILE_LENGTH], window[CRACKLEDRAY_WINDOW_LENGTH];

/* Ends the program where a call is refused. */
static int done(const char *call, uint32_t number, size_t at) {
    if (number != CRACKLEDRAY_ANSWERED)
        printf("%s refused: %u at %u\n", call, (unsigned)number, (unsigned)at);
    return number == CRACKLEDRAY_ANSWERED;
}

static int schedule(void) {
    static const float flicker[] = {230, 236, 230, 224, 230};
    return done("make", crackledray_make(state, CRACKLEDRAY_STATE, 0, 230, 400, false), 0) &&
           done("step", crackledray_step(state, CRACKLEDRAY_STATE, 230, 0), 0) &&
           done("linear", crackledray_linear(state, CRACKLEDRAY_STATE, 92, 0.08), 0) &&
           done("target", crackledray_target(state, CRACKLEDRAY_STATE, 230, 0.19, 0.03), 0) &&
           done("curve", crackledray_curve(state, CRACKLEDRAY_STATE, flicker, 5, 0.35, 0.08, store, CRACKLEDRAY_STORE), 0);
}

/* The file, a line for each field. */
static void print(size_t length) {
    size_t i, end = 0;
    for (i = 0; i < length; i++) {
        if (i == end) {
            printf(i ? "\n%u:" : "%u:", (unsigned)i);
            end = i + 3 + file[i + 1] + 256 * (size_t)file[i + 2];
        }
        printf(" %02x", file[i]);
    }
    printf("\n%u bytes\n", (unsigned)length);
}

static int read_back(size_t length) {
    size_t i, at = 0;
    if (!done("open", crackledray_card_open(card, CRACKLEDRAY_CARD_LENGTH, numbers, CRACKLEDRAY_STORE, false, CRACKLEDRAY_FIRST_EDITION),
              0))
        return 0;
    for (i = 0; i < length; i += 7)
        if (!done("part",
                  crackledray_card_part(card, CRACKLEDRAY_CARD_LENGTH, window, CRACKLEDRAY_WINDOW_LENGTH, numbers, CRACKLEDRAY_STORE,
                                        file + i, length - i < 7 ? length - i : 7),
                  i))
            return 0;
    return done("end",
                crackledray_card_end(card, CRACKLEDRAY_CARD_LENGTH, window, CRACKLEDRAY_WINDOW_LENGTH, numbers, CRACKLEDRAY_STORE, state,
                                     CRACKLEDRAY_STATE, store, CRACKLEDRAY_STORE, &at),
                at);
}

static int play(void) {
    float silence[1] = {0}, current = 0;
    size_t i, steps = 0;
    bool one = false;
    if (!done("block", crackledray_block(state, CRACKLEDRAY_STATE, 0, 0.01, 48, silence, 0, output, CRACKLEDRAY_COUNT, store,
                                         CRACKLEDRAY_STORE, &steps, &current, &one), 0))
        return 0;
    for (i = 0; i < 48; i += 3)
        printf(i ? " %.3f" : "%.3f", output[i]);
    printf("\n");
    return 1;
}

int main(void) {
    size_t length = 0;
    if (!schedule() || !done("write", crackledray_card_write(state, CRACKLEDRAY_STATE, store, CRACKLEDRAY_STORE, file,
                                                             CRACKLEDRAY_FILE_LENGTH, &length), length))
        return 1;
    print(length);
    /* another parameter stands there until the file is read */
    if (!done("make", crackledray_make(state, CRACKLEDRAY_STATE, 0, 0, 1, true), 0) || !read_back(length) || !play())
        return 1;
    return 0;
}
