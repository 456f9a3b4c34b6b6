/* One kind of block, N times, on x86-64 with no C library: says how often memory of a size was copied or set. speed/count builds and runs it. */
typedef unsigned long size_t;
typedef unsigned long word;

enum { STATE = 399, STORE = 4096, COUNT = 128, LONG_COUNT = 1024, SIZES = 3 };

/* the exported calls, as in library/crackledray.h, and the loops of speed_c and speed_a */
unsigned crackledray_make_under(word *state, size_t states, float min, float start, float max, _Bool k_rate, word edition);
unsigned crackledray_step(word *state, size_t states, float value, double time);
unsigned crackledray_linear(word *state, size_t states, float value, double time);
unsigned crackledray_exponential(word *state, size_t states, float value, double time);
unsigned crackledray_target(word *state, size_t states, float value, double time, double constant);
size_t speed_value(const word *state, size_t states, double time, double period, size_t count, double advance, size_t blocks,
                   const float *input, size_t inputs, float *output, size_t outputs, float *store, size_t stores);
size_t speed_again(const word *state, size_t states, double time, double period, size_t count, double advance, _Bool again,
                   size_t blocks, const float *input, size_t inputs, float *output, size_t outputs, float *store, size_t stores);

/* of 3,000 bytes and more (the parameter's slots), of 500 and more, and all smaller ones */
static size_t copied[SIZES], zeroed[SIZES];
static int size_of(size_t n) { return n >= 3000 ? 0 : n >= 500 ? 1 : 2; }

/* apart in a section, so that speed/count can leave their instructions out */
#define APART __attribute__((section("apart"), used, noinline))
APART void *memcpy(void *to, const void *from, size_t n) {
    void *all = to;
    copied[size_of(n)]++;
    __asm__ volatile("rep movsb" : "+D"(to), "+S"(from), "+c"(n) : : "memory");
    return all;
}
APART void *memmove(void *to, const void *from, size_t n) {
    char *a = to;
    const char *b = from;
    copied[size_of(n)]++;
    if (a < b) {
        for (size_t i = 0; i < n; i++) { a[i] = b[i]; __asm__ volatile(""); }
    } else {
        for (size_t i = n; i-- > 0;) { a[i] = b[i]; __asm__ volatile(""); }
    }
    return to;
}
APART void *memset(void *to, int c, size_t n) {
    void *all = to;
    zeroed[size_of(n)]++;
    __asm__ volatile("rep stosb" : "+D"(to), "+c"(n) : "a"(c) : "memory");
    return all;
}
extern char __start_apart[], __stop_apart[];

static void say(const char *text, size_t n) {
    long done;
    __asm__ volatile("syscall" : "=a"(done) : "0"(1), "D"(1), "S"(text), "d"(n) : "rcx", "r11", "memory");
}
static void number(size_t n, size_t base) {
    char text[24];
    int at = 24;
    text[--at] = ' ';
    do { text[--at] = "0123456789abcdef"[n % base]; n /= base; } while (n);
    say(text + at, 24 - at);
}

static word state[STATE];
static float output[LONG_COUNT], store[STORE];

/* whether a block uses the kind's events up, and when that block is */
static _Bool is_once(char kind) { return kind == 's' || kind == 'r' || kind == 'n' || kind == 'b'; }
static double from(char kind) { return kind == 'n' || kind == 'b' ? 1000 * (double)COUNT / 48000.0 : 0.0; }

/* a time nearest to the place, but seldom at its very time */
static double near(char kind, int place, int i) {
    double aside = i * 0.618 - (double)(int)(i * 0.618) - 0.5, at = place + aside;
    return from(kind) + (at > 0.0 ? at : 0.0) / 48000.0;
}

/* kinds of speed/run: c l e t s r k h, session n, beyond b; g: linear in a block of 1,024 under the second edition */
static void schedule(char kind) {
    double period = 1.0 / 48000.0, hour = 3600.0;
    crackledray_make_under(state, STATE, -1000.0f, 0.5f, 1000.0f, kind == 'k', kind == 'g' ? 2 : 1);
    if (kind != 'c' && !is_once(kind)) crackledray_step(state, STATE, 1.0f, 0.0);
    if (kind == 'l' || kind == 'k' || kind == 'h' || kind == 'g') crackledray_linear(state, STATE, 2.0f, hour);
    if (kind == 'e') crackledray_exponential(state, STATE, 2.0f, hour);
    if (kind == 't') crackledray_target(state, STATE, 2.0f, 0.0, hour);
    for (int i = 0; i < 64; i++) {
        if (kind == 's') crackledray_step(state, STATE, (float)i, 2 * i * period);
        if (kind == 'r') crackledray_linear(state, STATE, (float)(i % 5), (2 * i + 1) * period);
        if (kind == 'n') crackledray_step(state, STATE, (float)i, near(kind, 2 * i, i));
        if (kind == 'b') crackledray_step(state, STATE, (float)i, near(kind, 16 + 7 * i / 4, i));
    }
}

/* KIND N: the copies and the zeroings by size, the samples' sum in thousandths, and where the section apart lies */
__attribute__((used)) static void start(long *stack) {
    char **words = (char **)(stack + 1);
    char kind = words[1][0];
    double period = 1.0 / 48000.0;
    size_t blocks = 0, count = kind == 'h' ? 64 : kind == 'g' ? LONG_COUNT : COUNT, room = kind == 'g' ? LONG_COUNT : COUNT;
    for (char *p = words[2]; *p; p++) blocks = 10 * blocks + (size_t)(*p - '0');
    schedule(kind);
    for (int i = 0; i < SIZES; i++) copied[i] = zeroed[i] = 0;
    if (is_once(kind))
        speed_again(state, STATE, from(kind), period, count, 0.0, 1, blocks, output, 0, output, room, store, STORE);
    else
        speed_value(state, STATE, 0.0, period, count, (double)count * period, blocks, output, 0, output, room, store, STORE);
    double sum = 0.0;
    for (size_t i = 0; i < count; i++) sum += output[i];
    for (int i = 0; i < SIZES; i++) number(copied[i], 10);
    for (int i = 0; i < SIZES; i++) number(zeroed[i], 10);
    number((size_t)(sum * 1000.0), 10);
    number((size_t)__start_apart, 16);
    number((size_t)__stop_apart, 16);
    say("\n", 1);
    __asm__ volatile("syscall" : : "a"(60), "D"(0));
}
__asm__(".globl _start\n_start: mov %rsp, %rdi\n and $-16, %rsp\n call start\n");
