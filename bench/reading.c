/* The pixel work of bench/reading: makes photographs of labels, and puts them through the library.
 * Usage: reading photograph|restore < jobs    (a job a line; each function below says what stands in it) */
#include <math.h>
#include <stdio.h>
#include <stdlib.h>
#include <string.h>
#include "smear.h"

/* MOST: pixels of a picture's side; FINE: samples along a pixel's side, at which a label is looked at */
enum { MOST = 400, FINE = 4, SAMPLES = MOST * FINE, MODULES = 21, REACH = 6 * FINE, TAPS = FINE + 2 * REACH };

static uint8_t src[MOST * MOST], dst[MOST * MOST], file[17 + MOST * MOST];
static int32_t scratch[3 * MOST];
static smear_swing swings[MOST * MOST];
static float label[SAMPLES * SAMPLES], moved[SAMPLES * SAMPLES], narrowed[SAMPLES * MOST];

static void fail(const char *why, const char *what) {
    fprintf(stderr, "reading: %s %s\n", why, what);
    exit(1);
}

/* ---- PGM files of square pictures, through the library */

static void write_pgm(const char *path, const uint8_t *pixels, size_t side) {
    FILE *out = fopen(path, "wb");
    size_t length;
    if (!out || smear_write_pgm(pixels, side * side, side, side, side, file, sizeof file, &length) ||
        fwrite(file, 1, length, out) != length || fclose(out))
        fail("cannot write", path);
}

/* into src; answers the side */
static size_t read_pgm(const char *path) {
    FILE *in = fopen(path, "rb");
    size_t width, height, start;
    if (!in || smear_read_pgm(file, fread(file, 1, sizeof file, in), &width, &height, &start) || width != height)
        fail("cannot read", path);
    fclose(in);
    memcpy(src, file + start, width * height);
    return width;
}

/* ---- photographs */

/* evenly from 0 to 1; xorshift64* */
static double even(uint64_t *state) {
    *state ^= *state >> 12;
    *state ^= *state << 25;
    *state ^= *state >> 27;
    return (double)(*state * 0x2545F4914F6CDD1Du >> 11) / 9007199254740992.0;
}

/* nearly normal, of deviation 1 */
static double normal(uint64_t *state) {
    double sum = -6;
    for (int i = 0; i < 12; i++)
        sum += even(state);
    return sum;
}

/* The samples of a label: 1 where it is dark. A module is `module` pixels wide, the label's middle is at (x, y). */
static void sample_label(const char *symbol, int side, double module, double x, double y, double turn) {
    for (int r = 0; r < side * FINE; r++)
        for (int c = 0; c < side * FINE; c++) {
            double across = ((c + 0.5) / FINE - x) / module, down = ((r + 0.5) / FINE - y) / module;
            double column = across * cos(turn) + down * sin(turn) + MODULES / 2.0;
            double row = down * cos(turn) - across * sin(turn) + MODULES / 2.0;
            int inside = column >= 0 && row >= 0 && column < MODULES && row < MODULES;
            label[r * SAMPLES + c] = inside && symbol[(int)row * MODULES + (int)column] == '1';
        }
}

/* The mean of the label at the places that it passes while the shutter is open. */
static void move(int side, double angle, double length) {
    int n = side * FINE, steps = (int)ceil(length * FINE);
    memset(moved, 0, sizeof moved);
    for (int k = 0; k < steps; k++) {
        double way = ((k + 0.5) / steps - 0.5) * length * FINE;
        int right = (int)lround(way * cos(angle)), down = (int)lround(way * sin(angle));
        int top = down < 0 ? -down : 0, bottom = down < 0 ? n : n - down;
        int left = right < 0 ? -right : 0, end = right < 0 ? n : n - right;
        for (int r = top; r < bottom; r++)
            for (int c = left; c < end; c++)
                moved[r * SAMPLES + c] += label[(r + down) * SAMPLES + c + right] / (float)steps;
    }
}

/* What the samples from REACH before a pixel to REACH behind it count there: the lens's Gaussian over its width. */
static void lens_weights(double lens, double weights[TAPS]) {
    double sum = 0;
    for (int j = 0; j < TAPS; j++) {
        weights[j] = 0;
        for (int s = 0; s < FINE; s++) {
            double far = (j - REACH - s) / (lens * FINE);
            weights[j] += exp(-far * far / 2);
        }
        sum += weights[j];
    }
    for (int j = 0; j < TAPS; j++)
        weights[j] /= sum;
}

/* The dark share of the pixel at `place` of a line of n samples, which are `step` elements apart. */
static double pixel(const float *line, int step, int n, int place, const double weights[TAPS]) {
    double sum = 0;
    for (int j = 0; j < TAPS; j++) {
        int i = place * FINE + j - REACH;
        if (i >= 0 && i < n)
            sum += weights[j] * line[i * step];
    }
    return sum;
}

/* OUT SYMBOL MODULE ANGLE LENGTH NOISE SIDE X Y TURN LENS DARK LIGHT RAMP-X RAMP-Y SEED: the photograph of a symbol. */
static int photograph(void) {
    char out[4096], symbol[MODULES * MODULES + 1];
    int side;
    double module, x, y, turn, angle, length, lens, dark, light, ramp_x, ramp_y, noise, weights[TAPS];
    unsigned long long seed;
    if (scanf("%4095s %441s %lf %lf %lf %lf %d %lf %lf %lf %lf %lf %lf %lf %lf %llu", out, symbol, &module, &angle,
              &length, &noise, &side, &x, &y, &turn, &lens, &dark, &light, &ramp_x, &ramp_y, &seed) != 16)
        return 0;
    if (side > MOST || strlen(symbol) != MODULES * MODULES)
        fail("too large, or no symbol:", out);
    sample_label(symbol, side, module, x, y, turn);
    move(side, angle, length);
    lens_weights(lens, weights);
    uint64_t state = seed;
    for (int r = 0; r < side * FINE; r++)
        for (int c = 0; c < side; c++)
            narrowed[r * MOST + c] = (float)pixel(moved + r * SAMPLES, 1, side * FINE, c, weights);
    for (int r = 0; r < side; r++)
        for (int c = 0; c < side; c++) {
            double level = light + (dark - light) * pixel(narrowed + c, MOST, side * FINE, r, weights);
            level *= 1 + ramp_x * ((double)c / side - 0.5) + ramp_y * ((double)r / side - 0.5);
            level = floor(level + noise * normal(&state) + 0.5);
            src[r * side + c] = (uint8_t)(level < 0 ? 0 : level > 255 ? 255 : level);
        }
    write_pgm(out, src, (size_t)side);
    return 1;
}

/* ---- the library */

/* IN OUT ITERATIONS RELAXATION ANGLE LENGTH: restores along the angle by the length, or, where the length is 0, by the
 * whole job. Prints the number of the refusal, or 0, the direction, the length and the whole job's estimate. */
static int restore(void) {
    char in[4096], out[4096];
    size_t iterations, length;
    double relaxation, angle, estimate = 0;
    uint8_t direction = 0, refusal;
    if (scanf("%4095s %4095s %zu %lf %lf %zu", in, out, &iterations, &relaxation, &angle, &length) != 6)
        return 0;
    size_t side = read_pgm(in), area = side * side;
    if (length == 0)
        refusal = smear_restore(src, area, side, side, side, dst, area, side, side, side, 8, 24, 0, iterations,
                                relaxation, 0, 0, scratch, 3 * side, swings, area, &direction, &length, &estimate);
    else
        refusal = smear_van_cittert_line(src, area, side, side, side, dst, area, side, side, side, angle, length,
                                         iterations, relaxation, 0, 0, scratch, 3 * side, &direction);
    if (refusal == 0)
        write_pgm(out, dst, side);
    printf("%d %d %zu %.17g\n", refusal, direction, length, estimate);
    return 1;
}

int main(int count, char **words) {
    const char *work = count == 2 ? words[1] : "";
    int (*job)(void) = !strcmp(work, "photograph") ? photograph
                       : !strcmp(work, "restore") ? restore
                                                  : NULL;
    if (!job)
        fail("no such work:", work);
    while (job())
        ;
    if (!feof(stdin))
        fail("a job is not as it should be for", work);
    return 0;
}
