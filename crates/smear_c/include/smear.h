/* The smear stage: measuring a line smear in a grey picture and taking it out.
 *
 * A picture is a slice of bytes, `src` and `src_len`, with its width, height and stride: pixel (c, r) is byte
 * r * stride + c. What is passed to one call does not overlap.
 * A function returns 0, or the number of the refusal. A refusal changes neither destination nor scratch, except that 11
 * and 12 leave scratch free, nor an out-parameter, except that 13 of a sheet says by *index which record is at fault.
 * Scratch is `scratch` and `swings`; an accepted call leaves it free.
 * Directions: 0 Horizontal, 1 DownRight, 2 Vertical, 3 DownLeft.
 */
#ifndef SMEAR_H
#define SMEAR_H

#include <stddef.h>
#include <stdint.h>

#ifdef __cplusplus
extern "C" {
#endif

/* The raster direction nearest to an angle in radians, 0 to 3, or 4 where it has none: where the angle or its value in
 * degrees, angle * 57.29577951308232, is not finite. The largest angle that has one is 3.1375664143845866e306. */
uint8_t smear_direction_from_angle(double angle);

/* The direction of the line smear in a picture, from its Sobel gradients gx and gy: *direction, with the sums *a of
 * gx * gx, *c of gx * gy and *e of gy * gy over the interior pixels. Refusals 1 to 4. */
uint8_t smear_estimate_line_direction(const uint8_t *src, size_t src_len, size_t width, size_t height, size_t stride,
                                      uint8_t *direction, int64_t *a, int64_t *c, int64_t *e);

/* A swing of the picture: how wide it is, in pixels, and by how much it changes. */
typedef struct {
    double width;
    int32_t swing;
} smear_swing;

/* The length of the line smear along the raster direction nearest to `angle`: *length, or 0.0 where there is nothing to
 * tell it by. There must be `minimum_transitions` swings of at least `minimum_amplitude`; usual are 8 and 24, and a 0
 * or a side below 3 gives 0.0. `swings` has at least width * height elements.
 * Refusals: 1 to 4, 7 of an angle that has no direction, also where *length would be 0.0, and 10 of too few swings. */
uint8_t smear_estimate_line_length(
    const uint8_t *src, size_t src_len, size_t width, size_t height, size_t stride,
    double angle, size_t minimum_transitions, uint8_t minimum_amplitude,
    smear_swing *swings, size_t swings_len, double *length);

/* The binomial unsharp of `src`, into `dst`. `scratch` has at least width * height elements.
 * Refusals: 1 to 4 of the source, 5 of the destination's layout, 6 of two sizes that differ, 10 of a short scratch. */
uint8_t smear_fixed_binomial_unsharp(
    const uint8_t *src, size_t src_len, size_t width, size_t height, size_t stride,
    uint8_t *dst, size_t dst_len, size_t dst_width, size_t dst_height, size_t dst_stride,
    uint16_t *scratch, size_t scratch_len);

/* `src` at half its size, into `dst`: pixel (c, r) is the sum of the four pixels (2c, 2r) to (2c + 1, 2r + 1) and 2,
 * divided by 4 and floored; an odd last column or row is left out. `dst` has half of each side, floored.
 * Refusals: 1 to 4 of the source, 18 of a side below 2, 5 of the destination's layout, 6 of a destination of another
 * size. */
uint8_t smear_box_downscale_half(
    const uint8_t *src, size_t src_len, size_t width, size_t height, size_t stride,
    uint8_t *dst, size_t dst_len, size_t dst_width, size_t dst_height, size_t dst_stride);

/* The same `count` times, 0 to 10: each halving rounds, and 0 is a copy. `dst` has what is left of each side, halved
 * and floored so often. `scratch` has at least width * height elements, whatever the count.
 * Refusals: 1 to 4 of the source, 18 of a count above 10 or a halving that would start from a side below 2, 5 of the
 * destination's layout, 6 of a destination of another size, 10 of a short scratch. */
uint8_t smear_halve(
    const uint8_t *src, size_t src_len, size_t width, size_t height, size_t stride,
    uint8_t *dst, size_t dst_len, size_t dst_width, size_t dst_height, size_t dst_stride,
    size_t count, uint8_t *scratch, size_t scratch_len);

/* Restoration of `src` along the direction nearest to `angle`, cut to 0..255, into `dst`. `blur_length` is odd, from 3
 * to 2 * max(width, height) + 1; `iterations` 1 to 22; `relaxation` 0 to 1. `border` is what stands beyond a line's
 * ends: 0 their nearer pixel, 1 the line reflected, 3 the line again, any other `border_value`. `scratch` has at least
 * 3 * max(width, height) elements. *direction is the direction taken.
 * Refusals: 1 to 4 of the source, 5 of the destination's layout, 6 of two sizes that differ, 7 of the length and of an
 * angle that has no direction, 8 and 9 of the iterations and the relaxation, 10 of a short scratch. */
uint8_t smear_van_cittert_line(
    const uint8_t *src, size_t src_len, size_t width, size_t height, size_t stride,
    uint8_t *dst, size_t dst_len, size_t dst_width, size_t dst_height, size_t dst_stride,
    double angle, size_t blur_length, size_t iterations, double relaxation, uint8_t border, uint8_t border_value,
    int32_t *scratch, size_t scratch_len, uint8_t *direction);

/* The same, with the last estimate uncut in the first width * height elements of `dst`, row by row.
 * Refusals: those of the source and the settings; 10 also of a `dst` that is shorter. */
uint8_t smear_van_cittert_estimate(
    const uint8_t *src, size_t src_len, size_t width, size_t height, size_t stride,
    int32_t *dst, size_t dst_len,
    double angle, size_t blur_length, size_t iterations, double relaxation, uint8_t border, uint8_t border_value,
    int32_t *scratch, size_t scratch_len, uint8_t *direction);

/* The line unsharp of `src`: one step of the restoration with `gain`, 0 to 8, in place of the relaxation.
 * Refusals: those of the restoration. */
uint8_t smear_directional_unsharp_line(
    const uint8_t *src, size_t src_len, size_t width, size_t height, size_t stride,
    uint8_t *dst, size_t dst_len, size_t dst_width, size_t dst_height, size_t dst_stride,
    double angle, size_t blur_length, double gain, uint8_t border, uint8_t border_value,
    int32_t *scratch, size_t scratch_len, uint8_t *direction);

/* The whole job: the direction from the picture, the length along it, raised to an odd blur length, and restoration of
 * `src` by them, cut to 0..255, into `dst`. Thresholds as for the length, the other settings as for the restoration.
 * `minimum_confidence`, 0 to 256, leaves round smears untouched: the direction's confidence, 1 minus the smaller over
 * the larger eigenvalue of the matrix a c, c e of its sums, must be at least that many 256ths. Usual is 0, which every
 * picture reaches; one with a side below 3 or a + e = 0 reaches no more. `scratch` has at least 3 * max(width, height)
 * elements and `swings` width * height. *direction, *blur_length and *estimate are what was measured.
 * Refusals, in this order: 1 to 4 of the source, 5 of the destination's layout, 6 of two sizes that differ, 8 and 9 of
 * the iterations and the relaxation, 10 of a short scratch or too few swings, 17 of a confidence that is too low or a
 * `minimum_confidence` above 256, 11 of no length, 12 of a blur length above 2 * max(width, height) + 1. */
uint8_t smear_restore(
    const uint8_t *src, size_t src_len, size_t width, size_t height, size_t stride,
    uint8_t *dst, size_t dst_len, size_t dst_width, size_t dst_height, size_t dst_stride,
    size_t minimum_transitions, uint8_t minimum_amplitude, uint16_t minimum_confidence,
    size_t iterations, double relaxation, uint8_t border, uint8_t border_value,
    int32_t *scratch, size_t scratch_len, smear_swing *swings, size_t swings_len,
    uint8_t *direction, size_t *blur_length, double *estimate);

/* The program's work. `job` is the 32-byte record of a job and `picture` its picture, tight; what lies behind its
 * pixels is ignored. Into the front of `out` go the pixels and the 32-byte record of the result, or one of the texts
 * "refused N\n" (13 where `job` is no job's record) and "too large\n" (more than 4,096 pixels). *written is how many
 * bytes that is, at most 4,128; what stands behind them in `out` is not changed. 10 where `out` is shorter, and nothing
 * is changed. A whole job has the usual thresholds and `minimum_confidence` 0.
 * On the stack: local arrays of at most 114,688 bytes. */
uint8_t smear_run(
    const uint8_t *job, size_t job_len, const uint8_t *picture, size_t picture_len,
    uint8_t *out, size_t out_len, size_t *written);

/* The round sheet over `records`, 32-byte records of results that stand back to back. Into the first 21 elements of
 * `sheet` go, for each direction, five numbers of the blur lengths of its restorations and line unsharps: how many,
 * their total, the largest, and the mean's whole part and remainder over how many (all 0 for none); then the number of
 * binomials. What stands behind them in `sheet` is not changed, nor is *index.
 * Refusals: 10 of a `sheet` of fewer than 21 elements; 13 of a record that does not read, one of length 0 whose filter
 * is 1 or 2 (so a whole job's), a last part of fewer than 32 bytes, and whatever stands at index 1,000,000. Then *index
 * is the first such record's, from 0, and nothing else is changed. */
uint8_t smear_summarize(
    const uint8_t *records, size_t records_len, uint64_t *sheet, size_t sheet_len, size_t *index);

/* Reads a PGM file, Netpbm's P5: "P5", then width, height and maximum in any number of digits, each behind a separator,
 * then one white byte and the pixels, tight. A separator is one or more white bytes (space, tab, LF, CR) or comments,
 * each from '#' through the next LF or CR. *width and *height are the picture's, and file[*start] is its first pixel.
 * Refusals: 14 of a header that is not so, 1 of a side of 0, 2 of one above 1,024, 15 of a maximum other than 255, 16
 * of missing or surplus pixels. */
uint8_t smear_read_pgm(const uint8_t *file, size_t file_len, size_t *width, size_t *height, size_t *start);

/* Writes `src` as a PGM file into the front of `out`: "P5", width, height and 255, an LF behind each, and the pixels,
 * tight. *written is how many bytes that is, at most 17 + width * height; what stands behind them in `out` is not
 * changed. Refusals: 1 to 4 of the source, 5 of an `out` that is too short. */
uint8_t smear_write_pgm(const uint8_t *src, size_t src_len, size_t width, size_t height, size_t stride,
                        uint8_t *out, size_t out_len, size_t *written);

#ifdef __cplusplus
}
#endif

#endif
