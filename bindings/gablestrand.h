/* Gablestrand: evaluation of a constant image, edition 1.
 *
 * Link libgablestrand.a, which `bindings/staticlib gablestrand` writes to target/staticlib.
 */
#ifndef GABLESTRAND_H
#define GABLESTRAND_H

#include <stddef.h>
#include <stdint.h>

#ifdef __cplusplus
extern "C" {
#endif

/* The least lengths of the stores, in words and in bytes. */
#define GABLESTRAND_WORDS 8192
#define GABLESTRAND_BYTES 16384

/* Evaluates an image with a budget of so many steps.
 *
 * Returns 0 for a value: it stands in the first *length bytes of out, and *place is 0. Otherwise returns the number of the refusal:
 * *length is 0, out is as it was, and *place is the node, or for 3 the byte offset of the record. *steps is the steps taken.
 *
 * What stands in the stores before does not matter. Afterwards their first GABLESTRAND_WORDS words and GABLESTRAND_BYTES bytes
 * are zero and the rest is as it was; where one of them is too short the answer is 5 and neither is touched.
 *
 * No pointer may be null, also where its length is 0. The stores, the output and the three numbers may overlap neither one another
 * nor the image. docs/COSTS.md says how much stack it needs.
 */
uint8_t gablestrand_evaluate(
    const uint8_t *image, size_t image_length,
    uint64_t budget,
    uint64_t *words, size_t words_length,
    uint8_t *bytes, size_t bytes_length,
    uint8_t *out, size_t out_length,
    uint64_t *place, uint64_t *steps, uint64_t *length);

#ifdef __cplusplus
}
#endif

#endif
