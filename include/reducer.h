/* The reducer's session as a C function.
 *
 * `sh host/lib FOLDER` writes FOLDER/libreducer.a. Link it; host/build shows how.
 */
#ifndef REDUCER_H
#define REDUCER_H

#include <stddef.h>
#include <stdint.h>

#ifdef __cplusplus
extern "C" {
#endif

/* The most bytes that the lines of any plan have: an output buffer of this size is never too short. */
#define REDUCER_OUT_MOST 133120

/* Runs a plan (docs/PLAN.md) and writes the lines that answer it (docs/LINES.md) to `out`.
 *
 * Answers 0 where the lines were written: they are the first `*len` bytes of `out`, and the bytes behind
 * them are as they were. Answers 7 where `out` is too short for them: then neither `out` nor `*len` was
 * changed. Every other refusal (docs/REFUSALS.md) is a line of its own in `out`.
 *
 * The caller owes `plan_len` readable bytes at `plan`, `out_len` writable bytes at `out` and a writable
 * `size_t` at `len`, none of which overlap. No pointer is NULL, even where its length is 0. Nothing is kept
 * after the call, and nothing is allocated.
 */
uint32_t reducer_session(const uint8_t *plan, size_t plan_len, uint8_t *out, size_t out_len, size_t *len);

#ifdef __cplusplus
}
#endif

#endif
