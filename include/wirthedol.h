/* Wirthedol: cheapest lots for a forecast, from C or from Rust.
 *
 * Link crates/clib/out/libclib.a, which `rt lib` in crates/clib builds, and behind it the kit's c/liblibc_c.a.
 *
 * All numbers in `costs` and `netting` have 32 bits: four bytes, the most significant first.
 *
 * costs     1 to 64 cost lines of four numbers each:
 *             the first period in which the line holds, the setup charge, the unit cost, the holding cost.
 *           The first line's date is 1, and dates rise strictly. Costs that never change are one line.
 * netting   0 to 3 layers, the one right above the demands first; no byte at all where there is none. A layer is
 *             the stock, the number of receipts, and for each receipt its period and its amount.
 * demands   the forecast: lines of text for wirthedol_plan_text, order words for wirthedol_plan_orders.
 * out       receives the lot file: 24 bytes for each lot, and 4 at the end. There are never more lots than periods.
 *
 * docs/FORMATS.md has forecast text, order words and lot files byte by byte, and docs/REFUSALS.md every refusal.
 *
 * Every proved lot is frozen before the next period is read; the lots that are left when the forecast ends are closing.
 * At most 9,999 periods can be planned to their end, and at most 256 may lie beyond the last frozen lot.
 *
 * The four ranges of bytes may not overlap with `out`. A pointer may not be null, even where its length is 0.
 * Memory comes from malloc and is given back before the call returns. Calls in several threads do not disturb each other;
 * make none from a signal handler.
 */
#ifndef WIRTHEDOL_H
#define WIRTHEDOL_H

#include <stddef.h>
#include <stdint.h>

#ifdef __cplusplus
extern "C" {
#endif

/* What `refusal` holds where memory was wanting. */
#define WIRTHEDOL_NO_MEMORY UINT32_MAX

struct wirthedol_answer {
    /* 0 where the lot file was written; else the refusal's number, or WIRTHEDOL_NO_MEMORY. Then `out` is as it was. */
    uint32_t refusal;
    /* For refusals 9 to 17 the byte of `demands` that is wrong, counted from 0; else 0. */
    uint64_t place;
    /* How many bytes were written to the front of `out`. */
    uint64_t written;
};

struct wirthedol_answer wirthedol_plan_text(
    const uint8_t *costs, size_t costs_length,
    const uint8_t *netting, size_t netting_length,
    const uint8_t *demands, size_t demands_length,
    uint8_t *out, size_t out_length);

struct wirthedol_answer wirthedol_plan_orders(
    const uint8_t *costs, size_t costs_length,
    const uint8_t *netting, size_t netting_length,
    const uint8_t *demands, size_t demands_length,
    uint8_t *out, size_t out_length);

#ifdef __cplusplus
}
#endif

#endif
