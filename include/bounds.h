/* Checks of models and deliveries, for C hosts: link with libbounds.a. Every call reads the given bytes only, keeps nothing, and ends on
   every input. A length may be 0; a pointer is never NULL, also where the length is 0. */
#ifndef BOUNDS_H
#define BOUNDS_H

#include <stddef.h>
#include <stdint.h>

#ifdef __cplusplus
extern "C" {
#endif

/* Checks a model file: 0 when it is accepted, else the reason's number × 65,536 + the place. */
uint32_t bounds_check_model(const uint8_t *model, size_t model_len);

/* Checks a delivery file with its model file, the model first: 0 when both are accepted, else the first reason's number × 65,536 + the place. */
uint32_t bounds_check_delivery(const uint8_t *model, size_t model_len, const uint8_t *delivery, size_t delivery_len);

/* The shortfall of the same check, never above 0: how far the failed inequality misses, in 1/2^56 for 24 and 26 and in 1/2^44 of a step for 27. It is 0 for
   every other reason, and when both files are accepted. */
int64_t bounds_delivery_shortfall(const uint8_t *model, size_t model_len, const uint8_t *delivery, size_t delivery_len);

#ifdef __cplusplus
}
#endif

#endif
