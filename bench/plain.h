/* The archive's three checks in plain C, by the same method, for comparison only: nothing proves this code. */
#ifndef PLAIN_H
#define PLAIN_H

#include <stddef.h>
#include <stdint.h>

uint32_t plain_check_model(const uint8_t *model, size_t model_len);
uint32_t plain_check_delivery(const uint8_t *model, size_t model_len, const uint8_t *delivery, size_t delivery_len);
int64_t plain_delivery_shortfall(const uint8_t *model, size_t model_len, const uint8_t *delivery, size_t delivery_len);

#endif
