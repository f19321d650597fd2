/* A program that is linked without the C library: what the library calls is defined here. */
#include "lihambozy.h"

void *memcpy(void *to, const void *from, size_t count);
void *memset(void *to, int value, size_t count);

void *memcpy(void *to, const void *from, size_t count) {
    for (size_t i = 0; i < count; i++) ((volatile char *)to)[i] = ((const char *)from)[i];
    return to;
}

void *memset(void *to, int value, size_t count) {
    for (size_t i = 0; i < count; i++) ((volatile char *)to)[i] = (char)value;
    return to;
}

int main(void) {
    static const uint32_t plan[1];
    static const uint8_t volume[1];
    static uint32_t out[1];
    static uint8_t line[1];
    return (int)(lhz_list(volume, 0, plan, 0, 0, out, 0).refusal +
                 lhz_list_matches(volume, 0, plan, 0, 0, 0, plan, 0, out, 0).refusal +
                 lhz_join_volumes(volume, 0, volume, 0, 0, line, 0).refusal +
                 lhz_line_to_plan(volume, 0, out, 0).refusal +
                 lhz_plan_to_line(volume, 0, plan, 0, line, 0).refusal);
}
