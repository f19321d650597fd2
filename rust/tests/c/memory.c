/* A program to try a memory checker on: it does nothing wrong, unless a fault is named. */
#include <limits.h>
#include <stdlib.h>
#include <string.h>

int main(int argc, char **argv) {
    const char *fault = argc > 1 ? argv[1] : "";
    volatile int most = INT_MAX;
    volatile char *bytes = malloc(2);
    int behind = strcmp(fault, "overrun") == 0 ? 2 : 0;

    if (bytes == NULL) return 1;
    bytes[0] = 0;
    if (strcmp(fault, "unset") == 0) behind = bytes[1] == 0 ? 0 : 1;
    if (strcmp(fault, "overflow") == 0) most = most + 1;
    if (bytes[behind] != 0) most = 0;
    if (strcmp(fault, "leak") != 0) free((void *)bytes);
    bytes = NULL;
    return 0;
}
