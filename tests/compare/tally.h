/* Classes that must all come up in a run. */
#ifndef TALLY_H
#define TALLY_H

#include <stdbool.h>
#include <stddef.h>
#include <stdint.h>
#include <stdio.h>

/* Prints a line for the classes from first to last; false if one of them never came up. */
static inline bool count_classes(const uint64_t *count, const char *name, size_t first, size_t last)
{
    uint64_t fewest = count[first], all = 0;
    for (size_t i = first; i <= last; i++) {
        all += count[i];
        if (count[i] < fewest)
            fewest = count[i];
    }
    printf("  %-50s %9llu", name, (unsigned long long)all);
    if (first != last)
        printf(", of the rarest %llu", (unsigned long long)fewest);
    printf("%s\n", fewest == 0 ? "  NEVER" : "");
    return fewest > 0;
}

#endif
