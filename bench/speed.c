/* Steps rule 110 on a ring of 2,048 cells as often as its argument says, an even number: the ring is copied once with its wrap, and
   each window is read from the copy. With CHECKED each window is also checked for stray codes, as the library does. */
#include <stdint.h>
#include <stdio.h>
#include <stdlib.h>

#define CELLS 2048

typedef struct {
    uint32_t states;
    int32_t lo, hi;
    uint32_t entries[1024];
} Table;

static int first_stray(const uint32_t *cells, size_t n, uint32_t states) {
    for (size_t i = 0; i < n; i++)
        if (cells[i] >= states) return (int)i;
    return -1;
}

static uint32_t next(const Table *table, const uint32_t *window, size_t width) {
#ifdef CHECKED
    if (first_stray(window, width, table->states) >= 0) return 0;
#endif
    size_t index = 0;
    for (size_t j = 0; j < width; j++) index = index * table->states + window[j];
    return table->entries[index];
}

__attribute__((noinline)) static void map_ring(const Table *table, const uint32_t *ring, size_t n, uint32_t *buffer) {
    uint32_t unrolled[CELLS + 64] = {0};
    size_t width = (size_t)(table->hi - table->lo) + 1;
    if (first_stray(ring, n, table->states) >= 0) return;
    size_t place = (size_t)((table->lo % (int)n + (int)n) % (int)n);
    for (size_t i = 0; i < n + width; i++) {
        unrolled[i] = ring[place];
        place = place + 1 < n ? place + 1 : 0;
    }
    for (size_t i = 0; i < n; i++) buffer[i] = next(table, unrolled + i, width);
}

int main(int argc, char **argv) {
    unsigned steps = argc > 1 ? (unsigned)atoi(argv[1]) : 1;
    Table table = {2, -1, 1, {0, 1, 1, 1, 0, 1, 1, 0}};
    static uint32_t even[CELLS], odd[CELLS];
    even[CELLS - 1] = 1;
    for (unsigned s = 0; s < steps / 2; s++) {
        map_ring(&table, even, CELLS, odd);
        map_ring(&table, odd, CELLS, even);
    }
    unsigned ones = 0;
    for (size_t i = 0; i < CELLS; i++) ones += even[i];
    printf("%u ones after %u steps\n", ones, steps);
    return 0;
}
