// The plain C program: the same questions, written to be quick. It is compiled twice, by gcc and by clang.
#include <stdbool.h>
#include <stddef.h>
#include <stdint.h>

enum { MOST_TILES = 1024, MOST_STATES = 4096, MOST_NUMBERS = 8064 };

#define ENDLESS UINT32_MAX

typedef struct {
    uint8_t west, east, south, north;
} Tile;

// Number 0 is accepted, and then the two widths stand; any other is the fault's.
typedef struct {
    uint32_t number, place, floor, ceiling;
} Answer;

// What reading a set text answered. Number 0 is taken; any other is the fault's, with its line and column.
typedef struct {
    uint32_t tiles, number, line, column;
    uint32_t sum; // over the list of tiles; the driver fills it in
    uint32_t pile; // only here
} Reading;

// A docket over pile 1, 3, 5 or 6 of a list of tiles. The parts of a stack are one list.
typedef struct {
    Tile tiles[MOST_TILES];
    uint32_t count, list_states; // of the list
    uint32_t pair_slots, pair_states; // of the stack of two
    uint32_t slots, states; // of the pile
    uint8_t pile;
    uint32_t floor, ceiling;
    uint16_t tallies[5][2];
} Docket;

// What one compiler made of plain.c.
typedef struct {
    const char *name;
    Reading (*read_set)(const uint8_t *text, size_t size, Tile *tiles);
    bool (*open)(Docket *d, const uint8_t *text, size_t size);
    Answer (*file_slots)(Docket *d, const uint8_t *paper, size_t size);
    Answer (*file_parts)(Docket *d, const uint8_t *paper, size_t size);
    // fill `kept`, a byte for each state
    bool (*trim_slots)(const Docket *d, uint8_t *kept);
    bool (*trim_parts)(const Docket *d, uint8_t *kept);
    // a number that the edges between kept states give, with their slots
    uint32_t (*sum)(const Docket *d, const uint8_t *kept);
} Plain;

extern const Plain plain_gcc, plain_clang;
