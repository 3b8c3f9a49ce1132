// What drivers/gear.c cuts by, and what it offers drivers/cuts.c.
#include <stddef.h>
#include <stdint.h>

struct gear {
    size_t least, most;
    uint64_t below; // a hash below it is a cut
    uint64_t numbers[256];
};

// how many chunks the text has; where the first ones end is written, as far as there is room
typedef size_t chunks(const struct gear *gear, const uint8_t *text, size_t len, uint64_t *ends, size_t room);
