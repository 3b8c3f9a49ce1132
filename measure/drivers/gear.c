// A text cut by the gear hash as one writes it in C, a byte a turn. Each compiler compiles it under a name of its own.
#include "cuts.h"

static size_t first_cut(const struct gear *gear, const uint8_t *text, size_t len) {
    size_t end = len < gear->most ? len : gear->most;
    if (end <= gear->least)
        return end;
    uint64_t hash = 0;
    for (size_t place = gear->least - 64; place < gear->least; place++)
        hash = (hash << 1) + gear->numbers[text[place]];
    for (size_t place = gear->least; place < end; place++) {
        if (hash < gear->below)
            return place;
        hash = (hash << 1) + gear->numbers[text[place]];
    }
    return end;
}

size_t NAME(const struct gear *gear, const uint8_t *text, size_t len, uint64_t *ends, size_t room) {
    size_t count = 0;
    for (size_t end = 0; end < len; count++) {
        end += first_cut(gear, text + end, len - end);
        if (count < room)
            ends[count] = end;
    }
    return count;
}
