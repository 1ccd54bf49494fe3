#include "make.h"

uint32_t draw(chance *chance, uint32_t bound) {
    chance->state = chance->state * 6364136223846793005u + 1442695040888963407u;
    return (uint32_t)(chance->state >> 33) % bound;
}

uint32_t between(chance *chance, uint32_t first, uint32_t last) {
    return first + draw(chance, last - first + 1);
}

bool one_in(chance *chance, uint32_t many) {
    return draw(chance, many) == 0;
}
