// collide COUNT: so many names, a line each in byte order, that a table with the library's unkeyed hash would keep in one chain:
// the last twelve bits of their hashes are the same. The hash is that of the standard library of Rattle (FoldHasher), which takes
// the length of a name and then its bytes, and joins the halves at the end.
#include <stdint.h>
#include <stdio.h>
#include <stdlib.h>

#define LENGTH 10

static const uint64_t multiplier = 0x9e3779b97f4a7c15;

// taken: the state after one number, which came in so many bytes.
static uint64_t taken(uint64_t state, uint64_t number, uint64_t bytes) {
    unsigned __int128 product = (unsigned __int128)(state ^ number) * (multiplier ^ 2 * bytes);
    return (uint64_t)product ^ (uint64_t)(product >> 64);
}

// byte: the state after a byte, which counts as its first, middle and last one.
static uint64_t byte(uint64_t state, unsigned char value) {
    return taken(state, value | (uint64_t)value << 8 | (uint64_t)value << 16, 1);
}

int main(int argc, char **argv) {
    long left = argc > 1 ? atol(argv[1]) : 0;
    char name[] = "aaaaaaaaaa";
    // The states after so many letters. Those up to the first letter that is new are there from the name before.
    uint64_t states[LENGTH + 1] = {taken(0x243f6a8885a308d3, LENGTH, 8)};
    int new = 0;
    while (left > 0) {
        for (int at = new; at < LENGTH; at++)
            states[at + 1] = byte(states[at], (unsigned char)name[at]);
        if (((states[LENGTH] ^ states[LENGTH] >> 32) & 0xfff) == 0) {
            puts(name);
            left--;
        }
        for (new = LENGTH - 1; name[new] == 'z'; new--)
            name[new] = 'a';
        name[new]++;
    }
    return 0;
}
