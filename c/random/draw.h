// The numbers that a case is made of: all of them come from its seed. No expression draws twice, since C leaves the order open.
#ifndef DRAW_H
#define DRAW_H
#include <stddef.h>
#include <stdint.h>

static uint64_t drawn; // How far the generator is.

static void seed(uint64_t number) { drawn = number; }

// Any number of 64 bits: splitmix64.
static uint64_t draw(void)
{
    uint64_t x = drawn += 0x9E3779B97F4A7C15;
    x = (x ^ x >> 30) * 0xBF58476D1CE4E5B9;
    x = (x ^ x >> 27) * 0x94D049BB133111EB;
    return x ^ x >> 31;
}

static uint32_t below(uint32_t count) { return (draw() >> 32) * count >> 32; }
static int one_in(uint32_t count) { return below(count) == 0; }

// Any number, small ones as often as big ones.
static uint64_t wild(void)
{
    uint64_t number = draw();
    return number >> below(64);
}

// The number, or one beside it.
static uint64_t near(uint64_t number) { return number + below(3) - 1; }

// One of the numbers, none of which is drawn.
#define ONE_OF(...) (((const uint64_t[]){__VA_ARGS__})[below(sizeof((const uint64_t[]){__VA_ARGS__}) / sizeof(uint64_t))])

static size_t smaller(size_t a, size_t b) { return a < b ? a : b; }

#endif
