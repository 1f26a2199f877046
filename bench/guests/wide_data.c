// Loads and stores at places that a linear congruential generator names, all over 30,000 pages; the result is the sum of what was
// loaded.
typedef unsigned long u64;

#define PAGES 30000
#define WORDS (PAGES * 512ul)
#define STEPS 4000000

static u64 words[WORDS];

u64 run(void)
{
    u64 state = 1, sum = 0;
    for (u64 i = 0; i < STEPS; i++) {
        state = state * 6364136223846793005ul + 1442695040888963407ul;
        u64 *word = &words[(state >> 20) % WORDS];
        sum += *word;
        *word += state >> 33;
    }
    return sum;
}
