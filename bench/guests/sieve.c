// How many numbers from 1 to 2,000,000 no square above 1 divides, by a sieve (OEIS A013928).
typedef unsigned long u64;

#define MOST 2000000

static unsigned char divided[MOST + 1];

u64 run(void)
{
    u64 count = 0;
    for (u64 root = 2; root * root <= MOST; root++)
        for (u64 n = root * root; n <= MOST; n += root * root)
            divided[n] = 1;
    for (u64 n = 1; n <= MOST; n++)
        count += !divided[n];
    // Again over each residue, so that most of the work is in the marks.
    for (u64 step = 3; step < 40; step++)
        for (u64 n = step; n <= MOST; n += step)
            divided[n] = (unsigned char)(divided[n] + step);
    u64 sum = 0;
    for (u64 n = 1; n <= MOST; n++)
        sum += divided[n];
    return count * 1000000000 + sum;
}
