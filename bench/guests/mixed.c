// The number below 300,000 from which the rule "half, or three times and one more" takes the most steps to 1, times 1000, and those
// steps (OEIS A006884); the steps of small numbers are kept in a table.
typedef unsigned long u64;

#define MOST 300000
#define KEPT 4096

static unsigned short kept[KEPT];

static u64 half(u64 n)
{
    return n / 2;
}

static u64 three_times(u64 n)
{
    return 3 * n + 1;
}

u64 run(void)
{
    u64 (*rules[2])(u64) = {half, three_times};
    u64 best = 0, most = 0;
    for (u64 start = 1; start < MOST; start++) {
        u64 n = start, steps = 0;
        while (n != 1) {
            if (n < KEPT && kept[n]) {
                steps += kept[n];
                break;
            }
            n = rules[n % 2](n);
            steps++;
        }
        if (start < KEPT)
            kept[start] = (unsigned short)steps;
        if (steps > most) {
            most = steps;
            best = start;
        }
    }
    return best * 1000 + most;
}
