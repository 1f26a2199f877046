// The product of two matrices of 160 rows and columns, whose entries are i + 2 j and i * j, modulo 2^64; the result is the sum of
// its entries, each times its number.
typedef unsigned long u64;

#define SIZE 160

static u64 a[SIZE][SIZE], b[SIZE][SIZE], c[SIZE][SIZE];

u64 run(void)
{
    for (u64 i = 0; i < SIZE; i++)
        for (u64 j = 0; j < SIZE; j++) {
            a[i][j] = i + 2 * j;
            b[i][j] = i * j;
        }
    for (u64 i = 0; i < SIZE; i++)
        for (u64 j = 0; j < SIZE; j++) {
            u64 sum = 0;
            for (u64 k = 0; k < SIZE; k++)
                sum += a[i][k] * b[k][j];
            c[i][j] = sum;
        }
    u64 result = 0;
    for (u64 i = 0; i < SIZE; i++)
        for (u64 j = 0; j < SIZE; j++)
            result += c[i][j] * (i * SIZE + j);
    return result;
}
