/*
 * Prints the SHA-256 of each file of a directory, in the order of the names, as sha256sum does: pool DIRECTORY THREADS. The files are read
 * by a pool of threads. Each takes the next job of a queue, which has room for a few: whoever puts jobs in waits where it is full, and
 * the threads wait where it is empty.
 */
#define _GNU_SOURCE
#include <dirent.h>
#include <errno.h>
#include <pthread.h>
#include <stdbool.h>
#include <stdint.h>
#include <stdio.h>
#include <stdlib.h>
#include <string.h>

/* ---- the pool */

#define ROOM 4
#define MOST_THREADS 16

struct job {
    void (*work)(void *argument);
    void *argument;
};

struct pool {
    pthread_mutex_t mutex;
    pthread_cond_t has_job, has_room;
    struct job jobs[ROOM];
    size_t first, count;
    bool is_closed;
    pthread_t threads[MOST_THREADS];
    int threads_count;
};

/* The next job; false where none comes any more. */
static bool take_job(struct pool *pool, struct job *job)
{
    pthread_mutex_lock(&pool->mutex);
    while (pool->count == 0 && !pool->is_closed)
        pthread_cond_wait(&pool->has_job, &pool->mutex);
    bool is_there = pool->count > 0;
    if (is_there) {
        *job = pool->jobs[pool->first];
        pool->first = (pool->first + 1) % ROOM;
        --pool->count;
        pthread_cond_signal(&pool->has_room);
    }
    pthread_mutex_unlock(&pool->mutex);
    return is_there;
}

static void *work(void *pool)
{
    struct job job;
    while (take_job(pool, &job))
        job.work(job.argument);
    return NULL;
}

static void put_job(struct pool *pool, void (*function)(void *), void *argument)
{
    pthread_mutex_lock(&pool->mutex);
    while (pool->count == ROOM)
        pthread_cond_wait(&pool->has_room, &pool->mutex);
    pool->jobs[(pool->first + pool->count++) % ROOM] = (struct job){function, argument};
    pthread_cond_signal(&pool->has_job);
    pthread_mutex_unlock(&pool->mutex);
}

static void open_pool(struct pool *pool, int threads)
{
    *pool = (struct pool){.mutex = PTHREAD_MUTEX_INITIALIZER, .has_job = PTHREAD_COND_INITIALIZER, .has_room = PTHREAD_COND_INITIALIZER};
    for (; pool->threads_count < threads && pool->threads_count < MOST_THREADS; ++pool->threads_count) {
        int error = pthread_create(&pool->threads[pool->threads_count], NULL, work, pool);
        if (error != 0) {
            fprintf(stderr, "pool: %s\n", strerror(error));
            exit(2);
        }
    }
}

/* Waits until all jobs are done. */
static void close_pool(struct pool *pool)
{
    pthread_mutex_lock(&pool->mutex);
    pool->is_closed = true;
    pthread_cond_broadcast(&pool->has_job);
    pthread_mutex_unlock(&pool->mutex);
    while (pool->threads_count > 0)
        pthread_join(pool->threads[--pool->threads_count], NULL);
}

/* ---- SHA-256 (FIPS 180-4) */

struct hash {
    uint32_t state[8];
    unsigned char block[64];
    uint64_t length;
};

static const uint32_t constants[64] = {
    0x428a2f98, 0x71374491, 0xb5c0fbcf, 0xe9b5dba5, 0x3956c25b, 0x59f111f1, 0x923f82a4, 0xab1c5ed5, 0xd807aa98, 0x12835b01, 0x243185be,
    0x550c7dc3, 0x72be5d74, 0x80deb1fe, 0x9bdc06a7, 0xc19bf174, 0xe49b69c1, 0xefbe4786, 0x0fc19dc6, 0x240ca1cc, 0x2de92c6f, 0x4a7484aa,
    0x5cb0a9dc, 0x76f988da, 0x983e5152, 0xa831c66d, 0xb00327c8, 0xbf597fc7, 0xc6e00bf3, 0xd5a79147, 0x06ca6351, 0x14292967, 0x27b70a85,
    0x2e1b2138, 0x4d2c6dfc, 0x53380d13, 0x650a7354, 0x766a0abb, 0x81c2c92e, 0x92722c85, 0xa2bfe8a1, 0xa81a664b, 0xc24b8b70, 0xc76c51a3,
    0xd192e819, 0xd6990624, 0xf40e3585, 0x106aa070, 0x19a4c116, 0x1e376c08, 0x2748774c, 0x34b0bcb5, 0x391c0cb3, 0x4ed8aa4a, 0x5b9cca4f,
    0x682e6ff3, 0x748f82ee, 0x78a5636f, 0x84c87814, 0x8cc70208, 0x90befffa, 0xa4506ceb, 0xbef9a3f7, 0xc67178f2,
};

static uint32_t turned(uint32_t word, int by)
{
    return word >> by | word << (32 - by);
}

static void take_block(struct hash *hash)
{
    uint32_t w[64], s[8];
    for (int i = 0; i < 16; ++i)
        w[i] = (uint32_t)hash->block[4 * i] << 24 | (uint32_t)hash->block[4 * i + 1] << 16 | (uint32_t)hash->block[4 * i + 2] << 8 | hash->block[4 * i + 3];
    for (int i = 16; i < 64; ++i) {
        uint32_t low = turned(w[i - 15], 7) ^ turned(w[i - 15], 18) ^ w[i - 15] >> 3;
        uint32_t high = turned(w[i - 2], 17) ^ turned(w[i - 2], 19) ^ w[i - 2] >> 10;
        w[i] = w[i - 16] + low + w[i - 7] + high;
    }
    memcpy(s, hash->state, sizeof s);
    for (int i = 0; i < 64; ++i) {
        uint32_t high = turned(s[4], 6) ^ turned(s[4], 11) ^ turned(s[4], 25), choice = (s[4] & s[5]) ^ (~s[4] & s[6]);
        uint32_t low = turned(s[0], 2) ^ turned(s[0], 13) ^ turned(s[0], 22), most = (s[0] & s[1]) ^ (s[0] & s[2]) ^ (s[1] & s[2]);
        uint32_t one = s[7] + high + choice + constants[i] + w[i];
        memmove(s + 1, s, 7 * sizeof *s);
        s[4] += one;
        s[0] = one + low + most;
    }
    for (int i = 0; i < 8; ++i)
        hash->state[i] += s[i];
}

static void take_byte(struct hash *hash, unsigned char byte)
{
    hash->block[hash->length++ % 64] = byte;
    if (hash->length % 64 == 0)
        take_block(hash);
}

static struct hash begin_hash(void)
{
    return (struct hash){.state = {0x6a09e667, 0xbb67ae85, 0x3c6ef372, 0xa54ff53a, 0x510e527f, 0x9b05688c, 0x1f83d9ab, 0x5be0cd19}};
}

static void end_hash(struct hash *hash)
{
    uint64_t bits = hash->length * 8;
    take_byte(hash, 0x80);
    while (hash->length % 64 != 56)
        take_byte(hash, 0);
    for (int shift = 56; shift >= 0; shift -= 8)
        take_byte(hash, (unsigned char)(bits >> shift));
}

/* ---- files */

struct file {
    char *path;
    const char *name;
    struct hash hash;
    int error;
};

static void hash_file(void *argument)
{
    struct file *file = argument;
    unsigned char bytes[512];
    size_t count;
    FILE *stream = fopen(file->path, "r");
    file->hash = begin_hash();
    if (stream == NULL) {
        file->error = errno;
        return;
    }
    while ((count = fread(bytes, 1, sizeof bytes, stream)) > 0) {
        for (size_t i = 0; i < count; ++i)
            take_byte(&file->hash, bytes[i]);
    }
    end_hash(&file->hash);
    fclose(stream);
}

static bool print_file(const struct file *file)
{
    if (file->error != 0) {
        fprintf(stderr, "%s: %s\n", file->name, strerror(file->error));
        return false;
    }
    for (int i = 0; i < 8; ++i)
        printf("%08x", (unsigned)file->hash.state[i]);
    printf("  %s\n", file->name);
    return true;
}

static int is_shown(const struct dirent *entry)
{
    return entry->d_name[0] != '.';
}

int main(int argc, char **argv)
{
    struct dirent **entries;
    struct pool pool;
    bool is_whole = true;
    if (argc != 3) {
        fputs("pool DIRECTORY THREADS\n", stderr);
        return 2;
    }
    int count = scandir(argv[1], &entries, is_shown, alphasort);
    if (count < 0) {
        perror(argv[1]);
        return 1;
    }
    struct file *files = calloc((size_t)count + 1, sizeof *files);
    open_pool(&pool, atoi(argv[2]));
    for (int i = 0; i < count; ++i) {
        files[i].name = entries[i]->d_name;
        if (asprintf(&files[i].path, "%s/%s", argv[1], entries[i]->d_name) < 0)
            return 2;
        put_job(&pool, hash_file, &files[i]);
    }
    close_pool(&pool);
    for (int i = 0; i < count; ++i)
        is_whole &= print_file(&files[i]);
    return is_whole ? 0 : 1;
}
