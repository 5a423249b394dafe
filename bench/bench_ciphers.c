/* The same work with the table AES of a plain C program, whose source file is BASELINE. */
#define main baseline_main
#include BASELINE
#undef main

enum { SIZE = 16777216, SET_UPS = 1000000 };

static double now(void)
{
    struct timespec t;
    clock_gettime(CLOCK_MONOTONIC, &t);
    return t.tv_sec + t.tv_nsec / 1e9;
}

static void mix(u8 *into, const u8 *with)
{
    for (int j = 0; j < 16; j++)
        into[j] ^= with[j];
}

int main(void)
{
    u8 *bytes = malloc(SIZE), key[16], last[16], next[16];
    Aes aes;
    memset(bytes, 1, SIZE);
    aes_init();
    aes_fresh(&aes);
    memset(key, 7, 16);

    aes_key(&aes, key);
    double start = now();
    memset(last, 3, 16);
    for (size_t i = 0; i < SIZE; i += 16) {
        mix(bytes + i, last);
        aes_enc(&aes, bytes + i);
        memcpy(last, bytes + i, 16);
    }
    double encrypting = now() - start;

    aes_key_back(&aes, key);
    start = now();
    memset(last, 3, 16);
    for (size_t i = 0; i < SIZE; i += 16) {
        memcpy(next, bytes + i, 16);
        aes_dec(&aes, bytes + i);
        mix(bytes + i, last);
        memcpy(last, next, 16);
    }
    double decrypting = now() - start;

    aes_key(&aes, key);
    start = now();
    u8 mac[16] = {0};
    for (size_t i = 0; i < SIZE; i += 16) {
        mix(mac, bytes + i);
        aes_enc(&aes, mac);
    }
    double signing = now() - start;

    memset(key, 5, 16);
    start = now();
    for (int i = 0; i < SET_UPS; i++) {
        aes_key(&aes, key);
        aes_enc(&aes, key);
    }
    double setting = now() - start;
    printf("%f %f %f %f %02x%02x\n", encrypting, decrypting, signing, setting, mac[0], key[0]);
    return 0;
}
