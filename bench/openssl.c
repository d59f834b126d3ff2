#include <openssl/evp.h>
#include <openssl/core_names.h>
#include <openssl/params.h>
#include <stdio.h>
#include <stdlib.h>
#include <string.h>
#include <time.h>

static unsigned char key[32], block[16] = "openssl's block";

static void blocks(int anew, long count) {
    EVP_CIPHER *cipher = EVP_CIPHER_fetch(NULL, "AES-128-ECB", NULL);
    EVP_CIPHER_CTX *ctx = EVP_CIPHER_CTX_new();
    int size;
    EVP_EncryptInit_ex2(ctx, cipher, key, NULL, NULL);
    EVP_CIPHER_CTX_set_padding(ctx, 0);
    for (long i = 0; i < count; i++) {
        if (anew)
            EVP_EncryptInit_ex2(ctx, NULL, block, NULL, NULL);
        EVP_EncryptUpdate(ctx, block, &size, block, 16);
    }
}

static void macs(const char *name, const char *param, char *value, const unsigned char *text, size_t length, size_t keyed, long count) {
    EVP_MAC *mac = EVP_MAC_fetch(NULL, name, NULL);
    EVP_MAC_CTX *ctx = EVP_MAC_CTX_new(mac);
    OSSL_PARAM params[2] = {OSSL_PARAM_construct_utf8_string(param, value, 0), OSSL_PARAM_construct_end()};
    size_t size;
    EVP_MAC_init(ctx, key, keyed, params);
    for (long i = 0; i < count; i++) {
        EVP_MAC_init(ctx, key, keyed, NULL);
        EVP_MAC_update(ctx, text, length);
        EVP_MAC_final(ctx, key, &size, sizeof key);
    }
}

int main(int count, char **words) {
    size_t size = strtoul(words[2], NULL, 10);
    long times = strtol(words[3], NULL, 10);
    unsigned char *text = malloc(size + 1);
    struct timespec from, to;
    memset(text, 0x5a, size);
    clock_gettime(CLOCK_MONOTONIC, &from);
    if (!strcmp(words[1], "aes") || !strcmp(words[1], "aes-key"))
        blocks(words[1][3] == '-', times);
    else if (!strcmp(words[1], "cmac"))
        macs("CMAC", OSSL_MAC_PARAM_CIPHER, "AES-128-CBC", text, size, 16, times);
    else
        macs("HMAC", OSSL_MAC_PARAM_DIGEST, "SHA256", text, size, 32, times);
    clock_gettime(CLOCK_MONOTONIC, &to);
    printf("%d %ld\n", block[0], (to.tv_sec - from.tv_sec) * 1000000000L + to.tv_nsec - from.tv_nsec);
    return 0;
}
