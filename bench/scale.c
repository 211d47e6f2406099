#include "scale.h"
#include "core.h"
#include "tasks.h"

#include <stdio.h>

#ifdef WITH_OPENSSL
#include <openssl/evp.h>

enum { WARM_UP_TURNS = 2 };

/* The key is set before anything is timed, as the words are of the other calls. */
static double time_openssl(const EVP_CIPHER *cipher, int encrypting)
{
    static double ns[MOST_TURNS];
    static uint8_t in[16 * LARGEST_BOOK], out[sizeof in];
    static const uint8_t key[16], iv[16];
    EVP_CIPHER_CTX *context = EVP_CIPHER_CTX_new();
    int len, ok = context != NULL &&
                  EVP_CipherInit_ex(context, cipher, NULL, key, iv, encrypting) &&
                  EVP_CIPHER_CTX_set_padding(context, 0);
    for (int turn = -WARM_UP_TURNS; turn < turns && ok; turn++) {
        double start = now_ns();
        ok = EVP_CipherInit_ex(context, NULL, NULL, NULL, iv, encrypting) &&
             EVP_CipherUpdate(context, out, &len, in, sizeof in);
        if (turn >= 0)
            ns[turn] = now_ns() - start;
    }
    EVP_CIPHER_CTX_free(context);
    return ok ? median(ns) / LARGEST_BOOK : 0;
}

size_t measure_scales(struct scale scales[MOST_SCALES])
{
    static const char *const names[MOST_SCALES] = {"CAMELLIA-128-CBC", "AES-128-CBC"};
    size_t count = 0;
    for (size_t i = 0; i < MOST_SCALES; i++) {
        EVP_CIPHER *cipher = EVP_CIPHER_fetch(NULL, names[i], NULL);
        struct scale s = {names[i], 0, 0};
        if (cipher != NULL) {
            s.encrypt_ns = time_openssl(cipher, 1);
            s.decrypt_ns = time_openssl(cipher, 0);
        }
        if (s.encrypt_ns > 0 && s.decrypt_ns > 0)
            scales[count++] = s;
        else
            fprintf(stderr, "bench: %s is not in this OpenSSL, skipped\n", names[i]);
        EVP_CIPHER_free(cipher);
    }
    return count;
}
#else
size_t measure_scales(struct scale scales[MOST_SCALES])
{
    (void)scales;
    fprintf(stderr, "bench: built without OpenSSL, its ciphers are skipped\n");
    return 0;
}
#endif
