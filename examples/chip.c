/*
 * The signature chip's side, with OpenSSL in the chip's place: the DSM-KROOT that the specification
 * publishes (A.1.4) goes through the core block by block, what the core hands out is verified under the
 * published public key, and the verdict is given.
 *
 *     cc chip.c $(pkg-config --cflags --libs osnma) -lcrypto      OpenSSL 3
 *
 * The key's letters are repaired (docs/DECISIONS.md, 5). Ends with status 1 if anything is not as it must
 * be.
 */
#include <osnma.h>

#include <openssl/core_names.h>
#include <openssl/ecdsa.h>
#include <openssl/evp.h>
#include <openssl/params.h>
#include <stdio.h>
#include <string.h>

static const uint8_t dsm_kroot[8][13] = {
    {0x20, 0x20, 0x41, 0x0B, 0x03, 0xB3, 0x78, 0xF1, 0xCA, 0x38, 0x56, 0xA9, 0x75},
    {0xEE, 0x67, 0x72, 0xD9, 0xAB, 0x83, 0x96, 0x86, 0x6D, 0xC5, 0x7E, 0xAD, 0xA1},
    {0xD2, 0x96, 0x37, 0x15, 0xE8, 0x1E, 0xE2, 0x89, 0xC9, 0xF6, 0xF5, 0x48, 0x69},
    {0x40, 0x5F, 0x5E, 0x11, 0x5E, 0x42, 0x47, 0x77, 0xD1, 0x1D, 0x59, 0x8D, 0x24},
    {0x51, 0xCC, 0x57, 0x6C, 0x28, 0x37, 0xA3, 0x98, 0x47, 0x15, 0xB2, 0x2F, 0xD1},
    {0x53, 0xEF, 0x85, 0x17, 0x9E, 0xA6, 0xD4, 0xBD, 0x01, 0x01, 0xDB, 0x1C, 0x0E},
    {0x36, 0x3A, 0x19, 0xDC, 0xA1, 0x62, 0x50, 0x34, 0xF2, 0xCC, 0xF9, 0xD0, 0xE7},
    {0x63, 0xE3, 0xA4, 0x42, 0xFF, 0x81, 0x99, 0xA7, 0xD3, 0xC8, 0xCE, 0xF9, 0xB2}};

/* The annex's NMA header: operational, chain 0, nominal. */
static const uint8_t header = 0x82;

/* The point of A.1.4, compressed as DSM-PKR messages and settings have it. */
static const uint8_t public_key[33] = {0x02, 0x73, 0xB4, 0x40, 0xB0, 0xAC, 0x3C, 0xAA, 0x44, 0x5F, 0xBE,
                                       0x55, 0x6F, 0x9F, 0x8A, 0x78, 0x95, 0xAD, 0x57, 0x5F, 0x42, 0xB4,
                                       0xAD, 0x34, 0xAF, 0x79, 0x8C, 0x2A, 0x18, 0xC5, 0xBC, 0x3A, 0x8B};

/* ---- the chip */

/* The key of a message for OpenSSL; null where it is no point of its curve. */
static EVP_PKEY *key_of(const struct osnma_message *waiting)
{
    static const char *const curve[4] = {"P-224", "P-256", "P-384", "P-521"};
    EVP_PKEY_CTX *context = EVP_PKEY_CTX_new_from_name(NULL, "EC", NULL);
    EVP_PKEY *key = NULL;
    OSSL_PARAM params[3];
    char name[6];
    uint8_t point[OSNMA_KEY];
    memcpy(name, curve[waiting->key_type], sizeof name);
    memcpy(point, waiting->key, sizeof point);
    params[0] = OSSL_PARAM_construct_utf8_string(OSSL_PKEY_PARAM_GROUP_NAME, name, 0);
    params[1] = OSSL_PARAM_construct_octet_string(OSSL_PKEY_PARAM_PUB_KEY, point,
                                                  osnma_key_length(waiting->key_type));
    params[2] = OSSL_PARAM_construct_end();
    if (EVP_PKEY_fromdata_init(context) != 1 ||
        EVP_PKEY_fromdata(context, &key, EVP_PKEY_PUBLIC_KEY, params) != 1)
        key = NULL;
    EVP_PKEY_CTX_free(context);
    return key;
}

/* The two halves of a signature in the form that OpenSSL takes; its length, or 0. */
static size_t der_of(const struct osnma_message *waiting, unsigned char **der)
{
    const int half = (int)osnma_signature_length(waiting->key_type) / 2;
    ECDSA_SIG *pair = ECDSA_SIG_new();
    int length;
    ECDSA_SIG_set0(pair, BN_bin2bn(waiting->signature, half, NULL),
                   BN_bin2bn(waiting->signature + half, half, NULL));
    length = i2d_ECDSA_SIG(pair, der);
    ECDSA_SIG_free(pair);
    return length > 0 ? (size_t)length : 0;
}

/* Whether the signature is one of the first `length` bytes of the message. */
static int verifies(const struct osnma_message *waiting, uint32_t length)
{
    static const char *const digest[4] = {"SHA224", "SHA256", "SHA384", "SHA512"};
    EVP_PKEY *key = key_of(waiting);
    EVP_MD_CTX *context = EVP_MD_CTX_new();
    unsigned char *der = NULL;
    const size_t size = der_of(waiting, &der);
    const int good =
        key != NULL && size > 0 &&
        EVP_DigestVerifyInit_ex(context, NULL, digest[waiting->key_type], NULL, NULL, key, NULL) == 1 &&
        EVP_DigestVerify(context, der, size, waiting->message, length) == 1;
    OPENSSL_free(der);
    EVP_MD_CTX_free(context);
    EVP_PKEY_free(key);
    return good;
}

/* What a chip says of a message that waits. */
static int chip(const struct osnma_message *waiting)
{
    return verifies(waiting, osnma_message_length(waiting->message));
}

/* ---- the receiver */

static struct osnma_core core;
static uint8_t records[OSNMA_RECORDS];

/* The annex's settings: 36 satellites, MACLT 11 with two flexible fields, and its key. No tree of public
   keys is needed here. */
static enum osnma_answer start(void)
{
    struct osnma_settings settings;
    memset(&settings, 0, sizeof settings);
    settings.ns = 36;
    settings.key_id = 0;
    settings.key_type = 1;
    settings.maclt = 11;
    settings.marks[1] = settings.marks[2] = OSNMA_FLEXIBLE;
    settings.marks[15] = settings.marks[16] = OSNMA_FLEXIBLE;
    memcpy(settings.key, public_key, sizeof public_key);
    return osnma_start(&core, &settings);
}

/* A block of the message from satellite E18, a half minute after the one before. */
static enum osnma_answer send_block(uint32_t block)
{
    uint8_t fields[OSNMA_FIELDS] = {0};
    uint32_t i;
    fields[0] = header;
    fields[5] = (uint8_t)block;
    for (i = 0; i < 13; i++)
        fields[10 + 5 * i] = dsm_kroot[block][i];
    return osnma_subframe(&core, 18, osnma_gst(947, 431760 + 30 * block), fields, records).hkroot;
}

static int all_right = 1;

/* Prints what the chip says, and remembers whether it is what it must say. */
static int says(const char *of_what, int good, int right)
{
    printf("%s: %s\n", of_what, good ? "yes" : "no");
    all_right = all_right && good == right;
    return good;
}

int main(void)
{
    struct osnma_message waiting, changed;
    enum osnma_answer answer = start();
    uint32_t block;
    for (block = 0; block < 8 && answer == OSNMA_DONE; block++)
        answer = send_block(block);
    if (answer == OSNMA_DONE)
        answer = osnma_read_message(&core, &waiting);
    if (answer != OSNMA_DONE) {
        fprintf(stderr, "no message waits: %s\n", osnma_answer_text(answer));
        return 1;
    }
    printf("message of %u bytes, signature of %u, key %u of %u\n",
           (unsigned)osnma_message_length(waiting.message),
           (unsigned)osnma_signature_length(waiting.key_type), waiting.key_id,
           (unsigned)osnma_key_length(waiting.key_type));
    changed = waiting;
    changed.message[28] ^= 1;
    (void)says("a changed message", chip(&changed), 0);
    changed = waiting;
    changed.signature[63] ^= 1;
    (void)says("a changed signature", chip(&changed), 0);
    (void)says("the message with the zeros behind it", verifies(&waiting, OSNMA_MESSAGE), 0);
    answer = osnma_verdict_on(&core, &waiting, (uint8_t)says("the message", chip(&waiting), 1));
    printf("verdict: %s\nchain in force: %d\n", osnma_answer_text(answer), osnma_chain_in_force(&core));
    return all_right && answer == OSNMA_DONE && osnma_chain_in_force(&core) ? 0 : 1;
}
