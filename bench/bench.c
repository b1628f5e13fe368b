/* Times the proved functions beside OpenSSL's in one run, and first sees that both give the same octets.
   The least of several batches is printed, in nanoseconds of processor time. */
#define OPENSSL_API_COMPAT 0x10100000L
#define OPENSSL_SUPPRESS_DEPRECATED
#include <openssl/aes.h>
#include <openssl/des.h>
#include <stdbool.h>
#include <stdio.h>
#include <stdlib.h>
#include <string.h>
#include <time.h>

typedef unsigned char octet;

void timed_blocks(const octet *key, size_t key_len, octet *block, size_t block_len, size_t n);
void timed_joined_blocks(const octet *key, size_t key_len, octet *block, size_t block_len, size_t n);
void timed_session(bool plain, octet cipher, const octet *key, size_t key_len, const octet *vector, size_t vector_len, octet *out, size_t out_len);

void timed_message(octet cipher, const octet *key, size_t key_len, const octet *vector, size_t vector_len, unsigned short count, octet *message, size_t message_len);
void timed_messages(octet cipher, const octet *key, size_t key_len, const octet *vector, size_t vector_len, octet *stream, size_t stream_len, octet *message, size_t message_len, size_t n);
void timed_session_slots(octet cipher, const octet *key, size_t key_len, octet rate, const octet *vector, size_t vector_len, octet *frame, size_t frame_len, size_t n);

enum { MESSAGES = 1000, PACKET_BATCHES = 10, DCALL_OCTETS = 22, PROTECTED_OCTETS = 20, BATCHES = 40, BLOCKS = 2000, STREAM_OCTETS = 8 * BLOCKS, SESSIONS = 200, SESSION_OCTETS = 196, SCRAMBLE_OCTETS = 98 };

static const octet des_key[8] = {0xAB, 0xCD, 0xEF, 0x01, 0x23, 0x45, 0x67, 0x89};
static const octet aes_key[32] = {0xAB, 0xCD, 0xEF, 0x01, 0x23, 0x45, 0x67, 0x89, 0xCD, 0xEF, 0x01, 0x23, 0x45, 0x67, 0x89, 0xAB,
                                  0xEF, 0x01, 0x23, 0x45, 0x67, 0x89, 0xAB, 0xCD, 0x01, 0x23, 0x45, 0x67, 0x89, 0xAB, 0xCD, 0xEF};
static const octet seed[8] = {0xAB, 0xCD, 0xEF, 0x12, 0x34, 0x56, 0x78, 0x90};
static const octet after_seed[8] = {0x8B, 0x8D, 0xDE, 0xEB, 0x89, 0x0F, 0x4C, 0xF1}; /* L(seed), 001 7.2.3 */

static double now(void) {
    struct timespec t;
    clock_gettime(CLOCK_PROCESS_CPUTIME_ID, &t);
    return 1e9 * t.tv_sec + t.tv_nsec;
}

static void openssl_des(octet *block, size_t n) {
    DES_key_schedule ks;
    DES_set_key_unchecked((const_DES_cblock *)des_key, &ks);
    while (n--) DES_ecb_encrypt((const_DES_cblock *)block, (DES_cblock *)block, &ks, DES_ENCRYPT);
}

static void openssl_aes(octet *block, size_t n) {
    AES_KEY k;
    AES_set_encrypt_key(aes_key, 256, &k);
    while (n--) AES_encrypt(block, block, &k);
}

/* Output feedback as NXDN has it: the first enciphered block is not used. */
static void openssl_feed_back(int cipher, octet *block, octet *out, int octets) {
    int width = cipher == 2 ? 8 : 16, at;
    DES_key_schedule ks;
    AES_KEY k;
    if (cipher == 2) DES_set_key_unchecked((const_DES_cblock *)des_key, &ks);
    else AES_set_encrypt_key(aes_key, 256, &k);
    for (at = -width; at < octets; at += width) {
        if (cipher == 2) DES_ecb_encrypt((const_DES_cblock *)block, (DES_cblock *)block, &ks, DES_ENCRYPT);
        else AES_encrypt(block, block, &k);
        if (at >= 0) memcpy(out + at, block, at + width <= octets ? width : octets - at);
    }
}

static void openssl_stream(int cipher, octet *out, int octets) {
    octet block[16];
    memcpy(block, seed, 8);
    memcpy(block + 8, after_seed, 8);
    openssl_feed_back(cipher, block, out, octets);
}

static void openssl_session(int cipher, octet *out) { openssl_stream(cipher, out, SESSION_OCTETS); }

static void our_des(octet *block, size_t n) { timed_blocks(des_key, 8, block, 8, n); }
static void our_joined(octet *block, size_t n) { timed_joined_blocks(des_key, 8, block, 8, n); }
static void our_aes(octet *block, size_t n) { timed_blocks(aes_key, 32, block, 16, n); }

static double per_block(void (*run)(octet *, size_t), octet *block) {
    double best = 1e30;
    for (int b = 0; b < BATCHES; b++) {
        double t = now();
        run(block, BLOCKS);
        t = (now() - t) / BLOCKS;
        if (t < best) best = t;
    }
    return best;
}

static void key_of(int cipher, octet *key) {
    if (cipher == 1) key[1] = 1;
    else if (cipher == 2) memcpy(key, des_key, 8);
    else memcpy(key, aes_key, 32);
}

/* A packet's first n messages, each the octets of the one before. By itself each needs the keystream from the packet's start to its own place. */
static void messages(int cipher, octet *message, size_t n) {
    octet key[32] = {0}, vector[8] = {0};
    key_of(cipher, key);
    if (cipher != 1) memcpy(vector, seed, 8);
    for (size_t i = 0; i < n; i++) timed_message(cipher, key, 32, vector, 8, i, message, DCALL_OCTETS);
}

/* The same by the packet's keystream, which is made first. */
static void messages_by(int cipher, octet *message, size_t n) {
    static octet stream[PROTECTED_OCTETS * MESSAGES];
    octet key[32] = {0}, vector[8] = {0};
    key_of(cipher, key);
    if (cipher != 1) memcpy(vector, seed, 8);
    timed_messages(cipher, key, 32, vector, 8, stream, PROTECTED_OCTETS * n, message, DCALL_OCTETS, n);
}

/* A batch is as many packets of n messages as have a whole packet's messages together. */
static double per_message(void (*run)(int, octet *, size_t), int cipher, octet *message, size_t n) {
    double best = 1e30;
    for (int b = 0; b < PACKET_BATCHES; b++) {
        double t = now();
        for (size_t m = 0; m < MESSAGES; m += n) run(cipher, message, n);
        t = (now() - t) / MESSAGES;
        if (t < best) best = t;
    }
    return best;
}

static void our_session(int cipher, octet *out) {
    octet key[32] = {0};
    key_of(cipher, key);
    timed_session(false, cipher, key, 32, seed, 8, out, cipher == 1 ? SCRAMBLE_OCTETS : SESSION_OCTETS);
}

static void our_plain_session(int cipher, octet *out) {
    octet key[32] = {0};
    key_of(cipher, key);
    timed_session(true, cipher, key, 32, seed, 8, out, SESSION_OCTETS);
}

/* A block of output feedback in a long stream: the first encipherment, and the key, are a small part of it. */
static void our_feedback(octet *out, size_t n) {
    octet key[32] = {0};
    key_of(2, key);
    timed_session(false, 2, key, 32, seed, 8, out, 8 * n);
}

static void openssl_feedback(octet *out, size_t n) { openssl_stream(2, out, 8 * n); }

static double per_session(void (*run)(int, octet *), int cipher, octet *out) {
    double best = 1e30;
    for (int b = 0; b < BATCHES; b++) {
        double t = now();
        for (int i = 0; i < SESSIONS; i++) run(cipher, out);
        t = (now() - t) / SESSIONS;
        if (t < best) best = t;
    }
    return best;
}

/* Slots of all words in a call that goes on from session to session with the generator's next vector, in memory: the keystream of each made once, its words
   turned. Ours is slotcheck's and nxdn_batch's, with all that a call tests and counts; the other is plain C over OpenSSL. */
enum { HALF, FULL, SLOTS = 8000 };
static const int widths[] = {49, 72}, word_octets[] = {7, 9};

static void our_slots(int cipher, int rate, octet *frame) {
    octet key[32] = {0}, vector[8] = {0};
    key_of(cipher, key);
    if (cipher != 1) memcpy(vector, seed, 8);
    timed_session_slots(cipher, key, 32, rate, vector, 8, frame, 4 * word_octets[rate], SLOTS);
}

static unsigned long long following(unsigned long long r) {
    for (int i = 0; i < 64; i++) r = r << 1 | ((r >> 63 ^ r >> 61 ^ r >> 45 ^ r >> 37 ^ r >> 26 ^ r >> 14) & 1);
    return r;
}

static void put64(octet *out, unsigned long long x) { for (int i = 0; i < 8; i++) out[i] = x >> (56 - 8 * i); }

static void scramble_stream(const octet *key, octet *out, int octets) {
    unsigned p = key[0] << 8 | key[1];
    for (int i = 0; i < octets; i++) {
        octet x = 0;
        for (int k = 0; k < 8; k++) { x = x << 1 | (p & 1); p = p >> 1 | ((p ^ p >> 1) & 1) << 14; }
        out[i] = x;
    }
}

static void openssl_slots(int cipher, int rate, octet *frame) {
    octet key[32] = {0}, stream[288 + 8], block[16];
    int width = widths[rate], slots = cipher == 1 ? 4 : 8, octets = width * 4 * slots / 8;
    unsigned long long vector = 0xABCDEF1234567890;
    key_of(cipher, key);
    for (int n = 0; n < SLOTS; n++) {
        if (cipher == 1 ? n == 0 : n % slots == 0) { /* every session of scramble is the same */
            put64(block, vector), put64(block + 8, vector = following(vector));
            if (cipher == 1) scramble_stream(key, stream, octets);
            else openssl_feed_back(cipher, block, stream, octets);
        }
        for (int w = 0; w < 4; w++) {
            int from = 4 * width * (n % slots) + width * w, s = from % 8;
            const octet *in = stream + from / 8;
            octet *word = frame + word_octets[rate] * w;
            for (int i = 0; i < width / 8; i++) word[i] ^= (in[i] << 8 | in[i + 1]) >> (8 - s);
            if (width % 8) word[width / 8] ^= (in[width / 8] << s) & 128;
        }
    }
}

static double per_slot(void (*run)(int, int, octet *), int cipher, int rate, octet *frame) {
    double best = 1e30;
    for (int b = 0; b < BATCHES; b++) {
        double t = now();
        run(cipher, rate, frame);
        t = (now() - t) / SLOTS;
        if (t < best) best = t;
    }
    return best;
}

static void same(const char *what, const octet *a, const octet *b, size_t n) {
    if (memcmp(a, b, n) == 0) return;
    printf("%s: not the same octets\n", what);
    exit(1);
}

static void row(const char *what, double ours, double theirs) {
    if (theirs > 0) printf("%-36s %9.0f ns   OpenSSL %9.0f ns   %6.2f times\n", what, ours, theirs, ours / theirs);
    else printf("%-36s %9.0f ns\n", what, ours);
}

static const char *ciphers[] = {"", "scramble", "DES", "AES"}, *rates[] = {"half", "full"};

static void see_the_same(octet *a, octet *b) {
    our_des(a, 1000), openssl_des(b, 1000), same("DES", a, b, 8);
    our_joined(a, 1000), openssl_des(b, 1000), same("DES by its joined tables", a, b, 8);
    our_aes(a, 1000), openssl_aes(b, 1000), same("AES-256", a, b, 16);
    for (int cipher = 2; cipher <= 3; cipher++) our_session(cipher, a), openssl_session(cipher, b), same("a session", a, b, SESSION_OCTETS);
    our_plain_session(2, a), openssl_session(2, b), same("a session by the plain engine", a, b, SESSION_OCTETS);
    our_feedback(a, BLOCKS), openssl_feedback(b, BLOCKS), same("output feedback", a, b, STREAM_OCTETS);
    for (int cipher = 1; cipher <= 3; cipher++) {
        octet m[DCALL_OCTETS] = {0}, by[DCALL_OCTETS] = {0};
        messages(cipher, m, MESSAGES), messages_by(cipher, by, MESSAGES), same("a packet by message and by message_by", m, by, DCALL_OCTETS);
        for (int rate = HALF; rate <= FULL; rate++) memset(a, 0, 36), memset(b, 0, 36), our_slots(cipher, rate, a), openssl_slots(cipher, rate, b), same("slots", a, b, 36);
    }
}

/* For bench/run: of a half-rate slot of each cipher its keystream's part, which for scramble is made once, and all that is done with it in memory. */
static void shares(octet *a) {
    for (int cipher = 1; cipher <= 3; cipher++)
        printf("%.0f %.0f\n", cipher == 1 ? 0 : per_session(our_session, cipher, a) / 8, per_slot(our_slots, cipher, HALF, a));
}

int main(int argc, char **argv) {
    static octet a[STREAM_OCTETS], b[STREAM_OCTETS];
    char what[64];
    (void)argv;
    see_the_same(a, b);
    if (argc == 2) { shares(a); return 0; }
    double openssl = per_block(openssl_des, b);
    row("DES block, plain engine", per_block(our_des, a), openssl);
    row("DES block, joined tables", per_block(our_joined, a), openssl);
    row("the same, output feedback", per_block(our_feedback, a), per_block(openssl_feedback, b));
    row("AES-256 block", per_block(our_aes, a), per_block(openssl_aes, b));
    row("scramble session, 98 octets", per_session(our_session, 1, a), 0);
    openssl = per_session(openssl_session, 2, b);
    row("DES session, plain engine", per_session(our_plain_session, 2, a), openssl);
    row("DES session, joined tables", per_session(our_session, 2, a), openssl);
    row("AES session, 196 octets", per_session(our_session, 3, a), per_session(openssl_session, 3, b));
    for (int cipher = 1; cipher <= 3; cipher++)
        for (int rate = HALF; rate <= FULL; rate++) {
            snprintf(what, sizeof what, "slot in memory, %s, %s rate", ciphers[cipher], rates[rate]);
            row(what, per_slot(our_slots, cipher, rate, a), per_slot(openssl_slots, cipher, rate, b));
        }
    for (int cipher = 1; cipher <= 3; cipher++)
        for (int n = 10; n <= MESSAGES; n *= 10) {
            double alone = per_message(messages, cipher, a, n), by = per_message(messages_by, cipher, b, n);
            printf("a DCALL message of %4d, %s: by message %8.0f ns, by message_by %6.0f ns\n", n, ciphers[cipher], alone, by);
        }
    return 0;
}
