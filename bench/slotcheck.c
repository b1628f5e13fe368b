/* What slotcheck is measured against: the same job in plain C over OpenSSL. It checks hex and lengths and knows fewer refusals than slotcheck:
   for the bench's input both answer alike.
   slotcheck-c < FILE          answers each record
   slotcheck-c evp < FILE      the same, AES by EVP, which uses the processor's AES instructions where it has them
   slotcheck-c text < FILE     only reads it, and writes it out
   slotcheck-c make CIPHER N   prints an input of N voice slots under a cipher */
#define OPENSSL_API_COMPAT 0x10100000L
#define OPENSSL_SUPPRESS_DEPRECATED
#include <openssl/aes.h>
#include <openssl/des.h>
#include <openssl/evp.h>
#include <stdint.h>
#include <stdio.h>
#include <stdlib.h>
#include <string.h>
#include <unistd.h>

typedef unsigned char octet;
enum { SESSION_OCTETS = 196, PIECE = 131072 };

static struct { int cipher, position, known, open; octet key[32], vector[8], stream[SESSION_OCTETS + 8]; } call;
static octet keys[4][64][32];
static int evp;

static uint64_t following(uint64_t r) {
    for (int i = 0; i < 64; i++) r = r << 1 | ((r >> 63 ^ r >> 61 ^ r >> 45 ^ r >> 37 ^ r >> 26 ^ r >> 14) & 1);
    return r;
}

static void put64(octet *out, uint64_t x) { for (int i = 0; i < 8; i++) out[i] = x >> (56 - 8 * i); }
static uint64_t get64(const octet *in) { uint64_t x = 0; for (int i = 0; i < 8; i++) x = x << 8 | in[i]; return x; }

static void scramble(const octet *key, octet *out, int octets) {
    unsigned p = key[0] << 8 | key[1];
    for (int i = 0; i < octets; i++) {
        octet x = 0;
        for (int k = 0; k < 8; k++) { x = x << 1 | (p & 1); p = p >> 1 | ((p ^ p >> 1) & 1) << 14; }
        out[i] = x;
    }
}

/* Output feedback, whose first enciphered block is not used. */
static void aes_by_evp(const octet *block) {
    static EVP_CIPHER_CTX *context;
    static EVP_CIPHER *feedback;
    static const octet zeros[16 + SESSION_OCTETS];
    octet out[16 + SESSION_OCTETS];
    int n;
    if (!context) context = EVP_CIPHER_CTX_new(), feedback = EVP_CIPHER_fetch(NULL, "AES-256-OFB", NULL);
    EVP_EncryptInit_ex2(context, feedback, call.key, block, NULL);
    EVP_EncryptUpdate(context, out, &n, zeros, sizeof zeros);
    memcpy(call.stream, out + 16, SESSION_OCTETS);
}

/* The keystream of the call's session, made once. */
static void make_stream(void) {
    octet block[16];
    memcpy(block, call.vector, 8);
    if (call.cipher == 1) { scramble(call.key, call.stream, SESSION_OCTETS / 2); return; }
    if (call.cipher == 2) {
        DES_key_schedule ks;
        DES_set_key_unchecked((const_DES_cblock *)call.key, &ks);
        for (int at = -8; at < SESSION_OCTETS; at += 8) {
            DES_ecb_encrypt((const_DES_cblock *)block, (DES_cblock *)block, &ks, DES_ENCRYPT);
            if (at >= 0) memcpy(call.stream + at, block, at + 8 <= SESSION_OCTETS ? 8 : SESSION_OCTETS - at);
        }
        return;
    }
    put64(block + 8, following(get64(call.vector)));
    if (evp) { aes_by_evp(block); return; }
    AES_KEY k;
    AES_set_encrypt_key(call.key, 256, &k);
    for (int at = -16; at < SESSION_OCTETS; at += 16) {
        AES_encrypt(block, block, &k);
        if (at >= 0) memcpy(call.stream + at, block, at + 16 <= SESSION_OCTETS ? 16 : SESSION_OCTETS - at);
    }
}

static void turn(octet *frame, int mask) {
    for (int w = 0; w < 4; w++) {
        if (!(mask >> w & 1)) continue;
        int from = 196 * call.position + 49 * w, s = from % 8;
        const octet *in = call.stream + from / 8;
        octet *word = frame + 7 * w;
        for (int i = 0; i < 6; i++) word[i] ^= (in[i] << 8 | in[i + 1]) >> (8 - s);
        word[6] ^= (in[6] << s) & 128;
    }
}

static signed char digit[256];
static void make_digits(void) {
    memset(digit, -1, 256);
    for (int i = 0; i < 16; i++) digit[(octet)"0123456789ABCDEF"[i]] = i;
}
static const octet *number(const octet *p, int *n) { for (*n = 0; *p >= '0' && *p <= '9'; p++) *n = 10 * *n + *p - '0'; return p + 1; }
/* Whether the field up to the line's end is the hex of n octets. */
static int unhex(const octet *p, const octet *end, octet *out, int n) {
    int bad = 0;
    if (end - p != 2 * n) return 0;
    for (int i = 0; i < n; i++) {
        int high = digit[p[2 * i]], low = digit[p[2 * i + 1]];
        bad |= high | low;
        out[i] = high << 4 | low;
    }
    return bad >= 0;
}

/* Answers one record; returns the end of what it wrote. */
static octet *answer(const octet *p, const octet *end, octet *out) {
    static const int key_octets[] = {0, 2, 8, 32};
    int a, b, number_of = 15, shown = 0;
    octet octets[28];
    if (p == end) goto print;
    switch (*p) {
    case 'K': p = number(p + 2, &a); p = number(p, &b); if (unhex(p, end, keys[a & 3][b & 63], key_octets[a & 3])) number_of = 0; break;
    case 'O': p = number(p + 2, &a); p = number(p, &b); if (!unhex(p, end, call.vector, 8)) break;
        number_of = 0; call.cipher = a & 3; memcpy(call.key, keys[a & 3][b & 63], 32); call.position = 0; call.known = call.open = 1; make_stream(); break;
    case 'J': p = number(p + 2, &a); number(p, &b);
        number_of = 0; call.cipher = a & 3; memcpy(call.key, keys[a & 3][b & 63], 32); call.open = 1; call.known = a == 1; call.position = a == 1 ? 0 : 4;
        if (a == 1) make_stream();
        break;
    case 'I': if (unhex(p + 2, end, call.vector, 8)) { number_of = 0; call.known = 1; make_stream(); } break;
    case 'V': p = number(p + 2, &a); if (!unhex(p, end, octets, 28)) break;
        if ((shown = call.known)) turn(octets, a);
        /* fall through */
    case 'L':
        number_of = *p == 'L' || shown ? 0 : 1;
        if (++call.position == (call.cipher == 1 ? 4 : 8)) { call.position = 0; if (call.cipher != 1) call.known = 0; } break;
    case 'E': number_of = 0; call.open = 0; break;
    }
print:
    if (number_of > 9) *out++ = '1', number_of -= 10;
    *out++ = '0' + number_of; *out++ = '\t';
    *out++ = call.open ? '0' + call.position : '-'; *out++ = '\t';
    if (shown) for (int i = 0; i < 28; i++) { *out++ = "0123456789ABCDEF"[octets[i] >> 4]; *out++ = "0123456789ABCDEF"[octets[i] & 15]; }
    else *out++ = '-';
    *out++ = '\n';
    return out;
}

static void make(int cipher, long slots) {
    static const char *key[] = {"", "5A3C", "ABCDEF0123456789", "ABCDEF0123456789CDEF0123456789ABEF0123456789ABCD0123456789ABCDEF"};
    uint64_t vector = 0xABCDEF1234567890, noise = 1;
    printf("K\t%d\t0\t%s\nO\t%d\t0\t%016lX\n", cipher, key[cipher], cipher, (unsigned long)vector);
    for (long n = 0; n < slots; n++) {
        if (cipher != 1 && n && n % 8 == 0) printf("I\t%016lX\n", (unsigned long)(vector = following(vector)));
        printf("V\t15\t");
        for (int i = 0; i < 7; i++) printf("%08lX", (unsigned long)((noise = noise * 6364136223846793005u + 1442695040888963407u) >> 32));
        printf("\n");
    }
    printf("E\n");
}

int main(int argc, char **argv) {
    static octet in[2 * PIECE], out[2 * PIECE];
    size_t held = 0;
    if (argc == 2 && strcmp(argv[1], "text") == 0) {
        for (ssize_t got; (got = read(0, in, PIECE)) > 0;) if (write(1, in, got) < 0) return 1;
        return 0;
    }
    make_digits();
    if (argc == 4) { make(atoi(argv[2]), atol(argv[3])); return 0; }
    evp = argc == 2 && strcmp(argv[1], "evp") == 0;
    for (ssize_t got; (got = read(0, in + held, PIECE)) > 0;) {
        octet *end = in + held + got, *from = in, *to = out, *line;
        while ((line = memchr(from, '\n', end - from))) { to = answer(from, line, to); from = line + 1; }
        held = end - from;
        memmove(in, from, held);
        if (write(1, out, to - out) < 0) return 1;
    }
    return 0;
}
