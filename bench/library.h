/* What bench/library.c and bench/stack.c share: a book with a key of each cipher, a call that is received with it, and how deep the stack goes below the
   caller of a function. */
#include "nxdn.h"
#include <stdio.h>
#include <stdlib.h>
#include <string.h>
#include <ucontext.h>

enum { STACK = 1 << 18, PAINT = 0xA5 };

static uint8_t book[NXDN_BOOK], call[NXDN_CALL], frame[NXDN_FRAME_FULL];
static uint8_t vector[NXDN_VECTOR] = {0xAB, 0xCD, 0xEF, 0x12, 0x34, 0x56, 0x78, 0x90};
static const uint8_t name[NXDN_NAME] = "WARD FOUR";
static uint32_t counts[4];
static uint8_t cipher, rate;
static const char *ciphers[] = {"", "scramble", "DES", "AES"}, *rates[] = {"half", "full"};
static const size_t key_octets[] = {0, 2, 8, 32}, frame_octets[] = {NXDN_FRAME_HALF, NXDN_FRAME_FULL};

static void expect(uint8_t answer) {
    if (answer != NXDN_DONE) {
        fprintf(stderr, "%s: answer %d\n", __BASE_FILE__, answer);
        exit(1);
    }
}

static void load(void) {
    static const uint8_t octets[8] = {0xAB, 0xCD, 0xEF, 0x01, 0x23, 0x45, 0x67, 0x89};
    uint8_t key[NXDN_MOST_KEY];
    for (size_t i = 0; i < sizeof key; i++) key[i] = octets[i % 8];
    if (cipher == NXDN_SCRAMBLE) key[0] = 0x23;
    expect(nxdn_begin(book, sizeof book, cipher, 5, name, sizeof name));
    expect(nxdn_add(book, sizeof book, cipher, 5, key, key_octets[cipher]));
    expect(nxdn_finish(book, sizeof book, cipher, 5));
}

static void an_open(void) { expect(nxdn_open(call, sizeof call, cipher, 5, rate, NXDN_HANDSET, vector, sizeof vector, book, sizeof book)); }
static void a_voice(void) { expect(nxdn_voice(call, sizeof call, 15, frame, frame_octets[rate])); }
static void an_end(void) { expect(nxdn_end(call, sizeof call, counts, 4)); }

/* ---- how deep: the function runs on a stack of its own, painted before */

static uint8_t stack[STACK];
static ucontext_t here, there;
static void (*deep)(void);

static void run_deep(void) { deep(); }
static void nothing(void) {}

static size_t painted_over(void (*f)(void)) {
    size_t left = 0;
    memset(stack, PAINT, sizeof stack);
    getcontext(&there);
    there.uc_stack.ss_sp = stack;
    there.uc_stack.ss_size = sizeof stack;
    there.uc_link = &here;
    deep = f;
    makecontext(&there, run_deep, 0);
    swapcontext(&here, &there);
    while (left < sizeof stack && stack[left] == PAINT) left++;
    return sizeof stack - left;
}

static size_t depth(void (*f)(void)) { return painted_over(f) - painted_over(nothing); }
