/* How deep the stack goes below the caller, in octets: one voice slot of each cipher at each rate (nxdn_voice); a key of DES, by each engine, and of AES
   prepared, and one block under it (crate timed). Seen is the lowest octet that was written: bench/stack, which builds and runs it, prints the frames beside it. */
#include "library.h"

void timed_blocks(const uint8_t *key, size_t key_len, uint8_t *block, size_t block_len, size_t n);
/* a library from before W-212 has none */
__attribute__((weak)) void timed_joined_blocks(const uint8_t *key, size_t key_len, uint8_t *block, size_t block_len, size_t n);

static uint8_t key[NXDN_MOST_KEY], block[16];

/* the empty asm keeps each a call: a jump at a function's end leaves no return address, and the figure would be 16 octets short */
static void a_des_block(void) { timed_blocks(key, 8, block, 8, 1); __asm__ volatile(""); }
static void a_joined_block(void) { timed_joined_blocks(key, 8, block, 8, 1); __asm__ volatile(""); }
static void an_aes_block(void) { timed_blocks(key, 32, block, 16, 1); __asm__ volatile(""); }

static void row(const char *what, void (*f)(void)) { printf("%-36s %6zu\n", what, depth(f)); }

int main(void) {
    char what[80];
    for (cipher = 1; cipher <= 3; cipher++) {
        load();
        for (rate = 0; rate <= 1; rate++) {
            an_open();
            snprintf(what, sizeof what, "a voice slot, %s, %s rate", ciphers[cipher], rates[rate]);
            row(what, a_voice);
            an_end();
        }
    }
    row("a DES key prepared, and a block", a_des_block);
    if (timed_joined_blocks) row("the same by the joined tables", a_joined_block);
    row("an AES key prepared, and a block", an_aes_block);
    return 0;
}
