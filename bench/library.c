/* What a function of the library costs: nanoseconds of a call to it, the least of five, and how deep the stack went below its caller. A voice slot stands
   beside the same by value in the proved code (crate timed), without octets to read and write.
   bench/library builds and runs it. */
#include "library.h"
#include <time.h>

void timed_slots(const uint8_t *book, size_t book_len, uint8_t cipher, uint8_t id, uint8_t rate, const uint8_t *vector,
                 size_t vector_len, uint8_t *frame, size_t frame_len, size_t n);

enum { TIMES = 4000, STEPS = 80 };

static uint8_t packet[NXDN_PACKET], message[22], next[NXDN_VECTOR];
static uint8_t shown[NXDN_SHOWN_KEY], shown_call[NXDN_SHOWN_CALL];
static uint8_t steps[NXDN_STEP * STEPS], answers[STEPS];
static uint32_t night[4 * 1000];
static uint64_t sums[6];

/* ---- what is measured, each as it is called */

static void a_lost(void) { expect(nxdn_lost(call, sizeof call)); }
static void a_heard(void) { expect(nxdn_heard(call, sizeof call, vector, sizeof vector)); }
static void a_show(void) { expect(nxdn_show(call, sizeof call, shown_call, sizeof shown_call)); }
static void a_start(void) { expect(nxdn_start(call, sizeof call, cipher, 5, rate, vector, sizeof vector, book, sizeof book)); }
static void a_next(void) { expect(nxdn_next_vector(call, sizeof call, next, sizeof next)); }
static void an_inventory(void) { expect(nxdn_inventory(book, sizeof book, 0, shown, sizeof shown)); }
static void a_packet(void) {
    expect(nxdn_packet_open(packet, sizeof packet, NXDN_TO_SEND, NXDN_DCALL, cipher, 5, vector, sizeof vector, book, sizeof book));
}
static void a_message(void) { expect(nxdn_message(packet, sizeof packet, message, sizeof message)); }
static void a_packet_end(void) { expect(nxdn_packet_end(packet, sizeof packet)); }
static void a_report(void) { expect(nxdn_report(night, 4 * 1000, sums, 6)); }
static void a_batch(void) {
    for (int i = 0; i < STEPS; i++) steps[NXDN_STEP * i] = NXDN_STEP_VOICE, steps[NXDN_STEP * i + 1] = 15;
    expect(nxdn_batch(call, sizeof call, steps, sizeof steps, answers, sizeof answers));
}
static void slots_by_value(void) {
    timed_slots(book, sizeof book, cipher, 5, rate, vector, sizeof vector, frame, frame_octets[rate], TIMES);
}

/* ---- how long */

static double now(void) {
    struct timespec t;
    clock_gettime(CLOCK_PROCESS_CPUTIME_ID, &t);
    return 1e9 * (double)t.tv_sec + (double)t.tv_nsec;
}

static double least(void (*f)(void), int times, int per) {
    double best = 1e18;
    for (int k = 0; k < 5; k++) {
        double from = now();
        for (int i = 0; i < times; i++) f();
        double took = (now() - from) / times / per;
        if (took < best) best = took;
    }
    return best;
}

static void row(const char *what, void (*f)(void), int times, int per) {
    double took = least(f, times, per);
    printf("%-44s %8.0f ns  stack %5zu octets\n", what, took, depth(f));
}

static void open_and_end(void) { an_open(), an_end(); }
static void start_and_end(void) { a_start(), an_end(); }
static void packet_and_end(void) { a_packet(), a_packet_end(); }

int main(void) {
    char what[80];
    for (cipher = 1; cipher <= 3; cipher++) {
        load();
        for (rate = 0; rate <= 1; rate++) {
            an_open();
            snprintf(what, sizeof what, "nxdn_voice, %s, %s rate", ciphers[cipher], rates[rate]);
            row(what, a_voice, TIMES, 1);
            printf("%-44s %8.0f ns\n", "  the same by value", least(slots_by_value, 1, TIMES));
            row("  a slot of 80 in nxdn_batch", a_batch, TIMES / STEPS, STEPS);
            an_end();
        }
        rate = 0;
        snprintf(what, sizeof what, "nxdn_open and nxdn_end, %s", ciphers[cipher]);
        row(what, open_and_end, TIMES, 1);
    }
    cipher = NXDN_AES;
    an_open();
    row("nxdn_lost, AES", a_lost, TIMES, 1);
    row("nxdn_heard, AES", a_heard, TIMES, 1);
    row("nxdn_show, AES", a_show, TIMES, 1);
    an_end();
    row("nxdn_start and nxdn_end, AES", start_and_end, TIMES, 1);
    a_start();
    row("nxdn_next_vector, AES", a_next, TIMES, 1);
    an_end();
    row("nxdn_packet_open and _end, AES", packet_and_end, TIMES, 1);
    a_packet();
    row("nxdn_message, AES, of a packet's first 150", a_message, 29, 1);
    row("nxdn_inventory, one entry", an_inventory, TIMES, 1);
    row("nxdn_report, 1,000 calls", a_report, TIMES, 1);
    return 0;
}
