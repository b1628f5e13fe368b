/* Both ends of a talk in one program: a sender, and two receivers that hear the same air, a handset and a recorder.
   Slots fade, one of them with the announcement of the next vector: the handset rides over that, the recorder holds the
   session. A word gives way to signalling. Of each session it prints how many words were opened and held.

     examples/build-c handset

   It ends with status 1 if a word that was handed out as opened is not the word that was spoken, or something was
   refused. */
#include <stdio.h>
#include <stdlib.h>
#include <string.h>

#include "nxdn.h"

enum { SESSIONS = 5, RECEIVERS = 2, WORDS = 4, SUPERFRAME = 4, ALL_WORDS = 15 };

struct talk {
    const char *title;
    uint8_t cipher, id, rate;
    int late; /* the receivers missed the opening, and enter at the end of the first superframe */
};

static const struct talk talks[] = {
    {"DES, half rate, from the opening", NXDN_DES, 5, NXDN_HALF_RATE, 0},
    {"DES, full rate, late entry", NXDN_DES, 5, NXDN_FULL_RATE, 1},
    {"AES, half rate, late entry", NXDN_AES, 1, NXDN_HALF_RATE, 1},
    {"AES, full rate, from the opening", NXDN_AES, 1, NXDN_FULL_RATE, 0},
    {"scramble, half rate, late entry", NXDN_SCRAMBLE, 0, NXDN_HALF_RATE, 1},
};
enum { TALKS = sizeof talks / sizeof talks[0] };

struct receiver {
    const char *name;
    uint8_t strictness;
    uint8_t call[NXDN_CALL];
    uint32_t counts[4 * TALKS]; /* as nxdn_end hands them out, four to a call */
    unsigned opened[SESSIONS], held[SESSIONS];
};

static uint8_t book[NXDN_BOOK];
static struct receiver receivers[RECEIVERS] = {
    {.name = "handset", .strictness = NXDN_HANDSET},
    {.name = "recorder", .strictness = NXDN_RECORDER},
};
static unsigned wrong;

/* Nothing here may be refused. */
static void must(uint8_t answer, const char *what) {
    if (answer != NXDN_DONE) {
        fprintf(stderr, "handset: %s was answered %u\n", what, (unsigned)answer);
        exit(1);
    }
}

static void load(uint8_t cipher, uint8_t id, const char *name, const uint8_t *key, size_t key_len) {
    uint8_t octets[NXDN_NAME] = {0};
    memcpy(octets, name, strlen(name));
    must(nxdn_begin(book, sizeof book, cipher, id, octets, sizeof octets), "begin");
    /* a key may come in parts, as it does over a slow line; it is of no use before the last, and finish */
    must(nxdn_add(book, sizeof book, cipher, id, key, 1), "add");
    must(nxdn_add(book, sizeof book, cipher, id, key + 1, key_len - 1), "add");
    must(nxdn_finish(book, sizeof book, cipher, id), "finish");
}

static void load_keys(void) {
    static const uint8_t scramble[] = {0x12, 0x34};
    static const uint8_t des[] = {0xAB, 0xCD, 0xEF, 0x01, 0x23, 0x45, 0x67, 0x89};
    uint8_t aes[NXDN_MOST_KEY];
    for (size_t i = 0; i < sizeof aes; i++)
        aes[i] = (uint8_t)(i + 1);
    load(NXDN_SCRAMBLE, 0, "YARD", scramble, sizeof scramble);
    load(NXDN_DES, 5, "HANDOVER", des, sizeof des);
    load(NXDN_AES, 1, "WARD FOUR", aes, sizeof aes);
}

/* ---- what happens on the air */

static int fades(int session, int slot) {
    return (session == 1 && (slot == 1 || slot == 5)) || (session == 3 && slot == 3);
}

/* The slot that announces the next session's vector is in the second superframe; it may be the session's last. */
static int announcing_slot(int session) { return session == 3 ? 7 : 5; }

static int announces(const struct talk *talk, int session, int slot) {
    return talk->cipher != NXDN_SCRAMBLE && slot == announcing_slot(session);
}

/* How the receivers come to a session's vector. */
static const char *vector_of(const struct talk *talk, int session) {
    if (talk->cipher == NXDN_SCRAMBLE)
        return "-";
    if (session == 0)
        return talk->late ? "missed" : "opening";
    return fades(session - 1, announcing_slot(session - 1)) ? "lost" : "heard";
}

static uint8_t mask_of(int session, int slot) { return session == 3 && slot == 2 ? 13 : ALL_WORDS; }

static int slots_of(const struct talk *talk) { return talk->cipher == NXDN_SCRAMBLE ? SUPERFRAME : 2 * SUPERFRAME; }

static size_t frame_of(const struct talk *talk) {
    return talk->rate == NXDN_HALF_RATE ? NXDN_FRAME_HALF : NXDN_FRAME_FULL;
}

/* ---- a receiver */

static void enter(struct receiver *r, const struct talk *talk, const uint8_t *vector) {
    if (talk->late)
        must(nxdn_join(r->call, NXDN_CALL, talk->cipher, talk->id, talk->rate, r->strictness, book, sizeof book),
             "join");
    else
        must(nxdn_open(r->call, NXDN_CALL, talk->cipher, talk->id, talk->rate, r->strictness, vector, NXDN_VECTOR, book,
                       sizeof book),
             "open");
    memset(r->opened, 0, sizeof r->opened);
    memset(r->held, 0, sizeof r->held);
}

/* A slot that arrived: the library turns the receiver's own copy of the frame, or leaves it as it came. */
static void hear(struct receiver *r, int session, uint8_t mask, const uint8_t *air, const uint8_t *spoken, size_t len) {
    uint8_t frame[NXDN_FRAME_FULL], answer;
    size_t word = len / WORDS;
    memcpy(frame, air, len);
    answer = nxdn_voice(r->call, NXDN_CALL, mask, frame, len);
    if (answer != NXDN_HELD)
        must(answer, "voice");
    for (size_t w = 0; w < WORDS; w++) {
        if (!(mask >> w & 1))
            continue;
        if (answer == NXDN_HELD) {
            r->held[session]++;
            wrong += memcmp(frame + w * word, air + w * word, word) != 0;
        } else {
            r->opened[session]++;
            wrong += memcmp(frame + w * word, spoken + w * word, word) != 0;
        }
    }
}

/* ---- a talk */

static void speak(uint8_t *frame, size_t len, int session, int slot) {
    for (size_t i = 0; i < len; i++)
        frame[i] = (uint8_t)(17 * (size_t)session + 5 * (size_t)slot + 3 * i);
}

static void print_talk(const struct talk *talk, int number) {
    printf("%s\n  %-12s", talk->title, "session");
    for (int s = 0; s < SESSIONS; s++)
        printf("%9d", s);
    printf("   in all: opened   held  replaced   lost\n  %-12s", "vector");
    for (int s = 0; s < SESSIONS; s++)
        printf("%9s", vector_of(talk, s));
    printf("\n  %-12s", "slots lost");
    for (int s = 0; s < SESSIONS; s++) {
        int lost = 0;
        for (int slot = 0; slot < slots_of(talk); slot++)
            lost += fades(s, slot);
        printf("%9d", lost);
    }
    for (int k = 0; k < RECEIVERS; k++) {
        const uint32_t *counts = receivers[k].counts + 4 * number;
        printf("\n  %-12s", receivers[k].name);
        for (int s = 0; s < SESSIONS; s++)
            printf("%6u/%-2u", receivers[k].opened[s], receivers[k].held[s]);
        printf("%17lu%7lu%10lu%7lu", (unsigned long)counts[0], (unsigned long)counts[1], (unsigned long)counts[2],
               (unsigned long)counts[3]);
    }
    printf("\n\n");
}

static void run(const struct talk *talk, int number) {
    uint8_t sender[NXDN_CALL] = {0}, vector[NXDN_VECTOR] = {0xAB, 0xCD, 0xEF, 0x12, 0x34, 0x56, 0x78, 0x90};
    uint8_t spoken[NXDN_FRAME_FULL], air[NXDN_FRAME_FULL];
    uint32_t none[4]; /* a sender counts nothing */
    size_t len = frame_of(talk);
    must(nxdn_start(sender, NXDN_CALL, talk->cipher, talk->id, talk->rate, vector, NXDN_VECTOR, book, sizeof book),
         "start");
    for (int slots = 0; slots < SESSIONS * slots_of(talk); slots++) {
        int session = slots / slots_of(talk), slot = slots % slots_of(talk);
        uint8_t mask = mask_of(session, slot);
        if (slots == (talk->late ? SUPERFRAME : 0))
            for (int k = 0; k < RECEIVERS; k++)
                enter(&receivers[k], talk, vector);
        if (announces(talk, session, slot))
            must(nxdn_next_vector(sender, NXDN_CALL, vector, NXDN_VECTOR), "next_vector");
        speak(spoken, len, session, slot);
        memcpy(air, spoken, len);
        must(nxdn_voice(sender, NXDN_CALL, mask, air, len), "voice");
        if (talk->late && slots < SUPERFRAME)
            continue; /* the receivers are not there yet */
        for (int k = 0; k < RECEIVERS; k++) {
            if (fades(session, slot)) {
                must(nxdn_lost(receivers[k].call, NXDN_CALL), "lost");
                continue;
            }
            hear(&receivers[k], session, mask, air, spoken, len);
            /* first the slot, then the vector that came with it; the call keeps it until its session starts */
            if (announces(talk, session, slot))
                must(nxdn_heard(receivers[k].call, NXDN_CALL, vector, NXDN_VECTOR), "heard");
        }
    }
    for (int k = 0; k < RECEIVERS; k++)
        must(nxdn_end(receivers[k].call, NXDN_CALL, receivers[k].counts + 4 * number, 4), "end");
    must(nxdn_end(sender, NXDN_CALL, none, 4), "end");
    print_talk(talk, number);
}

int main(void) {
    load_keys();
    printf("words opened/held of each session\n\n");
    for (int t = 0; t < TALKS; t++)
        run(&talks[t], t);
    for (int k = 0; k < RECEIVERS; k++) {
        uint64_t sums[6];
        must(nxdn_report(receivers[k].counts, 4 * TALKS, sums, 6), "report");
        printf("%-8s of %d calls: opened %llu, held %llu, replaced %llu, lost %llu; opened %llu of %llu that arrived\n",
               receivers[k].name, TALKS, (unsigned long long)sums[0], (unsigned long long)sums[1],
               (unsigned long long)sums[2], (unsigned long long)sums[3], (unsigned long long)sums[4],
               (unsigned long long)sums[5]);
    }
    if (wrong == 0)
        puts("every opened word is the word that was spoken, and every held one is as it came");
    else
        printf("%u words are wrong\n", wrong);
    return wrong != 0;
}
