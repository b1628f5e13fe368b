/* Random operations: what the library answers and leaves must be what the model does.

     random SEED OPERATIONS [LOG]

   Each operation is drawn, done by the library on buffers between guard pages and by the model on copies, and compared
   in its answer and in every lent octet. Octets are mostly good, some are bad in one octet or random; lengths and
   numbers are mostly right. Without a LOG it is held to every answer of every function that nxdn.h lists: each must be
   seen, and no other. A LOG gets a line for each operation, for against_model.py. The same SEED gives the same. */
#include <signal.h>
#include <stdio.h>
#include <stdlib.h>
#include <string.h>
#include <unistd.h>

#include "lent.h"
#include "model.h"

/* ---- chance */

static uint64_t chance;

static uint64_t any(void) {
    uint64_t x = chance += 0x9E3779B97F4A7C15u; /* splitmix64 */
    x = (x ^ x >> 30) * 0xBF58476D1CE4E5B9u;
    x = (x ^ x >> 27) * 0x94D049BB133111EBu;
    return x ^ x >> 31;
}

static size_t below(size_t n) { return (size_t)(any() % n); }
static int one_in(size_t n) { return below(n) == 0; }
static uint8_t octet_below(size_t n) { return (uint8_t)below(n); }

static void any_octets(uint8_t *octets, size_t len) {
    for (size_t i = 0; i < len; i++)
        octets[i] = (uint8_t)any();
}

/* ---- the functions */

enum function {
    BEGIN, ADD, FINISH, ERASE, NAME, INVENTORY, OPEN, START, JOIN, VOICE, LOST_SLOT, HEARD, ANNOUNCE, NEXT_VECTOR,
    BATCH, END, SHOW, PACKET_OPEN, MESSAGE, PACKET_LOST, PACKET_END, REPORT, FUNCTIONS
};

enum { MOST_BUFFERS = 3, MOST_NUMBERS = 4, MOST_ANSWERS = 10, ANSWERS = 18 };

/* What a function is lent and given, in its order. Buffers that live on: B book, C call, P packet; given: n name,
   a octets to add, v vector, f frame, t steps, m message, c counts; handed out: N name, K key shown, V vector,
   A answers, 4 counts, S call shown, 6 sums. Each is w, written, or r, const. Numbers: c cipher, i key ID, r rate,
   s strictness, m mask, e entry, u use, k kind. Then its answers: done, held, and the refusals as nxdn.h has them; and
   how often it is drawn. */
static const struct shape {
    const char *name, *buffers, *access, *numbers;
    uint8_t answers[MOST_ANSWERS]; /* 0 behind them: done, which each has */
    unsigned weight;
} shapes[FUNCTIONS] = {
    [BEGIN] = {"begin", "Bn", "wr", "ci", {0, 2, 3, 17, 4, 11, 12}, 6},
    [ADD] = {"add", "Ba", "wr", "ci", {0, 2, 3, 4, 5, 11, 13}, 7},
    [FINISH] = {"finish", "B", "w", "ci", {0, 2, 3, 4, 5, 11, 6, 7}, 6},
    [ERASE] = {"erase", "B", "w", "ci", {0, 2, 3, 4, 5}, 2},
    [NAME] = {"name", "BN", "rw", "ci", {0, 2, 3, 4, 5}, 2},
    [INVENTORY] = {"inventory", "BK", "rw", "e", {0, 2, 3, 4}, 3},
    [OPEN] = {"open", "CvB", "wrr", "cirs", {0, 2, 3, 4, 9, 5, 6}, 6},
    [START] = {"start", "CvB", "wrr", "cir", {0, 2, 3, 4, 9, 5, 6, 8}, 5},
    [JOIN] = {"join", "CB", "wr", "cirs", {0, 2, 3, 4, 9, 5, 6}, 5},
    [VOICE] = {"voice", "Cf", "ww", "m", {0, 1, 2, 10, 4, 9, 16}, 30},
    [LOST_SLOT] = {"lost", "C", "w", "", {0, 2, 4, 9, 16}, 10},
    [HEARD] = {"heard", "Cv", "wr", "", {0, 2, 4, 9}, 7},
    [ANNOUNCE] = {"announce", "Cv", "wr", "", {0, 2, 4, 9}, 5},
    [NEXT_VECTOR] = {"next_vector", "CV", "rw", "", {0, 2, 4, 9}, 3},
    [BATCH] = {"batch", "CtA", "www", "", {0, 2}, 3},
    [END] = {"end", "C4", "ww", "", {0, 2, 4, 9}, 1},
    [SHOW] = {"show", "CS", "rw", "", {0, 2, 4}, 4},
    [PACKET_OPEN] = {"packet_open", "PvB", "wrr", "ukci", {0, 2, 3, 4, 9, 5, 6, 8}, 5},
    [MESSAGE] = {"message", "Pm", "ww", "", {0, 2, 4, 9}, 6},
    [PACKET_LOST] = {"packet_lost", "P", "w", "", {0, 2, 4, 9}, 3},
    [PACKET_END] = {"packet_end", "P", "w", "", {0, 2, 4, 9}, 2},
    [REPORT] = {"report", "c6", "rw", "", {0, 2, 16}, 2},
};

/* The answers to the steps of a batch: those of voice, lost, heard and announce, where lengths are right, and 3. */
static const uint8_t answers_to_steps[MOST_ANSWERS] = {0, 1, 3, 10, 4, 9, 16};

struct buffer {
    uint8_t *octets;
    size_t len; /* in octets, of counts and sums too */
};

struct operation {
    enum function function;
    size_t number[MOST_NUMBERS];
    struct buffer before[MOST_BUFFERS];
    uint8_t *keeps[MOST_BUFFERS]; /* where what it leaves lives on, or NULL */
};

/* One operation, by the library or by the model. */
static uint8_t answer_of(const struct operation *o, int by_model, const struct buffer *b) {
#define DO(name, ...) return by_model ? model_##name(__VA_ARGS__) : nxdn_##name(__VA_ARGS__)
#define OCTETS(k) b[k].octets, b[k].len
#define COUNTS_OF(k) (uint32_t *)(void *)b[k].octets, b[k].len / sizeof(uint32_t)
#define SUMS(k) (uint64_t *)(void *)b[k].octets, b[k].len / sizeof(uint64_t)
#define N(k) (uint8_t)o->number[k]
    switch (o->function) {
    case BEGIN: DO(begin, OCTETS(0), N(0), N(1), OCTETS(1));
    case ADD: DO(add, OCTETS(0), N(0), N(1), OCTETS(1));
    case FINISH: DO(finish, OCTETS(0), N(0), N(1));
    case ERASE: DO(erase, OCTETS(0), N(0), N(1));
    case NAME: DO(name, OCTETS(0), N(0), N(1), OCTETS(1));
    case INVENTORY: DO(inventory, OCTETS(0), o->number[0], OCTETS(1));
    case OPEN: DO(open, OCTETS(0), N(0), N(1), N(2), N(3), OCTETS(1), OCTETS(2));
    case START: DO(start, OCTETS(0), N(0), N(1), N(2), OCTETS(1), OCTETS(2));
    case JOIN: DO(join, OCTETS(0), N(0), N(1), N(2), N(3), OCTETS(1));
    case VOICE: DO(voice, OCTETS(0), N(0), OCTETS(1));
    case LOST_SLOT: DO(lost, OCTETS(0));
    case HEARD: DO(heard, OCTETS(0), OCTETS(1));
    case ANNOUNCE: DO(announce, OCTETS(0), OCTETS(1));
    case NEXT_VECTOR: DO(next_vector, OCTETS(0), OCTETS(1));
    case BATCH: DO(batch, OCTETS(0), OCTETS(1), OCTETS(2));
    case END: DO(end, OCTETS(0), COUNTS_OF(1));
    case SHOW: DO(show, OCTETS(0), OCTETS(1));
    case PACKET_OPEN: DO(packet_open, OCTETS(0), N(0), N(1), N(2), N(3), OCTETS(1), OCTETS(2));
    case MESSAGE: DO(message, OCTETS(0), OCTETS(1));
    case PACKET_LOST: DO(packet_lost, OCTETS(0));
    case PACKET_END: DO(packet_end, OCTETS(0));
    case REPORT: DO(report, COUNTS_OF(0), SUMS(1));
    case FUNCTIONS: break;
    }
    return 255;
}

/* ---- octets that are good */

static void make_key(uint8_t cipher, uint8_t *key) {
    static const uint8_t keys[4][3][NXDN_MOST_KEY] = {
        [NXDN_SCRAMBLE] = {{0x00, 0x01}, {0x7F, 0xFF}, {0x5A, 0x3C}},
        [NXDN_DES] = {{0xAB, 0xCD, 0xEF, 0x01, 0x23, 0x45, 0x67, 0x89}, {1, 1, 1, 1, 1, 1, 1, 1},
                      {0xFE, 0xFE, 0xFE, 0xFE, 0xFE, 0xFE, 0xFE, 0xFE}},
        [NXDN_AES] = {{0}, {0xAB, 0xCD, 0xEF}, {0xFF, 0xFF, [31] = 0x80}},
    };
    memcpy(key, keys[cipher][below(3)], NXDN_MOST_KEY);
    if (one_in(8))
        do
            any_octets(key, model_key_octets(cipher));
        while (!model_key_allowed(cipher, key));
}

/* Few vectors, so that what one model makes of them it need not make again; zeros among them. */
static void make_vector(uint8_t *vector) {
    static const uint8_t vectors[][NXDN_VECTOR] = {
        {0xAB, 0xCD, 0xEF, 0x12, 0x34, 0x56, 0x78, 0x90}, {0, 0, 0, 0, 0, 0, 0, 1}, {0x80}, {0},
        {0xFF, 0xFF, 0xFF, 0xFF, 0xFF, 0xFF, 0xFF, 0xFF},
    };
    memcpy(vector, vectors[below(sizeof vectors / sizeof vectors[0])], NXDN_VECTOR);
    if (one_in(12))
        any_octets(vector, NXDN_VECTOR);
}

static void make_name(uint8_t *name) {
    size_t text = below(NXDN_NAME + 1);
    memset(name, 0, NXDN_NAME);
    for (size_t i = 0; i < text; i++)
        name[i] = (uint8_t)(0x20 + below(0x5F));
}

static void make_book(uint8_t *book) {
    size_t sparse = 1 + below(4);
    uint8_t id = octet_below(64);
    memset(book, 0, NXDN_BOOK);
    for (int k = 0; k < ENTRIES; k++) {
        uint8_t *e = book + k * ENTRY, key[NXDN_MOST_KEY];
        size_t len;
        if (sparse > 1 && !one_in(sparse))
            continue;
        e[IN_ENTRY_CIPHER] = (uint8_t)(1 + below(3));
        e[IN_ENTRY_ID] = id;
        id = (uint8_t)((id + 1) % 64); /* no two alike */
        make_name(e + IN_ENTRY_NAME);
        make_key(e[IN_ENTRY_CIPHER], key);
        len = model_key_octets(e[IN_ENTRY_CIPHER]);
        e[IN_ENTRY_READY] = octet_below(2);
        e[IN_ENTRY_LOADED] = (uint8_t)(e[IN_ENTRY_READY] ? len : below(len + 1));
        memcpy(e + IN_ENTRY_KEY, key, e[IN_ENTRY_LOADED]);
    }
}

/* Slots that agree with the position: few, any, or so many that the limit is near. */
static uint32_t make_slots(size_t position) {
    size_t after = position % 4;
    switch (below(3)) {
    case 0: return (uint32_t)(4 * below(4) + after);
    case 1: return (uint32_t)(4 * below(MOST_WORDS / 16) + after);
    default: return (uint32_t)(MOST_WORDS / 4 - 4 * below(3) - (4 - after) % 4);
    }
}

static void make_counts(uint8_t *call) {
    uint32_t slots = make_slots(call[IN_CALL_POSITION]), lost = one_in(3) ? 0 : (uint32_t)below(slots + 1);
    uint32_t words = 4 * (slots - lost), replaced = (uint32_t)below(words + 1);
    uint32_t opened = (uint32_t)below(words - replaced + 1);
    if (call[IN_CALL_CIPHER] == NXDN_SCRAMBLE)
        opened = words - replaced;
    if (call[IN_CALL_STRICTNESS] == NXDN_HANDSET && call[IN_CALL_KNOWN] == UNKNOWN)
        opened = 0;
    model_set_count(call, OPENED, opened);
    model_set_count(call, HELD, words - replaced - opened);
    model_set_count(call, REPLACED, replaced);
    model_set_count(call, LOST, 4 * lost);
}

static void make_call(uint8_t *call) {
    int told;
    memset(call, 0, NXDN_CALL);
    call[IN_CALL_END] = one_in(3) ? NXDN_SENDING : NXDN_RECEIVING;
    call[IN_CALL_CIPHER] = (uint8_t)(1 + below(3));
    call[IN_CALL_RATE] = octet_below(2);
    call[IN_CALL_POSITION] = one_in(3) ? 0 : octet_below(model_slots(call[IN_CALL_CIPHER]));
    call[IN_CALL_KNOWN] = TOLD;
    make_key(call[IN_CALL_CIPHER], call + IN_CALL_KEY);
    if (call[IN_CALL_CIPHER] != NXDN_SCRAMBLE) {
        make_vector(call + IN_CALL_VECTOR);
        if (call[IN_CALL_END] == NXDN_SENDING)
            call[IN_CALL_VECTOR] |= 1; /* never zeros */
    }
    if (call[IN_CALL_END] == NXDN_SENDING)
        return;
    call[IN_CALL_STRICTNESS] = octet_below(2);
    if (call[IN_CALL_CIPHER] != NXDN_SCRAMBLE) {
        call[IN_CALL_KNOWN] = octet_below(call[IN_CALL_STRICTNESS] == NXDN_HANDSET ? 3 : 2);
        if (call[IN_CALL_KNOWN] == UNKNOWN)
            memset(call + IN_CALL_VECTOR, 0, NXDN_VECTOR);
        told = call[IN_CALL_KNOWN] == TOLD;
        if ((told || call[IN_CALL_POSITION] != 0) && one_in(3)) {
            call[IN_CALL_KEPT] = 1;
            make_vector(call + IN_CALL_NEXT);
        }
    }
    make_counts(call);
}

/* Mostly of few messages or near the last: one in the middle costs as much as all before it. */
static void make_packet(uint8_t *packet) {
    size_t count = one_in(3) ? MOST_MESSAGES - below(3) : one_in(8) ? below(MOST_MESSAGES + 1) : below(4);
    memset(packet, 0, NXDN_PACKET);
    packet[IN_PACKET_KIND] = (uint8_t)(1 + below(4));
    packet[IN_PACKET_CIPHER] = (uint8_t)(1 + below(3));
    packet[IN_PACKET_COUNT] = (uint8_t)(count >> 8);
    packet[IN_PACKET_COUNT + 1] = (uint8_t)count;
    make_key(packet[IN_PACKET_CIPHER], packet + IN_PACKET_KEY);
    if (packet[IN_PACKET_CIPHER] != NXDN_SCRAMBLE)
        make_vector(packet + IN_PACKET_VECTOR);
}

/* ---- and octets that may be bad */

static void change_octet(uint8_t *octets, size_t len) {
    uint8_t *x = octets + below(len);
    switch (below(5)) {
    case 0: *x ^= (uint8_t)(1u << below(8)); break;
    case 1: *x = (uint8_t)(*x + 1); break;
    case 2: *x = (uint8_t)(*x - 1); break;
    case 3: *x = octet_below(4); break;
    default: *x = (uint8_t)any(); break;
    }
}

/* An entry twice, or only its cipher and key ID; or an octet of its numbers, its key or its name. */
static void spoil_book(uint8_t *book) {
    uint8_t *entry = book + ENTRY * below(ENTRIES), *other = book + ENTRY * below(ENTRIES);
    switch (below(4)) {
    case 0: memmove(other, entry, one_in(2) ? 2 : ENTRY); break;
    case 1: change_octet(entry, IN_ENTRY_KEY); break;
    case 2: change_octet(entry + IN_ENTRY_KEY, NXDN_MOST_KEY); break;
    default: change_octet(entry + IN_ENTRY_NAME, NXDN_NAME); break;
    }
}

/* Words from one count to another: a few; or so many that the sum is the same only in 32 bits. */
static void move_words(uint8_t *call) {
    int from = (int)below(COUNTS), to = (int)below(COUNTS);
    uint32_t by = one_in(2) ? (uint32_t)below(9) : one_in(2) ? 0x80000000u : 4 * (uint32_t)below(0x40000000u);
    model_set_count(call, from, model_count(call, from) - by);
    model_set_count(call, to, model_count(call, to) + by);
}

static void spoil_call(uint8_t *call) {
    int count = (int)below(COUNTS);
    switch (below(4)) {
    case 0: move_words(call); break;
    case 1: /* a slot more, past the limit too */
        model_set_count(call, count, model_count(call, count) + 4);
        call[IN_CALL_POSITION] = (uint8_t)((call[IN_CALL_POSITION] + 1) % 8);
        break;
    case 2: memset(call + (one_in(2) ? IN_CALL_VECTOR : IN_CALL_NEXT), 0, NXDN_VECTOR); break;
    default: change_octet(call, IN_CALL_VECTOR); break;
    }
}

static void spoil_packet(uint8_t *packet) {
    packet[IN_PACKET_COUNT] = (uint8_t)(MOST_MESSAGES >> 8);
    packet[IN_PACKET_COUNT + 1] = (uint8_t)((MOST_MESSAGES & 255) + below(3));
    if (one_in(2))
        change_octet(packet, IN_PACKET_VECTOR);
}

static void spoil(char letter, uint8_t *octets, size_t len) {
    switch (below(6)) {
    case 0: any_octets(octets, len); break;
    case 1: change_octet(octets, len); /* fall through */
    case 2: case 3: change_octet(octets, len); break;
    default:
        if (letter == 'B')
            spoil_book(octets);
        else if (letter == 'C')
            spoil_call(octets);
        else
            spoil_packet(octets);
        break;
    }
}

/* ---- an operation, drawn */

enum { BOOKS = 2, CALLS = 8, PACKETS = 3 };
static uint8_t books[BOOKS][NXDN_BOOK], calls[CALLS][NXDN_CALL], packets[PACKETS][NXDN_PACKET];
static uint8_t room[MOST_BUFFERS][LENT_MOST];

static size_t right_length(char letter, const struct operation *o) {
    const uint8_t *first = o->before[0].octets;
    switch (letter) {
    case 'B': return NXDN_BOOK;
    case 'C': return NXDN_CALL;
    case 'P': return NXDN_PACKET;
    case 'n': case 'N': return NXDN_NAME;
    case 'K': return NXDN_SHOWN_KEY;
    case 'v': case 'V': return NXDN_VECTOR;
    case 'f': return first[IN_CALL_RATE] == NXDN_FULL_RATE ? NXDN_FRAME_FULL : NXDN_FRAME_HALF;
    case 'm': return model_message_octets(first[IN_PACKET_KIND]) ? model_message_octets(first[IN_PACKET_KIND]) : 22;
    case 'A': return o->before[1].len / NXDN_STEP; /* of as many steps as were drawn */
    case '4': return 4 * sizeof(uint32_t);
    case 'S': return NXDN_SHOWN_CALL;
    case '6': return 6 * sizeof(uint64_t);
    default: return 0;
    }
}

/* In whole elements. */
static size_t wrong_length(char letter, size_t right) {
    size_t element = letter == '4' ? sizeof(uint32_t) : letter == '6' ? sizeof(uint64_t) : 1;
    if (letter == 'f' && one_in(2))
        return right == NXDN_FRAME_FULL ? NXDN_FRAME_HALF : NXDN_FRAME_FULL;
    switch (below(6)) {
    case 0: return 0;
    case 1: return right == 0 ? element : right - element;
    case 2: return right + element;
    case 3: return 2 * right;
    default: return element * below(64);
    }
}

/* It is the time for it, so that what is seldom in its time is not always refused. */
static int suits(enum function function, const uint8_t *living) {
    switch (function) {
    case OPEN: case START: case JOIN: return living[IN_CALL_END] == NXDN_NO_CALL;
    case ANNOUNCE:
        return living[IN_CALL_END] == NXDN_RECEIVING && living[IN_CALL_POSITION] == 0 && living[IN_CALL_KNOWN] != TOLD;
    case NEXT_VECTOR: return living[IN_CALL_END] == NXDN_SENDING;
    case PACKET_OPEN: return living[IN_PACKET_KIND] == 0;
    default: return 1;
    }
}

/* A book, call or packet that lives on; now and then a new one; and now and then a spoilt copy, which doesn't. */
static void draw_living(struct operation *o, int k, char letter) {
    size_t len = right_length(letter, o);
    uint8_t *living = NULL;
    for (int tries = 0; tries < 4 && !(living && (letter == 'B' || suits(o->function, living))); tries++)
        living = letter == 'B'   ? books[below(BOOKS)]
                 : letter == 'C' ? calls[below(CALLS)]
                                 : packets[below(PACKETS)];
    if (one_in(letter == 'B' ? 200 : 100))
        memset(living, 0, len);
    if (one_in(letter == 'B' ? 200 : 20)) {
        if (letter == 'B')
            make_book(living);
        else if (letter == 'C')
            make_call(living);
        else
            make_packet(living);
    }
    memcpy(o->before[k].octets, living, len);
    o->keeps[k] = living;
    if (one_in(14)) {
        o->keeps[k] = NULL;
        spoil(letter, o->before[k].octets, len);
    }
}

/* A cipher and a key ID: mostly those of a key in the book, or for a new key others. */
static void draw_pair(const struct operation *o, const uint8_t *book, size_t *cipher, size_t *id) {
    size_t from = below(ENTRIES);
    int of_book = !one_in(8) == (o->function != BEGIN);
    *cipher = 1 + below(3);
    *id = below(6);
    for (size_t k = 0; of_book && k < ENTRIES; k++) {
        const uint8_t *e = book + ENTRY * ((from + k) % ENTRIES);
        if (e[IN_ENTRY_CIPHER] == 0)
            continue;
        *cipher = e[IN_ENTRY_CIPHER];
        *id = e[IN_ENTRY_ID];
        break;
    }
    if (one_in(40))
        *cipher = one_in(2) ? 4 : below(256);
    if (one_in(40))
        *id = one_in(2) ? 63 + below(2) : below(256);
}

static size_t draw_number(char letter) {
    switch (letter) {
    case 'm': return one_in(20) ? below(256) : one_in(2) ? 15 : below(16);
    case 'k': return one_in(20) ? below(256) : 1 + below(4);
    case 'e': return !one_in(8) ? below(ENTRIES) : one_in(2) ? below(300) : (size_t)any() >> below(64);
    default: return one_in(20) ? below(256) : below(2);
    }
}

/* What the key lacks, a part of it, or too much. */
static size_t draw_key_octets(const struct operation *o, uint8_t *octets) {
    uint8_t cipher = (uint8_t)o->number[0], key[NXDN_MOST_KEY + 4] = {0};
    size_t loaded = 0, lacks;
    any_octets(octets, 64);
    if (cipher < 1 || cipher > 3 || one_in(10))
        return below(one_in(2) ? 10 : 40);
    for (int k = 0; k < ENTRIES; k++) {
        const uint8_t *e = o->before[0].octets + k * ENTRY;
        if (e[IN_ENTRY_CIPHER] == cipher && e[IN_ENTRY_ID] == o->number[1])
            loaded = e[IN_ENTRY_LOADED];
    }
    lacks = loaded < model_key_octets(cipher) ? model_key_octets(cipher) - loaded : 0;
    make_key(cipher, key);
    if (!one_in(8))
        memcpy(octets, key + (loaded < NXDN_MOST_KEY ? loaded : 0), lacks);
    return one_in(10) ? lacks + 1 : one_in(3) ? below(lacks + 1) : lacks;
}

/* Counts of a few calls, or of as many as a report takes and one more. */
static size_t draw_counts(uint8_t *octets) {
    size_t n = COUNTS * below(40);
    if (one_in(8))
        n = COUNTS * (MOST_CALLS - 1 + below(3));
    if (one_in(8))
        n += 1 + below(3);
    for (size_t i = 0; i < n; i++) {
        uint32_t count = (uint32_t)(one_in(4) ? MOST_WORDS : below(MOST_WORDS + 1));
        memcpy(octets + i * sizeof count, &count, sizeof count);
    }
    if (n > 0 && one_in(5)) {
        uint32_t count = one_in(2) ? MOST_WORDS + 1 : (uint32_t)any();
        memcpy(octets + below(n) * sizeof count, &count, sizeof count);
    }
    return n * sizeof(uint32_t);
}

/* Mostly slots, and few of them; sometimes so many that a batch goes through dozens of sessions. */
static size_t draw_steps(uint8_t *octets) {
    static const uint8_t kinds[] = {
        NXDN_STEP_VOICE, NXDN_STEP_VOICE, NXDN_STEP_VOICE, NXDN_STEP_VOICE, NXDN_STEP_VOICE, NXDN_STEP_LOST,
        NXDN_STEP_LOST, NXDN_STEP_ANNOUNCE, NXDN_STEP_HEARD,
    };
    size_t n = one_in(40) ? 300 : below(21);
    for (size_t i = 0; i < n; i++) {
        uint8_t *step = octets + NXDN_STEP * i;
        any_octets(step, NXDN_STEP);
        step[IN_STEP_KIND] = one_in(40) ? (uint8_t)any() : kinds[below(sizeof kinds)];
        step[IN_STEP_MASK] = (uint8_t)draw_number('m');
        if (step[IN_STEP_KIND] == NXDN_STEP_ANNOUNCE || step[IN_STEP_KIND] == NXDN_STEP_HEARD)
            make_vector(step + IN_STEP_LENT);
    }
    return NXDN_STEP * n;
}

static size_t draw_given(const struct operation *o, char letter, uint8_t *octets) {
    size_t right = right_length(letter, o);
    if (letter == 'a')
        return draw_key_octets(o, octets);
    if (letter == 'c')
        return draw_counts(octets);
    if (letter == 't')
        return draw_steps(octets);
    any_octets(octets, right); /* what is handed out is written over something */
    if (letter == 'v')
        make_vector(octets);
    if (letter == 'n' && !one_in(12)) {
        make_name(octets);
        if (one_in(12))
            change_octet(octets, right);
    }
    return right;
}

static void draw(struct operation *o) {
    const struct shape *shape;
    size_t all = 0, at;
    for (int f = 0; f < FUNCTIONS; f++)
        all += shapes[f].weight;
    at = below(all);
    for (o->function = BEGIN; at >= shapes[o->function].weight; o->function++)
        at -= shapes[o->function].weight;
    shape = &shapes[o->function];
    memset(o->number, 0, sizeof o->number);
    for (int k = 0; shape->buffers[k]; k++) {
        o->before[k].octets = room[k];
        o->keeps[k] = NULL;
        if (strchr("BCP", shape->buffers[k]))
            draw_living(o, k, shape->buffers[k]);
    }
    for (int k = 0; shape->numbers[k]; k++) {
        const char *book = strchr(shape->buffers, 'B');
        if (shape->numbers[k] == 'c')
            draw_pair(o, o->before[book - shape->buffers].octets, &o->number[k], &o->number[k + 1]);
        else if (shape->numbers[k] != 'i')
            o->number[k] = draw_number(shape->numbers[k]);
    }
    for (int k = 0; shape->buffers[k]; k++) {
        char letter = shape->buffers[k];
        struct buffer *b = &o->before[k];
        b->len = strchr("BCP", letter) ? right_length(letter, o) : draw_given(o, letter, b->octets);
        if (!strchr("ac", letter) && one_in(60)) {
            size_t len = wrong_length(letter, b->len);
            if (len > b->len)
                any_octets(b->octets + b->len, len - b->len);
            b->len = len;
            o->keeps[k] = NULL;
        }
    }
}

/* ---- done twice, and compared */

static uint64_t seed, done, wrong, seen[FUNCTIONS][ANSWERS], seen_of_steps[ANSWERS];
static struct operation now;

static void print_octets(FILE *to, const uint8_t *octets, size_t len) {
    if (len == 0)
        fputc('.', to);
    for (size_t i = 0; i < len; i++)
        fprintf(to, "%02X", octets[i]);
}

static void complain(const char *what) {
    const struct shape *shape = &shapes[now.function];
    if (++wrong > 10)
        return;
    fprintf(stderr, "wrong: seed %llu, operation %llu, nxdn_%s", (unsigned long long)seed, (unsigned long long)done,
            shape->name);
    for (int k = 0; shape->numbers[k]; k++)
        fprintf(stderr, " %zu", now.number[k]);
    fprintf(stderr, ": %s\n", what);
}

static void complain_of(int k, const char *what, const uint8_t *library, const uint8_t *model) {
    complain(what);
    if (wrong > 10)
        return;
    fprintf(stderr, "  buffer %d, before  ", k);
    print_octets(stderr, now.before[k].octets, now.before[k].len);
    fprintf(stderr, "\n  by the library  ");
    print_octets(stderr, library, now.before[k].len);
    fprintf(stderr, "\n  by the model    ");
    print_octets(stderr, model, now.before[k].len);
    fputc('\n', stderr);
}

/* A read or write past an end, or a write of const octets. */
static void on_fault(int number) {
    char text[200];
    int len = snprintf(text, sizeof text, "wrong: seed %llu, operation %llu, nxdn_%s: signal %d\n",
                       (unsigned long long)seed, (unsigned long long)done, shapes[now.function].name, number);
    if (write(STDERR_FILENO, text, (size_t)len) < 0)
        _exit(2);
    _exit(1);
}

static void compare(uint8_t answer, uint8_t expected, struct buffer *model) {
    const struct shape *shape = &shapes[now.function];
    char text[80];
    if (answer != expected) {
        snprintf(text, sizeof text, "answered %u, by the model %u", answer, expected);
        complain(text);
    }
    for (int k = 0; shape->buffers[k]; k++) {
        const struct buffer *before = &now.before[k];
        const uint8_t *after = lent_now(k);
        /* what lives on is kept by 0 and 1; what is turned or handed out is written by 0 only */
        int lives = strchr("BCP", shape->buffers[k]) != NULL;
        int may_change = shape->access[k] == 'w' && answer <= (lives ? NXDN_HELD : NXDN_DONE);
        if (!lent_kept_apart(k))
            complain_of(k, "octets beside the buffer are changed", after, model[k].octets);
        if (before->len == 0)
            continue;
        if (memcmp(after, model[k].octets, before->len) != 0)
            complain_of(k, "other octets than the model's", after, model[k].octets);
        if (!may_change && memcmp(after, before->octets, before->len) != 0)
            complain_of(k, "octets that were to stay are changed", after, model[k].octets);
        if (now.keeps[k])
            memcpy(now.keeps[k], model[k].octets, before->len);
    }
}

static void write_log(FILE *log, uint8_t answer) {
    const struct shape *shape = &shapes[now.function];
    fputs(shape->name, log);
    for (int k = 0; shape->numbers[k]; k++)
        fprintf(log, " %zu", now.number[k]);
    for (int k = 0; shape->buffers[k]; k++) {
        fputc(' ', log);
        print_octets(log, now.before[k].octets, now.before[k].len);
    }
    fprintf(log, " = %u", answer);
    for (int k = 0; shape->buffers[k]; k++) {
        size_t len = now.before[k].len;
        fputc(' ', log);
        if (len == 0 || memcmp(lent_now(k), now.before[k].octets, len) == 0)
            fputc('-', log); /* as it was */
        else
            print_octets(log, lent_now(k), len);
    }
    fputc('\n', log);
}

static void operate(FILE *log) {
    struct buffer library[MOST_BUFFERS], model[MOST_BUFFERS];
    const struct shape *shape;
    uint8_t answer, expected;
    int buffers = 0;
    draw(&now);
    shape = &shapes[now.function];
    for (int k = 0; shape->buffers[k]; k++, buffers++) {
        const struct buffer *before = &now.before[k];
        library[k].len = model[k].len = before->len;
        library[k].octets = lend(k, before->octets, before->len, one_in(2) ? LENT_BEHIND : LENT_BEFORE,
                                 shape->access[k] == 'w');
        if (before->len == 0 && one_in(2))
            library[k].octets = NULL;
        model[k].octets = malloc(before->len > 0 ? before->len : 1); /* of its length, for the sanitizer */
        if (!model[k].octets)
            exit(2);
        memcpy(model[k].octets, before->octets, before->len);
    }
    answer = answer_of(&now, 0, library);
    expected = answer_of(&now, 1, model);
    compare(answer, expected, model);
    if (answer < ANSWERS)
        seen[now.function][answer]++;
    else
        complain("an answer that is none");
    for (size_t i = 0; now.function == BATCH && answer == NXDN_DONE && i < now.before[2].len; i++)
        if (lent_now(2)[i] < ANSWERS)
            seen_of_steps[lent_now(2)[i]]++;
    if (log)
        write_log(log, answer);
    for (int k = 0; k < buffers; k++)
        free(model[k].octets);
    done++;
}

/* Each answer that is listed was seen, where all must be, and no other: how many. */
static unsigned check_list(const char *name, const uint8_t *answers, const uint64_t *counts, int complete) {
    unsigned kinds = 0;
    uint64_t listed = 0;
    for (int i = 0; i < MOST_ANSWERS; i++)
        listed |= (uint64_t)1 << answers[i];
    for (int a = 0; a < ANSWERS; a++) {
        int is_listed = (int)(listed >> a & 1);
        kinds += counts[a] > 0;
        if ((counts[a] > 0 && !is_listed) || (complete && counts[a] == 0 && is_listed)) {
            wrong++;
            fprintf(stderr, "wrong: seed %llu, nxdn_%s %s answered %d\n", (unsigned long long)seed, name,
                    is_listed ? "never" : "also", a);
        }
    }
    return kinds;
}

/* How many answers the functions gave; those to the steps of a batch are held to their list, and not counted. */
static unsigned check_answers(int complete) {
    unsigned kinds = 0;
    for (int f = 0; f < FUNCTIONS; f++)
        kinds += check_list(shapes[f].name, shapes[f].answers, seen[f], complete);
    check_list("batch, of a step,", answers_to_steps, seen_of_steps, complete);
    return kinds;
}

int main(int argc, char **argv) {
    FILE *log = NULL;
    unsigned long long operations;
    unsigned kinds;
    if (argc < 3 || argc > 4 || (argc == 4 && !(log = fopen(argv[3], "w")))) {
        fputs("usage: random SEED OPERATIONS [LOG]\n", stderr);
        return 2;
    }
    seed = chance = strtoull(argv[1], NULL, 10);
    operations = strtoull(argv[2], NULL, 10);
    signal(SIGSEGV, on_fault);
    signal(SIGBUS, on_fault);
    lent_set_up();
    while (done < operations)
        operate(log);
    kinds = check_answers(!log);
    if (log && fclose(log) != 0) {
        perror(argv[3]);
        return 2;
    }
    printf("%llu operations, %llu wrong, %u answers of %d functions\n", (unsigned long long)done,
           (unsigned long long)wrong, kinds, FUNCTIONS);
    return wrong != 0;
}
