/* The operations of nxdn.h, from what the header and docs/ say. It works on the lent octets where they stand, and goes
   bit by bit where that is plainer: nothing here is meant to be fast. */
#include "model.h"

#include <openssl/evp.h>
#include <stdio.h>
#include <stdlib.h>
#include <string.h>

enum { MOST_BLOCK = 16, MOST_STREAM = 20 * MOST_MESSAGES, WORDS = 4, SUPERFRAME = 4, HEAD = 2 };

static int is_zeros(const uint8_t *octets, size_t len) {
    for (size_t i = 0; i < len; i++)
        if (octets[i] != 0)
            return 0;
    return 1;
}

/* ---- keystreams */

/* The generator: 64 shifts of a register of 64 stages (001, 5.3.2.2). */
static void following(const uint8_t *vector, uint8_t *next) {
    uint64_t r = 0;
    for (int i = 0; i < NXDN_VECTOR; i++)
        r = r << 8 | vector[i];
    for (int i = 0; i < 64; i++)
        r = r << 1 | ((r >> 63 ^ r >> 61 ^ r >> 45 ^ r >> 37 ^ r >> 26 ^ r >> 14) & 1);
    for (int i = NXDN_VECTOR; i-- > 0; r >>= 8)
        next[i] = (uint8_t)r;
}

static void scramble(const uint8_t *key, uint8_t *out, size_t len) {
    unsigned r = 256u * key[0] + key[1];
    memset(out, 0, len);
    for (size_t i = 0; i < 8 * len; i++) {
        out[i / 8] |= (uint8_t)((r & 1) << (7 - i % 8));
        r = r >> 1 | ((r ^ r >> 1) & 1) << 14;
    }
}

/* Output feedback over zeros gives the blocks themselves; NXDN does not use the first (001, 5.3.2.1). */
static void feedback(const EVP_CIPHER *engine, size_t block, const uint8_t *key, const uint8_t *vector, uint8_t *out,
                     size_t len) {
    static EVP_CIPHER_CTX *context;
    static const uint8_t zeros[MOST_BLOCK + MOST_STREAM];
    static uint8_t blocks[MOST_BLOCK + MOST_STREAM];
    int n = 0;
    if (!context)
        context = EVP_CIPHER_CTX_new();
    if (!context || !EVP_EncryptInit_ex(context, engine, NULL, key, vector)
        || !EVP_EncryptUpdate(context, blocks, &n, zeros, (int)(block + len)) || n != (int)(block + len)) {
        fputs("model: OpenSSL does not encipher\n", stderr);
        exit(2);
    }
    memcpy(out, blocks + block, len);
}

static void stream(uint8_t cipher, const uint8_t *key, const uint8_t *vector, uint8_t *out, size_t len) {
    if (cipher == NXDN_SCRAMBLE) {
        scramble(key, out, len);
    } else if (cipher == NXDN_DES) {
        uint8_t thrice[24]; /* triple DES under one key three times is DES, and OpenSSL still has it */
        for (int i = 0; i < 24; i++)
            thrice[i] = key[i % 8];
        feedback(EVP_des_ede3_ofb(), 8, thrice, vector, out, len);
    } else {
        uint8_t both[16]; /* S, then L(S) */
        memcpy(both, vector, 8);
        following(vector, both + 8);
        feedback(EVP_aes_256_ofb(), 16, key, both, out, len);
    }
}

/* So many bits of octets turned by those of a stream from a bit on. */
static void turn(uint8_t *octets, size_t bits, const uint8_t *from, size_t bit) {
    for (size_t i = 0; i < bits; i++)
        octets[i / 8] ^= (uint8_t)((from[(bit + i) / 8] >> (7 - (bit + i) % 8) & 1) << (7 - i % 8));
}

/* ---- keys and the book */

size_t model_key_octets(uint8_t cipher) {
    static const size_t octets[] = {0, 2, 8, 32};
    return cipher <= NXDN_AES ? octets[cipher] : 0;
}

int model_key_allowed(uint8_t cipher, const uint8_t *key) {
    if (cipher == NXDN_SCRAMBLE)
        return key[0] < 128 && (key[0] != 0 || key[1] != 0);
    for (int i = 0; cipher == NXDN_DES && i < 8; i++) {
        int ones = 0;
        for (int b = 0; b < 8; b++)
            ones += key[i] >> b & 1;
        if (ones % 2 == 0)
            return 0;
    }
    return cipher == NXDN_DES || cipher == NXDN_AES;
}

/* An allowed key, and zeros behind it. */
static int is_key(uint8_t cipher, const uint8_t *key) {
    size_t len = model_key_octets(cipher);
    return model_key_allowed(cipher, key) && is_zeros(key + len, NXDN_MOST_KEY - len);
}

static int is_pair(uint8_t cipher, uint8_t id) { return cipher >= 1 && cipher <= 3 && id <= 63; }

static int is_name(const uint8_t *name) {
    size_t text = 0;
    while (text < NXDN_NAME && name[text] >= 0x20 && name[text] <= 0x7E)
        text++;
    return is_zeros(name + text, NXDN_NAME - text);
}

static int is_entry(const uint8_t *e) {
    size_t len = model_key_octets(e[IN_ENTRY_CIPHER]), loaded = e[IN_ENTRY_LOADED];
    if (e[IN_ENTRY_CIPHER] == 0)
        return is_zeros(e, ENTRY);
    if (!is_pair(e[IN_ENTRY_CIPHER], e[IN_ENTRY_ID]) || loaded > len || e[IN_ENTRY_READY] > 1)
        return 0;
    if (e[IN_ENTRY_READY] == 1 && !(loaded == len && model_key_allowed(e[IN_ENTRY_CIPHER], e + IN_ENTRY_KEY)))
        return 0;
    return is_zeros(e + IN_ENTRY_KEY + loaded, NXDN_MOST_KEY - loaded) && is_name(e + IN_ENTRY_NAME);
}

static int is_book(const uint8_t *book) {
    for (int k = 0; k < ENTRIES; k++) {
        const uint8_t *e = book + k * ENTRY;
        if (!is_entry(e))
            return 0;
        for (int j = 0; j < k; j++)
            if (e[0] != 0 && memcmp(e, book + j * ENTRY, 2) == 0)
                return 0;
    }
    return 1;
}

/* The place in the book of an entry with these; of 0 and 0, that of the first free one. -1: there is none. */
static int place_of(const uint8_t *book, uint8_t cipher, uint8_t id) {
    for (int k = 0; k < ENTRIES; k++)
        if (book[k * ENTRY] == cipher && book[k * ENTRY + 1] == id)
            return k * ENTRY;
    return -1;
}

/* 2 by what is said, 3, 4, 5 of an operation on an entry. */
static uint8_t find(int lengths, const uint8_t *book, uint8_t cipher, uint8_t id, int *place) {
    if (!lengths)
        return NXDN_WRONG_LENGTH;
    if (!is_pair(cipher, id))
        return NXDN_OUT_OF_RANGE;
    if (!is_book(book))
        return NXDN_BAD;
    *place = place_of(book, cipher, id);
    return *place < 0 ? NXDN_NO_ENTRY : NXDN_DONE;
}

uint8_t model_begin(uint8_t *book, size_t book_len, uint8_t cipher, uint8_t id, const uint8_t *name, size_t name_len) {
    int place;
    uint8_t *e;
    if (book_len != NXDN_BOOK || name_len != NXDN_NAME)
        return NXDN_WRONG_LENGTH;
    if (!is_pair(cipher, id))
        return NXDN_OUT_OF_RANGE;
    if (!is_name(name))
        return NXDN_BAD_NAME;
    if (!is_book(book))
        return NXDN_BAD;
    if (place_of(book, cipher, id) >= 0)
        return NXDN_ALREADY;
    place = place_of(book, 0, 0);
    if (place < 0)
        return NXDN_FULL;
    e = book + place;
    e[IN_ENTRY_CIPHER] = cipher;
    e[IN_ENTRY_ID] = id;
    memcpy(e + IN_ENTRY_NAME, name, NXDN_NAME);
    return NXDN_DONE;
}

uint8_t model_add(uint8_t *book, size_t book_len, uint8_t cipher, uint8_t id, const uint8_t *octets,
                  size_t octets_len) {
    int place;
    uint8_t *e, answer = find(book_len == NXDN_BOOK && octets_len <= NXDN_MOST_KEY, book, cipher, id, &place);
    if (answer != NXDN_DONE)
        return answer;
    e = book + place;
    if (e[IN_ENTRY_READY])
        return NXDN_ALREADY;
    if (e[IN_ENTRY_LOADED] + octets_len > model_key_octets(cipher))
        return NXDN_TOO_MANY;
    if (octets_len > 0)
        memcpy(e + IN_ENTRY_KEY + e[IN_ENTRY_LOADED], octets, octets_len);
    e[IN_ENTRY_LOADED] = (uint8_t)(e[IN_ENTRY_LOADED] + octets_len);
    return NXDN_DONE;
}

uint8_t model_finish(uint8_t *book, size_t book_len, uint8_t cipher, uint8_t id) {
    int place;
    uint8_t *e, answer = find(book_len == NXDN_BOOK, book, cipher, id, &place);
    if (answer != NXDN_DONE)
        return answer;
    e = book + place;
    if (e[IN_ENTRY_READY])
        return NXDN_ALREADY;
    if (e[IN_ENTRY_LOADED] < model_key_octets(cipher))
        return NXDN_NOT_READY;
    if (!model_key_allowed(cipher, e + IN_ENTRY_KEY))
        return NXDN_NOT_ALLOWED;
    e[IN_ENTRY_READY] = 1;
    return NXDN_DONE;
}

uint8_t model_erase(uint8_t *book, size_t book_len, uint8_t cipher, uint8_t id) {
    int place;
    uint8_t answer = find(book_len == NXDN_BOOK, book, cipher, id, &place);
    if (answer == NXDN_DONE)
        memset(book + place, 0, ENTRY);
    return answer;
}

uint8_t model_name(const uint8_t *book, size_t book_len, uint8_t cipher, uint8_t id, uint8_t *name, size_t name_len) {
    int place;
    uint8_t answer = find(book_len == NXDN_BOOK && name_len == NXDN_NAME, book, cipher, id, &place);
    if (answer == NXDN_DONE)
        memcpy(name, book + place + IN_ENTRY_NAME, NXDN_NAME);
    return answer;
}

uint8_t model_inventory(const uint8_t *book, size_t book_len, size_t entry, uint8_t *shown, size_t shown_len) {
    if (book_len != NXDN_BOOK || shown_len != NXDN_SHOWN_KEY)
        return NXDN_WRONG_LENGTH;
    if (entry >= ENTRIES)
        return NXDN_OUT_OF_RANGE;
    if (!is_book(book))
        return NXDN_BAD;
    memcpy(shown, book + ENTRY * entry, 4);
    memcpy(shown + 4, book + ENTRY * entry + IN_ENTRY_NAME, NXDN_NAME);
    return NXDN_DONE;
}

/* ---- a call's octets */

size_t model_slots(uint8_t cipher) { return cipher == NXDN_SCRAMBLE ? SUPERFRAME : 2 * SUPERFRAME; }

uint32_t model_count(const uint8_t *call, int which) {
    const uint8_t *at = call + IN_CALL_COUNTS + 4 * which;
    return (uint32_t)at[0] << 24 | (uint32_t)at[1] << 16 | (uint32_t)at[2] << 8 | at[3];
}

void model_set_count(uint8_t *call, int which, uint32_t count) {
    for (int i = 0; i < 4; i++)
        call[IN_CALL_COUNTS + 4 * which + i] = (uint8_t)(count >> (24 - 8 * i));
}

/* In 64 bits, so that no four counts add up to less than they are. */
static uint64_t words_told(const uint8_t *call) {
    uint64_t sum = 0;
    for (int k = 0; k < COUNTS; k++)
        sum += model_count(call, k);
    return sum;
}

static int receives(const uint8_t *call) { return call[IN_CALL_END] == NXDN_RECEIVING; }
static int has_vectors(const uint8_t *call) { return call[IN_CALL_CIPHER] != NXDN_SCRAMBLE; }
static int is_full(const uint8_t *call) { return receives(call) && words_told(call) >= MOST_WORDS; }

/* It is received, and no vector of the session that starts now was told. */
static int awaits(const uint8_t *call) {
    return receives(call) && has_vectors(call) && call[IN_CALL_POSITION] == 0 && call[IN_CALL_KNOWN] != TOLD;
}

/* What is known of the vector agrees with it: scramble has none; a sender knows its own, which is not zeros; what is
   not known stands as zeros; and only a handset goes on by itself. */
static int is_vector_right(const uint8_t *c) {
    int none = is_zeros(c + IN_CALL_VECTOR, NXDN_VECTOR);
    if (!has_vectors(c))
        return c[IN_CALL_KNOWN] == TOLD && none;
    if (!receives(c))
        return c[IN_CALL_KNOWN] == TOLD && !none;
    if (c[IN_CALL_KNOWN] == UNKNOWN)
        return none;
    return c[IN_CALL_KNOWN] == TOLD || (c[IN_CALL_KNOWN] == CARRIED && c[IN_CALL_STRICTNESS] == NXDN_HANDSET);
}

/* A sender's are zeros. A receiver's are of whole slots, up to the limit, and lost slots are whole; they agree with the
   position, since either way in is at the start of a superframe; scramble holds nothing; and a handset that knows no
   vector never knew one, so it opened nothing. */
static int are_counts_right(const uint8_t *c) {
    uint64_t words = words_told(c);
    if (!receives(c))
        return words == 0;
    return words <= MOST_WORDS && words % WORDS == 0 && model_count(c, LOST) % WORDS == 0
           && words / WORDS % SUPERFRAME == c[IN_CALL_POSITION] % SUPERFRAME
           && (has_vectors(c) || model_count(c, HELD) == 0)
           && (c[IN_CALL_STRICTNESS] == NXDN_RECORDER || c[IN_CALL_KNOWN] != UNKNOWN || model_count(c, OPENED) == 0);
}

static int is_call(const uint8_t *c) {
    if (c[IN_CALL_END] == NXDN_NO_CALL)
        return is_zeros(c, NXDN_CALL);
    if (c[IN_CALL_END] > NXDN_RECEIVING || !is_key(c[IN_CALL_CIPHER], c + IN_CALL_KEY)
        || c[IN_CALL_RATE] > NXDN_FULL_RATE || c[IN_CALL_STRICTNESS] > (receives(c) ? NXDN_RECORDER : NXDN_HANDSET)
        || c[IN_CALL_POSITION] >= model_slots(c[IN_CALL_CIPHER]) || !is_vector_right(c) || !are_counts_right(c))
        return 0;
    if (c[IN_CALL_KEPT] == 0)
        return is_zeros(c + IN_CALL_NEXT, NXDN_VECTOR);
    /* a next vector is kept only where it was heard too early to be announced */
    return c[IN_CALL_KEPT] == 1 && receives(c) && has_vectors(c) && !awaits(c);
}

static void tell(uint8_t *call, uint8_t known, const uint8_t *vector) {
    call[IN_CALL_KNOWN] = known;
    if (known == UNKNOWN)
        memset(call + IN_CALL_VECTOR, 0, NXDN_VECTOR);
    else
        memmove(call + IN_CALL_VECTOR, vector, NXDN_VECTOR);
}

/* One slot on. As a session ends the next one's vector is the one that was heard, or the generator's. */
static void slot_on(uint8_t *call) {
    uint8_t next[NXDN_VECTOR];
    call[IN_CALL_POSITION]++;
    if (call[IN_CALL_POSITION] < model_slots(call[IN_CALL_CIPHER]))
        return;
    call[IN_CALL_POSITION] = 0;
    if (!has_vectors(call))
        return;
    following(call + IN_CALL_VECTOR, next);
    if (!receives(call)) {
        tell(call, TOLD, next);
    } else if (call[IN_CALL_KEPT]) {
        tell(call, TOLD, call + IN_CALL_NEXT);
        call[IN_CALL_KEPT] = 0;
        memset(call + IN_CALL_NEXT, 0, NXDN_VECTOR);
    } else if (call[IN_CALL_STRICTNESS] == NXDN_HANDSET && call[IN_CALL_KNOWN] != UNKNOWN) {
        tell(call, CARRIED, next);
    } else {
        tell(call, UNKNOWN, NULL);
    }
}

/* ---- a call's operations */

/* The ready key of a book. 4, 5, 6. */
static uint8_t ready_key(const uint8_t *book, uint8_t cipher, uint8_t id, uint8_t *key) {
    int place;
    uint8_t answer = find(1, book, cipher, id, &place);
    if (answer != NXDN_DONE)
        return answer;
    if (!book[place + IN_ENTRY_READY])
        return NXDN_NOT_READY;
    memcpy(key, book + place + IN_ENTRY_KEY, NXDN_MOST_KEY);
    return NXDN_DONE;
}

/* How a call begins, once its lengths are right. Without a vector it is joined. */
static uint8_t enter(uint8_t *call, uint8_t end, uint8_t cipher, uint8_t id, uint8_t rate, uint8_t strictness,
                     const uint8_t *vector, const uint8_t *book) {
    uint8_t key[NXDN_MOST_KEY], answer;
    if (!is_pair(cipher, id) || rate > 1 || strictness > 1)
        return NXDN_OUT_OF_RANGE;
    if (!is_call(call))
        return NXDN_BAD;
    if (call[IN_CALL_END] != NXDN_NO_CALL)
        return NXDN_NOT_NOW;
    answer = ready_key(book, cipher, id, key);
    if (answer != NXDN_DONE)
        return answer;
    if (end == NXDN_SENDING && cipher != NXDN_SCRAMBLE && is_zeros(vector, NXDN_VECTOR))
        return NXDN_ZERO_VECTOR;
    call[IN_CALL_END] = end;
    call[IN_CALL_CIPHER] = cipher;
    call[IN_CALL_RATE] = rate;
    call[IN_CALL_STRICTNESS] = strictness;
    memcpy(call + IN_CALL_KEY, key, NXDN_MOST_KEY);
    if (cipher == NXDN_SCRAMBLE)
        call[IN_CALL_KNOWN] = TOLD;
    else if (vector)
        tell(call, TOLD, vector);
    else
        call[IN_CALL_POSITION] = SUPERFRAME;
    return NXDN_DONE;
}

uint8_t model_open(uint8_t *call, size_t call_len, uint8_t cipher, uint8_t id, uint8_t rate, uint8_t strictness,
                   const uint8_t *vector, size_t vector_len, const uint8_t *book, size_t book_len) {
    if (call_len != NXDN_CALL || vector_len != NXDN_VECTOR || book_len != NXDN_BOOK)
        return NXDN_WRONG_LENGTH;
    return enter(call, NXDN_RECEIVING, cipher, id, rate, strictness, vector, book);
}

uint8_t model_start(uint8_t *call, size_t call_len, uint8_t cipher, uint8_t id, uint8_t rate, const uint8_t *vector,
                    size_t vector_len, const uint8_t *book, size_t book_len) {
    if (call_len != NXDN_CALL || vector_len != NXDN_VECTOR || book_len != NXDN_BOOK)
        return NXDN_WRONG_LENGTH;
    return enter(call, NXDN_SENDING, cipher, id, rate, NXDN_HANDSET, vector, book);
}

uint8_t model_join(uint8_t *call, size_t call_len, uint8_t cipher, uint8_t id, uint8_t rate, uint8_t strictness,
                   const uint8_t *book, size_t book_len) {
    if (call_len != NXDN_CALL || book_len != NXDN_BOOK)
        return NXDN_WRONG_LENGTH;
    return enter(call, NXDN_RECEIVING, cipher, id, rate, strictness, NULL, book);
}

static void count_words(uint8_t *call, int which, uint32_t words) {
    if (receives(call))
        model_set_count(call, which, model_count(call, which) + words);
}

uint8_t model_voice(uint8_t *call, size_t call_len, uint8_t mask, uint8_t *frame, size_t frame_len) {
    uint8_t session[NXDN_FRAME_FULL * 8];
    size_t width, octets;
    int known;
    if (call_len != NXDN_CALL)
        return NXDN_WRONG_LENGTH;
    if (mask > 15)
        return NXDN_BAD_MASK;
    if (!is_call(call))
        return NXDN_BAD;
    if (call[IN_CALL_END] == NXDN_NO_CALL)
        return NXDN_NOT_NOW;
    if (is_full(call))
        return NXDN_PAST_LIMIT;
    width = call[IN_CALL_RATE] == NXDN_HALF_RATE ? 49 : 72;
    octets = call[IN_CALL_RATE] == NXDN_HALF_RATE ? NXDN_FRAME_HALF / WORDS : NXDN_FRAME_FULL / WORDS;
    if (frame_len != WORDS * octets)
        return NXDN_WRONG_LENGTH;
    known = call[IN_CALL_KNOWN] != UNKNOWN;
    if (known)
        stream(call[IN_CALL_CIPHER], call + IN_CALL_KEY, call + IN_CALL_VECTOR, session, sizeof session);
    for (size_t w = 0; w < WORDS; w++) {
        int in_mask = mask >> w & 1;
        if (in_mask && known)
            turn(frame + octets * w, width, session, width * (WORDS * call[IN_CALL_POSITION] + w));
        count_words(call, !in_mask ? REPLACED : known ? OPENED : HELD, 1);
    }
    slot_on(call);
    return known ? NXDN_DONE : NXDN_HELD;
}

uint8_t model_lost(uint8_t *call, size_t call_len) {
    if (call_len != NXDN_CALL)
        return NXDN_WRONG_LENGTH;
    if (!is_call(call))
        return NXDN_BAD;
    if (!receives(call))
        return NXDN_NOT_NOW;
    if (is_full(call))
        return NXDN_PAST_LIMIT;
    count_words(call, LOST, WORDS);
    slot_on(call);
    return NXDN_DONE;
}

uint8_t model_heard(uint8_t *call, size_t call_len, const uint8_t *vector, size_t vector_len) {
    if (call_len != NXDN_CALL || vector_len != NXDN_VECTOR)
        return NXDN_WRONG_LENGTH;
    if (!is_call(call))
        return NXDN_BAD;
    if (!receives(call) || !has_vectors(call))
        return NXDN_NOT_NOW;
    if (awaits(call)) {
        tell(call, TOLD, vector);
    } else {
        call[IN_CALL_KEPT] = 1;
        memcpy(call + IN_CALL_NEXT, vector, NXDN_VECTOR);
    }
    return NXDN_DONE;
}

uint8_t model_announce(uint8_t *call, size_t call_len, const uint8_t *vector, size_t vector_len) {
    if (call_len != NXDN_CALL || vector_len != NXDN_VECTOR)
        return NXDN_WRONG_LENGTH;
    if (!is_call(call))
        return NXDN_BAD;
    if (!awaits(call))
        return NXDN_NOT_NOW;
    tell(call, TOLD, vector);
    return NXDN_DONE;
}

uint8_t model_next_vector(const uint8_t *call, size_t call_len, uint8_t *vector, size_t vector_len) {
    if (call_len != NXDN_CALL || vector_len != NXDN_VECTOR)
        return NXDN_WRONG_LENGTH;
    if (!is_call(call))
        return NXDN_BAD;
    if (call[IN_CALL_END] != NXDN_SENDING || !has_vectors(call))
        return NXDN_NOT_NOW;
    following(call + IN_CALL_VECTOR, vector);
    return NXDN_DONE;
}

/* A step, by the function that it stands for. The rate of a call does not change. */
static uint8_t take_step(uint8_t *call, uint8_t *step) {
    uint8_t *lent = step + IN_STEP_LENT;
    switch (step[IN_STEP_KIND]) {
    case NXDN_STEP_VOICE:
        return model_voice(call, NXDN_CALL, step[IN_STEP_MASK], lent,
                           call[IN_CALL_RATE] == NXDN_FULL_RATE ? NXDN_FRAME_FULL : NXDN_FRAME_HALF);
    case NXDN_STEP_LOST: return model_lost(call, NXDN_CALL);
    case NXDN_STEP_ANNOUNCE: return model_announce(call, NXDN_CALL, lent, NXDN_VECTOR);
    case NXDN_STEP_HEARD: return model_heard(call, NXDN_CALL, lent, NXDN_VECTOR);
    default: return NXDN_OUT_OF_RANGE;
    }
}

uint8_t model_batch(uint8_t *call, size_t call_len, uint8_t *steps, size_t steps_len, uint8_t *answers,
                    size_t answers_len) {
    if (call_len != NXDN_CALL || steps_len != NXDN_STEP * answers_len)
        return NXDN_WRONG_LENGTH;
    for (size_t i = 0; i < answers_len; i++)
        answers[i] = take_step(call, steps + NXDN_STEP * i);
    return NXDN_DONE;
}

uint8_t model_end(uint8_t *call, size_t call_len, uint32_t *counts, size_t counts_len) {
    if (call_len != NXDN_CALL || counts_len != COUNTS)
        return NXDN_WRONG_LENGTH;
    if (!is_call(call))
        return NXDN_BAD;
    if (call[IN_CALL_END] == NXDN_NO_CALL)
        return NXDN_NOT_NOW;
    for (int k = 0; k < COUNTS; k++)
        counts[k] = model_count(call, k);
    memset(call, 0, NXDN_CALL);
    return NXDN_DONE;
}

uint8_t model_show(const uint8_t *call, size_t call_len, uint8_t *shown, size_t shown_len) {
    if (call_len != NXDN_CALL || shown_len != NXDN_SHOWN_CALL)
        return NXDN_WRONG_LENGTH;
    if (!is_call(call))
        return NXDN_BAD;
    shown[0] = call[IN_CALL_END];
    shown[1] = call[IN_CALL_CIPHER];
    shown[2] = call[IN_CALL_RATE];
    shown[3] = call[IN_CALL_POSITION];
    shown[4] = call[IN_CALL_KNOWN] != UNKNOWN && !is_full(call);
    return NXDN_DONE;
}

/* ---- a packet */

static const size_t message_octets[] = {0, 22, 16, 18, 10}, protected_octets[] = {0, 20, 14, 14, 8};

size_t model_message_octets(uint8_t kind) { return kind <= NXDN_FACCH1 ? message_octets[kind] : 0; }

static unsigned messages_told(const uint8_t *packet) {
    return 256u * packet[IN_PACKET_COUNT] + packet[IN_PACKET_COUNT + 1];
}

static int is_packet(const uint8_t *p) {
    if (p[IN_PACKET_KIND] == 0)
        return is_zeros(p, NXDN_PACKET);
    return p[IN_PACKET_KIND] <= NXDN_FACCH1 && is_key(p[IN_PACKET_CIPHER], p + IN_PACKET_KEY)
           && messages_told(p) <= MOST_MESSAGES
           && (p[IN_PACKET_CIPHER] != NXDN_SCRAMBLE || is_zeros(p + IN_PACKET_VECTOR, NXDN_VECTOR));
}

uint8_t model_packet_open(uint8_t *packet, size_t packet_len, uint8_t use, uint8_t kind, uint8_t cipher, uint8_t id,
                          const uint8_t *vector, size_t vector_len, const uint8_t *book, size_t book_len) {
    uint8_t key[NXDN_MOST_KEY], answer;
    if (packet_len != NXDN_PACKET || vector_len != NXDN_VECTOR || book_len != NXDN_BOOK)
        return NXDN_WRONG_LENGTH;
    if (use > NXDN_TO_SEND || kind < NXDN_DCALL || kind > NXDN_FACCH1 || !is_pair(cipher, id))
        return NXDN_OUT_OF_RANGE;
    if (!is_packet(packet))
        return NXDN_BAD;
    if (packet[IN_PACKET_KIND] != 0)
        return NXDN_NOT_NOW;
    answer = ready_key(book, cipher, id, key);
    if (answer != NXDN_DONE)
        return answer;
    if (use == NXDN_TO_SEND && cipher != NXDN_SCRAMBLE && is_zeros(vector, NXDN_VECTOR))
        return NXDN_ZERO_VECTOR;
    packet[IN_PACKET_KIND] = kind;
    packet[IN_PACKET_CIPHER] = cipher;
    memcpy(packet + IN_PACKET_KEY, key, NXDN_MOST_KEY);
    if (cipher != NXDN_SCRAMBLE)
        memcpy(packet + IN_PACKET_VECTOR, vector, NXDN_VECTOR);
    return NXDN_DONE;
}

/* 2, 4, 9 of a message, arrived or lost. */
static uint8_t next_message(const uint8_t *packet, size_t packet_len) {
    if (packet_len != NXDN_PACKET)
        return NXDN_WRONG_LENGTH;
    if (!is_packet(packet))
        return NXDN_BAD;
    return packet[IN_PACKET_KIND] == 0 || messages_told(packet) == MOST_MESSAGES ? NXDN_NOT_NOW : NXDN_DONE;
}

static void message_on(uint8_t *packet) {
    unsigned count = messages_told(packet) + 1;
    packet[IN_PACKET_COUNT] = (uint8_t)(count >> 8);
    packet[IN_PACKET_COUNT + 1] = (uint8_t)count;
}

uint8_t model_message(uint8_t *packet, size_t packet_len, uint8_t *message, size_t message_len) {
    static uint8_t session[MOST_STREAM];
    size_t octets, before;
    uint8_t answer = next_message(packet, packet_len);
    if (answer != NXDN_DONE)
        return answer;
    if (message_len != message_octets[packet[IN_PACKET_KIND]])
        return NXDN_WRONG_LENGTH;
    octets = protected_octets[packet[IN_PACKET_KIND]];
    before = octets * messages_told(packet);
    stream(packet[IN_PACKET_CIPHER], packet + IN_PACKET_KEY, packet + IN_PACKET_VECTOR, session, before + octets);
    turn(message + HEAD, 8 * octets, session, 8 * before);
    message_on(packet);
    return NXDN_DONE;
}

uint8_t model_packet_lost(uint8_t *packet, size_t packet_len) {
    uint8_t answer = next_message(packet, packet_len);
    if (answer == NXDN_DONE)
        message_on(packet);
    return answer;
}

uint8_t model_packet_end(uint8_t *packet, size_t packet_len) {
    if (packet_len != NXDN_PACKET)
        return NXDN_WRONG_LENGTH;
    if (!is_packet(packet))
        return NXDN_BAD;
    if (packet[IN_PACKET_KIND] == 0)
        return NXDN_NOT_NOW;
    memset(packet, 0, NXDN_PACKET);
    return NXDN_DONE;
}

/* ---- a report */

uint8_t model_report(const uint32_t *counts, size_t counts_len, uint64_t *sums, size_t sums_len) {
    if (counts_len % COUNTS != 0 || sums_len != 6)
        return NXDN_WRONG_LENGTH;
    if (counts_len > COUNTS * MOST_CALLS)
        return NXDN_PAST_LIMIT;
    for (size_t i = 0; i < counts_len; i++)
        if (counts[i] > MOST_WORDS)
            return NXDN_PAST_LIMIT;
    memset(sums, 0, 6 * sizeof *sums);
    for (size_t i = 0; i < counts_len; i++)
        sums[i % COUNTS] += counts[i];
    sums[4] = sums[OPENED];
    sums[5] = sums[OPENED] + sums[HELD];
    return NXDN_DONE;
}
