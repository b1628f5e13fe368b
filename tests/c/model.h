/* The operations of nxdn.h, done a second time: plain C for the rules, OpenSSL for DES and AES. Each function takes and
   answers what its namesake in nxdn.h does. */
#ifndef MODEL_H
#define MODEL_H

#include "nxdn.h"

uint8_t model_begin(uint8_t *book, size_t book_len, uint8_t cipher, uint8_t id, const uint8_t *name, size_t name_len);
uint8_t model_add(uint8_t *book, size_t book_len, uint8_t cipher, uint8_t id, const uint8_t *octets, size_t octets_len);
uint8_t model_finish(uint8_t *book, size_t book_len, uint8_t cipher, uint8_t id);
uint8_t model_erase(uint8_t *book, size_t book_len, uint8_t cipher, uint8_t id);
uint8_t model_name(const uint8_t *book, size_t book_len, uint8_t cipher, uint8_t id, uint8_t *name, size_t name_len);
uint8_t model_inventory(const uint8_t *book, size_t book_len, size_t entry, uint8_t *shown, size_t shown_len);

uint8_t model_open(uint8_t *call, size_t call_len, uint8_t cipher, uint8_t id, uint8_t rate, uint8_t strictness,
                   const uint8_t *vector, size_t vector_len, const uint8_t *book, size_t book_len);
uint8_t model_start(uint8_t *call, size_t call_len, uint8_t cipher, uint8_t id, uint8_t rate, const uint8_t *vector,
                    size_t vector_len, const uint8_t *book, size_t book_len);
uint8_t model_join(uint8_t *call, size_t call_len, uint8_t cipher, uint8_t id, uint8_t rate, uint8_t strictness,
                   const uint8_t *book, size_t book_len);
uint8_t model_voice(uint8_t *call, size_t call_len, uint8_t mask, uint8_t *frame, size_t frame_len);
uint8_t model_lost(uint8_t *call, size_t call_len);
uint8_t model_heard(uint8_t *call, size_t call_len, const uint8_t *vector, size_t vector_len);
uint8_t model_announce(uint8_t *call, size_t call_len, const uint8_t *vector, size_t vector_len);
uint8_t model_next_vector(const uint8_t *call, size_t call_len, uint8_t *vector, size_t vector_len);
uint8_t model_batch(uint8_t *call, size_t call_len, uint8_t *steps, size_t steps_len, uint8_t *answers,
                    size_t answers_len);
uint8_t model_end(uint8_t *call, size_t call_len, uint32_t *counts, size_t counts_len);
uint8_t model_show(const uint8_t *call, size_t call_len, uint8_t *shown, size_t shown_len);

uint8_t model_packet_open(uint8_t *packet, size_t packet_len, uint8_t use, uint8_t kind, uint8_t cipher, uint8_t id,
                          const uint8_t *vector, size_t vector_len, const uint8_t *book, size_t book_len);
uint8_t model_message(uint8_t *packet, size_t packet_len, uint8_t *message, size_t message_len);
uint8_t model_packet_lost(uint8_t *packet, size_t packet_len);
uint8_t model_packet_end(uint8_t *packet, size_t packet_len);

uint8_t model_report(const uint32_t *counts, size_t counts_len, uint64_t *sums, size_t sums_len);

/* ---- where things stand in lent octets; the tests make octets by hand, good and bad */

enum { ENTRIES = 16, ENTRY = 52 };
enum { IN_ENTRY_CIPHER, IN_ENTRY_ID, IN_ENTRY_LOADED, IN_ENTRY_READY, IN_ENTRY_KEY, IN_ENTRY_NAME = 36 };

enum {
    IN_CALL_END, IN_CALL_CIPHER, IN_CALL_RATE, IN_CALL_STRICTNESS, IN_CALL_POSITION, IN_CALL_KNOWN, IN_CALL_KEPT,
    IN_CALL_VECTOR, IN_CALL_NEXT = 15, IN_CALL_KEY = 23, IN_CALL_COUNTS = 55
};
enum { UNKNOWN = 0, TOLD = 1, CARRIED = 2 };
enum { OPENED, HELD, REPLACED, LOST, COUNTS };

enum { IN_STEP_KIND, IN_STEP_MASK, IN_STEP_LENT }; /* last the frame or the vector */

enum { IN_PACKET_KIND, IN_PACKET_CIPHER, IN_PACKET_COUNT, IN_PACKET_VECTOR = 4, IN_PACKET_KEY = 12 };

enum { MOST_WORDS = 4000000, MOST_MESSAGES = 1000, MOST_CALLS = 10000 };

size_t model_key_octets(uint8_t cipher);                      /* of a cipher; 0 of a number that is none */
size_t model_slots(uint8_t cipher);                           /* of a session */
size_t model_message_octets(uint8_t kind);                    /* 0 of a number that is none */
uint32_t model_count(const uint8_t *call, int which);         /* of a call's octets */
void model_set_count(uint8_t *call, int which, uint32_t count);
int model_key_allowed(uint8_t cipher, const uint8_t *key);

#endif
