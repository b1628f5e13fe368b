/* nxdn.h: the protection layer of an NXDN radio or talk recorder, for C99 and C++.
 *
 * The library keeps nothing, allocates nothing and has nothing to initialise. The caller keeps three kinds of octets,
 * all zeros at first, and lends them:
 *
 *   a book, NXDN_BOOK octets     the keys, up to 16
 *   a call, NXDN_CALL octets     one call that is sent or received; all zeros is no call
 *   a packet, NXDN_PACKET octets one data packet; all zeros is no packet
 *
 * Every function answers a number of enum nxdn_answer, for any octets and numbers that it is given. Any answer but
 * NXDN_DONE and NXDN_HELD left every lent octet as it was; and any but NXDN_DONE what is handed out, or turned.
 * A length stands behind each pointer, in elements. Where several refusals hold, the first of the list behind a
 * function's "refuses" is answered.
 *
 * The caller's duties, on which every promise rests:
 *
 *   - a pointer leads to as many elements as the length says; they may be written where it is not const (a null
 *     pointer goes with length 0 only);
 *   - buffers that are lent to one function do not overlap;
 *   - meanwhile nobody else writes them, and nobody reads what is not const: one task at a time for each call and
 *     packet, and for the book while keys are loaded or erased;
 *   - a call or packet is the one that the last function left, and no older copy of it;
 *   - every slot is reported in turn, arrived or lost, each with the mask that the sender had;
 *   - a call is joined only at the end of a first superframe;
 *   - each vector that is announced is told once: by nxdn_heard right after the slot with which it was heard, or by
 *     nxdn_announce as its session starts. Before that slot, or again past its session's start, it would be taken for
 *     another session's, and that one opened as noise.
 *
 * Keys are in the book and in each call and packet that stands. nxdn_erase, nxdn_end and nxdn_packet_end zero them
 * there; docs/LIBRARY.md says what may stay on the stack. */
#ifndef NXDN_H
#define NXDN_H

#include <stddef.h>
#include <stdint.h>

#ifdef __cplusplus
extern "C" {
#endif

/* ---- sizes, in octets */

enum nxdn_size {
    NXDN_BOOK = 832,
    NXDN_CALL = 71,
    NXDN_PACKET = 44,
    NXDN_NAME = 16,       /* a key's name */
    NXDN_SHOWN_KEY = 20,  /* what nxdn_inventory hands out */
    NXDN_SHOWN_CALL = 5,  /* what nxdn_show hands out */
    NXDN_VECTOR = 8,
    NXDN_FRAME_HALF = 28, /* a voice slot's frame at half rate: four words of 7 octets */
    NXDN_FRAME_FULL = 36, /* and at full rate: four of 9 */
    NXDN_STEP = 38,       /* a step of nxdn_batch */
    NXDN_MOST_KEY = 32    /* the longest key */
};

/* ---- and in numbers */

enum nxdn_numbers {
    NXDN_COUNTS = 4, /* what nxdn_end hands out */
    NXDN_SUMS = 6    /* what nxdn_report hands out */
};

/* ---- numbers that are given */

enum nxdn_cipher { NXDN_SCRAMBLE = 1, NXDN_DES = 2, NXDN_AES = 3 }; /* keys of 2, 8 and 32 octets */
enum nxdn_rate { NXDN_HALF_RATE = 0, NXDN_FULL_RATE = 1 };

/* What a receiver does in a session whose vector it was not told: a handset goes on with the generator's next vector
   where it knew the last one; a recorder is strict, and holds. */
enum nxdn_strictness { NXDN_HANDSET = 0, NXDN_RECORDER = 1 };

enum nxdn_packet_use { NXDN_TO_RECEIVE = 0, NXDN_TO_SEND = 1 };

/* Message kinds: of 22, 16, 18 and 10 octets. */
enum nxdn_kind { NXDN_DCALL = 1, NXDN_SDCALL_INBOUND = 2, NXDN_SDCALL_OUTBOUND = 3, NXDN_FACCH1 = 4 };

/* What nxdn_show says of a call's end. */
enum nxdn_end_of_call { NXDN_NO_CALL = 0, NXDN_SENDING = 1, NXDN_RECEIVING = 2 };

/* What a step of nxdn_batch is: octet 0 of it. */
enum nxdn_step { NXDN_STEP_VOICE = 1, NXDN_STEP_LOST = 2, NXDN_STEP_ANNOUNCE = 3, NXDN_STEP_HEARD = 4 };

/* ---- answers */

enum nxdn_answer {
    NXDN_DONE = 0,           /* done */
    NXDN_HELD = 1,           /* a slot whose session's vector is not known: counted, and its frame as it came */
    NXDN_WRONG_LENGTH = 2,   /* a lent buffer has the wrong length, or add is given more than 32 octets */
    NXDN_OUT_OF_RANGE = 3,   /* cipher, key ID (0 to 63), rate, strictness, kind, use, entry number, kind of a step */
    NXDN_BAD = 4,            /* the octets are no good book, call or packet */
    NXDN_NO_ENTRY = 5,       /* the book has no key of this cipher and key ID */
    NXDN_NOT_READY = 6,      /* the key is not finished, or finish finds too few octets */
    NXDN_NOT_ALLOWED = 7,    /* finish finds a key that the cipher does not allow */
    NXDN_ZERO_VECTOR = 8,    /* a sender's DES or AES vector is all zeros */
    NXDN_NOT_NOW = 9,        /* not the time for this */
    NXDN_BAD_MASK = 10,      /* a mask above 15 */
    NXDN_ALREADY = 11,       /* the key is there already (begin), or finished already (add, finish) */
    NXDN_FULL = 12,          /* all 16 entries are in use */
    NXDN_TOO_MANY = 13,      /* add: more octets than the key lacks */
    NXDN_PAST_LIMIT = 16,    /* a slot past the 1,000,000th of a call that is received; a report's limits */
    NXDN_BAD_NAME = 17       /* a name is not printable ASCII, padded with zeros */
};

/* ---- the book of keys */

/* Begins a key under a name of NXDN_NAME octets: printable ASCII, and zeros behind it. Refuses 2, 3, 17, 4, 11, 12. */
uint8_t nxdn_begin(uint8_t *book, size_t book_len, uint8_t cipher, uint8_t id, const uint8_t *name, size_t name_len);

/* Adds octets to a key that was begun, up to its length. Refuses 2, 3, 4, 5, 11, 13. */
uint8_t nxdn_add(uint8_t *book, size_t book_len, uint8_t cipher, uint8_t id, const uint8_t *octets, size_t octets_len);

/* Finishes a key: only now can it be used. Refuses 2, 3, 4, 5, 11, 6, 7. */
uint8_t nxdn_finish(uint8_t *book, size_t book_len, uint8_t cipher, uint8_t id);

/* Zeroes a key, finished or not. A call that stands has its own copy and goes on. Refuses 2, 3, 4, 5. */
uint8_t nxdn_erase(uint8_t *book, size_t book_len, uint8_t cipher, uint8_t id);

/* The name of a key into NXDN_NAME octets. Refuses 2, 3, 4, 5. */
uint8_t nxdn_name(const uint8_t *book, size_t book_len, uint8_t cipher, uint8_t id, uint8_t *name, size_t name_len);

/* Entry number 0 to 15 into NXDN_SHOWN_KEY octets: cipher (0: free), key ID, octets loaded, 1 if finished, and from
   octet 4 on the name. Never an octet of a key. Refuses 2, 3, 4. */
uint8_t nxdn_inventory(const uint8_t *book, size_t book_len, size_t entry, uint8_t *shown, size_t shown_len);

/* ---- a call */

/* Receives a call from its opening on, with the first session's vector. Refuses 2, 3, 4 (call), 9 (a call stands),
   4 (book), 5, 6. */
uint8_t nxdn_open(uint8_t *call, size_t call_len, uint8_t cipher, uint8_t id, uint8_t rate, uint8_t strictness,
                  const uint8_t *vector, size_t vector_len, const uint8_t *book, size_t book_len);

/* Sends a call. Refuses as nxdn_open, and 8 last. */
uint8_t nxdn_start(uint8_t *call, size_t call_len, uint8_t cipher, uint8_t id, uint8_t rate, const uint8_t *vector,
                   size_t vector_len, const uint8_t *book, size_t book_len);

/* Receives a call from the end of a first superframe on. Refuses as nxdn_open. */
uint8_t nxdn_join(uint8_t *call, size_t call_len, uint8_t cipher, uint8_t id, uint8_t rate, uint8_t strictness,
                  const uint8_t *book, size_t book_len);

/* A slot sent or received: the words of the mask (bit 0 is the first word) are turned in the frame, where they stand.
   Refuses 2 (call), 10, 4, 9 (no call), 16, 2 (frame). */
uint8_t nxdn_voice(uint8_t *call, size_t call_len, uint8_t mask, uint8_t *frame, size_t frame_len);

/* A slot that did not arrive. Refuses 2, 4, 9 (no call that is received), 16. */
uint8_t nxdn_lost(uint8_t *call, size_t call_len);

/* A vector was heard, with the slot that was reported last: it is kept in the call and announced by itself as its
   session starts; where that is now, it is announced at once. The last that is heard in a session counts. Refuses 2,
   4, 9 (no DES or AES call that is received). */
uint8_t nxdn_heard(uint8_t *call, size_t call_len, const uint8_t *vector, size_t vector_len);

/* For a caller that keeps the time itself: the vector of the session that starts now, before its first slot and once.
   Refuses 2, 4, 9 (at any other time). */
uint8_t nxdn_announce(uint8_t *call, size_t call_len, const uint8_t *vector, size_t vector_len);

/* The next session's vector of a DES or AES call that is sent, for its announcement. Refuses 2, 4, 9. */
uint8_t nxdn_next_vector(const uint8_t *call, size_t call_len, uint8_t *vector, size_t vector_len);

/* Slots, losses and vectors of a recording at once: exactly what nxdn_voice, nxdn_lost, nxdn_announce and nxdn_heard
   do in turn, and faster where most slots of a session are in one batch: its keystream is made once. A step is
   NXDN_STEP octets: 0 what it is (enum nxdn_step), 1 the mask, and from 2 on the frame, as long as the call's rate
   says (one of the other rate is not refused here, but turned to noise), or the vector; a frame is turned where it
   stands. answers takes the number of each step's answer, one octet to a step: 3 where octet 0 is no number of enum
   nxdn_step. A step that is not answered 0 or 1 changed nothing, and the next one is taken all the same. Refuses 2
   (call, or steps_len is not NXDN_STEP times answers_len), and then no step is taken. */
uint8_t nxdn_batch(uint8_t *call, size_t call_len, uint8_t *steps, size_t steps_len, uint8_t *answers,
                   size_t answers_len);

/* Ends a call: its octets are zeros afterwards. Of a call that was received it hands out four counts of words: opened,
   held, replaced (not in the mask), lost; of one that was sent zeros. Refuses 2, 4, 9 (no call). */
uint8_t nxdn_end(uint8_t *call, size_t call_len, uint32_t *counts, size_t counts_len);

/* What a screen shows of a call, into NXDN_SHOWN_CALL octets: its end (enum nxdn_end_of_call), cipher, rate, position
   in the session, and 1 where a slot with a right mask and frame is turned now (answered 0), else 0. No call is all
   zeros. Refuses 2, 4. */
uint8_t nxdn_show(const uint8_t *call, size_t call_len, uint8_t *shown, size_t shown_len);

/* ---- a data packet */

/* Refuses 2, 3, 4 (packet), 9 (a packet stands), 4 (book), 5, 6, and where it is to send 8. */
uint8_t nxdn_packet_open(uint8_t *packet, size_t packet_len, uint8_t use, uint8_t kind, uint8_t cipher, uint8_t id,
                         const uint8_t *vector, size_t vector_len, const uint8_t *book, size_t book_len);

/* A message sent or received, as long as its kind says: turned but for its first two octets, and the last two of an
   outbound SDCALL. Refuses 2 (packet), 4, 9 (no packet, or past its 1,000th message), 2 (message). */
uint8_t nxdn_message(uint8_t *packet, size_t packet_len, uint8_t *message, size_t message_len);

/* A message that did not arrive. Refuses 2, 4, 9. */
uint8_t nxdn_packet_lost(uint8_t *packet, size_t packet_len);

/* Ends a packet: its octets are zeros afterwards. Refuses 2, 4, 9. */
uint8_t nxdn_packet_end(uint8_t *packet, size_t packet_len);

/* ---- a report of many calls */

/* The counts of up to 10,000 calls, four to a call as nxdn_end hands them out, added up into six numbers: opened, held,
   replaced, lost, and opened over opened plus held as a part and its whole. Refuses 2, 16 (too many calls, or a count
   above 4,000,000). */
uint8_t nxdn_report(const uint32_t *counts, size_t counts_len, uint64_t *sums, size_t sums_len);

#ifdef __cplusplus
}
#endif

#endif
