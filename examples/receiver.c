/* A receiver that is told in lines of text what happens on the air, and answers each with a line: what slotcheck does,
   over the library. docs/SLOTCHECK.md has the records and the answers.

     examples/build-c receiver < examples/handover.txt

   All that a receiver keeps is a book and a call, and it lends them to every function that it calls. */
#include <stdio.h>
#include <string.h>

#include "nxdn.h"

enum { MOST_LINE = 96, MOST_FIELDS = 4, NO_RECORD = 15 };

static uint8_t book[NXDN_BOOK]; /* all zeros: no key */
static uint8_t call[NXDN_CALL]; /* all zeros: no call */

/* ---- a line of text */

struct field {
    const char *text;
    size_t len;
};

/* The parts of a line between its tabs; one more than MOST_FIELDS says that there are too many. */
static int split(const char *line, size_t len, struct field *fields) {
    const char *end = line + len;
    int n = 0;
    for (;;) {
        const char *tab = memchr(line, '\t', (size_t)(end - line));
        if (n == MOST_FIELDS)
            return n + 1;
        fields[n].text = line;
        fields[n++].len = (size_t)((tab ? tab : end) - line);
        if (!tab)
            return n;
        line = tab + 1;
    }
}

/* A number up to 255, without leading zeros. */
static int is_number(struct field field, uint8_t *number) {
    unsigned value = 0;
    if (field.len < 1 || field.len > 3 || (field.text[0] == '0' && field.len > 1))
        return 0;
    for (size_t i = 0; i < field.len; i++) {
        if (field.text[i] < '0' || field.text[i] > '9')
            return 0;
        value = 10 * value + (unsigned)(field.text[i] - '0');
    }
    *number = (uint8_t)value;
    return value <= 255;
}

static int is_digit(char c, unsigned *value) {
    if (c >= '0' && c <= '9')
        *value = (unsigned)(c - '0');
    else if (c >= 'A' && c <= 'F')
        *value = (unsigned)(c - 'A') + 10;
    else
        return 0;
    return 1;
}

/* At least one octet in hex, and at most so many. */
static int is_hex(struct field field, uint8_t *octets, size_t most, size_t *len) {
    *len = field.len / 2;
    if (field.len % 2 != 0 || *len < 1 || *len > most)
        return 0;
    for (size_t i = 0; i < *len; i++) {
        unsigned high, low;
        if (!is_digit(field.text[2 * i], &high) || !is_digit(field.text[2 * i + 1], &low))
            return 0;
        octets[i] = (uint8_t)(16 * high + low);
    }
    return 1;
}

/* So many octets in hex, no more and no fewer. */
static int is_octets(struct field field, uint8_t *octets, size_t wanted) {
    size_t len;
    return is_hex(field, octets, wanted, &len) && len == wanted;
}

/* ---- what a record does: each gives the answer of the library */

/* A key at once. Half of one is of no use, so a refused part takes back the beginning; where the beginning itself is
   refused nothing was begun. */
static uint8_t load(uint8_t cipher, uint8_t id, const uint8_t *key, size_t key_len) {
    static const uint8_t no_name[NXDN_NAME];
    uint8_t answer = nxdn_begin(book, sizeof book, cipher, id, no_name, sizeof no_name);
    if (answer != NXDN_DONE)
        return answer;
    answer = nxdn_add(book, sizeof book, cipher, id, key, key_len);
    if (answer == NXDN_DONE)
        answer = nxdn_finish(book, sizeof book, cipher, id);
    if (answer != NXDN_DONE)
        nxdn_erase(book, sizeof book, cipher, id);
    return answer;
}

/* The counts of the call that ends are not printed here: examples/handset.c shows them. */
static uint8_t end(void) {
    uint32_t counts[4];
    return nxdn_end(call, sizeof call, counts, 4);
}

/* A record and its answer. After a voice slot the frame holds what came of it, and the answer says whether that is
   opened speech. */
static uint8_t answer_to(const char *line, size_t len, uint8_t *frame, int *is_voice) {
    struct field field[MOST_FIELDS];
    uint8_t cipher, id, mask, octets[NXDN_MOST_KEY];
    size_t octets_len;
    int fields;
    *is_voice = 0;
    if (len > MOST_LINE)
        return NO_RECORD;
    fields = split(line, len, field);
    if (field[0].len != 1)
        return NO_RECORD;
    switch (field[0].text[0]) {
    case 'K':
        if (fields == 4 && is_number(field[1], &cipher) && is_number(field[2], &id)
            && is_hex(field[3], octets, NXDN_MOST_KEY, &octets_len))
            return load(cipher, id, octets, octets_len);
        break;
    case 'O':
        if (fields == 4 && is_number(field[1], &cipher) && is_number(field[2], &id)
            && is_octets(field[3], octets, NXDN_VECTOR))
            return nxdn_open(call, sizeof call, cipher, id, NXDN_HALF_RATE, NXDN_RECORDER, octets, NXDN_VECTOR,
                             book, sizeof book);
        break;
    case 'J':
        if (fields == 3 && is_number(field[1], &cipher) && is_number(field[2], &id))
            return nxdn_join(call, sizeof call, cipher, id, NXDN_HALF_RATE, NXDN_RECORDER, book, sizeof book);
        break;
    case 'V':
        *is_voice = fields == 3 && is_number(field[1], &mask) && is_octets(field[2], frame, NXDN_FRAME_HALF);
        if (*is_voice)
            return nxdn_voice(call, sizeof call, mask, frame, NXDN_FRAME_HALF);
        break;
    case 'I':
        /* the text tells of a vector as its session starts; a radio, which hears it earlier, has nxdn_heard for that */
        if (fields == 2 && is_octets(field[1], octets, NXDN_VECTOR))
            return nxdn_announce(call, sizeof call, octets, NXDN_VECTOR);
        break;
    case 'L':
        if (fields == 1)
            return nxdn_lost(call, sizeof call);
        break;
    case 'E':
        if (fields == 1)
            return end();
        break;
    }
    return NO_RECORD;
}

/* ---- the line that answers: the answer, the position after the record, and the opened frame */

static void respond(const char *line, size_t len) {
    uint8_t frame[NXDN_FRAME_HALF], shown[NXDN_SHOWN_CALL];
    int is_voice;
    unsigned answer = answer_to(line, len, frame, &is_voice);
    nxdn_show(call, sizeof call, shown, sizeof shown);
    if (shown[0] == NXDN_NO_CALL)
        printf("%u\t-\t", answer);
    else
        printf("%u\t%u\t", answer, (unsigned)shown[3]);
    if (is_voice && answer == NXDN_DONE)
        for (size_t i = 0; i < sizeof frame; i++)
            printf("%02X", (unsigned)frame[i]);
    else
        putchar('-');
    putchar('\n');
}

int main(void) {
    char line[MOST_LINE + 1]; /* one octet more than a line may have shows that it is too long; the rest is not kept */
    size_t len = 0;
    int c;
    setvbuf(stdout, NULL, _IOLBF, BUFSIZ); /* an answer comes as soon as the record's line has ended */
    while ((c = getchar()) != EOF) {
        if (c == '\n') {
            respond(line, len);
            len = 0;
        } else if (len < sizeof line)
            line[len++] = (char)c;
    }
    if (len > 0) /* a last line may lack its line end */
        respond(line, len);
    if (ferror(stdin) || fflush(stdout) != 0 || ferror(stdout)) {
        fputs("receiver: stopped by a read or write error\n", stderr);
        return 1;
    }
    return 0;
}
