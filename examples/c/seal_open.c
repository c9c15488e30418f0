/*
 * Seals, damages, is refused, opens; then seals a record in three pieces and opens it in five; then a MAC. Exits with 0 if
 * all is well. Every answer is tested for 0: with any other, the outputs are not what was asked for.
 */
#include "aegis128l.h"

#include <stdio.h>
#include <string.h>

#define TAG AEGIS128L_TAGBYTES_SHORT
#define SPARE 8

static const uint8_t key[AEGIS128L_KEYBYTES] = {0, 1, 2, 3, 4, 5, 6, 7, 8, 9, 10, 11, 12, 13, 14, 15};
static const char ad[] = "scale 258";
static const char msg[] = "scale 258 record 1: 34.2 kg; record 2: 34.1 kg; record 3: 33.9 kg";

#define KEY key, sizeof key
#define NONCE nonce, AEGIS128L_NONCEBYTES
#define AD (const uint8_t *)ad, sizeof ad - 1
#define MSG (const uint8_t *)msg
#define LEN (sizeof msg - 1)

static int failures;

/* Says what happened, and remembers what should not have. */
static void expect(const char *what, int ok)
{
    printf("%-52s %s\n", what, ok ? "ok" : "WRONG");
    failures += !ok;
}

static int all(const uint8_t *bytes, size_t n, uint8_t value)
{
    size_t i;
    for (i = 0; i < n; i++)
        if (bytes[i] != value)
            return 0;
    return 1;
}

static void at_once(void)
{
    const uint8_t nonce[AEGIS128L_NONCEBYTES] = {2, 1, 0, 0, 0, 0, 0, 0, 1}; /* scale 258, record 1 */
    uint8_t ct[LEN], out[LEN], tag[TAG];

    expect("sealed", aegis128l_seal(KEY, NONCE, AD, MSG, LEN, ct, LEN, tag, TAG) == WODZERIM_DONE);

    ct[5] ^= 0x04; /* one bit */
    expect("one bit damaged: refused", aegis128l_open(KEY, NONCE, AD, ct, LEN, tag, TAG, out, LEN) == WODZERIM_TAG_DIFFERS);
    expect("  and the output is erased", all(out, LEN, 0xaa));

    ct[5] ^= 0x04;
    expect("bit restored: opened", aegis128l_open(KEY, NONCE, AD, ct, LEN, tag, TAG, out, LEN) == WODZERIM_DONE);
    expect("  and the message is back", memcmp(out, msg, LEN) == 0);

    expect("key of 15 bytes: refused",
           aegis128l_open(key, 15, NONCE, AD, ct, LEN, tag, TAG, out, LEN) == WODZERIM_WRONG_KEY_SIZE);
}

/* After a refusal: ends the session if it is still live, and with it erases what an opening wrote. Hands the refusal on. */
static uint8_t give_up(struct aegis128l_session *s, uint8_t refusal, uint8_t *plain, size_t room)
{
    uint8_t answer = aegis128l_abort(s, plain, room);
    return answer == WODZERIM_DONE || answer == WODZERIM_NOT_LIVE ? refusal : answer;
}

/* Seals msg in three pieces. */
static uint8_t seal_in_pieces(const uint8_t *nonce, uint8_t *ct, uint8_t *tag)
{
    static const size_t pieces[] = {20, 1, LEN - 21};
    struct aegis128l_session s;
    uint8_t answer;
    size_t i, at;

    answer = aegis128l_seal_start(&s, KEY, NONCE, AD, TAG);
    for (i = at = 0; answer == WODZERIM_DONE && i < 3; at += pieces[i++])
        answer = aegis128l_seal_piece(&s, MSG + at, pieces[i], ct + at, pieces[i]);
    if (answer == WODZERIM_DONE)
        answer = aegis128l_seal_finish(&s, tag, TAG);
    return answer == WODZERIM_DONE ? answer : give_up(&s, answer, NULL, 0);
}

/* Opens ct in five pieces. Only with answer 0 are the first *count bytes of plain the message. */
static uint8_t open_in_pieces(const uint8_t *nonce, const uint8_t *ct, const uint8_t *tag, uint8_t *plain, size_t room, size_t *count)
{
    static const size_t pieces[] = {3, 0, 32, 17, LEN - 52};
    struct aegis128l_session s;
    struct aegis128l_opened end = {WODZERIM_DONE, 0};
    size_t i, at;

    end.answer = aegis128l_open_start(&s, KEY, NONCE, AD, TAG, room);
    for (i = at = 0; end.answer == WODZERIM_DONE && i < 5; at += pieces[i++])
        end.answer = aegis128l_open_piece(&s, ct + at, pieces[i], plain, room);
    if (end.answer == WODZERIM_DONE)
        end = aegis128l_open_finish(&s, tag, TAG, plain, room);
    *count = end.count;
    return end.answer == WODZERIM_DONE ? end.answer : give_up(&s, end.answer, plain, room);
}

static void in_pieces(void)
{
    const uint8_t nonce[AEGIS128L_NONCEBYTES] = {2, 1, 0, 0, 0, 0, 0, 0, 2}; /* scale 258, record 2: never the same twice */
    uint8_t ct[LEN], plain[LEN + SPARE], tag[TAG];
    size_t count;

    expect("sealed in three pieces", seal_in_pieces(nonce, ct, tag) == WODZERIM_DONE);

    memset(plain, 0x5c, sizeof plain);
    expect("opened in five pieces", open_in_pieces(nonce, ct, tag, plain, sizeof plain, &count) == WODZERIM_DONE && count == LEN);
    expect("  and the message is back, the rest untouched", memcmp(plain, msg, LEN) == 0 && all(plain + LEN, SPARE, 0x5c));

    tag[0] ^= 0x80;
    expect("wrong tag: refused at the end",
           open_in_pieces(nonce, ct, tag, plain, sizeof plain, &count) == WODZERIM_TAG_DIFFERS && count == 0);
    expect("  and what was written is erased, the rest untouched", all(plain, LEN, 0) && all(plain + LEN, SPARE, 0x5c));

    memset(plain, 0x5c, sizeof plain);
    expect("too little room: refused at a piece", open_in_pieces(nonce, ct, tag, plain, LEN - 1, &count) == WODZERIM_NO_ROOM);
    expect("  and given up: what was written is erased", all(plain, 52, 0) && all(plain + 52, sizeof plain - 52, 0x5c));
}

static void mac(void)
{
    const uint8_t nonce[AEGIS128L_NONCEBYTES] = {2, 1, 0, 0, 0, 0, 0, 0, 3}; /* scale 258, record 3 */
    uint8_t tag[AEGIS128L_TAGBYTES_LONG];

    expect("MAC made", aegis128l_mac(KEY, NONCE, MSG, LEN, tag, sizeof tag) == WODZERIM_DONE);
    expect("  and accepted", aegis128l_mac_check(KEY, NONCE, MSG, LEN, tag, sizeof tag) == WODZERIM_DONE);
    expect("  of a byte less it is refused", aegis128l_mac_check(KEY, NONCE, MSG, LEN - 1, tag, sizeof tag) == WODZERIM_TAG_DIFFERS);
}

int main(void)
{
    at_once();
    in_pieces();
    mac();
    return failures != 0;
}
