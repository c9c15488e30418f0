/*
 * Wodzerim: AEGIS-128L, proved. Link with libwodzerim.a.
 *
 * Every function answers, on every input: 0 is done, any other number is a refusal (wodzerim_answers.h), and none of them
 * crashes or reports in another way. The first refusal that applies, in the order given at each function, is the answer.
 * Unless said otherwise a refusal changes nothing: no lent byte and no session. Test each answer for 0.
 *
 * What the caller must keep, since nothing can check it
 *   A buffer is a pointer and its length in bytes, in this order. With length 0 no pointer is followed: it may be null.
 *   Lengths are true: that many bytes are readable, and for `uint8_t *` writable.
 *   A session pointer points to a whole, writable struct of its type; its bytes may be anything, and a start does not
 *   look at them.
 *   Nothing that is lent to one call overlaps anything else that is lent to it, whether it is read or written, sessions
 *   included. Where input and output are to be one, call the form that works in place.
 *   While a call runs, nobody else uses what it was lent.
 *
 * What is written
 *   Input buffers (`const uint8_t *`) never. Of the others exactly the bytes that are named at each function.
 *
 * Sizes
 *   Keys and nonces are 16 bytes, tags 16 or 32. A one-shot's tag size is the length of its tag buffer. The 16-byte tag is
 *   not half of the 32-byte one. Associated data (ad) and messages have up to 2^61-1 bytes each; any may be empty.
 *
 * Nonces
 *   Never seal two messages with the same key and nonce. That is the caller's duty; no call remembers a nonce.
 *
 * Not claimed: nothing is promised about timing, power, or copies that the stack and the registers may keep.
 */
#ifndef AEGIS128L_H
#define AEGIS128L_H

#include <stddef.h>
#include <stdint.h>

#include "wodzerim_answers.h"

#ifdef __cplusplus
extern "C" {
#endif

#define AEGIS128L_VERSION "0.1.0"
#define AEGIS128L_VERSION_MAJOR 0
#define AEGIS128L_VERSION_MINOR 1
#define AEGIS128L_VERSION_PATCH 0

#define AEGIS128L_KEYBYTES 16
#define AEGIS128L_NONCEBYTES 16
#define AEGIS128L_TAGBYTES_SHORT 16 /* a tag has this size, */
#define AEGIS128L_TAGBYTES_LONG 32  /* or this one */
#define AEGIS128L_BYTES_MAX 0x1fffffffffffffffu /* 2^61-1: the most bytes of a message, and of associated data */

/* ---- One-shots ---------------------------------------------------------------------------------------------------- */

/*
 * Seals msg into the first msg_len bytes of out, and writes the whole of tag; the rest of out stays as it was.
 * Refusals: 1 (tag_len), 2 (key_len), 3 (nonce_len), 4 (ad_len), 5 (msg_len), 6 (out_len < msg_len).
 */
WODZERIM_NODISCARD
uint8_t aegis128l_seal(const uint8_t *key, size_t key_len, const uint8_t *nonce, size_t nonce_len,
                       const uint8_t *ad, size_t ad_len, const uint8_t *msg, size_t msg_len,
                       uint8_t *out, size_t out_len, uint8_t *tag, size_t tag_len);

/*
 * Seals buf in place, all of it, and writes the whole of tag.
 * Refusals: 1 (tag_len), 2 (key_len), 3 (nonce_len), 4 (ad_len), 5 (buf_len).
 */
WODZERIM_NODISCARD
uint8_t aegis128l_seal_in_place(const uint8_t *key, size_t key_len, const uint8_t *nonce, size_t nonce_len,
                                const uint8_t *ad, size_t ad_len, uint8_t *buf, size_t buf_len,
                                uint8_t *tag, size_t tag_len);

/*
 * Opens ct into the first ct_len bytes of out; the rest of out stays as it was, whatever the answer.
 * Refusals: 1 (tag_len), 2 (key_len), 3 (nonce_len), 4 (ad_len), 5 (ct_len), 6 (out_len < ct_len), then 7.
 * After 7 the first ct_len bytes of out are all 0xaa.
 */
WODZERIM_NODISCARD
uint8_t aegis128l_open(const uint8_t *key, size_t key_len, const uint8_t *nonce, size_t nonce_len,
                       const uint8_t *ad, size_t ad_len, const uint8_t *ct, size_t ct_len,
                       const uint8_t *tag, size_t tag_len, uint8_t *out, size_t out_len);

/*
 * Opens buf in place, all of it.
 * Refusals: 1 (tag_len), 2 (key_len), 3 (nonce_len), 4 (ad_len), 5 (buf_len), then 7.
 * After 7 the whole of buf is 0xaa.
 */
WODZERIM_NODISCARD
uint8_t aegis128l_open_in_place(const uint8_t *key, size_t key_len, const uint8_t *nonce, size_t nonce_len,
                                const uint8_t *ad, size_t ad_len, uint8_t *buf, size_t buf_len,
                                const uint8_t *tag, size_t tag_len);

/*
 * Fills the whole of out, of any length, with the keystream of key and nonce. Use that pair for nothing else.
 * Refusals: 2 (key_len), 3 (nonce_len).
 */
WODZERIM_NODISCARD
uint8_t aegis128l_stream(const uint8_t *key, size_t key_len, const uint8_t *nonce, size_t nonce_len,
                         uint8_t *out, size_t out_len);

/*
 * Encrypts or decrypts the whole of buf, of any length, in place and WITHOUT AUTHENTICATION: buf xor the keystream. Twice
 * restores it.
 * Refusals: 2 (key_len), 3 (nonce_len).
 */
WODZERIM_NODISCARD
uint8_t aegis128l_stream_xor(const uint8_t *key, size_t key_len, const uint8_t *nonce, size_t nonce_len,
                             uint8_t *buf, size_t buf_len);

/*
 * Writes the MAC of data to the whole of tag. The nonce is always given; the crate aegis takes sixteen zeros by default.
 * Refusals: 1 (tag_len), 2 (key_len), 3 (nonce_len), 5 (data_len).
 */
WODZERIM_NODISCARD
uint8_t aegis128l_mac(const uint8_t *key, size_t key_len, const uint8_t *nonce, size_t nonce_len,
                      const uint8_t *data, size_t data_len, uint8_t *tag, size_t tag_len);

/*
 * Checks that tag is the MAC of data. Writes nothing.
 * Refusals: 1 (tag_len), 2 (key_len), 3 (nonce_len), 5 (data_len), then 7.
 */
WODZERIM_NODISCARD
uint8_t aegis128l_mac_check(const uint8_t *key, size_t key_len, const uint8_t *nonce, size_t nonce_len,
                            const uint8_t *data, size_t data_len, const uint8_t *tag, size_t tag_len);

/* ---- Sessions: one message in pieces of any size -------------------------------------------------------------------
 *
 * A start writes the lent session, pieces continue it, and a finish or an abort ends it. Where the message is cut makes
 * no difference: the bytes and the tag, or the verdict, are the one-shot's on the joined pieces.
 *
 * Answer 0 of a finish or an abort ends the session, and so does answer 7. Any other refusal of a piece, a finish or an
 * abort counts for nothing and leaves the session open, as it was. A session that has ended, or whose start was refused,
 * holds zeros and the mark AEGIS128L_OVER, and every call on it but a start answers 8.
 *
 * The record is plain data: copy it, move it, keep it on the stack; nothing else is held for it. It contains secrets
 * until it has ended, so abort what is not finished. A copied MAC session goes on by itself; of a sealing session
 * continue only one copy, or two messages share a nonce.
 *
 * Whatever bytes a record holds, every call answers; one that is not well formed gets 8. Well formed: tag_size is 16 or
 * 32, ad_len and msg_len are at most 2^61-1, fill is msg_len modulo 32, and for opening written is msg_len and at most
 * room.
 */

/* The marks: what kind of session a record holds. A session with any other mark gets 8, as one that is over does. */
#define AEGIS128L_SEALING 0
#define AEGIS128L_OPENING 1
#define AEGIS128L_MAC 2
#define AEGIS128L_OVER 3

/* Its fields stand without a gap, so that "zeros" and "as it was" are said of each of its bytes. */
struct aegis128l_session {
    uint8_t blocks[8][16]; /* the cipher's state */
    uint8_t buf[32];       /* below fill the message's bytes, above it unused keystream (MAC: zeros); at fill 0 zeros */
    size_t fill;           /* how many bytes of the block at hand have come */
    uint64_t ad_len;       /* bytes of associated data; MAC: 0 */
    uint64_t msg_len;      /* bytes of the message so far */
    size_t tag_size;       /* 16 or 32, as at the start */
    size_t mark;           /* AEGIS128L_SEALING, _OPENING, _MAC or _OVER */
    size_t room;           /* opening: length of the plaintext buffer; else 0 */
    size_t written;        /* opening: how many of its bytes have been written; else 0 */
};

/* What an opening finish hands back: with any answer but 0, the count is 0. */
struct aegis128l_opened {
    uint8_t answer;
    size_t count;
};

/* The library's own layout, on every processor that it is for. */
#if defined(__cplusplus) && __cplusplus >= 201103L
#define AEGIS128L_LAYOUT(record, field, at, size) \
    static_assert(offsetof(record, field) == at && sizeof(record::field) == size, #field " is not where the library has it")
#define AEGIS128L_SIZE(record, size) static_assert(sizeof(record) == size, #record " has not the library's size")
#elif !defined(__cplusplus) && defined(__STDC_VERSION__) && __STDC_VERSION__ >= 201112L
#define AEGIS128L_LAYOUT(record, field, at, size) \
    _Static_assert(offsetof(struct record, field) == at && sizeof(((struct record *)0)->field) == size, \
                   #field " is not where the library has it")
#define AEGIS128L_SIZE(record, size) _Static_assert(sizeof(struct record) == size, #record " has not the library's size")
#endif
#ifdef AEGIS128L_LAYOUT
AEGIS128L_LAYOUT(aegis128l_session, blocks, 0, 128);
AEGIS128L_LAYOUT(aegis128l_session, buf, 128, 32);
AEGIS128L_LAYOUT(aegis128l_session, fill, 160, 8);
AEGIS128L_LAYOUT(aegis128l_session, ad_len, 168, 8);
AEGIS128L_LAYOUT(aegis128l_session, msg_len, 176, 8);
AEGIS128L_LAYOUT(aegis128l_session, tag_size, 184, 8);
AEGIS128L_LAYOUT(aegis128l_session, mark, 192, 8);
AEGIS128L_LAYOUT(aegis128l_session, room, 200, 8);
AEGIS128L_LAYOUT(aegis128l_session, written, 208, 8);
AEGIS128L_SIZE(aegis128l_session, 216);
AEGIS128L_LAYOUT(aegis128l_opened, answer, 0, 1);
AEGIS128L_LAYOUT(aegis128l_opened, count, 8, 8);
AEGIS128L_SIZE(aegis128l_opened, 16);
#undef AEGIS128L_LAYOUT
#undef AEGIS128L_SIZE
#endif

/*
 * Starts sealing one message, with all of its associated data. Writes the whole of s, whatever it held. A start is no
 * abort: if an opening session was live in s, its plaintext buffer keeps what was written.
 * Refusals: 1 (tag_size), 2 (key_len), 3 (nonce_len), 4 (ad_len). After each of them s is over.
 */
WODZERIM_NODISCARD
uint8_t aegis128l_seal_start(struct aegis128l_session *s, const uint8_t *key, size_t key_len,
                             const uint8_t *nonce, size_t nonce_len, const uint8_t *ad, size_t ad_len, size_t tag_size);

/*
 * Seals the next piece, msg, into out, all of it; out has the piece's length.
 * Refusals: 8, 9 (out_len is not msg_len), 5 (msg_len).
 */
WODZERIM_NODISCARD
uint8_t aegis128l_seal_piece(struct aegis128l_session *s, const uint8_t *msg, size_t msg_len,
                             uint8_t *out, size_t out_len);

/*
 * Seals the next piece, buf, in place.
 * Refusals: 8, 5 (buf_len).
 */
WODZERIM_NODISCARD
uint8_t aegis128l_seal_piece_in_place(struct aegis128l_session *s, uint8_t *buf, size_t buf_len);

/*
 * Writes the whole of tag and ends the session; tag has the session's tag size.
 * Refusals: 8, 1 (tag_len).
 */
WODZERIM_NODISCARD
uint8_t aegis128l_seal_finish(struct aegis128l_session *s, uint8_t *tag, size_t tag_len);

/*
 * Starts opening one message into a plaintext buffer of room bytes, which is lent to each of the calls below: the same
 * buffer each time, with nothing else writing to it in between. Writes the whole of s, whatever it held, as
 * aegis128l_seal_start does.
 *
 * What stands in that buffer before the finish is NOT VERIFIED. Only answer 0 of aegis128l_open_finish releases it.
 *
 * Refusals: 1 (tag_size), 2 (key_len), 3 (nonce_len), 4 (ad_len). After each of them s is over.
 */
WODZERIM_NODISCARD
uint8_t aegis128l_open_start(struct aegis128l_session *s, const uint8_t *key, size_t key_len,
                             const uint8_t *nonce, size_t nonce_len, const uint8_t *ad, size_t ad_len,
                             size_t tag_size, size_t room);

/*
 * Opens the next piece, ct: writes the ct_len bytes of plain that start at the count already written, and no other byte.
 * Refusals: 8, 10 (plain_len), 6 (ct_len is more than is left of the room), 5 (ct_len).
 */
WODZERIM_NODISCARD
uint8_t aegis128l_open_piece(struct aegis128l_session *s, const uint8_t *ct, size_t ct_len,
                             uint8_t *plain, size_t plain_len);

/*
 * Ends the session. With answer 0 the first count bytes of plain are the message, and no byte of plain is written.
 * Refusals: 8, 10 (plain_len), 1 (tag_len), then 7. After 7 the session is over, the bytes of plain that were written
 * are 0, and the rest stays as it was.
 */
WODZERIM_NODISCARD
struct aegis128l_opened aegis128l_open_finish(struct aegis128l_session *s, const uint8_t *tag, size_t tag_len,
                                              uint8_t *plain, size_t plain_len);

/*
 * Ends a live session of any kind. Of an opening session the bytes of plain that were written become 0, and the rest
 * stays as it was; for the other kinds plain is not looked at.
 * Refusals: 8, and for an opening session 10 (plain_len).
 */
WODZERIM_NODISCARD
uint8_t aegis128l_abort(struct aegis128l_session *s, uint8_t *plain, size_t plain_len);

/*
 * Starts a MAC. Writes the whole of s, whatever it held, as aegis128l_seal_start does.
 * Refusals: 1 (tag_size), 2 (key_len), 3 (nonce_len). After each of them s is over.
 */
WODZERIM_NODISCARD
uint8_t aegis128l_mac_start(struct aegis128l_session *s, const uint8_t *key, size_t key_len,
                            const uint8_t *nonce, size_t nonce_len, size_t tag_size);

/*
 * Takes the next piece of the data.
 * Refusals: 8, 5 (data_len).
 */
WODZERIM_NODISCARD
uint8_t aegis128l_mac_piece(struct aegis128l_session *s, const uint8_t *data, size_t data_len);

/*
 * Writes the whole of tag and ends the session; tag has the session's tag size.
 * Refusals: 8, 1 (tag_len).
 */
WODZERIM_NODISCARD
uint8_t aegis128l_mac_finish(struct aegis128l_session *s, uint8_t *tag, size_t tag_len);

/*
 * Ends the session and checks that tag is the MAC of the data. Writes nothing but the session.
 * Refusals: 8, 1 (tag_len), then 7, which ends the session too.
 */
WODZERIM_NODISCARD
uint8_t aegis128l_mac_finish_check(struct aegis128l_session *s, const uint8_t *tag, size_t tag_len);

#ifdef __cplusplus
}
#endif

#endif
