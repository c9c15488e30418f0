/*
 * Wodzerim: what its functions answer. The numbers are the same for every cipher; the cipher's header includes this one.
 */
#ifndef WODZERIM_ANSWERS_H
#define WODZERIM_ANSWERS_H

#define WODZERIM_DONE 0             /* done */
#define WODZERIM_WRONG_TAG_SIZE 1   /* the tag size or the tag's length is none of the cipher's, or not the session's */
#define WODZERIM_WRONG_KEY_SIZE 2   /* the key has not the cipher's length */
#define WODZERIM_WRONG_NONCE_SIZE 3 /* the nonce has not the cipher's length */
#define WODZERIM_AD_TOO_LONG 4      /* the associated data is over the limit */
#define WODZERIM_MESSAGE_TOO_LONG 5 /* the message's total would pass the limit */
#define WODZERIM_NO_ROOM 6          /* the output's room is smaller than the bytes to be written */
#define WODZERIM_TAG_DIFFERS 7      /* the tag differs: forged or damaged, or another key, nonce or associated data */
#define WODZERIM_NOT_LIVE 8         /* the session is over, of another kind, or not well formed */
#define WODZERIM_LENGTHS_DIFFER 9   /* a sealing piece's two buffers differ in length */
#define WODZERIM_OTHER_BUFFER 10    /* the plaintext buffer's length is not the one recorded at the start */
#define WODZERIM_WRONG_SHAPE 11     /* the hub program alone: its input has the wrong shape */

/*
 * Stands before each function, so that the compiler warns where an answer is ignored. An ignored refusal is a message
 * that was not sealed, or bytes that nobody verified.
 */
#if defined(__cplusplus) && __cplusplus >= 201703L
#define WODZERIM_NODISCARD [[nodiscard]]
#elif !defined(__cplusplus) && defined(__STDC_VERSION__) && __STDC_VERSION__ >= 202311L
#define WODZERIM_NODISCARD [[nodiscard]]
#elif defined(__GNUC__)
#define WODZERIM_NODISCARD __attribute__((warn_unused_result))
#else
#define WODZERIM_NODISCARD
#endif

#endif
