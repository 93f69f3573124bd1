/*
 * Zembrulish: judge, read and write base64, base32 and hex, by proved code.
 *
 * Make the library with `(cd crates/panel && rt lib)` and link crates/panel/out/libpanel.a (x86-64 Linux). It allocates nothing,
 * keeps nothing between calls and may be called from several threads at once.
 *
 *   alphabet   0 base64     A-Z a-z 0-9 + /   padded with =
 *              1 base64url  A-Z a-z 0-9 - _   padded with =
 *              2 base32     A-Z 2-7           padded with =
 *              3 base32hex  0-9 A-V           padded with =
 *              4 hex        0-9 A-F
 *              5 lower hex  0-9 a-f
 *
 *   options    the sum of what is let pass, 0 for nothing:
 *              1 LINES   CR and LF anywhere, in any number
 *              2 BLANK   space and tab anywhere, in any number
 *              4 NOPAD   padding wholly absent (part of it is not enough)
 *              8 SPARE   bits of the last digit that belong to no byte may be other than zero
 *             16 CASE    letters of the other case (alphabets 2 to 5 only)
 *
 * Any numbers may be given for both: those that are not allowed give answer 1.
 *
 *   answer                                        position                  count
 *   0 accepted or written                         length of the text        bytes decoded; writing: length of the text
 *   1 no such alphabet or options                 0                         0
 *   2 too long                                    reading: ZEM_LIMIT        good bytes of the text's first ZEM_LIMIT bytes
 *                                                 writing: 0                0
 *   3 no room                                     0                         the room needed
 *   4 foreign byte                                that byte                 good bytes before it
 *   5 pad in a wrong place                        that byte                 good bytes before it
 *   6 spare bits not zero                         first pad, or text's end  good bytes before it
 *   7 digit or pad after padding                  that byte                 good bytes before it
 *   8 cut short                                   text's end                good bytes
 *
 * A position is an index into the text, from 0. A byte is refused exactly where the text can no longer become an accepted
 * one, whatever follows. The good bytes are those that every accepted text with the same beginning starts with, so they
 * are sure although the text is refused. (Answers 9 and 10 belong to streams, and no call here gives them.)
 *
 * Pointers: each goes with the length after it, and must point to that many bytes that the call may read (text, src) or
 * write (out). For a length of 0 any pointer does, but not NULL. `out` must not overlap `text` or `src`. Every byte that
 * is read has been set, and nothing else writes to the bytes during the call. Bytes of `out` past the count that the
 * call wrote are never changed; where the answer is 1 or 3, or 2 of zem_write, no byte of `out` is.
 */
#ifndef ZEMBRULISH_H
#define ZEMBRULISH_H

#include <stddef.h>
#include <stdint.h>

#ifdef __cplusplus
extern "C" {
#endif

/* The longest text, in bytes, dropped ones included. The longest source is 12582912 bytes in base64, 10485760 in base32
 * and 8388608 in hex. */
#define ZEM_LIMIT 16777216u

/* Judges a text and writes nothing: the answer, 0 exactly where the text is accepted. Never 3. */
uint32_t zem_judge_answer(uint32_t alphabet, uint32_t options, const uint8_t *text, size_t len);

/* The position that belongs to that answer. */
uint64_t zem_judge_position(uint32_t alphabet, uint32_t options, const uint8_t *text, size_t len);

/* The number of good bytes: the room that zem_read needs for this text. */
uint64_t zem_judge_count(uint32_t alphabet, uint32_t options, const uint8_t *text, size_t len);

/* Decodes a text into out[0 .. room - 1] and returns the answer. Where the good bytes fit, they are put at the front of
 * out, also those of a refused text, and the answer is the judge's. Where they do not, the answer is 3, nothing is
 * written, and zem_read_count tells the room needed. A room of len bytes always does. */
uint32_t zem_read(uint32_t alphabet, uint32_t options, const uint8_t *text, size_t len, uint8_t *out, size_t room);

/* The position that belongs to the answer of zem_read with the same arguments. It decodes nothing and needs no buffer. */
uint64_t zem_read_position(uint32_t alphabet, uint32_t options, const uint8_t *text, size_t len, size_t room);

/* The number of bytes that zem_read with the same arguments puts into out or, where its answer is 3, the room needed. */
uint64_t zem_read_count(uint32_t alphabet, uint32_t options, const uint8_t *text, size_t len, size_t room);

/* Encodes src into out[0 .. room - 1], pads included, no byte 0 after it, and returns the answer: 0, 1, 2 or 3. Nothing is
 * written where it is not 0. */
uint32_t zem_write(uint32_t alphabet, const uint8_t *src, size_t len, uint8_t *out, size_t room);

/* The position that belongs to the answer of zem_write with the same arguments: the length of the text where it is 0. */
uint64_t zem_write_position(uint32_t alphabet, const uint8_t *src, size_t len, size_t room);

/* The length of the text that zem_write with the same arguments writes or, where its answer is 3, the room needed. */
uint64_t zem_write_count(uint32_t alphabet, const uint8_t *src, size_t len, size_t room);

#ifdef __cplusplus
}
#endif

#endif
