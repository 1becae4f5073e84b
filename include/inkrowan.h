/*
 * inkrowan.h: check a book, read a FIX tag=value message into an index, write a message, and look
 * up a field, from C.
 *
 * The book is the dictionary: which fields, messages and groups there are. It is a run of bytes in
 * the form that document 01 describes, at most 16,384 of them. A message has at most 8,192 bytes.
 *
 * Answers
 * -------
 * Every call but inkrowan_find answers one 64-bit number. Take it apart with inkrowan_number,
 * inkrowan_tag, inkrowan_place and inkrowan_count (below). Number 0 means that it went well; any
 * other number says why it did not:
 *
 *   no.       meaning                                                        place
 *    1        the book is not sound                                          0
 *    2        the message is over 8,192 bytes                                0
 *    3        it does not start with field 8 and a known version             0
 *    4        field 9 is missing, not digits, or not the count of bytes      behind field 8
 *    5        the last seven bytes are not 10=, three digits and 0x01        length - 7
 *    6        the sum in field 10 differs                                    length - 7
 *    7        no field 35 with a value, or its type is not in the book       behind field 9
 *    8        a field without a proper tag, or with an empty value           the field
 *    9        a tag that has no place here                                   the field
 *   10        a field a second time                                          the field
 *   11        a value that has not the form of its datatype                  the field
 *   12        Length and data do not stand together, or do not fit           the field, or 10=
 *   13        a group has not as many instances as its count says            the field, or 10=
 *   14        a required field is missing: the tag says which                the field, or 10=
 *   15        the index is too short                                         message length
 *   16        a bad request: version, triples, or a range beyond the values  0
 *   17        what was written would not read back as asked                  0
 *   18        the output is too short                                        0
 *
 * A place is a count of bytes from the start of the message; "the field" is its first byte. Where
 * several things are wrong the answer is the one that document 01 puts first. The tag is 0 but for
 * number 14.
 *
 * inkrowan_check answers in the same form, but its number is a rule (1 to 9, below), and its place
 * is the offset in the book of the record that breaks it.
 *
 * Pointers
 * --------
 * Each pointer comes with a count, of bytes. The pointer must be valid for that many bytes: to be
 * read, and for `index` of the read calls and `output` to be written as well. A buffer that is
 * written must overlap no other buffer of the same call. Buffers that are only read may overlap
 * each other, and are never changed. Alignment does not matter. A null pointer is not promised to
 * work, not even with count 0: pass the address of anything instead.
 *
 * On a refusal (number not 0) a buffer to be written holds exactly the bytes it held before. On
 * success only as much of its beginning is written as the count says; all behind it stays.
 *
 * Nothing is kept between calls, and nothing is allocated.
 */

#ifndef INKROWAN_H
#define INKROWAN_H

#include <stddef.h>
#include <stdint.h>

#ifdef __cplusplus
extern "C" {
#endif

/* The most bytes that a book and a message may have. */
#define INKROWAN_MOST_BOOK_BYTES 16384
#define INKROWAN_MOST_MESSAGE_BYTES 8192

/* The bytes of one row of an index, and of an index that is long enough for every message. */
#define INKROWAN_ROW_BYTES 12
#define INKROWAN_INDEX_BYTES (2048 * INKROWAN_ROW_BYTES)

/* What inkrowan_find answers where there is no such row. */
#define INKROWAN_ABSENT UINT64_MAX

/*
 * Checks a book. Answers 0 if it is sound, also for an empty one; otherwise the lowest rule that
 * is broken as the number, and as the place the offset of the first record that breaks it:
 *
 *   1  more than 16,384 bytes, or records that do not fill the book exactly
 *   2  a record of unknown kind or wrong length, or a type text of wrong form
 *   3  a field tag that is 0, 8, 9, 35 or 10, or declared twice
 *   4  a datatype or a partner that is not right
 *   5  a member that is not declared or has a flag other than 0 and 1, a count without its group
 *      or with two, a group whose tag is no count
 *   6  a Length and its data not next to each other in a list, or with different flags
 *   7  the first member of a group is not required
 *   8  two messages with the same type text
 *   9  groups more than 4 deep below a message, or a tag in two places of one
 */
uint64_t inkrowan_check(const uint8_t *book, size_t book_bytes);

/*
 * Reads a message by a book and fills the index: one row for each field in the order of the
 * message, fields 8, 9, 35 and 10 included. A row is six 16-bit numbers, each two bytes, the low
 * one first:
 *
 *   tag; where the value starts in the message; how many bytes it has; depth, 0 in the message
 *   itself, 1 in a group, and so on; the row of the group's count (0 at depth 0), rows being
 *   counted from 0; and the instance, from 1 (0 at depth 0).
 *
 * Answers the number of rows as the count, or a refusal 1 to 15. An index of INKROWAN_INDEX_BYTES
 * bytes is never too short. The message is copied nowhere: the index speaks of its bytes.
 */
uint64_t inkrowan_read(const uint8_t *book, size_t book_bytes,
                       const uint8_t *message, size_t message_bytes,
                       uint8_t *index, size_t index_bytes);

/*
 * The same, but does not check the book again, and so never answers 1. Only for a book that
 * inkrowan_check has answered 0 for, and that has not changed since.
 */
uint64_t inkrowan_read_checked(const uint8_t *book, size_t book_bytes,
                               const uint8_t *message, size_t message_bytes,
                               uint8_t *index, size_t index_bytes);

/*
 * Writes a message into the output: fields 8, 9 and 35, the fields asked for in their order, and
 * field 10.
 *
 *   version    0 for FIX.4.2, 1 for FIX.4.4, 2 for FIXT.1.1
 *   type_text  the value of field 35, as it is to stand there, without zeros behind it
 *   triples    for each field behind 35 and before 10 three 16-bit numbers, each two bytes, the
 *              low one first: tag, where its value starts in `values`, how many bytes it has
 *   values     the bytes of the values, in any order; several fields may share them
 *
 * Answers the length of the message as the count; it then reads back by the same book, with just
 * this type and these fields. Otherwise a refusal: 1, 2, 7 to 14 as a reader would answer for the
 * message, with the place in it, 16, 17 or 18. A message never needs more than
 * INKROWAN_MOST_MESSAGE_BYTES of output.
 */
uint64_t inkrowan_write(const uint8_t *book, size_t book_bytes, uint64_t version,
                        const uint8_t *type_text, size_t type_text_bytes,
                        const uint8_t *triples, size_t triples_bytes,
                        const uint8_t *values, size_t values_bytes,
                        uint8_t *output, size_t output_bytes);

/*
 * The same, but does not check the book again, and so never answers 1. Only for a book that
 * inkrowan_check has answered 0 for, and that has not changed since.
 */
uint64_t inkrowan_write_checked(const uint8_t *book, size_t book_bytes, uint64_t version,
                                const uint8_t *type_text, size_t type_text_bytes,
                                const uint8_t *triples, size_t triples_bytes,
                                const uint8_t *values, size_t values_bytes,
                                uint8_t *output, size_t output_bytes);

/*
 * Looks for a field in an index: the lowest row with this tag whose count row and instance are
 * these (both 0 for a field of the message itself). Answers the row, which is not packed as other
 * answers are, or INKROWAN_ABSENT. Pass the filled part of the index, the count that the reading
 * answered times INKROWAN_ROW_BYTES; a rest shorter than a row is ignored. A count row, instance
 * or tag above 65,535 is found nowhere.
 */
uint64_t inkrowan_find(const uint8_t *index, size_t index_bytes,
                       uint64_t count_row, uint64_t instance, uint64_t tag);

/*
 * The parts of an answer of any call but inkrowan_find: the number in the highest 8 bits, the tag
 * in the next 24, and in the lowest 32 the place of a refusal or the count of a success.
 */

/* 0 on success; otherwise the number of the refusal, or of the rule that is broken. */
static inline unsigned inkrowan_number(uint64_t answer)
{
    return (unsigned)(answer >> 56);
}

/* The tag of the field that is missing, with number 14; otherwise 0. */
static inline uint32_t inkrowan_tag(uint64_t answer)
{
    return (uint32_t)(answer >> 32) & UINT32_C(0xFFFFFF);
}

/* Where it was refused, or the offset of the record that breaks the rule; 0 on success. */
static inline uint32_t inkrowan_place(uint64_t answer)
{
    return inkrowan_number(answer) != 0 ? (uint32_t)(answer & UINT32_MAX) : 0;
}

/* Rows read or bytes written; 0 on a refusal. */
static inline uint32_t inkrowan_count(uint64_t answer)
{
    return inkrowan_number(answer) == 0 ? (uint32_t)(answer & UINT32_MAX) : 0;
}

#ifdef __cplusplus
}
#endif

#endif
