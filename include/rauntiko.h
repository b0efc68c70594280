/* Rauntiko for C programs: the proved routines, as an archive that `rust/archive` makes.
 *
 * All bytes are read and written as the build paper says. Every routine takes whatever bytes it is given and always
 * returns; where a book is refused, no byte of the output is changed. It keeps nothing and allocates nothing, so
 * several threads may call it at a time. Of its caller it wants what C cannot check: each pointer leads to as many
 * bytes as the length after it says (a length of 0 goes with any pointer but NULL; only a map that is not wanted may be
 * NULL), and a buffer that is written overlaps no other. */
#ifndef RAUNTIKO_H
#define RAUNTIKO_H

#include <stddef.h>
#include <stdint.h>

#ifdef __cplusplus
extern "C" {
#endif

/* The least room for the output of rauntiko_run. */
#define RAUNTIKO_OUTPUT_ROOM 4104

/* Rewrites the question of a stored book.
 *
 * Gives 0 if the union is complete: it stands at the start of `out`, `*place` is its length, and the bytes after it are
 * not touched. Four little-endian 16-bit words come first (members, questions explored, offset of the first member,
 * total length), then each member: a count byte, the answer record if the question has one, and that many atoms. An
 * atom is five bytes: the relation and four places, a variable below 128, a constant from 128 on, 255 unused. An answer
 * record has 255 in the relation's place and is not counted.
 *
 * A book whose relations stand at 20 (bytes 10 and 11) and not at 18 is in the new form: ten header words, the tenth 6,
 * and atoms of seven bytes with six places. Then so are the union's. A book's two forms run alike.
 *
 * Any other number is a refusal, and `*place` says where:
 *    1      `out_len` is under 4,104                                           0
 *    2      the book has under 18 bytes, a new one under 20                    0
 *    3      a count in the header is outside its bounds, or the tenth word     0
 *    4      offsets, total and length do not fit                               0
 *    5      a relation's places are not 1 to 4, in a new book 1 to 6           the byte's offset
 *    6      a rule's counts or its extent                                      the byte's offset
 *    7      a relation number or a place byte that is not allowed              the byte's offset
 *    8      a new question has more than 8 atoms                               questions taken up
 *    9      it would be a 65th member                                          questions taken up
 *    10     the allowance of explorations is used up                           the allowance
 *    11     an answer variable stands in no atom of the question               the byte's offset */
uint8_t rauntiko_run(const uint8_t *book, size_t book_len, uint8_t *out, size_t out_len, size_t *place);

/* The bytes of a map. */
#define RAUNTIKO_MAP 66

/* If the first member record covers the second, that is, if the first holds wherever the second does: 0 no, 1 yes,
 * 2 the first is malformed, 3 the second is. A record is what a member of a union is, with up to 11 atoms. `width` is
 * how many places an atom has room for: 4 for members of an old book, atoms of five bytes, or 6 for those of a new one,
 * of seven. With any other width every record is malformed.
 *
 * It covers it if its variables can be mapped to the second's terms so that each of its atoms becomes one of the
 * second's. `map` gets the map: byte v is the term that variable v of the first record goes to (a variable below 128, a
 * constant from 128 on); 255 where v does not stand in the first record, and everywhere if the number is not 1. Of all
 * maps it is the first, with the atoms taken in order and for each the second's atoms in order, an answer record before
 * the atoms. As many of the 66 bytes are written as `map_len` has room for: with less room fewer, and none for a caller
 * who lends NULL and 0; what lies behind the 66 is not touched. */
uint8_t rauntiko_covers(const uint8_t *first, size_t first_len, const uint8_t *second, size_t second_len, size_t width,
                        uint8_t *map, size_t map_len);

/* Which of two member records to keep: 1 the first, which covers the second; 2 the second, which alone covers the
 * other; 0 neither, since one is malformed or they are incomparable. `map` gets the map of the record that is kept to
 * the other, as above; all 255 if neither is. */
uint8_t rauntiko_kept(const uint8_t *first, size_t first_len, const uint8_t *second, size_t second_len, size_t width,
                      uint8_t *map, size_t map_len);

/* The least room for a copy: the largest book. */
#define RAUNTIKO_BOOK_ROOM 2003

/* Copies a book into the new form, or into the old one; a book that is in the wanted form already is copied as it is.
 * There and back gives the first bytes again.
 *
 * Gives 0 if it is done: the copy stands at the start of `out`, `*place` is its length, and the bytes after it are not
 * touched. Any other number is a refusal: 1 at 0 if `out_len` is under 2,003; 2 to 7 and 11 as rauntiko_run gives them;
 * and of rauntiko_to_old 13, if a relation has over four places or a variable is above 31: `*place` is the offset of
 * the first byte that is such a count, or else such a variable. */
uint8_t rauntiko_to_new(const uint8_t *book, size_t book_len, uint8_t *out, size_t out_len, size_t *place);
uint8_t rauntiko_to_old(const uint8_t *book, size_t book_len, uint8_t *out, size_t out_len, size_t *place);

#ifdef __cplusplus
}
#endif

#endif
