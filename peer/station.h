/* station.h: the six calls of the label station, as a C program sees them.
 *
 * The station owns no memory. Whoever calls it lends everything: the page, the background, the store with its links and
 * its directory, the values, and the session itself as an image of 83 bytes. A call reads and changes what it is lent and
 * remembers nothing, so two stations can run side by side and a session can be put away and taken up again.
 *
 * A lent slice is a pointer and a length. Lengths count elements: bytes for uint8_t, numbers for `links` and `counts`.
 * No slice may overlap another. A slice of length 0 may have any pointer.
 *
 *   session     83 bytes, low byte first: width 2, length 2, turn 1 (0 ZT, 1 ZB), origin x 2, origin y 2, active form 2
 *               (its directory entry from 0; 65535 none), labels owed 2, labels drawn 2, then ten counters of 5 bytes:
 *               set 1 (0 or 1), value 4; then at 65 the number of free portions 2; at 67 the clock: year (0 to 99 is 2000 to 2099), month,
 *               day, hour, minute, second, 1 each; at 73 the date format and at 78 the time format, 5 each: field, separator, field,
 *               separator, field. Fields of a date: 1 Y2, 2 Y4, 3 ME, 4 MN, 5 DD; of a time: 1 H, 2 M, 3 S; 0 is absent
 *   page        76 bytes a row, 1 to 4,000 rows; dot x is in byte x/8, highest bit first; 1 is black
 *   background  the same, and of the page's length
 *   store       1 to 2,024 portions of 256 bytes
 *   links       one number for each portion: the next portion of its chain, 65534 at the chain's end, 65535 free
 *   directory   1 to 512 entries of 16 bytes: kind, name length, name 8, first portion 2, size 4
 *   values      10 fields of 34 bytes: set, length, 32 bytes
 *   font        tagged fields; any length, judged by answer 2
 *   output      where FI, GI, FP and a repair write; any length
 *   input       the bytes not read yet; any length
 *   counts      3 numbers, stored at every answer: bytes read from the input, bytes written to the output, place of the fault
 *   name        of a form or picture that is asked for; any bytes and any length, judged by answer 7
 *
 * The place tells where in the line a refusal points. The first byte of the line is 0. Answers 6, 7 and 12 to 15 point to the
 * first byte of the field or element at fault, the leftmost if there are several:
 *
 *   6   the first piece, read from the left, that is not what must stand there: the command's letters, a field, a comma, an
 *       element of data, or the bytes past the last field. A line that ends too soon points to its LF
 *   7   the field or element outside its limits; names and prompts at their first quote
 *   12  the number of the variable or counter
 *   13  the element that is not declared; after `?` the number
 *   14  the element that reaches too far
 *   15  the first byte of the data
 *
 * In a format each field and each separator is a piece; a field that comes again points to itself. A day that its month has not is the
 * field at fault of TS.
 *
 * All other answers give place 0. If counts has another length than 3, the answer is 1 and counts is left as it is.
 *
 * The number of free portions (paper 02) is kept so that no call has to look for room. It belongs to the store: it must be the portions
 * of the store lent to the call, less those that the sizes in the directory call for (256 bytes each, at least one for an entry that is
 * not empty). A session with another number is not sound, answer 3; so is one that is lent a store of another length.
 *
 * The clock and the formats (paper 02) are the session's. TS sets the clock and station_clock moves it; nothing else changes it. TD and TT
 * sent outside a form change the formats, which serve the data of commands outside forms. In a form the elements TD and TT are shown in the
 * formats that its own lines before them give, at first `dd-me-y4` and `h:m:s`, and with the clock as it is at the label call. A clock that is no date and
 * time of 2000 to 2099, or a format that no TD or TT can give, is not sound.
 *
 * The result of each call is its answer: 0 taken, 1 to 21 refused (paper 01's table), 22 a counter runs out (paper 02: a P of so
 * many labels that some counter of the active form would leave its digits before the last of them), 23 no empty entry (paper 02: an FS
 * or GM for which there are portions enough, but the directory is full). 19 is fewer free portions than needed and nothing else; it is
 * given when both ran out. 22 goes before 19, and 23 directly after it, before 20. After a refusal the session and all lent memory are as
 * before; only the counts are stored. A refused opening leaves the session image all zero.
 */
#ifndef STATION_H
#define STATION_H

#include <stddef.h>
#include <stdint.h>

/* Clears all lent memory, frees every portion and starts a session: width 608, length N, origin 0,0, ZT, nothing owed, all portions free,
 * 1 January 2000 at midnight, formats `dd-me-y4` and `h:m:s`. */
uint8_t station_open(uint8_t *session, size_t session_len,
                     uint8_t *page, size_t page_len,
                     uint8_t *background, size_t background_len,
                     uint8_t *store, size_t store_len,
                     uint16_t *links, size_t links_len,
                     uint8_t *directory, size_t directory_len,
                     uint8_t *values, size_t values_len);

/* Reads one command at the front of the input. The unread rest starts at input + counts[0]. */
uint8_t station_command(uint8_t *session, size_t session_len,
                        uint64_t *counts, size_t counts_len,
                        const uint8_t *font, size_t font_len,
                        uint8_t *background, size_t background_len,
                        uint8_t *store, size_t store_len,
                        uint16_t *links, size_t links_len,
                        uint8_t *directory, size_t directory_len,
                        uint8_t *values, size_t values_len,
                        uint8_t *output, size_t output_len,
                        const uint8_t *input, size_t input_len);

/* Draws one owed label on the page, moves the counters, and counts the label from owed to drawn. A counter whose move leaves its digits,
 * which only the last label's can, becomes unset. */
uint8_t station_label(uint8_t *session, size_t session_len,
                      const uint8_t *font, size_t font_len,
                      uint8_t *page, size_t page_len,
                      const uint8_t *background, size_t background_len,
                      const uint8_t *store, size_t store_len,
                      const uint16_t *links, size_t links_len,
                      const uint8_t *directory, size_t directory_len,
                      const uint8_t *values, size_t values_len);

/* Will it fit? The answer that FS (kind 1) or GM with a legal picture of so many bytes (kind 2) would give if it were sent now. No form and
 * no picture is read, so neither store nor font is lent, and nothing is changed. It does not look for soundness: on a memory that is
 * not sound it goes by what it finds. The first of these answers that applies is given:
 *
 *   1   the image has not 83 bytes, the links are not 1 to 2,024, or the directory is not 1 to 512 whole entries
 *   7   another kind; a name that is not 1 to 8 bytes from 32 to 126 without `*` and quote; a picture's size outside 1 to 32,768. A
 *       form's size may be anything
 *   8   labels are owed
 *   9   some entry is of kind 3
 *   10  some entry of that kind has this length byte and these bytes; small letters of the name asked for count as capitals
 *   19  fewer links are 65535 than needed: one for a form, size/256 rounded up for a picture. The session's number is not asked
 *   23  no entry is of kind 0
 *   0   it fits
 *
 * On every sound session and store that is what FS or GM then answers; only 2, of the font, and 16, of the picture's bytes, are not told. */
uint8_t station_fits(const uint8_t *session, size_t session_len,
                     const uint16_t *links, size_t links_len,
                     const uint8_t *directory, size_t directory_len,
                     uint8_t kind,
                     const uint8_t *name, size_t name_len,
                     uint64_t size);

/* Moves the clock by so many seconds. Past the end of 2099 it stands at the last second. Of the image only the clock is looked at and
 * changed, so it may be called at any time, between owed labels and while a form is recorded too. The first of these answers that
 * applies is given:
 *
 *   1   the image has not 83 bytes
 *   3   the clock is no date and time of 2000 to 2099
 *   7   more than 86,400 seconds
 *   0   the clock is moved */
uint8_t station_clock(uint8_t *session, size_t session_len, uint64_t seconds);

/* Repairs a store that came back from a bad card. Whatever store, links, directory, values and image hold, they are left sound for a page of so many
 * rows whose background is white: the session as opening leaves it, but for the number of free portions, and no value set. Each entry whose kind
 * byte is not 0 has one line in the list that is written to the output, in the order of the directory: its number from 0, a space, what became of it, LF. It is
 * kept, byte for byte, exactly if none of these holds, and else dropped for the first that does:
 *
 *   name     a kind above 3; a name that is not 1 to 8 legal bytes without small letters, with zeros behind them; the name of an earlier entry of its kind
 *            that is kept (1 and 3 are one kind)
 *   chain    the walk from its first portion meets a number that is no portion's, a free link, or a portion twice
 *   size     its portions are not those that the size calls for, or it is a picture of more than 32,768 bytes
 *   shared   a portion is one of an earlier entry's that is kept
 *   content  a form being recorded; a form with a line that recording would not take or would write otherwise, stored pictures aside; no legal picture
 *
 * All other entries become empty. The portions that no kept entry has are zeroed and free, and the unused bytes of the others are zeroed. The output beyond
 * the list is as before. The counts are 0, the length of the list and 0; after a refusal 0, 0, 0. The first of these answers that applies is given:
 *
 *   1   the image has not 83 bytes, counts not 3 numbers, the rows are not 1 to 4,000, or store, links, directory or values have a wrong length
 *   20  the list is longer than the output
 *   0   the store is repaired */
uint8_t station_repair(uint8_t *session, size_t session_len,
                       uint64_t *counts, size_t counts_len,
                       uint64_t rows,
                       uint8_t *store, size_t store_len,
                       uint16_t *links, size_t links_len,
                       uint8_t *directory, size_t directory_len,
                       uint8_t *values, size_t values_len,
                       uint8_t *output, size_t output_len);

#endif
