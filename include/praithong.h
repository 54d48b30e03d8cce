/* Praithong: a checker for the plates and bars of a dumb barge. The functions of the static library yard, for C and C++ on x86-64.

   Every function of the library is proved to do what is said here on every input: no caller has to look first, and none of them reads or writes
   outside what it is lent. (The five inline helpers at the end are C: they take an answer apart, and are tried at their ends and not proved.)
   What is lent must be there: no pointer is null, also where a length is 0, and what is written overlaps nothing else.

   An answer is one number of 64 bits. A refusal is number * 2^40 + place, with the number and the place of the sheet's table of refusals; the
   number is at least 1. Any other answer is below 2^40. A refusal leaves every byte and every field as it was. */
#ifndef PRAITHONG_H
#define PRAITHONG_H

#include <stdint.h>

#ifdef __cplusplus
extern "C" {
#endif

/* How many numbers a header, a record and a verdict are. */
#define YARD_HEADER_FIELDS 10
#define YARD_RECORD_FIELDS 13
#define YARD_VERDICT_FIELDS 4

/* How many bytes they take; a header as many as its version has. */
#define YARD_HEADER_1_BYTES 12
#define YARD_HEADER_2_BYTES 20
#define YARD_RECORD_BYTES 16
#define YARD_VERDICT_BYTES 4

/* How many bytes hold any sheet, and any sheet's text. */
#define YARD_LONGEST_SHEET 6420
#define YARD_LONGEST_TEXT 52531

/* Checks a whole sheet, of version 1 (12 + 16n bytes) or version 2 (20 + 16n): n * 2^16 + failed. Each record's verdict goes into its own four bytes of
   out, whose first 4n bytes are written and no others. Refused: 1, 2 and 3 as yard_read_header refuses the header; 9, at place 0, in version 2 where L is
   above 35 * depth at H 60 or above 25 * depth at H 120; then 4 to 8 of the table, 4 for a sheet of another length and 5 for an out under 4n bytes. */
uint64_t yard_check(const uint8_t *sheet, uint64_t sheet_len, uint8_t *out, uint64_t out_len);

/* Reads the header in the first bytes, twelve of version 1 and twenty of version 2: 0, and fields are version, L, D0, H, runs (0 one, 1 two), M, ZB, n,
   ZDB, depth; the last two are 0 in version 1, which has neither. Refused: 1 under twelve bytes, 2 for another version, 1 for version 2 under twenty bytes;
   then 3 at the first field that is outside its values, ZDB being field 10, depth 11, the 27 zero bits 12, and the three after n field 9 in both versions.
   Whether the hull is too slender is not asked of a header alone. Lend room for ten numbers: programs that lent eight must be built anew. */
uint64_t yard_read_header(const uint8_t *bytes, uint64_t bytes_len, uint32_t fields[10]);

/* Writes the header that the ten fields are into the first bytes of out, twelve or twenty by its version, and into no others: 0. Refused: 5 under twelve
   bytes, 2 for another version, 5 for version 2 under twenty bytes; then 3: a number that its field does not allow is refused at that field, however great
   it is, and the first such field is the one named. In version 1 the two last numbers must be 0, and are refused as field 9, the zero bits, where they are
   not. */
uint64_t yard_write_header(const uint32_t fields[10], uint8_t *out, uint64_t out_len);

/* Reads the record in the first sixteen bytes, as record 0: 0, and the fields are,
   of a plate (kinds 1 to 4): kind, id, K, z, S, T, b1, b2, ballast (0 or 1), zL, cargo pressure, and two that are 0;
   of a member (kinds 5 to 8): kind, id, z, S, l, T, bending and shear coefficient, eta, sigma 1, W, A, K. */
uint64_t yard_read_record(const uint8_t *bytes, uint64_t bytes_len, uint32_t fields[13]);

/* Writes the record that the fields are into the first sixteen bytes of out, and into no others: 0. Refused: 5 under sixteen bytes, then 6 and 7 as record
   0, a number that its field does not allow at that field, however great it is; the two last numbers of a plate must be 0, and are refused as field 12, the
   zero bits, where they are not. */
uint64_t yard_write_record(const uint32_t fields[13], uint8_t *out, uint64_t out_len);

/* Reads one verdict in the first four bytes: 0, and fields are id, rule (0 is a pass), required (0 on a pass, and where nothing will do) and source,
   the load that the record's pressure comes from, on a pass too and whichever rule fails: 0 the sea at or below the draught (kinds 6 to 8 always), 1 the
   sea above it, 2 ballast, 3 cargo; of two equal loads the lower number. Lend room for four numbers: programs that lent three must be built anew. */
uint64_t yard_read_verdict(const uint8_t *bytes, uint64_t bytes_len, uint32_t fields[4]);

/* Puts the record that the fields are into the sheet in the first len bytes of buf, a buffer of buf_len bytes: it replaces the record with its id, or
   goes in at its place in the id order, and those from there on move up by sixteen bytes. The answer is the sheet's new length: len, or len + 16. A
   replacement changes its own sixteen bytes and no others; an insertion the header's count, the bytes from its place on and, of those past the sheet,
   the next sixteen. The header's version and its other fields stay. Refused: 1 also where len is above buf_len, then as a check refuses the sheet, but
   never by 5; then 6 and 7 on the fields, as record n of the sheet; then 11, at place 0, where the id is new and there are under len + 16 bytes of
   buffer, or n is 400 already. */
uint64_t yard_put(uint8_t *buf, uint64_t buf_len, uint64_t len, const uint32_t fields[13]);

/* Takes the record with this id out of the sheet in the first len bytes of buf, a buffer of buf_len bytes: those after it move down, the sixteen bytes
   that come free at the sheet's end are zeroed, and the header's count goes down. The answer is the sheet's new length, len - 16. No other byte changes.
   Refused as yard_put refuses the sheet; then 10, at place 0, where no record has the id, however great it is. */
uint64_t yard_remove(uint8_t *buf, uint64_t buf_len, uint64_t len, uint32_t id);

/* Makes comma-separated text into the sheet that it is, in the first bytes of out: the answer is the sheet's length, and no other byte is written. 6,420
   bytes of out hold any sheet. The text has a line for the header's numbers and one for each record's, in the order of the fields that are read above
   without those that are always 0: 8 numbers in version 1, 10 in version 2, 11 for a plate, 13 for a member, in decimal with no leading zero. A line ends
   with LF or CR LF, the last one also with the text; a line end with nothing behind it starts no line. A field may stand in quotes, a quote in it being
   doubled; a line end in quotes ends no line, and a CR that no LF follows is a byte of its field.
   Refused, lines in turn, by the first faulty one, whose number from 1 is the place, the empty text being one line (2^32 - 1 stands for all lines past it):
   14 for a quote that is unclosed, out of place, or followed by anything but a comma, a line end or the text's end; else 15 for another count of fields
   than the version of the first line, or the kind of another, has; else 14 for a field that is no number so written, or is too wide for its bits. Where
   there is no such version or kind only the line's first field is judged. Then as yard_check refuses the sheet that the lines make, 4 where the lines of
   records are not n; and then 5, at place 0, where out is too short for it. */
uint64_t yard_read_text(const uint8_t *text, uint64_t text_len, uint8_t *out, uint64_t out_len);

/* Makes a sheet into its text, in the first bytes of out: lines as above, without quotes, each with CR LF after it. The answer is the text's length, and no
   other byte is written. 52,531 bytes of out hold any text. Read again it is the same sheet. Refused as yard_check refuses the sheet, but not by 5; then 5,
   at place 0, where out is too short for the text. */
uint64_t yard_write_text(const uint8_t *sheet, uint64_t sheet_len, uint8_t *out, uint64_t out_len);

#ifdef __cplusplus
}
#endif

/* Whether an answer is a refusal; the refusal's number, from 1 to 15, and its place. */
static inline int yard_is_refused(uint64_t answer) { return (answer >> 40) != 0; }
static inline uint32_t yard_number(uint64_t answer) { return (uint32_t)(answer >> 40); }
static inline uint32_t yard_place(uint64_t answer) { return (uint32_t)answer; }

/* Of a check that is not refused: how many records there are, and how many of them failed. */
static inline uint32_t yard_n(uint64_t answer) { return (uint32_t)(answer >> 16); }
static inline uint32_t yard_failed(uint64_t answer) { return (uint32_t)(answer & 65535); }

#endif
