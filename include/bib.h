/* The proved bibliography reader, libbib.a, for C and what can call it.
 *
 * Every call returns, for any bytes and any sizes of what it is lent, and answers a status: 0 if it
 * accepts, or else the number of its refusal, one of those below. What else it has to say comes back
 * in lent numbers, which every call sets:
 *
 *   count   how many rows (of bib_pack and the writers: bytes) it wrote; 0 if it refuses
 *   start   where the refusal's place begins, a byte of the file or text; 0 if it accepts
 *   end     where it ends; 0 if it accepts
 *
 * A call that resolves has two more, between count and start:
 *
 *   bytes   how many bytes of text it wrote; 0 if it refuses
 *   names   how many names it resolved; 0 if it refuses
 *
 * and the one that resolves a whole file has these two, where count is how many values it resolved:
 *
 *   chunk_rows   how many chunk rows it wrote; 0 if it refuses
 *   bytes        how many bytes of text it wrote; 0 if it refuses
 *
 * A refusal leaves what is lent for rows or bytes as it was. What is accepted leaves all that lies
 * past the answer as it was. Scratch, which the calls that resolve are lent too, holds zeros after
 * every call, whatever it held.
 *
 * A row is four numbers: kind, detail, start, end. The length of what is lent for rows counts
 * numbers; those past the last whole row are no room, and stay as they were.
 *
 * A chunk row, which resolving gives and the writers take, is five numbers: kind, text start, text
 * end, span start, span end. The chunk is the bytes from text start to text end of the text that
 * belongs to it; its span is where it stands in the file. The writers do not look at the span.
 *
 * What is lent must not overlap. What has length 0 is not looked at, and its pointer may be null.
 * Nothing is allocated and nothing is kept between calls, so that threads may call at once.
 */
#ifndef BIB_H
#define BIB_H

#include <stddef.h>
#include <stdint.h>

#ifdef __cplusplus
extern "C" {
#endif

/* The version of this header and of its library, as major, minor and patch. */
#define BIB_VERSION "0.1.0"
#define BIB_VERSION_MAJOR 0
#define BIB_VERSION_MINOR 1
#define BIB_VERSION_PATCH 0

/* The most bytes that a file may have. */
#define BIB_MOST_BYTES 16777215

/* The numbers of a row, and the bytes of a packed one. */
#define BIB_ROW_NUMBERS 4
#define BIB_PACKED_BYTES 7

/* The numbers of a chunk row. */
#define BIB_CHUNK_NUMBERS 5

/* The most bytes that a literal may have to be resolved, and the least that scratch must have. */
#define BIB_MOST_LITERAL 16384
#define BIB_LEAST_SCRATCH 32768

/* The most names that are resolved in a field, month words included, and the numbers of a month word. */
#define BIB_MOST_NAMES 4096
#define BIB_MONTH_NUMBERS 4

/* The numbers of a value's answer where a whole file is resolved, and a good length for heads there. */
#define BIB_ANSWER_NUMBERS 6
#define BIB_GOOD_HEADS(row_count) ((size_t)(row_count) / 2 + 1)

/* Numbers that are enough for the rows of every file of so many bytes, salvaged or read strictly. */
#define BIB_ENOUGH_NUMBERS(file_len) (((size_t)(file_len) + 1) * BIB_ROW_NUMBERS)

/* What the status says. A place is start..end; 0..0 where none is named here. That of 3 to 10 is the
 * whole character that is wrong, or n..n where the file ends, or in bib_salvage the piece; but that of
 * a 3 in a literal is n..n. */
enum bib_status {
    BIB_OK = 0,
    BIB_TOO_LONG = 1,                 /* the file has more than BIB_MOST_BYTES; or, at its place, a
                                         literal has more than BIB_MOST_LITERAL */
    BIB_NOT_UTF8 = 2,                 /* n..n, the first byte of the first ill-formed sequence */
    BIB_UNEXPECTED_EOF = 3,           /* the text ends, or no value begins */
    BIB_EXPECTED_IDENTIFIER = 4,
    BIB_EXPECTED_OPENING_BRACE = 5,
    BIB_EXPECTED_CLOSING_BRACE = 6,
    BIB_EXPECTED_COMMA = 7,
    BIB_EXPECTED_QUOTATION_MARK = 8,
    BIB_EXPECTED_EQUALS = 9,
    BIB_UNEXPECTED_DECIMAL_POINT = 10,
    BIB_UNEXPECTED_CLOSING_BRACE = 11, /* that byte, in a literal */
    BIB_UNKNOWN_ABBREVIATION = 12,    /* the name's use, as all to 15: no definition, no month word */
    BIB_CYCLIC = 13,                  /* a name that is being resolved already */
    BIB_TOO_DEEP = 14,                /* a name inside 32 others; or, in a literal, the opening brace of
                                         a command's argument that stands inside 64 others */
    BIB_TOO_MANY_NAMES = 15,          /* a field's name after BIB_MOST_NAMES others */
    BIB_NO_ROOM = 16,                 /* there is an answer, and more of it than was lent for it */
    BIB_BAD_ROWS = 17                 /* not a sequence of rows, or a number out of its range; of a
                                         literal: its ends are reversed, outside the file or inside a
                                         character; of fields: see bib_resolve_field and
                                         bib_resolve_file */
};

/* What a row is of. */
enum bib_kind {
    BIB_PREAMBLE = 0,                 /* with its quotes */
    BIB_ENTRY = 1,                    /* from its "@" to before its closing delimiter */
    BIB_ENTRY_TYPE = 2,
    BIB_KEY = 3,
    BIB_FIELD_NAME = 4,
    BIB_VALUE = 5,                    /* with the white space after it */
    BIB_LITERAL = 6,                  /* a part of a value, without its delimiters */
    BIB_NAME = 7,                     /* a part of a value that names a definition */
    BIB_DEFINITION_NAME = 8,
    BIB_DAMAGE = 9,                   /* of bib_salvage: a piece that is refused */
    BIB_CAUSE = 10                    /* and why: the detail is its number, 2 to 10, and start and end
                                         are its place */
};

/* What a chunk row is of. */
enum bib_chunk {
    BIB_NORMAL = 0,
    BIB_VERBATIM = 1,                 /* stood in braces of its own */
    BIB_MATH = 2                      /* stood between dollars */
};

/* Reads a file strictly: all of its rows, in file order, or the first thing that is wrong.
 * Refuses with 1, 2, 3 to 10 as it meets them, or 16. */
uint32_t bib_read(const uint8_t *file, size_t file_len,
                  uint32_t *rows, size_t rows_len,
                  uint64_t *count, uint64_t *start, uint64_t *end);

/* Salvages a file: cuts it before each "@" that is its first byte or follows a newline, and reads
 * each piece alone. A refused piece gives two rows, its damage and its cause; damage in one piece
 * does not touch another's rows. Refuses with 1 or 16. */
uint32_t bib_salvage(const uint8_t *file, size_t file_len,
                     uint32_t *rows, size_t rows_len,
                     uint64_t *count, uint64_t *start, uint64_t *end);

/* Packs rows, seven bytes to a row, most significant bit first: kind 4 bits, detail 4, start 24,
 * length 24. Refuses with 17, or 16. What the calls above gave is not refused with 17. */
uint32_t bib_pack(const uint32_t *rows, size_t rows_len,
                  uint8_t *bytes, size_t bytes_len,
                  uint64_t *count, uint64_t *start, uint64_t *end);

/* Unpacks rows. Refuses with 17, or 16. */
uint32_t bib_unpack(const uint8_t *bytes, size_t bytes_len,
                    uint32_t *rows, size_t rows_len,
                    uint64_t *count, uint64_t *start, uint64_t *end);

/* Formats chunks verbatim: their texts in a row, in Normal ones a space for each line end that no
 * white space comes before, and dollars around Math. Refuses with 2 a text that is not UTF-8; then
 * with 17 rows that are no whole count of chunk rows, a row of another kind, or a text range that is
 * reversed, outside the text or across a character; then with 16. */
uint32_t bib_format_verbatim(const uint8_t *text, size_t text_len,
                             const uint32_t *rows, size_t rows_len,
                             uint8_t *bytes, size_t bytes_len,
                             uint64_t *count, uint64_t *start, uint64_t *end);

/* Formats chunks in sentence case: as bib_format_verbatim does, but what is Normal in lower case, save
 * the first character of the first chunk, which is in upper case. A first chunk that is empty or not
 * Normal has no such character, and then none is raised. Upper and lower case are by Unicode's full
 * mappings, which look neither at the language nor at the characters around: one character may become
 * three. So 3 bytes for each byte of the chunks' texts, and 2 for each chunk, are always room enough.
 * Refuses as bib_format_verbatim does. */
uint32_t bib_format_sentence(const uint8_t *text, size_t text_len,
                             const uint32_t *rows, size_t rows_len,
                             uint8_t *bytes, size_t bytes_len,
                             uint64_t *count, uint64_t *start, uint64_t *end);

/* Writes chunks as a BibLaTeX string, in its braces and with backslashes before what needs them. In
 * a verbatim field, as "file" or "url", less does: verbatim is 0, or any other number for such a
 * field. Refuses as bib_format_verbatim does. */
uint32_t bib_to_biblatex_string(const uint8_t *text, size_t text_len,
                                const uint32_t *rows, size_t rows_len,
                                uint32_t verbatim,
                                uint8_t *bytes, size_t bytes_len,
                                uint64_t *count, uint64_t *start, uint64_t *end);

/* Resolves the literal that stands in a file from one byte up to another: TeX's commands are
 * executed, white space becomes single blanks, and what stood in braces or between dollars becomes
 * chunks of their own. Its chunk rows stand in chunks and their text in text; the spans are bytes of
 * the file. In a verbatim field, as "file" or "url", commands and dollars mean nothing: verbatim is
 * 0, or any other number for such a field. A literal of n bytes has at most n + 1 chunks, and at most
 * 2 * n bytes of text. names is 0.
 *
 * Refuses with 1 a file that is too long; then with 2; then with 17 for from and to; then with 16 if
 * scratch has fewer than BIB_LEAST_SCRATCH bytes; then with 1, at from..to, a literal that is too
 * long, or with 3, 11 or 14, whichever comes first in it; then with 16 if chunks or text are too
 * short. */
uint32_t bib_resolve_literal(const uint8_t *file, size_t file_len,
                             size_t from, size_t to,
                             uint32_t verbatim,
                             uint8_t *scratch, size_t scratch_len,
                             uint32_t *chunks, size_t chunks_len,
                             uint8_t *text, size_t text_len,
                             uint64_t *count, uint64_t *bytes, uint64_t *names,
                             uint64_t *start, uint64_t *end);

/* Resolves the value of a field: its literals as bib_resolve_literal does, and its names. rows are
 * those of the file, as reading or salvage gives them, and which is the number of the value's row,
 * from 0. A name stands for the value of its last definition, wherever that stands in the file; if it
 * has none, for the text of the first month word that is the same, byte by byte. A month word has four
 * numbers in months: word start, word end, text start and text end, which are bytes of words. Chunks
 * of one kind, Normal or Verbatim, that follow each other are joined. The span of a joined chunk begins
 * where its first begins and ends where its last ends, so its end may come before its start. names is
 * the number of names resolved, month words included.
 *
 * Refuses with 1 a file that is too long; then with 2; then with 17 rows that are no sequence of rows,
 * a span that is reversed, outside the file or inside a character, a row number which that is not
 * there or not of a value, or a month word or text that is reversed, outside words or not UTF-8, or
 * months of no whole count of words; then with 16 if scratch has fewer than BIB_LEAST_SCRATCH bytes;
 * then with 3, 11 to 15, or 1 at the place of a literal that is too long, whichever comes first as the
 * value is resolved from left to right, and at one name with the least of them; then with 16 if chunks
 * or text are too short, or if the text has more than 4,294,967,295 bytes, whose places are no numbers
 * of 32 bits. */
uint32_t bib_resolve_field(const uint8_t *file, size_t file_len,
                           const uint32_t *rows, size_t rows_len,
                           size_t which,
                           uint32_t verbatim,
                           const uint32_t *months, size_t months_len,
                           const uint8_t *words, size_t words_len,
                           uint8_t *scratch, size_t scratch_len,
                           uint32_t *chunks, size_t chunks_len,
                           uint8_t *text, size_t text_len,
                           uint64_t *count, uint64_t *bytes, uint64_t *names,
                           uint64_t *start, uint64_t *end);

/* Resolves every value of a file, of fields and of definitions, in the order of their rows: each as
 * bib_resolve_field does, with the same rows and months, but what is lent is checked once, and names
 * are found by an index that is made once. flags has a byte for each value row, in the order of the
 * rows: 0, or any other number for a value of a verbatim field.
 *
 * A value has six numbers in answers. They are 0, its number of names, the first of its chunk rows and
 * the one past its last, counted from 0 in chunks, and the first byte of its text and the one past its
 * last, in text. Or, if the value is refused: the refusal's number, 0, its start, its end, 0 and 0; it
 * has then no chunks and no text, and the other values are resolved all the same. The numbers of text
 * in a value's chunk rows begin at 0 at the value's own first byte of text. So the chunk rows from a to
 * b and the text from t to u can be handed to the writers as text + t, u - t, chunks + 5 * a and
 * 5 * (b - a).
 *
 * The call is faster with room for whatever the literals can come to, since it need not count first what
 * they do come to, by resolving each value twice. A literal of n bytes has at most n + 1 chunks and 2 * n
 * bytes of text, so that is 5 * (bytes of all literals + number of literals) numbers in chunks and
 * 2 * (bytes of all literals) bytes in text, and on top of it, for each use of a name, as much as the
 * longest definition asks. All literals together have no more bytes than the file. The answer is the
 * same with any room that is enough.
 *
 * heads and next are for the index of the names: heads may have any length, and BIB_GOOD_HEADS of the
 * number of rows is a good one; next has a number for each row. With fewer the answer is the same, but
 * names are found slowly where there are many: with fewer numbers in next, by searching all rows; with
 * fewer in heads than there are definitions, where many names fall together. Both hold zeros after every
 * call, as scratch does.
 *
 * Refuses with 1 a file that is too long; then with 2; then with 17 rows or months as in
 * bib_resolve_field, or fewer flags than value rows; then with 16 if scratch has fewer than
 * BIB_LEAST_SCRATCH bytes; then with 16 if answers, chunks or text are too short for all values, or if
 * these have more than 4,294,967,295 chunk rows or bytes of text together. */
uint32_t bib_resolve_file(const uint8_t *file, size_t file_len,
                          const uint32_t *rows, size_t rows_len,
                          const uint8_t *flags, size_t flags_len,
                          const uint32_t *months, size_t months_len,
                          const uint8_t *words, size_t words_len,
                          uint8_t *scratch, size_t scratch_len,
                          uint32_t *heads, size_t heads_len,
                          uint32_t *next, size_t next_len,
                          uint32_t *answers, size_t answers_len,
                          uint32_t *chunks, size_t chunks_len,
                          uint8_t *text, size_t text_len,
                          uint64_t *count, uint64_t *chunk_rows, uint64_t *bytes,
                          uint64_t *start, uint64_t *end);

#ifdef __cplusplus
}
#endif

#endif
