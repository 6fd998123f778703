/* A C program that uses the proved library by its header alone. Prints what does not hold, and how
 * much did: 'N passed, M failed'. */
#include "bib.h"

#include <stdio.h>
#include <stdlib.h>
#include <string.h>

static int passed, failed;

static void hold(int holds, const char *what)
{
    if (holds) {
        passed++;
    } else {
        failed++;
        printf("does not hold: %s\n", what);
    }
}

/* What a call hands back; set before each call to what none of them answers. */
struct answer {
    uint32_t status;
    uint64_t count, start, end;
};

#define UNSET 0xDEADBEEFDEADBEEFu
#define UNTOUCHED 0xA5A5A5A5u
#define ROOM 32

static struct answer unset(void)
{
    struct answer a = {UNTOUCHED, UNSET, UNSET, UNSET};
    return a;
}

static int says(struct answer a, uint32_t status, uint64_t count, uint64_t start, uint64_t end)
{
    return a.status == status && a.count == count && a.start == start && a.end == end;
}

typedef uint32_t reading(const uint8_t *, size_t, uint32_t *, size_t, uint64_t *, uint64_t *, uint64_t *);

/* Reads or unpacks so many bytes, and lends room numbers of rows. */
static struct answer take(reading *read, const void *bytes, size_t length, uint32_t *rows, size_t room)
{
    struct answer a = unset();
    a.status = read(bytes, length, rows, room, &a.count, &a.start, &a.end);
    return a;
}

/* The same of a text, where the ROOM numbers are marked first. */
static struct answer call(reading *read, const char *text, uint32_t rows[ROOM], size_t room)
{
    for (size_t i = 0; i < ROOM; i++)
        rows[i] = UNTOUCHED;
    return take(read, text, strlen(text), rows, room);
}

static struct answer pack(const uint32_t *rows, size_t length, uint8_t *bytes, size_t room)
{
    struct answer a = unset();
    a.status = bib_pack(rows, length, bytes, room, &a.count, &a.start, &a.end);
    return a;
}

static int untouched(const uint32_t *rows, size_t from)
{
    for (size_t i = from; i < ROOM; i++)
        if (rows[i] != UNTOUCHED)
            return 0;
    return 1;
}

static void reads(void)
{
    static const uint32_t small[] = {BIB_ENTRY, 0, 0, 5, BIB_ENTRY_TYPE, 0, 1, 2, BIB_KEY, 0, 3, 4};
    uint32_t rows[ROOM];
    struct answer a = call(bib_read, "@a{k,}", rows, ROOM);
    hold(says(a, BIB_OK, 3, 0, 0), "three rows");
    hold(memcmp(rows, small, sizeof small) == 0, "the rows are those of document 01");
    hold(untouched(rows, 12), "what lies past the rows stays");
    hold(says(call(bib_read, "@a{k,}", rows, 12), BIB_OK, 3, 0, 0), "exactly the room");
    hold(says(call(bib_read, "@a{k,}", rows, 11), BIB_NO_ROOM, 0, 0, 0), "one number too few");
    hold(untouched(rows, 0), "no room: the rows stay");
    hold(says(call(bib_read, "@a{k}", rows, ROOM), BIB_EXPECTED_COMMA, 0, 4, 5), "a comma");
    hold(untouched(rows, 0), "a refusal: the rows stay");
    hold(says(call(bib_read, "@a{k,y=1.2.3}", rows, ROOM), BIB_UNEXPECTED_DECIMAL_POINT, 0, 10, 11), "a point");
    hold(says(call(bib_read, "@a{k \xe6\xbc\xa2,}", rows, ROOM), BIB_EXPECTED_COMMA, 0, 5, 8), "a character of three bytes");
    hold(says(call(bib_read, "@a{k,y=12", rows, ROOM), BIB_UNEXPECTED_EOF, 0, 9, 9), "the end of the file");
    hold(says(call(bib_read, "a\xff", rows, ROOM), BIB_NOT_UTF8, 0, 1, 1), "not UTF-8");
}

/* bib.h: what has length 0 is not looked at, and its pointer may be null. For each call: nothing is given, nothing is lent, and
 * neither; where something is given, the answer is the one for no room, and the refusals that come before it stay. */
static void takes_nothing_to_read(reading *read, uint32_t damaged, uint64_t start, uint64_t end)
{
    uint32_t rows[ROOM];
    struct answer a = call(read, "", rows, ROOM);
    hold(says(a, BIB_OK, 0, 0, 0) && untouched(rows, 0), "an empty file");
    a = take(read, NULL, 0, rows, ROOM);
    hold(says(a, BIB_OK, 0, 0, 0) && untouched(rows, 0), "a null file of length 0");
    hold(says(take(read, NULL, 0, NULL, 0), BIB_OK, 0, 0, 0), "a null file, and null rows");
    hold(says(take(read, "words", 5, NULL, 0), BIB_OK, 0, 0, 0), "a file without rows, and null rows");
    hold(says(take(read, "@a{k,}", 6, NULL, 0), BIB_NO_ROOM, 0, 0, 0), "rows, and null rows for them");
    hold(says(take(read, "@a{k}", 5, NULL, 0), damaged, 0, start, end), "a comma that is missing, and null rows");
}

static void takes_nothing_to_pack(void)
{
    static const uint32_t rows[] = {BIB_DAMAGE, 0, 0, 4, BIB_CAUSE, 7, 4, 4};
    uint8_t bytes[] = {0xA5, 0xA5, 0xA5, 0xA5, 0xA5, 0xA5, 0xA5};
    struct answer a = pack(NULL, 0, bytes, sizeof bytes);
    hold(says(a, BIB_OK, 0, 0, 0) && bytes[0] == 0xA5, "null rows to pack");
    hold(says(pack(NULL, 0, NULL, 0), BIB_OK, 0, 0, 0), "null rows to pack into null bytes");
    hold(says(pack(rows, 8, NULL, 0), BIB_NO_ROOM, 0, 0, 0), "rows to pack into null bytes");
    hold(says(pack(rows, 4, NULL, 0), BIB_BAD_ROWS, 0, 0, 0), "bad rows to pack into null bytes");
}

static void takes_nothing_to_unpack(void)
{
    static const uint8_t bytes[] = {0x90, 0, 0, 0, 0, 0, 4, 0xA7, 0, 0, 4, 0, 0, 0};
    uint32_t rows[] = {UNTOUCHED, UNTOUCHED, UNTOUCHED, UNTOUCHED};
    struct answer a = take(bib_unpack, NULL, 0, rows, 4);
    hold(says(a, BIB_OK, 0, 0, 0) && rows[0] == UNTOUCHED, "null bytes to unpack");
    hold(says(take(bib_unpack, NULL, 0, NULL, 0), BIB_OK, 0, 0, 0), "null bytes to unpack into null rows");
    hold(says(take(bib_unpack, bytes, 14, NULL, 0), BIB_NO_ROOM, 0, 0, 0), "bytes to unpack into null rows");
    hold(says(take(bib_unpack, bytes, 13, NULL, 0), BIB_BAD_ROWS, 0, 0, 0), "bad bytes to unpack into null rows");
}

static void salvages(void)
{
    static const uint32_t want[] = {BIB_DAMAGE, 0, 0, 4, BIB_CAUSE, 7, 4, 4, BIB_ENTRY, 0, 4, 9,
                                    BIB_ENTRY_TYPE, 0, 5, 6, BIB_KEY, 0, 7, 8};
    uint32_t rows[ROOM];
    struct answer a = call(bib_salvage, "@a{\n@b{k,}", rows, ROOM);
    hold(says(a, BIB_OK, 5, 0, 0), "five rows");
    hold(memcmp(rows, want, sizeof want) == 0, "damage, its cause, and the second entry");
    hold(untouched(rows, 20), "what lies past the rows stays");
    hold(says(call(bib_salvage, "@a{\n@b{k,}", rows, 19), BIB_NO_ROOM, 0, 0, 0), "no room to salvage");
    hold(untouched(rows, 0), "no room: the rows stay");
}

/* Lines of "@" alone need the most rows: one to a byte, and one more for a last "@" without its newline. */
static void enough(void)
{
    uint32_t rows[BIB_ENOUGH_NUMBERS(5)];
    struct answer a = take(bib_salvage, "@\n@\n@", 5, rows, BIB_ENOUGH_NUMBERS(5));
    hold(says(a, BIB_OK, 6, 0, 0), "enough numbers, and none to spare");
}

static void refuses_a_long_file(void)
{
    uint32_t rows[ROOM];
    uint8_t *file = calloc(BIB_MOST_BYTES + 1, 1);
    if (file == NULL) {
        hold(0, "memory for a long file");
        return;
    }
    hold(says(take(bib_read, file, BIB_MOST_BYTES + 1, rows, ROOM), BIB_TOO_LONG, 0, 0, 0), "a byte too many, read");
    hold(says(take(bib_salvage, file, BIB_MOST_BYTES + 1, rows, ROOM), BIB_TOO_LONG, 0, 0, 0), "a byte too many, salvaged");
    hold(says(take(bib_read, file, BIB_MOST_BYTES, rows, ROOM), BIB_OK, 0, 0, 0), "the longest file");
    free(file);
}

static void packs(void)
{
    static const uint32_t rows[] = {BIB_DAMAGE, 0, 0, 4, BIB_CAUSE, 7, 4, 4};
    static const uint8_t want[] = {0x90, 0, 0, 0, 0, 0, 4, 0xA7, 0, 0, 4, 0, 0, 0};
    uint8_t bytes[16];
    uint32_t back[ROOM];
    memset(bytes, 0xA5, sizeof bytes);
    struct answer a = pack(rows, 8, bytes, 13);
    hold(says(a, BIB_NO_ROOM, 0, 0, 0) && bytes[0] == 0xA5, "a byte too few to pack into");
    hold(says(pack(rows, 8, bytes, sizeof bytes), BIB_OK, 14, 0, 0), "fourteen bytes");
    hold(memcmp(bytes, want, sizeof want) == 0, "the bytes are those of document 01");
    hold(bytes[14] == 0xA5 && bytes[15] == 0xA5, "what lies past the bytes stays");
    a = take(bib_unpack, bytes, 14, back, ROOM);
    hold(says(a, BIB_OK, 2, 0, 0) && memcmp(back, rows, sizeof rows) == 0, "the rows come back");
    hold(says(take(bib_unpack, bytes, 13, back, ROOM), BIB_BAD_ROWS, 0, 0, 0), "no multiple of seven");
    hold(says(pack(rows, 4, bytes, sizeof bytes), BIB_BAD_ROWS, 0, 0, 0), "damage without a cause");
}

#define SPAN 0, 0

static const char *const text = "a_\n b\xc3\xa9";
static const uint32_t chunks[] = {BIB_NORMAL, 0, 3, SPAN, BIB_VERBATIM, 1, 2, SPAN, BIB_MATH, 5, 7, SPAN};

/* Lends room of 32 bytes, all of which are marked first. */
static struct answer format(const char *given, const uint32_t *rows, size_t rows_len, uint8_t bytes[32], size_t room)
{
    struct answer a = unset();
    memset(bytes, 0xA5, 32);
    a.status = bib_format_verbatim((const uint8_t *)given, strlen(given), rows, rows_len, bytes, room, &a.count, &a.start, &a.end);
    return a;
}

static struct answer sentence(const char *given, const uint32_t *rows, size_t rows_len, uint8_t bytes[32], size_t room)
{
    struct answer a = unset();
    memset(bytes, 0xA5, 32);
    a.status = bib_format_sentence((const uint8_t *)given, strlen(given), rows, rows_len, bytes, room, &a.count, &a.start, &a.end);
    return a;
}

static struct answer serialize(const char *given, const uint32_t *rows, size_t rows_len, uint32_t verbatim, uint8_t bytes[32], size_t room)
{
    struct answer a = unset();
    memset(bytes, 0xA5, 32);
    a.status = bib_to_biblatex_string((const uint8_t *)given, strlen(given), rows, rows_len, verbatim, bytes, room, &a.count, &a.start,
                                      &a.end);
    return a;
}

/* Whether the bytes begin with the string, and are as they were behind it. */
static int holds(const uint8_t bytes[32], const char *string)
{
    size_t length = strlen(string);
    for (size_t i = length; i < 32; i++)
        if (bytes[i] != 0xA5)
            return 0;
    return memcmp(bytes, string, length) == 0;
}

static void formats(void)
{
    uint8_t bytes[32];
    struct answer a = format(text, chunks, 15, bytes, 32);
    hold(says(a, BIB_OK, 8, 0, 0) && holds(bytes, "a_ _$\xc3\xa9$"), "three chunks formatted");
    a = format(text, chunks, 15, bytes, 8);
    hold(says(a, BIB_OK, 8, 0, 0) && holds(bytes, "a_ _$\xc3\xa9$"), "exactly the room to format");
    a = format(text, chunks, 15, bytes, 7);
    hold(says(a, BIB_NO_ROOM, 0, 0, 0) && holds(bytes, ""), "a byte too few to format");
    a = format("a\xff", chunks, 14, bytes, 0);
    hold(says(a, BIB_NOT_UTF8, 0, 1, 1) && holds(bytes, ""), "a text that is not UTF-8, before bad rows");
    a = format(text, chunks, 14, bytes, 0);
    hold(says(a, BIB_BAD_ROWS, 0, 0, 0) && holds(bytes, ""), "no whole count of chunk rows, before no room");
}

/* "a", a sharp s and "B" as chunks of each kind; and the sharp s first, which becomes two letters */
static void formats_sentences(void)
{
    static const char *const sharp = "a\xc3\x9f" "B";
    static const uint32_t kinds[] = {BIB_NORMAL, 0, 4, SPAN, BIB_VERBATIM, 3, 4, SPAN, BIB_MATH, 0, 1, SPAN};
    static const uint32_t first[] = {BIB_NORMAL, 1, 4, SPAN};
    static const uint32_t second[] = {BIB_NORMAL, 0, 0, SPAN, BIB_NORMAL, 1, 4, SPAN};
    uint8_t bytes[32];
    struct answer a = sentence(sharp, kinds, 15, bytes, 32);
    hold(says(a, BIB_OK, 8, 0, 0) && holds(bytes, "A\xc3\x9f" "bB$a$"), "three chunks in sentence case");
    a = sentence(sharp, first, 5, bytes, 3);
    hold(says(a, BIB_OK, 3, 0, 0) && holds(bytes, "SSb"), "a sharp s first, in exactly the room");
    a = sentence(sharp, first, 5, bytes, 2);
    hold(says(a, BIB_NO_ROOM, 0, 0, 0) && holds(bytes, ""), "a byte too few for a sentence");
    a = sentence(sharp, second, 10, bytes, 32);
    hold(says(a, BIB_OK, 3, 0, 0) && holds(bytes, "\xc3\x9f" "b"), "nothing raised behind an empty chunk");
    a = sentence("a\xff", kinds, 14, bytes, 0);
    hold(says(a, BIB_NOT_UTF8, 0, 1, 1) && holds(bytes, ""), "a sentence that is not UTF-8, before bad rows");
    a = sentence(sharp, kinds, 14, bytes, 0);
    hold(says(a, BIB_BAD_ROWS, 0, 0, 0) && holds(bytes, ""), "bad rows of a sentence, before no room");
}

static void writes(void)
{
    uint8_t bytes[32];
    struct answer a = serialize(text, chunks, 15, 0, bytes, 32);
    hold(says(a, BIB_OK, 14, 0, 0) && holds(bytes, "{a\\_\n{\\_$\xc3\xa9$}}"), "three chunks written");
    a = serialize(text, chunks, 15, 1, bytes, 32);
    hold(says(a, BIB_OK, 12, 0, 0) && holds(bytes, "{a_\n{_$\xc3\xa9$}}"), "for a verbatim field");
    a = serialize(text, chunks, 15, 0x80000000u, bytes, 12);
    hold(says(a, BIB_OK, 12, 0, 0) && holds(bytes, "{a_\n{_$\xc3\xa9$}}"), "by another number than 1, in exactly the room");
    a = serialize(text, chunks, 15, 0, bytes, 13);
    hold(says(a, BIB_NO_ROOM, 0, 0, 0) && holds(bytes, ""), "a byte too few to write");
    a = serialize("\xc3", chunks, 15, 0, bytes, 32);
    hold(says(a, BIB_NOT_UTF8, 0, 0, 0) && holds(bytes, ""), "a text that is cut inside a character");
}

/* Every way in which a chunk row can be bad */
static void refuses_chunks(void)
{
    static const uint32_t bad[][5] = {{3, 0, 1, SPAN}, {BIB_NORMAL, 2, 1, SPAN}, {BIB_NORMAL, 0, 8, SPAN}, {BIB_NORMAL, 8, 8, SPAN},
                                      {BIB_MATH, 6, 7, SPAN}, {BIB_VERBATIM, 5, 6, SPAN}, {BIB_NORMAL, 0, UINT32_MAX, SPAN}};
    uint8_t bytes[32];
    for (size_t i = 0; i < sizeof bad / sizeof bad[0]; i++) {
        hold(says(format(text, bad[i], 5, bytes, 32), BIB_BAD_ROWS, 0, 0, 0) && holds(bytes, ""), "a bad chunk row, formatted");
        hold(says(sentence(text, bad[i], 5, bytes, 32), BIB_BAD_ROWS, 0, 0, 0) && holds(bytes, ""), "a bad chunk row, in sentence case");
        hold(says(serialize(text, bad[i], 5, 0, bytes, 32), BIB_BAD_ROWS, 0, 0, 0) && holds(bytes, ""), "a bad chunk row, written");
    }
}

static void takes_nothing_to_write(void)
{
    static const uint32_t empty[] = {BIB_MATH, 0, 0, SPAN};
    struct answer a = unset();
    a.status = bib_format_verbatim(NULL, 0, NULL, 0, NULL, 0, &a.count, &a.start, &a.end);
    hold(says(a, BIB_OK, 0, 0, 0), "null text and null chunks, formatted into null bytes");
    a = unset();
    a.status = bib_format_verbatim(NULL, 0, empty, 5, NULL, 0, &a.count, &a.start, &a.end);
    hold(says(a, BIB_NO_ROOM, 0, 0, 0), "an empty chunk of null text, formatted into null bytes");
    a = unset();
    a.status = bib_format_sentence(NULL, 0, NULL, 0, NULL, 0, &a.count, &a.start, &a.end);
    hold(says(a, BIB_OK, 0, 0, 0), "null text and null chunks, in sentence case into null bytes");
    a = unset();
    a.status = bib_format_sentence(NULL, 0, empty, 5, NULL, 0, &a.count, &a.start, &a.end);
    hold(says(a, BIB_NO_ROOM, 0, 0, 0), "an empty chunk of null text, in sentence case into null bytes");
    a = unset();
    a.status = bib_to_biblatex_string(NULL, 0, NULL, 0, 0, NULL, 0, &a.count, &a.start, &a.end);
    hold(says(a, BIB_NO_ROOM, 0, 0, 0), "null text and null chunks, written into null bytes");
    uint8_t bytes[2];
    a = unset();
    a.status = bib_to_biblatex_string(NULL, 0, NULL, 0, 1, bytes, 2, &a.count, &a.start, &a.end);
    hold(says(a, BIB_OK, 2, 0, 0) && bytes[0] == '{' && bytes[1] == '}', "null text and null chunks, written");
}

/* What a call that resolves is lent and hands back; all of it is marked first. */
struct resolving {
    uint32_t status;
    uint64_t count, bytes, names, start, end;
    uint8_t scratch[BIB_LEAST_SCRATCH + 1];
    uint32_t chunks[ROOM];
    uint8_t text[32];
};

/* Lends rooms that are not too long, and scratch of this length. */
static void resolve(struct resolving *r, const char *file, size_t from, size_t to, uint32_t verbatim, size_t scratch, size_t chunks,
                    size_t room)
{
    memset(r, 0xA5, sizeof *r);
    r->status = bib_resolve_literal((const uint8_t *)file, strlen(file), from, to, verbatim, r->scratch, scratch, r->chunks, chunks,
                                    r->text, room, &r->count, &r->bytes, &r->names, &r->start, &r->end);
}

static int resolved(const struct resolving *r, uint64_t count, const char *string)
{
    return r->status == BIB_OK && r->count == count && r->bytes == strlen(string) && r->names == 0 && r->start == 0 && r->end == 0
           && holds(r->text, string) && untouched(r->chunks, (size_t)count * BIB_CHUNK_NUMBERS);
}

static int refused(const struct resolving *r, uint32_t status, uint64_t start, uint64_t end)
{
    return r->status == status && r->count == 0 && r->bytes == 0 && r->names == 0 && r->start == start && r->end == end
           && holds(r->text, "") && untouched(r->chunks, 0);
}

/* Whether the scratch that was lent holds zeros, and the byte behind it is as it was. */
static int zeros(const uint8_t *scratch, size_t length)
{
    for (size_t i = 0; i < length; i++)
        if (scratch[i] != 0)
            return 0;
    return scratch[length] == 0xA5;
}

/* "x", what G\"odel wrote, and "{" to "}" in a file, from 1 on */
static const char *const literal = "x\\\"o{$y}z";

static void resolves(void)
{
    static const uint32_t want[] = {BIB_NORMAL, 0, 2, 1, 4, BIB_VERBATIM, 2, 4, 5, 7, BIB_NORMAL, 4, 5, 8, 9};
    const size_t enough = BIB_LEAST_SCRATCH;
    struct resolving r;
    resolve(&r, literal, 1, 4, 0, enough, ROOM, 32);
    hold(resolved(&r, 1, "\xc3\xb6") && zeros(r.scratch, enough), "an accent");
    resolve(&r, literal, 1, 9, 0, enough, ROOM, 32);
    hold(refused(&r, BIB_UNEXPECTED_EOF, 9, 9) && zeros(r.scratch, enough), "a dollar sign alone");
    resolve(&r, literal, 1, 9, 0x100, enough, ROOM, 32);
    hold(resolved(&r, 3, "\\\"o$yz") && zeros(r.scratch, enough), "which a verbatim field takes");
    resolve(&r, "x\\\"o{-y}z", 1, 9, 0, enough, ROOM, 32);
    hold(resolved(&r, 3, "\xc3\xb6-yz") && memcmp(r.chunks, want, sizeof want) == 0, "three chunks, with their spans");
    resolve(&r, "x\\\"o{-y}z", 1, 9, 0, enough, 15, 5);
    hold(resolved(&r, 3, "\xc3\xb6-yz"), "exactly the room for chunks and text");
    resolve(&r, "x\\\"o{-y}z", 1, 9, 0, enough, 14, 32);
    hold(refused(&r, BIB_NO_ROOM, 0, 0) && zeros(r.scratch, enough), "a number too few");
    resolve(&r, "x\\\"o{-y}z", 1, 9, 0, enough, ROOM, 4);
    hold(refused(&r, BIB_NO_ROOM, 0, 0) && zeros(r.scratch, enough), "a byte of text too few");
}

static void refuses_literals(void)
{
    const size_t enough = BIB_LEAST_SCRATCH;
    struct resolving r;
    resolve(&r, "a}", 0, 2, 0, enough, ROOM, 32);
    hold(refused(&r, BIB_UNEXPECTED_CLOSING_BRACE, 1, 2) && zeros(r.scratch, enough), "a brace that closes nothing");
    resolve(&r, "a}", 0, 2, 0, enough - 1, ROOM, 32);
    hold(refused(&r, BIB_NO_ROOM, 0, 0) && zeros(r.scratch, enough - 1), "too little scratch, before what is in the literal");
    resolve(&r, "a\xc3\xa9", 0, 2, 0, 0, ROOM, 32);
    hold(refused(&r, BIB_BAD_ROWS, 0, 0) && zeros(r.scratch, 0), "a literal that ends inside a character, before too little scratch");
    resolve(&r, "a\xc3", 2, 1, 0, 9, ROOM, 32);
    hold(refused(&r, BIB_NOT_UTF8, 1, 1) && zeros(r.scratch, 9), "a file that is not UTF-8, before a literal that is reversed");
    resolve(&r, "ab", 2, 1, 0, enough, ROOM, 32);
    hold(refused(&r, BIB_BAD_ROWS, 0, 0) && zeros(r.scratch, enough), "a literal that is reversed");
    resolve(&r, "ab", 0, SIZE_MAX, 0, enough, ROOM, 32);
    hold(refused(&r, BIB_BAD_ROWS, 0, 0) && zeros(r.scratch, enough), "a literal that ends outside the file");
}

static void refuses_long_and_deep_literals(void)
{
    const size_t enough = BIB_LEAST_SCRATCH;
    struct resolving r;
    char deep[65 * 4 + 1] = "";
    char *lengthy = calloc(BIB_MOST_LITERAL + 2, 1);
    if (lengthy == NULL) {
        hold(0, "memory for a long literal");
        return;
    }
    for (size_t i = 0; i < 65; i++)
        memcpy(deep + 3 * i, "\\a{", 3);
    memset(deep + 3 * 65, '}', 65);
    resolve(&r, deep, 0, strlen(deep), 0, enough, ROOM, 32);
    hold(refused(&r, BIB_TOO_DEEP, 3 * 64 + 2, 3 * 64 + 3) && zeros(r.scratch, enough), "an argument too deep");
    memset(lengthy, '\n', BIB_MOST_LITERAL + 1);
    resolve(&r, lengthy, 0, BIB_MOST_LITERAL + 1, 0, enough, ROOM, 32);
    hold(refused(&r, BIB_TOO_LONG, 0, BIB_MOST_LITERAL + 1) && zeros(r.scratch, enough), "a literal that is too long");
    resolve(&r, lengthy, 1, BIB_MOST_LITERAL + 1, 0, enough, ROOM, 32);
    hold(resolved(&r, 1, " ") && zeros(r.scratch, enough), "the longest literal");
    free(lengthy);
}

static void takes_nothing_to_resolve(void)
{
    struct resolving r;
    memset(&r, 0xA5, sizeof r);
    r.status = bib_resolve_literal(NULL, 0, 0, 0, 0, NULL, 0, NULL, 0, NULL, 0, &r.count, &r.bytes, &r.names, &r.start, &r.end);
    hold(refused(&r, BIB_NO_ROOM, 0, 0), "a null file, and null scratch");
    r.status = bib_resolve_literal(NULL, 0, 0, 0, 0, r.scratch, BIB_LEAST_SCRATCH, NULL, 0, NULL, 0, &r.count, &r.bytes, &r.names,
                                   &r.start, &r.end);
    hold(refused(&r, BIB_NO_ROOM, 0, 0), "a null file, and null chunks");
    r.status = bib_resolve_literal(NULL, 0, 0, 0, 0, r.scratch, BIB_LEAST_SCRATCH, r.chunks, 5, NULL, 0, &r.count, &r.bytes, &r.names,
                                   &r.start, &r.end);
    hold(resolved(&r, 1, ""), "a null file, and null text: one empty chunk");
}

/* A file whose field uses a name before its definition, and a month word; its rows; and the month words. */
static const char *const names_file = "@b{k,t=a#{y}#may}@string{a={x}}";
static const uint32_t names_rows[] = {
    BIB_ENTRY, 0, 0, 16, BIB_ENTRY_TYPE, 0, 1, 2, BIB_KEY, 0, 3, 4, BIB_FIELD_NAME, 0, 5, 6, BIB_VALUE, 0, 7, 16,
    BIB_NAME, 0, 7, 8, BIB_LITERAL, 0, 10, 11, BIB_NAME, 0, 13, 16,
    BIB_DEFINITION_NAME, 0, 25, 26, BIB_VALUE, 0, 27, 30, BIB_LITERAL, 0, 28, 29};
static const uint32_t names_months[] = {0, 3, 3, 6};

static void resolve_names(struct resolving *r, size_t which, size_t rows, const char *words, size_t scratch, size_t chunks, size_t room)
{
    memset(r, 0xA5, sizeof *r);
    r->status = bib_resolve_field((const uint8_t *)names_file, strlen(names_file), names_rows, rows, which, 0, names_months,
                                  words == NULL ? 0 : BIB_MONTH_NUMBERS, (const uint8_t *)words, words == NULL ? 0 : strlen(words),
                                  r->scratch, scratch, r->chunks, chunks, r->text, room, &r->count, &r->bytes, &r->names, &r->start,
                                  &r->end);
}

static void resolves_fields(void)
{
    static const uint32_t want[] = {BIB_NORMAL, 0, 5, 28, 16};
    const size_t enough = BIB_LEAST_SCRATCH, rows = sizeof names_rows / sizeof *names_rows;
    struct resolving r;
    resolve_names(&r, 4, rows, "mayMay", enough, ROOM, 32);
    hold(r.status == BIB_OK && r.count == 1 && r.bytes == 5 && r.names == 2 && r.start == 0 && r.end == 0 && holds(r.text, "xyMay")
             && memcmp(r.chunks, want, sizeof want) == 0 && untouched(r.chunks, 5) && zeros(r.scratch, enough),
         "a name and a month word");
    resolve_names(&r, 4, rows, "mayMay", enough, 5, 5);
    hold(r.status == BIB_OK && r.names == 2, "exactly the room for them");
    resolve_names(&r, 4, rows, "mayMay", enough, ROOM, 4);
    hold(refused(&r, BIB_NO_ROOM, 0, 0) && zeros(r.scratch, enough), "a byte of text too few for them");
    resolve_names(&r, 4, rows, NULL, enough, ROOM, 32);
    hold(refused(&r, BIB_UNKNOWN_ABBREVIATION, 13, 16) && zeros(r.scratch, enough), "no month words");
    resolve_names(&r, 4, rows - 12, "mayMay", enough, ROOM, 32);
    hold(refused(&r, BIB_UNKNOWN_ABBREVIATION, 7, 8) && zeros(r.scratch, enough), "no definition");
    resolve_names(&r, 4, rows, "mayMay", enough - 1, ROOM, 32);
    hold(refused(&r, BIB_NO_ROOM, 0, 0) && zeros(r.scratch, enough - 1), "too little scratch for a field");
    resolve_names(&r, 3, rows, "mayMay", 0, ROOM, 32);
    hold(refused(&r, BIB_BAD_ROWS, 0, 0), "a row that is no value's, before too little scratch");
    resolve_names(&r, SIZE_MAX, rows, "mayMay", enough, ROOM, 32);
    hold(refused(&r, BIB_BAD_ROWS, 0, 0), "a row that is not there");
    resolve_names(&r, 4, rows, "mayMa", enough, ROOM, 32);
    hold(refused(&r, BIB_BAD_ROWS, 0, 0) && zeros(r.scratch, enough), "a month's text that ends outside the words");
}

static void takes_nothing_to_resolve_in_fields(void)
{
    static const uint32_t empty[] = {BIB_DEFINITION_NAME, 0, 0, 0, BIB_VALUE, 0, 0, 0, BIB_LITERAL, 0, 0, 0};
    struct resolving r;
    memset(&r, 0xA5, sizeof r);
    r.status = bib_resolve_field(NULL, 0, NULL, 0, 0, 0, NULL, 0, NULL, 0, NULL, 0, NULL, 0, NULL, 0, &r.count, &r.bytes, &r.names,
                                 &r.start, &r.end);
    hold(refused(&r, BIB_BAD_ROWS, 0, 0), "null rows, and so no value");
    r.status = bib_resolve_field(NULL, 0, empty, 12, 1, 0, NULL, 0, NULL, 0, NULL, 0, NULL, 0, NULL, 0, &r.count, &r.bytes, &r.names,
                                 &r.start, &r.end);
    hold(refused(&r, BIB_NO_ROOM, 0, 0), "null months and words, and null scratch");
    r.status = bib_resolve_field(NULL, 0, empty, 12, 1, 0, NULL, 0, NULL, 0, r.scratch, BIB_LEAST_SCRATCH, r.chunks, 5, NULL, 0,
                                 &r.count, &r.bytes, &r.names, &r.start, &r.end);
    hold(resolved(&r, 1, ""), "a null file, and null text: an empty value");
}

/* What the call over a whole file is lent and hands back; all of it is marked first. */
struct filing {
    uint32_t status;
    uint64_t count, chunk_rows, bytes, start, end;
    uint8_t scratch[BIB_LEAST_SCRATCH + 1];
    uint32_t heads[ROOM], next[ROOM], answers[ROOM], chunks[ROOM];
    uint8_t text[32];
};

/* The lengths that are lent. */
struct lengths {
    size_t flags, scratch, heads, next, answers, chunks, text;
};

static const struct lengths all_lengths = {2, BIB_LEAST_SCRATCH, BIB_GOOD_HEADS(11), 11, 12, 10, 6};

static void resolve_all(struct filing *f, uint32_t months, struct lengths l)
{
    static const uint8_t flags[] = {0, 1};
    const size_t rows = sizeof names_rows / sizeof *names_rows;
    memset(f, 0xA5, sizeof *f);
    f->status = bib_resolve_file((const uint8_t *)names_file, strlen(names_file), names_rows, rows, flags, l.flags, names_months, months,
                                 (const uint8_t *)"mayMay", 6, f->scratch, l.scratch, f->heads, l.heads, f->next, l.next, f->answers,
                                 l.answers, f->chunks, l.chunks, f->text, l.text, &f->count, &f->chunk_rows, &f->bytes, &f->start, &f->end);
}

/* Whether the first numbers are zeros, and the others as they were. */
static int cleared(const uint32_t *numbers, size_t length)
{
    for (size_t i = 0; i < length; i++)
        if (numbers[i] != 0)
            return 0;
    return untouched(numbers, length);
}

static int left_clean(const struct filing *f, struct lengths l)
{
    return zeros(f->scratch, l.scratch) && cleared(f->heads, l.heads) && cleared(f->next, l.next);
}

/* Whether it accepts with two values, these numbers and this text. */
static int filed(const struct filing *f, struct lengths l, const uint32_t answers[12], uint64_t rows, const uint32_t *chunks,
                 const char *string)
{
    const size_t numbers = (size_t)rows * BIB_CHUNK_NUMBERS;
    return f->status == BIB_OK && f->count == 2 && f->chunk_rows == rows && f->bytes == strlen(string) && f->start == 0 && f->end == 0
           && memcmp(f->answers, answers, 12 * sizeof *answers) == 0 && untouched(f->answers, 12)
           && memcmp(f->chunks, chunks, numbers * sizeof *chunks) == 0 && untouched(f->chunks, numbers) && holds(f->text, string)
           && left_clean(f, l);
}

static int filing_refused(const struct filing *f, struct lengths l, uint32_t status)
{
    return f->status == status && f->count == 0 && f->chunk_rows == 0 && f->bytes == 0 && f->start == 0 && f->end == 0
           && untouched(f->answers, 0) && untouched(f->chunks, 0) && holds(f->text, "") && left_clean(f, l);
}

static void resolves_files(void)
{
    static const uint32_t both[] = {0, 2, 0, 1, 0, 5, 0, 0, 1, 2, 5, 6};
    static const uint32_t chunks[] = {BIB_NORMAL, 0, 5, 28, 16, BIB_NORMAL, 0, 1, 28, 29};
    static const uint32_t one[] = {BIB_UNKNOWN_ABBREVIATION, 0, 13, 16, 0, 0, 0, 0, 0, 1, 0, 1};
    static const size_t buckets[] = {0, 1, 2, ROOM};
    struct lengths l = all_lengths;
    struct filing f;
    resolve_all(&f, BIB_MONTH_NUMBERS, l);
    hold(filed(&f, l, both, 2, chunks, "xyMayx"), "all values, in exactly the room");
    for (size_t i = 0; i < sizeof buckets / sizeof *buckets; i++) {
        l.heads = buckets[i];
        resolve_all(&f, BIB_MONTH_NUMBERS, l);
        hold(filed(&f, l, both, 2, chunks, "xyMayx"), "all values, whatever the number of buckets");
    }
    l = all_lengths;
    l.next = 10;
    resolve_all(&f, BIB_MONTH_NUMBERS, l);
    hold(filed(&f, l, both, 2, chunks, "xyMayx"), "all values, without a number for each row");
    l = (struct lengths){2, BIB_LEAST_SCRATCH, 3, ROOM, ROOM, ROOM, 32};
    resolve_all(&f, BIB_MONTH_NUMBERS, l);
    hold(filed(&f, l, both, 2, chunks, "xyMayx"), "all values, in more room");
    resolve_all(&f, 0, l);
    hold(filed(&f, l, one, 1, chunks + 5, "x"), "a value that is refused stops no other");
}

static void refuses_files(void)
{
    struct lengths l = all_lengths;
    struct filing f;
    l.answers = 11;
    resolve_all(&f, BIB_MONTH_NUMBERS, l);
    hold(filing_refused(&f, l, BIB_NO_ROOM), "a number too few for the answers");
    l = all_lengths;
    l.chunks = 9;
    resolve_all(&f, BIB_MONTH_NUMBERS, l);
    hold(filing_refused(&f, l, BIB_NO_ROOM), "a number too few for all chunks");
    l = all_lengths;
    l.text = 5;
    resolve_all(&f, BIB_MONTH_NUMBERS, l);
    hold(filing_refused(&f, l, BIB_NO_ROOM), "a byte too few for all text");
    l = all_lengths;
    l.scratch--;
    resolve_all(&f, BIB_MONTH_NUMBERS, l);
    hold(filing_refused(&f, l, BIB_NO_ROOM), "too little scratch for a file");
    l.flags = 1;
    resolve_all(&f, BIB_MONTH_NUMBERS, l);
    hold(filing_refused(&f, l, BIB_BAD_ROWS), "a flag too few, before too little scratch");
    l.flags = 2;
    resolve_all(&f, BIB_MONTH_NUMBERS - 1, l);
    hold(filing_refused(&f, l, BIB_BAD_ROWS), "no whole count of month words");
}

/* The chunk rows and the text of one value are what the writers take. */
static void formats_a_value_of_a_file(void)
{
    struct filing f;
    uint8_t bytes[32];
    struct answer a = unset();
    resolve_all(&f, BIB_MONTH_NUMBERS, all_lengths);
    const uint32_t *value = f.answers + BIB_ANSWER_NUMBERS;
    memset(bytes, 0xA5, 32);
    a.status = bib_format_verbatim(f.text + value[4], value[5] - value[4], f.chunks + BIB_CHUNK_NUMBERS * value[2],
                                   BIB_CHUNK_NUMBERS * (value[3] - value[2]), bytes, 32, &a.count, &a.start, &a.end);
    hold(says(a, BIB_OK, 1, 0, 0) && holds(bytes, "x"), "the second value of a file, formatted");
}

static void takes_nothing_to_resolve_in_files(void)
{
    const struct lengths nothing = {0, 0, 0, 0, 0, 0, 0};
    struct filing f;
    memset(&f, 0xA5, sizeof f);
    f.status = bib_resolve_file(NULL, 0, NULL, 0, NULL, 0, NULL, 0, NULL, 0, NULL, 0, NULL, 0, NULL, 0, NULL, 0, NULL, 0, NULL, 0, &f.count,
                                &f.chunk_rows, &f.bytes, &f.start, &f.end);
    hold(filing_refused(&f, nothing, BIB_NO_ROOM), "null everything, and so null scratch");
    f.status = bib_resolve_file(NULL, 0, NULL, 0, NULL, 0, NULL, 0, NULL, 0, f.scratch, BIB_LEAST_SCRATCH, NULL, 0, NULL, 0, NULL, 0, NULL,
                                0, NULL, 0, &f.count, &f.chunk_rows, &f.bytes, &f.start, &f.end);
    hold(f.status == BIB_OK && f.count == 0 && f.chunk_rows == 0 && f.bytes == 0 && f.start == 0 && f.end == 0,
         "null everything but scratch: no values");
}

int main(void)
{
    reads();
    takes_nothing_to_read(bib_read, BIB_EXPECTED_COMMA, 4, 5);
    takes_nothing_to_read(bib_salvage, BIB_NO_ROOM, 0, 0);
    takes_nothing_to_pack();
    takes_nothing_to_unpack();
    salvages();
    enough();
    refuses_a_long_file();
    packs();
    formats();
    formats_sentences();
    writes();
    refuses_chunks();
    takes_nothing_to_write();
    resolves();
    refuses_literals();
    refuses_long_and_deep_literals();
    takes_nothing_to_resolve();
    resolves_fields();
    takes_nothing_to_resolve_in_fields();
    resolves_files();
    refuses_files();
    formats_a_value_of_a_file();
    takes_nothing_to_resolve_in_files();
    printf("%d passed, %d failed\n", passed, failed);
    return failed > 0;
}
