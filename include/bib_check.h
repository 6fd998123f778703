/* What `bib check` finds in a file, for C and what can call it: libbibcheck.so.
 *
 * The proved library, libbib.a, says what is refused; this one, which is Rust and not proved, reads by it and says the
 * same in words for the author of the file, with warnings about what is read but surely not meant. It allocates, keeps
 * nothing between calls, and threads may call at once.
 *
 *   static uint32_t say(void *context, const struct bib_finding *finding)
 *   {
 *       printf("%llu: %s\n", (unsigned long long)finding->line, finding->message);
 *       return 0;
 *   }
 *
 *   bib_check(file, length, NULL, say, NULL, NULL);
 */
#ifndef BIB_CHECK_H
#define BIB_CHECK_H

#include <stddef.h>
#include <stdint.h>

#ifdef __cplusplus
extern "C" {
#endif

/* How grave a finding is: what is refused, or what is read but surely not meant. */
enum bib_level { BIB_ERROR = 1, BIB_WARNING = 2 };

/* What bib_check answers beside 0, the file was checked to its end; 1, a lender is longer than a file may be; and 16,
 * memory is short: `say` wanted no more; the check failed in itself. */
enum bib_check_status { BIB_CHECK_STOPPED = 101, BIB_CHECK_FAILED = 102 };

/* A finding. It and its texts live as long as the call of `say` that has it. Texts are UTF-8 and end in a zero. */
struct bib_finding {
    uint32_t number;      /* that of the refusal, as bib.h has them; 0 of a warning */
    uint32_t level;       /* one of enum bib_level */
    uint64_t line;        /* where a person should look, both from 1; columns are characters */
    uint64_t column;
    /* The bytes of the file that it is about, of a refusal as the rows have them: where reading stops, the whole character
     * that stands there; where the text ends, start and end are equal. Line and column may be of another place. */
    uint64_t start;
    uint64_t end;
    uint64_t lender;      /* 0: line, column and bytes are of the file; n: of the nth file that lends definitions */
    const char *name;     /* as `--allow` takes it of a warning: duplicate-key; of a refusal: expected-comma */
    const char *message;
    const char *hint;     /* what can be done; null where that is not known */
    const char *key;      /* of the entry that it is about; null where there is none */
};

/* A file that lends its @string definitions, and what it is called in what is said. */
struct bib_lender {
    const char *name;
    const uint8_t *file;
    size_t length;
};

/* What may be asked for. Zeros, or no options, ask for nothing special. */
struct bib_check_options {
    const char *name;                 /* what the file is called, where the definition of a lender is at fault */
    const struct bib_lender *lenders; /* the last definition of a name counts, and the file's own before lent ones */
    size_t lender_count;
    uint64_t limit;                   /* so many bytes the values of the file may come to; 0 is 32,000,000 */
    uint32_t no_resolve;              /* 1 leaves out what only resolving refuses */
};

/* How many entries of the file are sound, have warnings alone, have fields that cannot be resolved, and are damaged. */
struct bib_checked {
    uint64_t sound;
    uint64_t warned;
    uint64_t unresolved;
    uint64_t damaged;
};

/* Takes a finding; another answer than 0 ends the check. */
typedef uint32_t bib_say(void *context, const struct bib_finding *finding);

/* Checks a file, and hands over its findings in their order. Options, `say` and checked may be null, and so may be what
 * has length 0. Where the answer is not 0, checked is all zeros. */
uint32_t bib_check(const uint8_t *file, size_t length, const struct bib_check_options *options, bib_say *say, void *context,
                   struct bib_checked *checked);

#ifdef __cplusplus
}
#endif

#endif
