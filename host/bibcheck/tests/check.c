/* A C program that uses libbibcheck by its header alone. Prints what does not hold, and how much did:
 * 'N passed, M failed'. */
#include "bib_check.h"

#include <stdio.h>
#include <stdlib.h>
#include <string.h>

static int passed, failed;

static void hold(int holds, const char *what)
{
    if (holds) {
        passed++;
    } else {
        failed++;
        printf("does not hold: %s\n", what);
    }
}

/* The findings of a call, with copies of their texts. */
#define MOST 16
struct heard {
    size_t count;
    size_t most;
    struct bib_finding all[MOST];
};

static char *copy(const char *text)
{
    char *other = text ? malloc(strlen(text) + 1) : NULL;
    return other ? strcpy(other, text) : NULL;
}

static uint32_t hear(void *context, const struct bib_finding *finding)
{
    struct heard *heard = context;
    struct bib_finding *own = &heard->all[heard->count++];
    *own = *finding;
    own->name = copy(finding->name);
    own->message = copy(finding->message);
    own->hint = copy(finding->hint);
    own->key = copy(finding->key);
    return heard->count == heard->most;
}

/* The texts were copied, so that they may be given back. */
static void forget(struct heard *heard)
{
    for (size_t i = 0; i < heard->count; i++) {
        free((void *)(uintptr_t)heard->all[i].name);
        free((void *)(uintptr_t)heard->all[i].message);
        free((void *)(uintptr_t)heard->all[i].hint);
        free((void *)(uintptr_t)heard->all[i].key);
    }
    heard->count = 0;
}

static uint32_t check(const char *text, const struct bib_check_options *options, struct heard *heard,
                      struct bib_checked *checked)
{
    return bib_check((const uint8_t *)text, strlen(text), options, hear, heard, checked);
}

static int is(const char *text, const char *other)
{
    return text && other ? strcmp(text, other) == 0 : text == other;
}

static void finds(void)
{
    struct heard heard = {0, 0, {{0}}};
    struct bib_checked checked = {9, 9, 9, 9};
    uint32_t status = check("@a{k}\n@book{l, year = 1996, year = 1997}\n@c{m, t = acm}\n@d{n,}", NULL, &heard, &checked);
    hold(status == 0 && heard.count == 3, "three findings");
    hold(checked.sound == 1 && checked.warned == 1 && checked.unresolved == 1 && checked.damaged == 1, "four entries");
    const struct bib_finding *one = &heard.all[0];
    hold(one->number == 7 && one->level == BIB_ERROR && is(one->name, "expected-comma"), "an error has a number");
    hold(one->line == 1 && one->column == 5 && one->start == 4 && one->end == 5 && one->lender == 0, "its place");
    hold(is(one->key, "k") && is(one->message, "expected a comma, in entry k") && one->hint != NULL, "its words");
    one = &heard.all[1];
    hold(one->number == 0 && one->level == BIB_WARNING && is(one->name, "duplicate-field"), "a warning has a name");
    hold(one->line == 2 && one->column == 23 && one->start == 28 && one->end == 32, "a warning has its bytes");
    hold(is(one->key, "l") && is(one->hint, NULL), "it has no hint");
    one = &heard.all[2];
    hold(one->number == 12 && is(one->name, "unknown-name") && is(one->key, "m"), "a name without a definition");
    forget(&heard);
}

/* The bytes of a refusal are the whole character at which reading stopped, and none where the file ends. */
static void has_whole_characters(void)
{
    struct heard heard = {0, 0, {{0}}};
    hold(check("@a{k \xe6\xbc\xa2,}", NULL, &heard, NULL) == 0 && heard.count == 1, "a wide character");
    const struct bib_finding *one = &heard.all[0];
    hold(one->number == 7 && one->column == 6 && one->start == 5 && one->end == 8, "all of its bytes");
    forget(&heard);
    hold(check("@a{k,y=12", NULL, &heard, NULL) == 0 && heard.count == 1, "a file that ends too early");
    hold(one->number == 3 && one->column == 1 && one->start == 9 && one->end == 9, "it ends there");
    forget(&heard);
}

static void lends(void)
{
    const char *sound = "@string{acm = {ACM Press}}", *bad = "\n@string{acm = nope}";
    struct bib_lender lenders[2] = {{"sound.bib", (const uint8_t *)sound, strlen(sound)},
                                    {"bad.bib", (const uint8_t *)bad, strlen(bad)}};
    struct bib_check_options options = {"mine.bib", lenders, 1, 0, 0};
    struct heard heard = {0, 0, {{0}}};
    hold(check("@c{m, t = acm}", &options, &heard, NULL) == 0 && heard.count == 0, "a lent definition");
    options.lender_count = 2;
    hold(check("@c{m, t = acm}", &options, &heard, NULL) == 0 && heard.count == 1, "the last definition counts");
    const struct bib_finding *one = &heard.all[0];
    hold(one->lender == 2 && one->line == 2 && one->column == 15 && one->start == 15 && one->end == 19, "a lender's place");
    hold(is(one->message, "a name without a definition: `nope`, in `t` of entry m (mine.bib, line 1)"), "who uses it");
    forget(&heard);
    options.no_resolve = 1;
    hold(check("@c{m, t = none}", &options, &heard, NULL) == 0 && heard.count == 0, "nothing is resolved");
}

static void limits(void)
{
    struct bib_check_options options = {NULL, NULL, 0, 10, 0};
    struct heard heard = {0, 0, {{0}}};
    hold(check("@c{m, t = {0123456789ab}}", &options, &heard, NULL) == 0 && heard.count == 1, "a limit");
    hold(heard.count == 1 && heard.all[0].number == 16, "what is beyond it");
    forget(&heard);
}

static void stops(void)
{
    struct heard heard = {0, 1, {{0}}};
    struct bib_checked checked = {9, 9, 9, 9};
    hold(check("@a{\n@b{\n@c{\n", NULL, &heard, &checked) == BIB_CHECK_STOPPED && heard.count == 1, "no more is wanted");
    hold(checked.sound == 0 && checked.damaged == 0, "nothing is counted");
    forget(&heard);
}

static void takes_nothing(void)
{
    struct heard heard = {0, 0, {{0}}};
    hold(bib_check(NULL, 0, NULL, hear, &heard, NULL) == 0 && heard.count == 0, "no file");
    hold(bib_check((const uint8_t *)"@a{", 3, NULL, NULL, NULL, NULL) == 0, "nobody to hear");
}

static void takes_any_bytes(void)
{
    uint8_t file[] = {'@', 'a', '{', 'k', 0, ',', 't', '=', 0xff, 0, '}'};
    struct heard heard = {0, 0, {{0}}};
    hold(bib_check(file, sizeof file, NULL, hear, &heard, NULL) == 0 && heard.count == 1, "zeros and other bytes");
    forget(&heard);
    size_t length = 16777216;
    uint8_t *longest = calloc(length, 1);
    hold(longest && bib_check(longest, length, NULL, hear, &heard, NULL) == 0, "a file that is too long");
    hold(heard.count == 1 && heard.all[0].number == 1, "is an error");
    forget(&heard);
    free(longest);
}

int main(void)
{
    finds();
    has_whole_characters();
    lends();
    limits();
    stops();
    takes_nothing();
    takes_any_bytes();
    printf("%d passed, %d failed\n", passed, failed);
    return failed > 0;
}
