/* ask: one question about topic names and filters, put to the library through its C interface.
 *
 *     ask match FILTER NAME      whether the filter takes the name
 *     ask name TEXT              whether the text is a topic name
 *     ask filter TEXT            whether it is a topic filter
 *     ask subscription TEXT      whether it is a filter for a SUBSCRIBE
 *     ask levels TEXT            its levels, one to a line
 *
 * A refusal is printed by its number, its name and its place.
 */
#include "cjumbradi.h"

#include <inttypes.h>
#include <stdio.h>
#include <string.h>

static const char *const refusals[] = {"",       "Empty",       "TooLong",  "NotUtf8",     "HasNul",
                                       "HasWildcard", "BadLevel", "HashNotLast", "NoInner", "BadGroup"};

static const char *const kinds[] = {"none",  "normal",          "metadata",
                                    "blank", "single wildcard", "multi wildcard"};

typedef uint64_t (*test)(const uint8_t *, size_t, uint64_t *);

static const uint8_t *bytes(const char *text) { return (const uint8_t *)text; }

/* The answer of a call: what it found, or its refusal. */
static int tell(uint64_t number, uint64_t place, const char *found)
{
    if (number == 0)
        printf("%s\n", found);
    else
        printf("refused %" PRIu64 " %s at %" PRIu64 "\n", number, refusals[number], place);
    return 0;
}

static int ask_test(test call, const char *text)
{
    uint64_t place;
    uint64_t number = call(bytes(text), strlen(text), &place);
    return tell(number, place, "accepted");
}

static int ask_match(const char *filter, const char *name)
{
    uint64_t value;
    uint64_t number = cjumbradi_matches(bytes(filter), strlen(filter), bytes(name), strlen(name), &value);
    return tell(number, value, value == 1 ? "yes" : "no");
}

static int ask_levels(const char *text)
{
    uint64_t levels, kind, start, length;
    uint64_t number = cjumbradi_parse(bytes(text), strlen(text), &levels);
    if (number != 0)
        return tell(number, levels, "");
    for (uint64_t k = 0; k < levels; k++) {
        cjumbradi_level_kind(bytes(text), strlen(text), k, &kind);
        cjumbradi_level_part(bytes(text), strlen(text), k, &start, &length);
        printf("%" PRIu64 " %s \"%.*s\"\n", k, kinds[kind], (int)length, text + start);
    }
    return 0;
}

int main(int count, char **words)
{
    if (count == 4 && strcmp(words[1], "match") == 0)
        return ask_match(words[2], words[3]);
    if (count == 3 && strcmp(words[1], "name") == 0)
        return ask_test(cjumbradi_is_valid_topic_name, words[2]);
    if (count == 3 && strcmp(words[1], "filter") == 0)
        return ask_test(cjumbradi_is_valid_topic_filter, words[2]);
    if (count == 3 && strcmp(words[1], "subscription") == 0)
        return ask_test(cjumbradi_is_valid_subscription_filter, words[2]);
    if (count == 3 && strcmp(words[1], "levels") == 0)
        return ask_levels(words[2]);
    fprintf(stderr, "usage: ask match FILTER NAME | name TEXT | filter TEXT | subscription TEXT | levels TEXT\n");
    return 2;
}
