/* broker: what a gateway does with the two stores, in one small program.
 *
 * It opens a store of subscriptions and one of retained names, subscribes some booths, lists whom a cue
 * reaches, keeps names, looks them up, pages, sweeps, and prints each refusal by its name.
 */
#include "cjumbradi.h"

#include <inttypes.h>
#include <stdio.h>
#include <stdlib.h>
#include <string.h>

enum { NODES = 16, PAIRS = 16, CELLS = 16, ROOM = 256 };

static const char *const refusals[] = {
    "",         "Empty",    "TooLong",  "NotUtf8",   "HasNul",  "HasWildcard", "BadLevel",  "HashNotLast", "NoInner",
    "BadGroup", "BadSize",  "NotAStore", "TooDeep",  "NodesFull", "PairsFull", "TextFull", "ShortRoom"};

/* A region with its length. */
struct region {
    uint8_t *bytes;
    size_t length;
};

static const uint8_t *bytes(const char *text) { return (const uint8_t *)text; }

/* Whether a call was refused; then its refusal is printed. */
static int is_refused(const char *what, uint64_t number, uint64_t place)
{
    if (number == 0)
        return 0;
    printf("%s: refused %" PRIu64 " %s at %" PRIu64 "\n", what, number, refusals[number], place);
    return 1;
}

static void answer(const char *what, const char *text, uint64_t number, uint64_t value)
{
    char label[64];
    snprintf(label, sizeof label, "%s %s", what, text);
    if (!is_refused(label, number, value))
        printf("%s: %" PRIu64 "\n", label, value);
}

/* Lends bytes to a store. The caller owns them, and there is nothing to close. */
static struct region open_store(int retained)
{
    struct region region = {NULL, 0};
    uint64_t needed, place;
    cjumbradi_needed(NODES, PAIRS, CELLS, &needed);
    region.bytes = calloc(needed, 1);
    if (region.bytes == NULL)
        exit(1);
    region.length = needed;
    uint64_t number =
        retained ? cjumbradi_open_retained(region.bytes, region.length, NODES, PAIRS, CELLS, &place)
                 : cjumbradi_open_subscriptions(region.bytes, region.length, NODES, PAIRS, CELLS, &place);
    if (is_refused("open", number, place))
        exit(1);
    return region;
}

static void subscribe(struct region store, const char *filter, uint32_t value)
{
    uint64_t told;
    uint64_t number = cjumbradi_insert(store.bytes, store.length, bytes(filter), strlen(filter), value, &told);
    answer("subscribe", filter, number, told);
}

static void unsubscribe(struct region store, const char *filter, uint32_t value)
{
    uint64_t told;
    uint64_t number = cjumbradi_remove(store.bytes, store.length, bytes(filter), strlen(filter), value, &told);
    answer("unsubscribe", filter, number, told);
}

static uint64_t number_at(const uint8_t *at, int length)
{
    uint64_t number = 0;
    for (int i = 0; i < length; i++)
        number = number << 8 | at[i];
    return number;
}

/* Whom a message reaches: filters with their values. */
static void list(struct region store, const char *name, size_t room)
{
    uint8_t out[ROOM];
    uint64_t length, records;
    uint64_t number =
        cjumbradi_listing(store.bytes, store.length, bytes(name), strlen(name), out, room, &length, &records);
    if (is_refused(name, number, length))
        return;
    printf("%s reaches %" PRIu64 "\n", name, records);
    for (uint8_t *at = out; at < out + length;) {
        size_t text = number_at(at + 2, 2);
        size_t values = number_at(at + 4 + text, 2);
        printf("  %.*s", (int)text, (const char *)at + 4);
        for (size_t i = 0; i < values; i++)
            printf(" %" PRIu64, number_at(at + 6 + text + 4 * i, 4));
        printf("\n");
        at += 6 + text + 4 * values;
    }
}

static void keep(struct region store, const char *name, uint64_t payload, uint32_t handle, int expires, uint64_t moment)
{
    uint64_t told;
    uint64_t number = cjumbradi_set(store.bytes, store.length, bytes(name), strlen(name), payload, handle,
                                    (uint64_t)expires, moment, &told);
    answer(payload == 0 ? "erase" : "keep", name, number, told);
}

static void print_names(const uint8_t *out, uint64_t length)
{
    for (const uint8_t *at = out; at < out + length;) {
        size_t text = number_at(at + 2, 2);
        printf("  %.*s: message %" PRIu64 ", %" PRIu64 " ms left\n", (int)text, (const char *)at + 4,
               number_at(at + 4 + text, 4), number_at(at + 8 + text, 8));
        at += 16 + text;
    }
}

static void look_up(struct region store, const char *filter, uint64_t clock)
{
    uint8_t out[ROOM];
    uint64_t length, records;
    uint64_t number = cjumbradi_lookup(store.bytes, store.length, bytes(filter), strlen(filter), clock, out,
                                       sizeof out, &length, &records);
    if (is_refused(filter, number, length))
        return;
    printf("%s at %" PRIu64 ": %" PRIu64 "\n", filter, clock, records);
    print_names(out, length);
}

static void page(struct region store, uint64_t clock, uint64_t offset, uint64_t limit)
{
    uint8_t out[ROOM];
    uint64_t length, records, more;
    uint64_t number =
        cjumbradi_page(store.bytes, store.length, clock, offset, limit, out, sizeof out, &length, &records, &more);
    if (is_refused("page", number, length))
        return;
    printf("page from %" PRIu64 ": %" PRIu64 "%s\n", offset, records, more ? ", more follow" : "");
    print_names(out, length);
}

static void sweep(struct region store, uint64_t clock)
{
    uint64_t removed;
    uint64_t number = cjumbradi_sweep(store.bytes, store.length, clock, &removed);
    answer("sweep", "of names", number, removed);
}

static void count(struct region store)
{
    uint64_t names;
    uint64_t number = cjumbradi_count(store.bytes, store.length, &names);
    answer("count", "of names", number, names);
}

int main(void)
{
    struct region subscriptions = open_store(0);
    struct region names = open_store(1);

    subscribe(subscriptions, "studioA/+/talk", 7);
    subscribe(subscriptions, "studioA/booth1/#", 3);
    subscribe(subscriptions, "studioA/booth1/#", 2);
    subscribe(subscriptions, "studioA/booth1/#", 2);
    subscribe(subscriptions, "studioA/booth+", 1);
    list(subscriptions, "studioA/booth1/talk", ROOM);
    list(subscriptions, "studioA/booth1/talk", 10);
    unsubscribe(subscriptions, "studioA/+/talk", 7);
    list(subscriptions, "studioA/booth2/talk", ROOM);
    list(names, "studioA/booth2/talk", ROOM);

    keep(names, "studioA/booth1/mute", 1, 41, 0, 0);
    keep(names, "studioA/booth1/cue", 1, 42, 1, 1000);
    keep(names, "studioA/booth1/cue", 1, 43, 1, 1500);
    keep(names, "studioA/#", 1, 44, 0, 0);
    look_up(names, "studioA/+/cue", 1000);
    page(names, 1000, 0, 1);
    page(names, 1000, 1, 1);
    sweep(names, 1500);
    keep(names, "studioA/booth1/mute", 0, 0, 0, 0);
    keep(names, "studioA/booth1/mute", 0, 0, 0, 0);
    count(names);

    free(subscriptions.bytes);
    free(names.bytes);
    return 0;
}
