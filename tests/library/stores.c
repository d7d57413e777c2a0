/* Edits the lists of a store at random, undoes, redoes and rolls back, and compares them with those of a plain model;
 * says what is not as the header has it.
 * usage: stores TURNS */
#include "radpolicy.h"

#include <stdio.h>
#include <stdlib.h>
#include <string.h>

enum { LISTS = 3, STATES = 64, MOST = 128, FULL = 4096 };

struct pair {
    uint8_t kind, value;
    uint32_t within, number;
};

struct lists {
    size_t counts[LISTS];
    struct pair pairs[LISTS][MOST];
};

static struct lists states[STATES];
static size_t place, last;
static size_t faults;
static uint32_t chance = 12345;

static void wanted(bool holds, const char *what, size_t at) {
    if (!holds && faults++ < 10)
        printf("%s, at %zu\n", what, at);
}

static uint32_t any(uint32_t below) {
    chance = chance * 1664525 + 1013904223;
    return (chance >> 8) % below;
}

static bool is_instance(struct pair a, struct pair b) {
    return a.kind == b.kind && a.number == b.number && (a.kind == RADPOLICY_PLAIN || a.within == b.within);
}

/* Adds the pairs of the other list to it that an operator lets stay. */
static void keep(struct lists *to, int list, const struct lists *from, struct pair pair, uint8_t op) {
    bool is_first = true;
    for (size_t i = 0; i < from->counts[list]; i++) {
        struct pair each = from->pairs[list][i];
        bool is_one = is_instance(each, pair), is_equal = is_one && each.value == pair.value;
        if (op == RADPOLICY_REPLACE && is_one && is_first)
            each = pair;
        else if ((op == RADPOLICY_REPLACE && is_one) || (op == RADPOLICY_REMOVE_EQUAL && is_equal) ||
                 (op == RADPOLICY_KEEP_EQUAL && is_one && !is_equal) || (op == RADPOLICY_REMOVE_ALL && is_one))
            continue;
        is_first = is_first && !is_one;
        to->pairs[list][to->counts[list]++] = each;
    }
}

static void edit_model(int list, struct pair pair, uint8_t op) {
    struct lists next = states[place];
    next.counts[list] = 0;
    bool has_one = false;
    for (size_t i = 0; i < states[place].counts[list]; i++)
        has_one = has_one || is_instance(states[place].pairs[list][i], pair);
    if (op == RADPOLICY_PREPEND)
        next.pairs[list][next.counts[list]++] = pair;
    keep(&next, list, &states[place], pair, op);
    if (op == RADPOLICY_APPEND || ((op == RADPOLICY_ADD_NEW || op == RADPOLICY_REPLACE) && !has_one))
        next.pairs[list][next.counts[list]++] = pair;
    states[last = ++place] = next;
}

static void compare_pair(struct radpolicy_store *store, int list, size_t at) {
    struct pair pair = states[place].pairs[list][at];
    struct radpolicy_store_pair told;
    uint8_t *room = malloc(1), *none = malloc(1);
    wanted(radpolicy_store_pair(store, list, at, &told, room, 1) == RADPOLICY_DONE, "no pair", at);
    wanted(told.value_length == 1 && told.number == pair.number && told.kind == pair.kind && room[0] == pair.value &&
               told.within == (pair.kind == RADPOLICY_PLAIN ? 0 : pair.within), "another pair", at);
    wanted(radpolicy_store_pair(store, list, at, &told, none, 0) == RADPOLICY_TOO_SHORT, "a short room", at);
    wanted(told.value_length == 1, "the length wanted", at);
    free(room);
    free(none);
}

static void compare(struct radpolicy_store *store) {
    size_t told;
    wanted(radpolicy_store_place(store, &told) == RADPOLICY_DONE && told == place, "another place", place);
    for (int list = 0; list < LISTS; list++) {
        size_t count = states[place].counts[list];
        wanted(radpolicy_store_count(store, list, &told) == RADPOLICY_DONE && told == count, "another count", count);
        for (size_t at = 0; at < count; at++)
            compare_pair(store, list, at);
        struct radpolicy_store_pair none;
        uint8_t room[1];
        uint8_t status = radpolicy_store_pair(store, list, count, &none, room, 1);
        wanted(status == RADPOLICY_NOT_THERE && none.value_length == 0 && none.number == 0, "a pair past the end", count);
    }
}

static void edit(struct radpolicy_store *store) {
    uint8_t list = any(LISTS), op = any(7), value = any(3);
    struct pair pair = {.kind = any(3), .value = value, .within = 241 + any(2), .number = 1 + any(3)};
    struct radpolicy_edit given = {.value = {&value, 1}, .within = pair.within, .number = pair.number,
                                   .kind = pair.kind, .list = list, .op = op};
    wanted(radpolicy_store_edit(store, &given) == RADPOLICY_DONE, "it is not edited", op);
    edit_model(list, pair, op);
}

static void move(struct radpolicy_store *store) {
    switch (any(4)) {
    case 0:
        wanted(radpolicy_store_undo(store) == (place > 0 ? RADPOLICY_DONE : RADPOLICY_NOT_THERE), "undo", place);
        place -= place > 0;
        break;
    case 1:
        wanted(radpolicy_store_redo(store) == (place < last ? RADPOLICY_DONE : RADPOLICY_NOT_THERE), "redo", place);
        place += place < last;
        break;
    case 2: {
        size_t to = any(place + 1);
        if (place + 1 == STATES)
            break;
        wanted(radpolicy_store_rollback(store, place + 1) == RADPOLICY_NOT_THERE, "a later place", to);
        wanted(radpolicy_store_rollback(store, to) == RADPOLICY_DONE, "rollback", to);
        states[place + 1] = states[to];
        last = ++place;
        break;
    }
    default:
        if (place + 2 < STATES && any(40) > 0)
            break;
        wanted(radpolicy_store_settle(store) == RADPOLICY_DONE, "settle", place);
        states[0] = states[place];
        if (states[0].counts[0] + states[0].counts[1] + states[0].counts[2] > 20)
            wanted(radpolicy_store_close(store) == RADPOLICY_DONE && radpolicy_store_open(store) == RADPOLICY_DONE,
                   "it is not opened again", 0), states[0] = (struct lists){0};
        place = last = 0;
    }
}

/* What numbers of an edit name nothing. */
static void try_unknown(struct radpolicy_store *store) {
    uint8_t value = 1;
    struct radpolicy_edit good = {.value = {&value, 1}, .within = 241, .number = 1, .kind = RADPOLICY_EXTENDED};
    struct radpolicy_edit wrong[] = {good, good, good, good, good};
    wrong[0].kind = 3, wrong[1].list = 3, wrong[2].op = 7, wrong[3].within = 256, wrong[4].number = 256;
    for (size_t i = 0; i < sizeof wrong / sizeof *wrong; i++)
        wanted(radpolicy_store_edit(store, &wrong[i]) == RADPOLICY_NOT_THERE, "a number that names nothing", i);
    size_t told = 1;
    wanted(radpolicy_store_count(store, 3, &told) == RADPOLICY_NOT_THERE && told == 0, "a fourth list", 0);
    wanted(radpolicy_store_open(store) == RADPOLICY_IS_OPEN, "it is opened twice", 0);
}

static void try_full(struct radpolicy_store *store) {
    struct radpolicy_edit more = {.value = {(const uint8_t *)"", 0}, .number = 25, .op = RADPOLICY_APPEND};
    size_t told, before;
    radpolicy_store_count(store, RADPOLICY_REQUEST_LIST, &before);
    for (size_t i = before; i < FULL; i++)
        wanted(radpolicy_store_edit(store, &more) == RADPOLICY_DONE, "it is full early", i);
    wanted(radpolicy_store_edit(store, &more) == RADPOLICY_IS_FULL, "it is not full", FULL);
    wanted(radpolicy_store_count(store, RADPOLICY_REQUEST_LIST, &told) == RADPOLICY_DONE && told == FULL, "full", FULL);
}

static void try_closed(struct radpolicy_store *store) {
    struct radpolicy_edit none = {.value = {(const uint8_t *)"", 0}};
    struct radpolicy_store_pair pair;
    size_t told = 1, count = 1;
    uint8_t room[1];
    wanted(radpolicy_store_edit(store, &none) == RADPOLICY_IS_CLOSED, "a closed one is edited", 0);
    wanted(radpolicy_store_undo(store) == RADPOLICY_IS_CLOSED, "undone", 0);
    wanted(radpolicy_store_redo(store) == RADPOLICY_IS_CLOSED, "redone", 0);
    wanted(radpolicy_store_rollback(store, 0) == RADPOLICY_IS_CLOSED, "rolled back", 0);
    wanted(radpolicy_store_settle(store) == RADPOLICY_IS_CLOSED, "settled", 0);
    wanted(radpolicy_store_place(store, &told) == RADPOLICY_IS_CLOSED && told == 0, "its place", 0);
    wanted(radpolicy_store_count(store, 0, &count) == RADPOLICY_IS_CLOSED && count == 0, "its count", 0);
    wanted(radpolicy_store_pair(store, 0, 0, &pair, room, 1) == RADPOLICY_IS_CLOSED && !pair.value_length, "read", 0);
    wanted(radpolicy_store_close(store) == RADPOLICY_IS_CLOSED, "closed", 0);
}

int main(int count, char **words) {
    if (count != 2)
        return 2;
    struct radpolicy_store store = RADPOLICY_CLOSED;
    try_closed(&store);
    wanted(radpolicy_store_open(&store) == RADPOLICY_DONE, "it is not opened", 0);
    for (size_t turns = strtoul(words[1], NULL, 10); turns > 0; turns--) {
        if (place + 2 < STATES && any(3) > 0)
            edit(&store);
        else
            move(&store);
        compare(&store);
    }
    try_unknown(&store);
    compare(&store);
    try_full(&store);
    wanted(radpolicy_store_close(&store) == RADPOLICY_DONE, "it is not closed", 0);
    try_closed(&store);
    printf("%zu faults\n", faults);
    return faults != 0;
}
