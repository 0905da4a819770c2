/* The array properties: written from tables of every sort, and read as they were written, damaged
 * and made up. */
#include <string.h>

#include "calls.h"

static const char *const known_types[] = {"CPU", "PHB", "SLOT", "MEM"};

static const char *const other_types[] = {
    "",    "C",     "CP",   "CPUU", "cpu", "CPu", "P",    "PH",  "PHBB", "Phb",  "S",      "SL",
    "SLO", "SLOTT", "SLOt", "slot", "M",   "ME",  "MEMM", "mem", "MEM ", " MEM", "PHBMEM", "28"};

static const char *any_type(uint32_t known) {
    bool right = percent(known);
    return right ? known_types[below(COUNT(known_types))] : other_types[below(COUNT(other_types))];
}

/* ---- Arrays. */

static void put_byte(struct arrays *a, size_t which, uint32_t byte) {
    if (a->len[which] < ARRAY_ROOM)
        a->bytes[which][a->len[which]++] = (uint8_t)byte;
}

static void put_string(struct arrays *a, size_t which, const char *string) {
    for (; *string != '\0'; string++)
        put_byte(a, which, (uint8_t)*string);
    put_byte(a, which, 0);
}

static void put_word(struct arrays *a, size_t which, uint32_t word) {
    for (int shift = 24; shift >= 0; shift -= 8)
        put_byte(a, which, word >> shift & 255);
}

/* Arrays of so many connectors, with any names, indexes and domains. */
static void make_arrays(struct arrays *a, uint32_t count) {
    for (size_t which = 0; which < ARRAYS; which++) {
        a->len[which] = 0;
        put_word(a, which, count);
    }
    for (uint32_t i = 0; i < count; i++) {
        for (uint32_t left = below(count < 10 ? 60 : 8); left > 0; left--)
            put_byte(a, NAMES, between(1, 255));
        put_byte(a, NAMES, 0);
        put_word(a, INDEXES, any_word());
        put_word(a, DOMAINS, any_word());
        put_string(a, TYPES, any_type(100));
    }
}

/* ---- Damage. */

static void set_count(struct arrays *a, size_t which, uint32_t count) {
    if (a->len[which] >= 4)
        set_be_word(a->bytes[which], count);
}

/* A count near another one, or far: also one of which four times is the same in 32 bits. */
static uint32_t other_count(size_t from) {
    uint32_t count = (uint32_t)from;
    uint32_t chance = below(4);
    uint32_t shift = below(32);
    if (chance == 0)
        return count - 1;
    if (chance == 1)
        return count + 1;
    if (chance == 2)
        return PICK(0, UINT32_MAX, UINT32_C(1) << 31, UINT32_C(1) << 30 | count, count << 24);
    return any_word() >> shift;
}

static void remove_byte(struct arrays *a, size_t which, size_t at) {
    uint8_t *bytes = a->bytes[which];
    memmove(bytes + at, bytes + at + 1, a->len[which] - at - 1);
    a->len[which]--;
}

static void insert_byte(struct arrays *a, size_t which, size_t at, uint32_t byte) {
    uint8_t *bytes = a->bytes[which];
    if (a->len[which] == ARRAY_ROOM)
        return;
    memmove(bytes + at + 1, bytes + at, a->len[which] - at);
    bytes[at] = (uint8_t)byte;
    a->len[which]++;
}

/* Changes, removes or adds a byte. */
static void damage_byte(struct arrays *a, size_t which, size_t at) {
    uint32_t byte = PICK(0, 0, 1, 'C', 'M', 'T', ' ', 255);
    uint32_t bit = below(8);
    uint32_t chance = below(6);
    if (chance == 0)
        a->bytes[which][at] = (uint8_t)byte;
    else if (chance == 1)
        a->bytes[which][at] ^= (uint8_t)(1 << bit);
    else if (chance == 2)
        a->bytes[which][at]++;
    else if (chance == 3)
        remove_byte(a, which, at);
    else
        insert_byte(a, which, at, chance == 4 ? byte : a->bytes[which][at]);
}

/* The place behind some NUL, or where none is found behind the count. */
static size_t some_string(const struct arrays *a, size_t which) {
    size_t at = below((uint32_t)a->len[which]);
    while (at < a->len[which] && (at < 4 || a->bytes[which][at] != 0))
        at++;
    if (at < a->len[which])
        return at + 1;
    return a->len[which] < 4 ? a->len[which] : 4;
}

/* Another string in the place of a type, or behind the last one. */
static void change_type(struct arrays *a, const char *type) {
    size_t at = some_string(a, TYPES);
    while (at < a->len[TYPES] && a->bytes[TYPES][at] != 0)
        remove_byte(a, TYPES, at);
    for (size_t i = strlen(type); i > 0; i--)
        insert_byte(a, TYPES, at, (uint8_t)type[i - 1]);
}

/* A string, where the array has one, loses its NUL. */
static void unend(struct arrays *a, size_t which) {
    size_t behind = some_string(a, which);
    if (behind > 4)
        a->bytes[which][behind - 1] = 'x';
}

static void swap_arrays(struct arrays *a, size_t one, size_t two) {
    static struct arrays old;
    old = *a;
    a->len[one] = old.len[two];
    a->len[two] = old.len[one];
    memcpy(a->bytes[one], old.bytes[two], sizeof a->bytes[one]);
    memcpy(a->bytes[two], old.bytes[one], sizeof a->bytes[two]);
}

static void damage_counts(struct arrays *a, size_t which, size_t from) {
    uint32_t count = other_count(from);
    bool all = percent(50);
    for (size_t i = 0; i < ARRAYS; i++)
        if (all || i == which)
            set_count(a, i, count);
}

/* An array becomes shorter or longer. */
static void damage_length(struct arrays *a, size_t which, uint32_t chance) {
    uint32_t less = between(1, 3);
    uint32_t byte = PICK(0, 'x', 255);
    size_t len = a->len[which];
    uint32_t at = below((uint32_t)len);
    if (chance == 0)
        a->len[which] = at;
    else if (chance == 1)
        a->len[which] -= less < len ? less : len;
    else if (chance == 2)
        for (uint32_t left = between(1, 5); left > 0; left--)
            put_byte(a, which, byte);
    else
        for (; at < len; at++)
            put_byte(a, which, a->bytes[which][at]);
}

/* Changes arrays of so many connectors in one way. */
static void damage(struct arrays *a, size_t count) {
    uint32_t which = below(ARRAYS);
    uint32_t other = below(ARRAYS);
    uint32_t at = below((uint32_t)a->len[which]);
    uint32_t chance = below(11);
    if (chance < 4)
        damage_length(a, which, chance);
    else if (chance == 4 && at < a->len[which])
        damage_byte(a, which, at);
    else if (chance < 7)
        damage_counts(a, which, count);
    else if (chance == 7)
        swap_arrays(a, which, other);
    else if (chance == 8)
        unend(a, which);
    else
        change_type(a, any_type(50));
}

/* ---- Reading. */

/* Arrays with up to three things changed. */
static void read_damaged(const struct arrays *a, size_t count, int times) {
    static struct arrays damaged;
    uint32_t exact = (uint32_t)(12 * count);
    for (; times > 0; times--) {
        damaged = *a;
        for (uint32_t left = between(1, 3); left > 0; left--)
            damage(&damaged, count);
        uint32_t room = PICK(exact, exact, exact + 24, exact > 0 ? exact - 1 : 0, 0);
        read_properties(&damaged, room);
    }
}

/* Arrays with one thing changed, at every place that they have. */
static void read_each_damage(const struct arrays *a, size_t count) {
    static struct arrays damaged;
    for (size_t which = 0; which < ARRAYS; which++)
        for (size_t at = 0; at < a->len[which]; at++) {
            damaged = *a;
            damaged.len[which] = at;
            read_properties(&damaged, 12 * count);
            damaged = *a;
            damage_byte(&damaged, which, at);
            read_properties(&damaged, 12 * count);
        }
    for (size_t i = 0; i < COUNT(other_types); i++) {
        damaged = *a;
        change_type(&damaged, other_types[i]);
        read_properties(&damaged, 12 * count);
    }
}

void made_up_arrays(void) {
    static struct arrays a;
    uint32_t few = below(5);
    make_arrays(&a, few);
    read_each_damage(&a, few);
    for (int left = 10; left > 0; left--) {
        uint32_t count = PICK(0, 1, 1, 2, 3, 5, 20, 64, 65, DRC_CONNECTORS, DRC_CONNECTORS + 1);
        uint32_t rooms[] = {0, 11, 12, count > 0 ? 12 * count - 1 : 0, 12 * count, 12 * count + 1};
        make_arrays(&a, count);
        for (size_t i = 0; i < COUNT(rooms); i++) {
            int32_t right = rooms[i] < 12 * count ? -46 : 0;
            must(read_properties(&a, rooms[i]) == right, "a list has room or not");
        }
        read_damaged(&a, count, 8);
    }
}

/* ---- Tables. */

/* The low bits of an index, of any number of digits. */
static uint32_t low_bits(void) {
    uint32_t chance = below(8);
    uint32_t shift = between(4, 31);
    uint32_t ten = 1;
    for (uint32_t left = below(9); left > 0; left--)
        ten *= 10;
    if (chance == 0)
        return PICK(0, 268435455);
    if (chance == 1)
        return ten - below(2);
    return any_word() >> shift;
}

/* A partition's arrays, after calls with every sort of room, up to that for the longest ones. */
static void write_arrays(const struct table *t, uint32_t partition, struct arrays *a) {
    size_t rows = t->words[0] < DRC_CONNECTORS ? t->words[0] : DRC_CONNECTORS;
    size_t words = 4 + 4 * rows;
    size_t exact[ARRAYS], longest[ARRAYS] = {4 + 14 * rows, words, words, 4 + 5 * rows};
    memcpy(a->len, longest, sizeof a->len);
    must(write_properties(t, partition, a, exact) == 0, "the longest arrays have room");
    for (size_t i = 0; i < 2 * ARRAYS; i++) {
        memcpy(a->len, percent(50) ? exact : longest, sizeof a->len);
        a->len[i / 2] = i % 2 == 0 ? 0 : exact[i / 2] - 1;
        must(write_properties(t, partition, a, exact) == -32, "no room for an array");
    }
    for (size_t i = 0; i < ARRAYS; i++)
        a->len[i] = exact[i] + 3 - below(5);
    write_properties(t, partition, a, exact);
    memcpy(a->len, exact, sizeof a->len);
    must(write_properties(t, partition, a, exact) == 0, "just room enough");
}

void every_partition(const struct table *t) {
    static struct arrays a;
    static const uint32_t numbers[] = {0, 1, 2, 3, DRC_PARTITIONS - 1, DRC_PARTITIONS,
                                       DRC_PARTITIONS + 1};
    for (size_t i = 0; i < COUNT(numbers) + 3; i++) {
        uint32_t other = any_word();
        uint32_t partition = i < COUNT(numbers) ? numbers[i] : other;
        if (i == COUNT(numbers))
            partition = PICK(DRC_PARTITIONS + 2, UINT32_C(1) << 31, UINT32_MAX);
        if (i == COUNT(numbers) + 1)
            partition = between(4, DRC_PARTITIONS - 2);
        write_arrays(t, partition, &a);
        size_t count = a.len[INDEXES] / 4 - 1;
        must(read_properties(&a, 12 * count + below(3)) == 0, "what was written is read");
        read_damaged(&a, count, 4);
    }
}

void reached_arrays(void) {
    static struct table t;
    uint32_t partitions = PICK(1, 2, DRC_PARTITIONS);
    fresh(&t);
    for (uint32_t left = PICK(0, 1, 3, 10, 30, 80, DRC_CONNECTORS + 9); left > 0; left--) {
        uint32_t kind = PICK(CPU, PHB, SLOT, MEM);
        uint32_t low = low_bits();
        uint32_t partition = 1 + below(partitions);
        add_connector(&t, kind, kind << 28 | low, partition, 0);
    }
    every_partition(&t);
}

void any_arrays(void) {
    static struct table t;
    uint32_t partitions = PICK(1, 3, DRC_PARTITIONS + 2);
    sum_whole(&t);
    for (size_t i = 0; i < COUNT(t.words); i++)
        t.words[i] = any_word();
    t.words[0] = any_count();
    for (size_t row = 0; row < DRC_CONNECTORS; row++) {
        uint32_t *index = t.words + 2 + 2 * DRC_RESOURCES + row;
        uint32_t *kind = index + DRC_CONNECTORS;
        uint32_t *partition = kind + DRC_CONNECTORS;
        *index = *index << 28 | low_bits();
        *kind = PICK(CPU, PHB, SLOT, MEM, MEM, SLOT, 0, 4, 9);
        if (percent(98))
            *partition = below(partitions);
    }
    every_partition(&t);
}
