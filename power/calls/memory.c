/* Memory lists: old ones grouped and new ones expanded, as they are made and back again, with every
 * two faults, at the limits, damaged and made up. */
#include <string.h>

#include "calls.h"

enum { ENTRY = DRC_MEMORY_ENTRY_BYTES, MOST = DRC_MEMORY_BLOCKS };
/* where an old entry has its reserved word */
enum { RESERVED = 12 };
/* the sets that a list with faults has at least, one for each fault of a set and one more */
enum { FAULTY_SETS = 4 };

/* A set of blocks, or with length 1 a block. */
struct set {
    uint32_t length;
    uint64_t address;
    uint32_t index, associativity, flags;
};

/* ---- Lists. */

static uint64_t be_long(const uint8_t *bytes) {
    return (uint64_t)be_word(bytes) << 32 | be_word(bytes + 4);
}

static void set_be_long(uint8_t *bytes, uint64_t number) {
    set_be_word(bytes, (uint32_t)(number >> 32));
    set_be_word(bytes + 4, (uint32_t)number);
}

static uint8_t *entry_of(struct memory *m, uint32_t i) { return m->bytes + 4 + ENTRY * (size_t)i; }

static size_t length_of(uint32_t entries) { return 4 + ENTRY * (size_t)entries; }

/* The list of no entries. */
static void empty(struct memory *m) {
    m->len = length_of(0);
    set_be_word(m->bytes, 0);
}

static uint8_t *add_entry(struct memory *m) {
    uint32_t count = be_word(m->bytes);
    m->len += ENTRY;
    must(m->len <= MEMORY_ROOM, "room for an entry");
    set_be_word(m->bytes, count + 1);
    return entry_of(m, count);
}

static void add_block(struct memory *m, const struct set *s) {
    uint8_t *entry = add_entry(m);
    set_be_long(entry, s->address);
    set_be_word(entry + 8, s->index);
    set_be_word(entry + RESERVED, 0);
    set_be_word(entry + 16, s->associativity);
    set_be_word(entry + 20, s->flags);
}

static void put_set(uint8_t *entry, const struct set *s) {
    set_be_word(entry, s->length);
    set_be_long(entry + 4, s->address);
    set_be_word(entry + 12, s->index);
    set_be_word(entry + 16, s->associativity);
    set_be_word(entry + 20, s->flags);
}

static struct set get_set(const uint8_t *entry) {
    struct set s = {be_word(entry), be_long(entry + 4), be_word(entry + 12), be_word(entry + 16),
                    be_word(entry + 20)};
    return s;
}

/* ---- Numbers. */

/* A block size: a power of two or a number next to it, with 2 to the 54th, of which the most blocks
 * just fit 64 bits, among them; or any. */
static uint64_t some_size(void) {
    uint64_t any = draw();
    uint32_t shift = below(64);
    uint32_t power = PICK(0, 24, 28, 32, 54, 63);
    uint32_t step = below(3);
    if (percent(30))
        return any >> shift | 1;
    uint64_t size = (UINT64_C(1) << power) + step - 1;
    return size == 0 ? 1 : size;
}

/* A number up to this one: none, it, one next to it, or any. */
static uint64_t up_to(uint64_t most) {
    uint64_t any = draw();
    uint32_t shift = below(64);
    uint32_t chance = below(6);
    uint32_t little = below(3);
    if (chance == 0)
        return most < little ? most : little;
    if (chance == 1)
        return most < little ? 0 : most - little;
    any >>= shift;
    return any < most ? any : most;
}

/* A block with any numbers. */
static struct set some_block(void) {
    struct set s = {.length = 1};
    s.address = up_to(UINT64_MAX);
    s.index = (uint32_t)up_to(UINT32_MAX);
    s.associativity = PICK(0, 1, 2, UINT32_MAX);
    s.flags = PICK(0, 8, 0x80, 0xA0, UINT32_MAX);
    return s;
}

/* ---- Old lists. */

/* The block next to one, but for one bit; where a sum leaves its width, it is not next to it. */
static void miss(struct set *s) {
    uint32_t bit = below(32);
    uint32_t which = below(5);
    if (which == 0)
        s->address ^= UINT64_C(1) << bit;
    else if (which == 1)
        s->address ^= UINT64_C(1) << bit << 32;
    else if (which == 2)
        s->index ^= UINT32_C(1) << bit;
    else if (which == 3)
        s->associativity ^= UINT32_C(1) << bit;
    else
        s->flags ^= UINT32_C(1) << bit;
}

/* So many blocks, of which more or less are next to the one before. */
static void make_old(struct memory *m, uint64_t size, uint32_t count) {
    uint32_t next = PICK(0, 50, 90, 100);
    uint32_t nearly = PICK(0, 50, 90);
    struct set s = some_block();
    empty(m);
    for (; count > 0; count--) {
        add_block(m, &s);
        s.address += size;
        s.index++;
        if (percent(next))
            continue;
        if (percent(nearly))
            miss(&s);
        else
            s = some_block();
    }
}

/* Two sets that could be one. */
static bool joined(uint64_t size, const struct set *one, const struct set *two) {
    uint64_t more = one->length - 1;
    uint64_t address = one->address + size * more;
    uint64_t index = one->index + more;
    return address <= UINT64_MAX - size && address + size == two->address &&
           index + 1 == two->index && one->associativity == two->associativity &&
           one->flags == two->flags;
}

/* An old list grouped, with just enough room and too little, and expanded again. */
static void group(uint64_t size, const struct memory *old) {
    static struct memory sets, again;
    must(memory_to_v2(size, old, old->len, &sets) == 0, "an old list is grouped in its own length");
    for (uint32_t i = 1; i < be_word(sets.bytes); i++) {
        struct set one = get_set(entry_of(&sets, i - 1)), two = get_set(entry_of(&sets, i));
        must(!joined(size, &one, &two), "no two sets could be one");
    }
    must(memory_to_v1(size, &sets, old->len, &again) == 0, "what was grouped is expanded");
    must(again.len == old->len && memcmp(again.bytes, old->bytes, old->len) == 0,
         "it is expanded to the same bytes");
    must(memory_to_v1(size, &sets, old->len - 1, &again) == -47, "no room for the old list");
    size_t room = sets.len;
    must(memory_to_v2(size, old, room - 1, &sets) == -47, "no room for the new list");
    must(memory_to_v2(size, old, room, &sets) == 0, "just room enough for the new list");
}

/* ---- New lists. */

/* A set of so many blocks more than one, which fit. */
static struct set some_set(uint64_t size, uint32_t more) {
    struct set s = some_block();
    s.length = 1 + more;
    s.address = up_to(UINT64_MAX - size * more);
    s.index = (uint32_t)up_to(UINT32_MAX - more);
    return s;
}

/* So many sets with no more than so many blocks. Some could be one set with the one before. */
static void make_new(struct memory *m, uint64_t size, uint32_t count, uint32_t blocks) {
    struct set s = {0};
    empty(m);
    for (uint32_t left = count; left > 0; left--) {
        uint32_t spare = blocks - left;
        uint64_t fit = UINT64_MAX / size;
        uint32_t more = (uint32_t)up_to(fit < spare ? fit : spare);
        struct set other = some_set(size, more);
        if (left < count && percent(30) &&
            s.address + size * (s.length - 1) <= UINT64_MAX - size * more - size &&
            size <= UINT64_MAX - size * more && s.index <= UINT32_MAX - s.length - more) {
            s.address += size * s.length;
            s.index += s.length;
            s.length = 1 + more;
        } else
            s = other;
        put_set(add_entry(m), &s);
        blocks -= s.length;
    }
}

static uint32_t blocks_in(struct memory *sets) {
    uint32_t blocks = 0;
    for (uint32_t i = 0; i < be_word(sets->bytes); i++)
        blocks += be_word(entry_of(sets, i));
    return blocks;
}

/* A new list expanded, with just enough room and too little, and grouped again. */
static void expand(uint64_t size, struct memory *sets) {
    static struct memory old, again;
    size_t room = length_of(blocks_in(sets));
    must(memory_to_v1(size, sets, room - 1, &old) == -47, "too little room for the old list");
    must(memory_to_v1(size, sets, room, &old) == 0, "a new list is expanded");
    must(old.len == room, "it is expanded to so many blocks");
    must(memory_to_v2(size, &old, sets->len, &again) == 0, "the grouped list is no longer");
    group(size, &old);
}

/* ---- Faults. */

/* A wrong length lent, or a wrong count. */
static void spoil_length(struct memory *m) {
    uint32_t count = be_word(m->bytes);
    uint32_t bit = below(32);
    uint32_t more = PICK(1, 4, 20, 24);
    uint32_t few = below(4);
    uint32_t chance = below(4);
    if (chance == 0)
        m->len = few;
    else if (chance == 1)
        m->len += more;
    else if (chance == 2)
        m->len -= more;
    else
        set_be_word(m->bytes, count ^ UINT32_C(1) << bit);
}

/* Sets with too many blocks together, in 32 bits perhaps few. */
static void spoil_sum(uint8_t *one, uint8_t *other) {
    uint32_t length = PICK(MOST, MOST + 1, 0x10000, UINT32_C(1) << 31, UINT32_MAX - MOST);
    uint32_t rest = PICK(0, 1, MOST);
    set_be_word(one, length);
    if (percent(50))
        set_be_word(other, UINT32_MAX - length + 1 + rest);
}

/* A set that leaves 64 or 32 bits. */
static void spoil_set(uint64_t size, uint8_t *entry) {
    struct set s = get_set(entry);
    uint32_t more = between(1, 4);
    bool index = percent(50);
    uint64_t past = up_to(more - 1);
    s.length = 1 + more;
    if (index)
        s.index = UINT32_MAX - (uint32_t)past;
    else if (more <= UINT64_MAX / size)
        s.address = UINT64_MAX - up_to(size * more - 1);
    put_set(entry, &s);
}

/* An old list with two things wrong, or one. */
static void faulty_old(uint32_t one, uint32_t other) {
    static struct memory m, out;
    bool faults[] = {[48] = false};
    uint64_t size = some_size();
    uint32_t over = between(MOST + 1, MOST + 4);
    uint32_t few = between(2, 20);
    uint32_t bit = below(32);
    uint32_t little = PICK(0, 3, 4, 27);
    faults[one] = faults[other] = true;
    uint32_t count = faults[43] ? over : few;
    uint32_t at = below(count);
    make_old(&m, size, count);
    if (faults[44])
        set_be_word(entry_of(&m, at) + RESERVED, UINT32_C(1) << bit);
    if (faults[42])
        spoil_length(&m);
    int32_t answer =
        memory_to_v2(faults[41] ? 0 : size, &m, faults[47] ? little : length_of(count), &out);
    must(answer == -(int32_t)(one < other ? one : other), "an old list's first fault");
}

/* A new list with two things wrong, or one. */
static void faulty_new(uint32_t one, uint32_t other) {
    static struct memory m, out;
    bool faults[] = {[48] = false};
    uint64_t size = some_size();
    uint32_t count = between(FAULTY_SETS, 20);
    uint32_t at = below(count);
    uint32_t little = PICK(0, 3, 4, 27);
    uint8_t *entries[FAULTY_SETS];
    faults[one] = faults[other] = true;
    make_new(&m, size, count, 1000);
    for (uint32_t i = 0; i < FAULTY_SETS; i++)
        entries[i] = entry_of(&m, (at + i) % count);
    if (faults[46])
        spoil_set(size, entries[0]);
    if (faults[45])
        set_be_word(entries[1], 0);
    if (faults[43])
        spoil_sum(entries[2], entries[3]);
    if (faults[42])
        spoil_length(&m);
    int32_t answer =
        memory_to_v1(faults[41] ? 0 : size, &m, faults[47] ? little : length_of(MOST), &out);
    must(answer == -(int32_t)(one < other ? one : other), "a new list's first fault");
}

static void every_two_faults(void) {
    static const uint32_t old[] = {41, 42, 43, 44, 47}, new[] = {41, 42, 43, 45, 46, 47};
    for (size_t one = 0; one < COUNT(old); one++)
        for (size_t other = 0; other < COUNT(old); other++)
            faulty_old(old[one], old[other]);
    for (size_t one = 0; one < COUNT(new); one++)
        for (size_t other = 0; other < COUNT(new); other++)
            faulty_new(new[one], new[other]);
}

/* ---- Limits. */

/* One set, and what expanding it answers. */
static void lone_set(uint64_t size, uint32_t length, uint64_t address, uint32_t index,
                     int32_t right) {
    static struct memory m, out;
    struct set s = some_block();
    s.length = length;
    s.address = address;
    s.index = index;
    empty(&m);
    put_set(add_entry(&m), &s);
    must(memory_to_v1(size, &m, length_of(MOST), &out) == right, "a set at a limit");
}

static void limits(void) {
    static struct memory m, out;
    const uint64_t part = UINT64_MAX / MOST + 1, half = UINT64_C(1) << 63;
    lone_set(part, MOST, part - 1, UINT32_MAX - (MOST - 1), 0);
    lone_set(part, MOST, part, UINT32_MAX - (MOST - 1), -46);
    lone_set(part, MOST, part - 1, UINT32_MAX - (MOST - 2), -46);
    lone_set(part, MOST + 1, part, UINT32_MAX, -43);
    lone_set(half, 2, half - 1, UINT32_MAX - 1, 0);
    lone_set(half, 2, half, 0, -46);
    lone_set(half, 3, 0, 0, -46);
    lone_set(UINT64_MAX, 1, UINT64_MAX, UINT32_MAX, 0);
    lone_set(UINT64_MAX, 2, 0, UINT32_MAX - 1, 0);
    lone_set(UINT64_MAX, 2, 1, 0, -46);
    uint64_t size = some_size();
    make_old(&m, size, MOST);
    group(size, &m);
    make_new(&m, size, MOST, MOST);
    expand(size, &m);
    make_old(&m, size, MOST + 1);
    must(memory_to_v2(size, &m, m.len, &out) == -43, "an old list of too many blocks");
}

/* Every short length, with counts that may be right. */
static void lengths(void) {
    static struct memory m, out;
    for (size_t len = 0; len <= length_of(2) + 1; len++)
        for (uint32_t count = 0; count <= 2; count++) {
            uint64_t size = some_size();
            make_old(&m, size, 2);
            set_be_word(m.bytes, count);
            m.len = len;
            int32_t right = len == length_of(count) ? 0 : -42;
            must(memory_to_v2(size, &m, length_of(2), &out) == right, "an old list's length");
            make_new(&m, size, 2, 6);
            set_be_word(m.bytes, count);
            m.len = len;
            must(memory_to_v1(size, &m, length_of(6), &out) == right, "a new list's length");
        }
}

/* ---- Damage. */

/* Any list each way, and what comes of it back again. */
static void any_way(uint64_t size, const struct memory *m) {
    static struct memory out, again;
    uint32_t room = PICK(0, 28, length_of(40), MEMORY_ROOM);
    if (memory_to_v2(size, m, room, &out) == 0) {
        must(memory_to_v1(size, &out, m->len, &again) == 0, "a grouped list is expanded");
        must(memcmp(again.bytes, m->bytes, m->len) == 0, "it is expanded to what it was");
    }
    if (memory_to_v1(size, m, room, &out) == 0)
        must(memory_to_v2(size, &out, m->len, &again) == 0, "an expanded list is grouped");
}

/* A list with up to two words changed, or read as one of the other form. */
static void damaged(void) {
    static struct memory m;
    uint64_t size = some_size();
    uint32_t count = below(40);
    if (percent(50))
        make_old(&m, size, count);
    else
        make_new(&m, size, count, between(count, 60));
    for (uint32_t left = below(3); left > 0; left--) {
        uint32_t place = below((uint32_t)m.len / 4);
        uint32_t number = PICK(0, 1, 2, 25, MOST, MOST + 1, UINT32_C(1) << 31, UINT32_MAX);
        uint32_t bit = below(32);
        uint32_t old = be_word(m.bytes + 4 * place);
        set_be_word(m.bytes + 4 * place, percent(50) ? number : old ^ UINT32_C(1) << bit);
    }
    any_way(size, &m);
}

/* A list of any bytes behind a count, many of them zero. */
static void made_up_list(void) {
    static struct memory m;
    uint64_t size = some_size();
    uint32_t count = below(12);
    uint32_t zeros = PICK(0, 50, 90, 99);
    m.len = length_of(count);
    fill(m.bytes, m.len);
    for (size_t i = 0; i < m.len; i++)
        if (percent(zeros))
            m.bytes[i] = 0;
    set_be_word(m.bytes, count);
    any_way(size, &m);
}

void memory_lists(void) {
    static struct memory m;
    for (int left = 30; left > 0; left--) {
        uint64_t size = some_size();
        uint32_t count = below(60);
        make_old(&m, size, count);
        group(size, &m);
        make_new(&m, size, count, between(count, 90));
        expand(size, &m);
        damaged();
        damaged();
        made_up_list();
    }
    every_two_faults();
    limits();
    lengths();
}
