/* Replies that no walk gave, to readers. */
#include <string.h>

#include "calls.h"

static const int32_t statuses[] = {0,    1,    1,    2,    2,    2,    3,    3,
                                   3,    3,    4,    5,    9900, 9901, 9904, 9905,
                                   9899, 9906, 6,    -1,   -2,   -3,   -9003, 42};

static int32_t some_status(void) { return statuses[below(COUNT(statuses))]; }

static size_t area_length(void) {
    uint32_t chance = below(20);
    if (chance == 0)
        return PICK(0, 1, 8, 20, 4095, 4097, 8191, 8193, AREA);
    return chance < 12 ? PAGE : TWO_PAGES;
}

/* A word of the work area, where it has room for it. */
static void put(struct area *work, size_t len, size_t word, uint32_t value) {
    if (4 * word + 4 <= len)
        set_be_word(work->bytes + 4 * word, value);
}

/* A name in the work area, as far as the area has it. */
static void put_name(struct area *work, size_t len, size_t at, size_t name) {
    uint32_t letters = name < 3 ? 2 : 9;
    for (size_t i = at; i < at + name; i++) {
        uint8_t byte = (uint8_t)"abcdefgh"[below(letters)];
        if (i < len)
            work->bytes[i] = byte;
    }
    if (at + name < len)
        work->bytes[at + name] = 0;
}

/* Puts a name and a value into a work area, at offsets near and over the limits. */
static void make_reply(struct area *work, size_t len) {
    uint32_t chance = below(10);
    uint32_t name_at = 20, name = between(1, 4), value = below(20), value_at;
    if (chance == 0)
        name_at = PICK(0, 19, 21, 4090, 4094, 4095, 4096, 8191, UINT32_MAX);
    else if (chance == 1)
        name_at = between(4040, 4096);
    if (below(10) == 0)
        name = PICK(0, 30, 31, 32, 46, 47, 48, 49);
    value_at = 20 + name + 1;
    chance = below(10);
    if (chance == 0)
        value_at = PICK(0, 19, 20, 4095, 4096, 4097, 8192, UINT32_MAX);
    else if (chance == 1)
        value_at = between(4000, 8200);
    chance = below(10);
    if (chance == 0)
        value = PICK(4096, 8172, 8173, 4075, 4076, UINT32_MAX);
    else if (chance == 1)
        value = below(8200);
    put(work, len, 2, name_at);
    put(work, len, 3, value);
    put(work, len, 4, value_at);
    put_name(work, len, name_at, name);
}

/* A status that mostly goes on from where the reader is. */
static int32_t next_status(uint32_t depth) {
    uint32_t chance = below(10);
    if (chance < 2)
        return some_status();
    if (chance < 4 && depth < 8)
        return 2;
    if (chance == 4)
        return 1;
    if (chance == 5 && depth > 1)
        return 4;
    if (chance == 6 && depth == 1 && percent(20))
        return 0;
    return 3;
}

void made_up(void) {
    static struct reader r;
    static struct area work;
    uint32_t structure = PICK(0, 40, 300, 2000, 20000);
    new_reader(&r, structure, structure / 8);
    memset(work.bytes, 'w', sizeof work.bytes);
    for (uint32_t left = between(1, 120); left > 0; left--) {
        size_t len = area_length();
        make_reply(&work, len);
        int32_t status = next_status(r.words[2]);
        if (percent(1))
            memset(work.bytes, (int)PICK(0, 'v', 255), sizeof work.bytes);
        read_reply(&r, status, &work, len);
    }
}

/* ---- Any record. */

static uint32_t buffer_length(void) {
    uint32_t chance = below(40);
    if (chance == 0)
        return between(131060, 131090);
    return chance == 1 ? 200000 : below(400);
}

static uint32_t used(uint32_t len) {
    uint32_t chance = below(6);
    uint32_t less = below(60);
    if (chance == 0)
        return len;
    if (chance == 1)
        return len + 1 > less ? len + 1 - less : 0;
    if (chance == 2)
        return PICK(0, 131070, 131072, 131073, UINT32_MAX);
    return below(len + 1);
}

static void set_record(struct reader *r) {
    r->words[0] = used((uint32_t)r->structure_len);
    r->words[1] = used((uint32_t)r->strings_len);
    r->words[2] = PICK(0, 1, 1, 2, 2, 3, 7, 8, 8, 9, UINT32_MAX);
    r->words[3] = PICK(0, 0, 0, 1, 1, 2, 3, UINT32_MAX);
}

void any_record(void) {
    static struct reader r;
    static struct area work;
    uint32_t structure = buffer_length();
    uint32_t strings = buffer_length();
    new_reader(&r, structure, strings);
    for (uint32_t at = 3; at < strings && at < 200; at += 7)
        r.strings[at] = 0;
    memset(work.bytes, 'w', sizeof work.bytes);
    fill(work.bytes, 64);
    for (int left = 8; left > 0; left--) {
        set_record(&r);
        size_t len = area_length();
        make_reply(&work, len);
        if (percent(30) && strings > 40)
            memcpy(work.bytes + 20, r.strings + below(30), 8);
        int32_t status = percent(5) ? (int32_t)any_word() : some_status();
        read_reply(&r, status, &work, len);
    }
}
