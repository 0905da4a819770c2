/* Changed nodes: lists of changes reported over whole runs of calls and with every fault, and areas
 * read as they were written, damaged and made up. */
#include <string.h>

#include "calls.h"

enum { MIGRATION = 1 };
enum { KIND, PHANDLE, INDEX };

/* The words of an area, those before its operation lists, and room for the changes of any. */
enum { AREA_WORDS = DRC_UPDATE_AREA_BYTES / 4, HEADER_WORDS = 4 };
enum { READ_ROOM = DRC_CHANGE_WORDS * (AREA_WORDS - HEADER_WORDS) };

/* Each way for a call to be refused. */
enum { SCOPE, LENGTH, WORDS, COUNT_OVER, OTHER_KIND, ZEROS, STATE, FAULTS };

/* ---- Lists and areas. */

/* A phandle or an index: any, or one that could be taken for the end, an operator or a kind. */
static uint32_t some_number(void) {
    uint32_t any = any_word();
    if (percent(30))
        return PICK(0, 1, 2, 3, 0x1000000, 0x1000001, 0x2000002, 0x3000001, 0x3000002, 0x4000001,
                    UINT32_C(1) << 31, UINT32_MAX);
    return any;
}

static uint32_t some_count(void) {
    uint32_t few = below(20);
    uint32_t any = below(DRC_CHANGES + 1);
    uint32_t chance = below(4);
    if (chance < 2)
        return PICK(0, 1, 2, 3, 508, 509, 510, 1017, 1018, 1019, 1020, 2036, 2037, 4095, 4096);
    return chance == 2 ? few : any;
}

/* So many changes of any kinds, of which some may be rare or missing. */
static void make_list(struct changes *c, uint32_t count) {
    uint32_t deletes = PICK(0, 1, 1, 5, 200);
    uint32_t updates = PICK(0, 1, 1, 5, 200);
    uint32_t adds = PICK(0, 1, 1, 5, 200);
    c->count = DRC_CHANGE_WORDS * (size_t)count;
    for (size_t i = 0; i < c->count; i += DRC_CHANGE_WORDS) {
        uint32_t drawn = below(deletes + updates + adds);
        uint32_t kind = drawn < deletes ? DRC_CHANGE_DELETE : DRC_CHANGE_UPDATE;
        c->words[i + KIND] = drawn < deletes + updates ? kind : DRC_CHANGE_ADD;
        c->words[i + PHANDLE] = some_number();
        c->words[i + INDEX] = some_number();
    }
}

/* The changes as they are to be read, all of them together. */
static void in_order(const struct changes *c, struct changes *right) {
    right->count = 0;
    for (uint32_t kind = DRC_CHANGE_DELETE; kind <= DRC_CHANGE_ADD; kind++)
        for (size_t i = 0; i < c->count; i += DRC_CHANGE_WORDS) {
            if (c->words[i + KIND] != kind)
                continue;
            right->words[right->count++] = kind;
            right->words[right->count++] = c->words[i + PHANDLE];
            right->words[right->count++] = kind == DRC_CHANGE_ADD ? c->words[i + INDEX] : 0;
        }
}

/* An area of any bytes behind a header with this state variable. */
static void new_header(struct area *work, uint32_t state) {
    new_area(work);
    memset(work->bytes, 0, 4 * HEADER_WORDS);
    set_be_word(work->bytes, state);
}

static void put_operation(struct area *work, size_t place, uint32_t word) {
    set_be_word(work->bytes + 4 * (HEADER_WORDS + place), word);
}

/* ---- Reading. */

/* An area with up to two things changed; sound, it has so many words of changes. */
static void read_damaged(const struct area *sound, uint32_t words) {
    static struct area work;
    static struct changes read;
    work = *sound;
    for (uint32_t left = below(3); left > 0; left--) {
        uint32_t some = PICK(1, 4, 20, AREA_WORDS - HEADER_WORDS);
        uint32_t place = below(some);
        uint32_t number = some_number();
        uint32_t bit = below(32);
        uint32_t old = be_word(work.bytes + 4 * (HEADER_WORDS + place));
        put_operation(&work, place, percent(50) ? number : old ^ UINT32_C(1) << bit);
    }
    read_updates(&work, PAGE, PICK(READ_ROOM, words, words > 0 ? words - 1 : 0), &read);
}

/* An operation list, mostly sound, at a place; the place behind it. */
static size_t put_list(struct area *work, size_t place) {
    uint32_t opcode = between(1, 3);
    uint32_t most = PICK(0, 2, 4, 20, 600);
    uint32_t count = below(most + 1);
    if (percent(2))
        opcode = PICK(0, 4, 5, 0x7F, 0x80, 0xFF);
    if (opcode == DRC_CHANGE_ADD && percent(98))
        count -= count % 2;
    uint32_t stated = PICK(0xFFFF, 0x10000, 0xFFFFFF, AREA_WORDS);
    put_operation(work, place, opcode << 24 | (percent(98) ? count : stated));
    return place + 1 + count;
}

/* An area of such lists, with the terminator behind them or not, and any words or none after it. */
static void made_up_area(void) {
    static struct area work;
    static struct changes read;
    size_t last = AREA_WORDS - HEADER_WORDS - 1, place = 0;
    uint32_t end = PICK(10, 100, 900, 1019);
    new_area(&work);
    if (percent(30))
        memset(work.bytes, 0, PAGE);
    while (place < end)
        place = put_list(&work, place);
    if (percent(80) && place <= last)
        put_operation(&work, place, 0);
    int32_t answer = read_updates(&work, PAGE, READ_ROOM, &read);
    uint32_t room = (uint32_t)read.count;
    if (answer == 0 && room > 0)
        must(read_updates(&work, PAGE, room - 1, &read) == -46, "no room for a change");
    if (answer == 0)
        must(read_updates(&work, PAGE, room, &read) == 0, "just room enough for the changes");
    else
        read_updates(&work, PAGE, 0, &read);
}

/* An operator with operands that end next to the area's end, or far past it, and lengths. */
static void edges(void) {
    static struct area work;
    static struct changes read;
    uint32_t last = AREA_WORDS - HEADER_WORDS - 1;
    for (uint32_t opcode = 0; opcode <= 5; opcode++)
        for (uint32_t more = 0; more < 8; more++) {
            uint32_t first = PICK(0, 1, 2, 500, last - 2, last - 1, last);
            uint32_t far = PICK(0xFFFF, 0x10000, 0xFFFFFF);
            new_area(&work);
            for (uint32_t place = 0; place < first; place++)
                put_operation(&work, place, (1 + place % 255) << 24);
            uint32_t left = last - first;
            uint32_t count = more < 3 ? more : more == 7 ? far : left + more - 5;
            put_operation(&work, first, opcode << 24 | (count & 0xFFFFFF));
            read_updates(&work, PAGE, READ_ROOM, &read);
        }
    for (int left = 4; left > 0; left--)
        read_updates(&work, PICK(0, 1, 15, 16, 20, 4092, 4095, 4097, 8192), READ_ROOM, &read);
}

/* ---- Reports. */

/* Calls from a state on until nothing is left. All that is read is what was left, in order. */
static void run(const struct changes *c, uint32_t from) {
    static struct area work;
    static struct changes right, read;
    size_t at = DRC_CHANGE_WORDS * (size_t)from;
    int32_t status = 1;
    in_order(c, &right);
    new_header(&work, from);
    while (status == 1) {
        status = update_nodes(MIGRATION, c, &work, PAGE);
        must(read_updates(&work, PAGE, READ_ROOM, &read) == 0, "an area that was written is read");
        must(read.count <= right.count - at, "no more is read than was left");
        must(memcmp(read.words, right.words + at, read.count * sizeof *read.words) == 0,
             "it is read as the changes in order");
        at += read.count;
        must(status == 0 || read.count > 0, "a call reports something");
        must(be_word(work.bytes) == (status == 0 ? 0 : at / DRC_CHANGE_WORDS),
             "the state variable");
        read_damaged(&work, (uint32_t)read.count);
        if (percent(80))
            fill(work.bytes + 4 * HEADER_WORDS, PAGE - 4 * HEADER_WORDS);
    }
    must(status == 0 && at == right.count, "all is reported");
}

/* A call with one thing wrong. */
static void faulty(const struct changes *c, int fault) {
    static struct area work;
    static struct changes wrong;
    uint32_t count = (uint32_t)(c->count / DRC_CHANGE_WORDS);
    uint32_t scope = PICK(0, 2, 3, 0x101, 0x10001, UINT32_C(0x80000001), UINT32_MAX);
    uint32_t len = PICK(0, 1, 15, 16, 4092, 4095, 4097, 8192);
    uint32_t kind = PICK(0, 4, 5, 0xFF, 0x101, 0x10002, 0x1000000, UINT32_MAX);
    uint32_t place = below(count);
    uint32_t zero = between(4, 15);
    uint32_t state = PICK(count + 1, count + 2, 0x10000, UINT32_C(1) << 31, UINT32_MAX);
    uint32_t more = between(1, 2);
    wrong = *c;
    new_header(&work, below(count + 1));
    if (fault == WORDS)
        wrong.count = c->count < more ? more : c->count - more;
    else if (fault == COUNT_OVER)
        make_list(&wrong, DRC_CHANGES + more);
    else if (fault == OTHER_KIND && count > 0)
        wrong.words[DRC_CHANGE_WORDS * (size_t)place + KIND] = kind;
    else if (fault == ZEROS)
        work.bytes[zero] = (uint8_t)(1 << more);
    else if (fault == STATE)
        set_be_word(work.bytes, state);
    int32_t answer = update_nodes(fault == SCOPE ? scope : MIGRATION, &wrong, &work,
                                  fault == LENGTH ? len : PAGE);
    must(answer == -3 || (fault == OTHER_KIND && count == 0), "a call with a fault is refused");
}

void changed_nodes(void) {
    static struct changes c;
    for (int left = 40; left > 0; left--) {
        uint32_t count = some_count();
        make_list(&c, count);
        run(&c, 0);
        run(&c, below(count + 1));
        for (int fault = 0; fault < FAULTS; fault++)
            faulty(&c, fault);
        made_up_area();
        made_up_area();
    }
    edges();
}
