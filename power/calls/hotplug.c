/* Hot-plug sections: events of every sort written, and sections read as they were written, damaged
 * and made up. */
#include <string.h>

#include "calls.h"

/* The words of an event. */
enum { EVENT_TYPE, EVENT_ACTION, EVENT_IDENTIFIER, EVENT_COUNT, EVENT_INDEX };
enum { BY_INDEX = 2, BY_COUNT = 3, BY_RANGE = 4 };

/* Each way to be wrong, by the number of its refusal. */
enum { FIRST_FAULT = 41, LAST_FAULT = 50 };

static size_t length_of(uint32_t modern) {
    return modern == 0 ? DRC_LEGACY_SECTION_BYTES : DRC_MODERN_SECTION_BYTES;
}

/* ---- Events and sections. */

/* A number next to a limit, or any. */
static uint32_t some_number(void) {
    uint32_t shift = below(32);
    if (percent(50))
        return PICK(0, 1, 2, 3, 4, 5, 6, 0x7F, 0x80, 0xFF, 0x100, 0x101, 0x102, 0x104, 0xFFFF,
                    0x10001, UINT32_MAX >> 1, UINT32_C(1) << 31, UINT32_MAX - 1, UINT32_MAX);
    return any_word() >> shift;
}

static uint32_t at_least(uint32_t least) {
    uint32_t number = some_number();
    return number < least ? least : number;
}

static void make_event(uint32_t modern, uint32_t *event) {
    event[EVENT_TYPE] = between(1, 5);
    event[EVENT_ACTION] = between(1, 2);
    event[EVENT_IDENTIFIER] = between(BY_INDEX, modern == 0 ? BY_COUNT : BY_RANGE);
    event[EVENT_COUNT] = at_least(1);
    event[EVENT_INDEX] = some_number();
    uint32_t last = UINT32_MAX - (event[EVENT_COUNT] - 1);
    if (event[EVENT_IDENTIFIER] == BY_INDEX)
        event[EVENT_COUNT] = 0;
    else if (event[EVENT_IDENTIFIER] == BY_COUNT)
        event[EVENT_INDEX] = 0;
    else if (event[EVENT_INDEX] > last)
        event[EVENT_INDEX] = last;
}

/* The section of any event: of count and index, what its identifier does not put into the fourth
 * word is in the fifth. */
static void make_section(uint32_t modern, const uint32_t *event, struct section *s) {
    bool by_index = event[EVENT_IDENTIFIER] == BY_INDEX;
    memset(s->bytes, 0, sizeof s->bytes);
    s->len = length_of(modern);
    set_be_word(s->bytes, UINT32_C(0x48500000) | (uint32_t)s->len);
    s->bytes[4] = 1;
    s->bytes[8] = (uint8_t)event[EVENT_TYPE];
    s->bytes[9] = (uint8_t)event[EVENT_ACTION];
    s->bytes[10] = (uint8_t)event[EVENT_IDENTIFIER];
    set_be_word(s->bytes + 12, event[by_index ? EVENT_INDEX : EVENT_COUNT]);
    if (modern != 0)
        set_be_word(s->bytes + 16, event[by_index ? EVENT_COUNT : EVENT_INDEX]);
}

/* An event, and what is written read again. */
static int32_t write_and_read(uint32_t modern, const uint32_t *event) {
    static struct section s;
    uint32_t again[DRC_EVENT_WORDS];
    s.len = length_of(modern);
    int32_t answer = write_event(modern, event, &s);
    if (answer == 0) {
        must(read_event(modern, &s, again) == 0, "a section that was written is read");
        must(memcmp(again, event, sizeof again) == 0, "it is read as the event that was written");
    }
    return answer;
}

/* A section, and the event that is read written again. */
static void read_and_write(uint32_t modern, const struct section *s) {
    static struct section again;
    uint32_t event[DRC_EVENT_WORDS];
    if (read_event(modern, s, event) != 0)
        return;
    again.len = s->len;
    must(write_event(modern, event, &again) == 0, "an event that was read is written");
    must(memcmp(again.bytes, s->bytes, s->len) == 0, "it is written as the section that was read");
}

/* ---- Faults. */

/* Spoils an event, or how many bytes are lent for its section. */
static void spoil_event(int fault, uint32_t *event, size_t *len) {
    uint32_t number = at_least(2);
    bool lent = percent(50);
    uint32_t byte = PICK(0, 6, 7, 0x80, 0xFF, 0x101, 0x10002, UINT32_MAX);
    if (fault == 41)
        *len = DRC_MODERN_SECTION_BYTES;
    else if (fault == 42 && lent)
        *len = PICK(0, 1, 4, 12, 15, 16, 17, 19, 21, 24, 32);
    else if (fault == 45)
        event[EVENT_IDENTIFIER] = PICK(0, 1, 4, 5, 0x80, 0xFF, 0x102, 0x10003, UINT32_MAX);
    else if (fault == 46)
        event[EVENT_TYPE] = byte;
    else if (fault == 47)
        event[EVENT_ACTION] = byte;
    else if (fault == 48 || fault == 49) {
        event[EVENT_IDENTIFIER] = BY_RANGE;
        event[EVENT_COUNT] = fault == 48 ? 0 : number;
        if (fault == 49)
            event[EVENT_INDEX] = UINT32_MAX - (number - 1) + PICK(1, number - 1);
    } else if (fault == 50 && event[EVENT_IDENTIFIER] == BY_INDEX)
        event[EVENT_COUNT] = number;
    else if (fault == 50 && event[EVENT_IDENTIFIER] == BY_COUNT)
        event[EVENT_INDEX] = number;
}

/* Spoils what only a section has. */
static void spoil_section(int fault, struct section *s) {
    uint32_t bit = below(8);
    uint32_t length = PICK(2, 3);
    uint32_t id = PICK(0, 1);
    uint32_t unused = PICK(5, 6, 7, 11);
    if (fault == 42)
        s->bytes[length] ^= (uint8_t)(1 << bit);
    else if (fault == 43)
        s->bytes[id] ^= (uint8_t)(1 << bit);
    else if (fault == 44)
        s->bytes[4] ^= (uint8_t)(1 << bit);
    else if (fault == 50)
        s->bytes[unused] ^= (uint8_t)(1 << bit);
}

/* An event and a section with two things wrong, or one. */
static void faulty(uint32_t modern, int one, int other) {
    static struct section s;
    uint32_t event[DRC_EVENT_WORDS];
    size_t len = length_of(modern);
    make_event(modern, event);
    spoil_event(one, event, &len);
    spoil_event(other, event, &len);
    s.len = len;
    write_event(modern, event, &s);
    make_section(modern, event, &s);
    spoil_section(one, &s);
    spoil_section(other, &s);
    s.len = len;
    read_event(modern, &s, event);
}

/* ---- Changes. */

/* An event with up to three words changed, and its section with up to three bytes changed. */
static void changed(uint32_t modern) {
    static struct section s;
    uint32_t event[DRC_EVENT_WORDS];
    make_event(modern, event);
    for (uint32_t left = below(4); left > 0; left--) {
        uint32_t at = below(DRC_EVENT_WORDS);
        event[at] = some_number();
    }
    write_and_read(modern, event);
    make_section(modern, event, &s);
    for (uint32_t left = below(4); left > 0; left--) {
        uint32_t at = below((uint32_t)s.len);
        s.bytes[at] = (uint8_t)some_number();
    }
    read_and_write(modern, &s);
}

/* A sound event, its section with each byte changed, and any bytes behind the start of it. */
static void sound(uint32_t modern) {
    static struct section right, s;
    uint32_t event[DRC_EVENT_WORDS];
    make_event(modern, event);
    must(write_and_read(modern, event) == 0, "a sound event is written");
    make_section(modern, event, &right);
    for (size_t at = 0; at < right.len; at++) {
        s = right;
        s.bytes[at] = (uint8_t)some_number();
        read_and_write(modern, &s);
        fill(s.bytes + at, right.len - at);
        read_and_write(modern, &s);
    }
}

/* Every length lent. */
static void lengths(uint32_t modern) {
    static struct section s;
    uint32_t event[DRC_EVENT_WORDS];
    for (size_t len = 0; len <= 24; len++) {
        make_event(modern, event);
        s.len = len;
        write_event(modern, event, &s);
        make_section(modern, event, &s);
        s.len = len;
        read_event(modern, &s, event);
    }
}

void events(void) {
    static const uint32_t forms[] = {0, 1, 2, 0x100, UINT32_C(1) << 31, UINT32_MAX};
    for (size_t i = 0; i < COUNT(forms); i++) {
        for (int one = FIRST_FAULT; one <= LAST_FAULT; one++)
            for (int other = FIRST_FAULT; other <= LAST_FAULT; other++)
                faulty(forms[i], one, other);
        for (int left = 100; left > 0; left--)
            changed(forms[i]);
        sound(forms[i]);
        lengths(forms[i]);
    }
}
