/* What a POWER caller takes for granted: a 32-bit result comes extended to 64 bits, by its sign or
 * by zeros as its type in the header is, and an argument goes in so. Each result is stored in 64
 * bits and compared there; arguments are cut from 64-bit numbers whose upper half is not zero, and
 * one of 64 bits goes in whole. It is for -O2, where the compiler extends nothing a second time. */
#include <inttypes.h>
#include <stdint.h>
#include <stdio.h>
#include <string.h>

#include "fustorbel.h"
#include "walk_record.h"

enum { CPU = 1, PHB = 2, SLOT = 3, MEM = 8, ALLOCATION = 9003, ISOLATION = 9001, PAGE = 4096 };

#define MEM_1 UINT32_C(0x80000001)
#define MEM_MOST UINT32_C(0x8FFFFFFF)
#define LAST UINT32_C(0xFFFFFFFF)

static int checks, failures;

static void compare(const char *call, int64_t is, int64_t right) {
    checks++;
    if (is == right)
        return;
    failures++;
    printf("%s\n    is %016" PRIx64 " in 64 bits, not %016" PRIx64 "\n", call, (uint64_t)is,
           (uint64_t)right);
}

/* A result in a 64-bit variable, signed or unsigned as its type is; volatile, so that all 64 bits
 * are those that came. */
#define SIGNED(call, right)         \
    do {                            \
        volatile int64_t is = call; \
        compare(#call, is, right);  \
    } while (0)
#define UNSIGNED(call, right)                  \
    do {                                       \
        volatile uint64_t is = call;           \
        compare(#call, (int64_t)is, (right)); \
    } while (0)

static uint32_t table[DRC_TABLE_WORDS], number, fault = LAST, out[DRC_CONNECTOR_WORDS];
static uint8_t work[2 * PAGE], structure[64], strings[64], array[4][18], list[12];
static uint32_t lengths[4];
static size_t written;
static uint32_t event[DRC_EVENT_WORDS];
static uint8_t section[DRC_MODERN_SECTION_BYTES];
/* more changes than fit one area */
enum { MOVED = 1019 };
static uint32_t changes[DRC_CHANGE_WORDS * MOVED], found[DRC_CHANGE_WORDS * MOVED], words_found;
static uint8_t area[DRC_UPDATE_AREA_BYTES];

/* a memory list of up to two entries, and one with an entry too many */
enum { ENTRY = DRC_MEMORY_ENTRY_BYTES, MOST = DRC_MEMORY_BLOCKS, LONGEST = DRC_MEMORY_LIST_BYTES };
static uint8_t memory[4 + 2 * ENTRY], converted[LONGEST + ENTRY];
static uint32_t bytes_written = LAST;

/* A root without properties. */
static const uint8_t tree[] = {0, 0, 0, 1, 'r', 0, 0, 0, 0, 0, 0, 2, 0, 0, 0, 9};
static const uint8_t names[] = {0};

#define TREE tree, sizeof tree, names, sizeof names
#define NO_TREE tree, 4, names, sizeof names
#define CUT_TREE tree, 8, names, sizeof names

static void platform_results(void) {
    drc_fresh(table);
    SIGNED(drc_add_connector(table, 4, MEM_1, 1, 0), -11);
    SIGNED(drc_add_connector(table, MEM, MEM_1, 1, 0), 0);
    SIGNED(drc_add_connector(table, MEM, MEM_1, 1, 0), -12);
    SIGNED(drc_add_connector(table, MEM, MEM_1 + 1, DRC_PARTITIONS + 1, 0), -13);
    SIGNED(drc_add_connector(table, MEM, MEM_1 + 1, 1, MEM_1), -14);
    SIGNED(drc_add_resource(table, 4, &number), -11);
    UNSIGNED(drc_free_count(table, MEM), 0);
    UNSIGNED(drc_free_lowest(table, MEM), 0);
    SIGNED(drc_add_resource(table, CPU, &number), 0);
    SIGNED(drc_add_resource(table, MEM, &number), 0);
    SIGNED(drc_add_resource(table, MEM, &number), 0);
    UNSIGNED(drc_free_count(table, MEM), 2);
    UNSIGNED(drc_free_lowest(table, MEM), 2);
    SIGNED(drc_place(table, 2, MEM_1 + 1), -16);
    SIGNED(drc_place(table, 4, MEM_1), -17);
    SIGNED(drc_place(table, 1, MEM_1), -18);
    SIGNED(drc_retract(table, MEM_1 + 1), -16);
    SIGNED(drc_retract(table, MEM_1), -21);
    SIGNED(drc_want_back(table, MEM_1 + 1), -16);
    SIGNED(drc_want_back(table, MEM_1), -21);
    SIGNED(drc_place(table, 2, MEM_1), 0);
    SIGNED(drc_place(table, 2, MEM_1), -19);
    SIGNED(drc_place(table, 3, MEM_1), -20);
    SIGNED(drc_connector_at(table, 1, out), -16);
    SIGNED(drc_resource_at(table, 4, out), -17);
    SIGNED(drc_find(table, MEM_1 + 1), -16);
    SIGNED(drc_find(table, MEM_1), 0);
    SIGNED(drc_want_back(table, MEM_1), 0);
    SIGNED(drc_connector_at(table, 0, out), 0);
    UNSIGNED(out[9], 1);
    SIGNED(drc_set_indicator(table, 1, ALLOCATION, MEM_1, 1), -3);
    SIGNED(drc_retract(table, MEM_1), 0);
    SIGNED(drc_place(table, 2, MEM_1), 0);
}

/* The last row and the last resource, and one more of each. */
static void limit_results(void) {
    const uint32_t last = MEM_1 + DRC_CONNECTORS - 1;
    drc_fresh(table);
    for (uint32_t i = 0; i < DRC_CONNECTORS - 1; i++)
        drc_add_connector(table, MEM, MEM_1 + i, DRC_PARTITIONS, 0);
    for (uint32_t i = 0; i < DRC_RESOURCES - 1; i++)
        drc_add_resource(table, MEM, &number);
    SIGNED(drc_find(table, last), -16);
    SIGNED(drc_add_connector(table, MEM, last, DRC_PARTITIONS, 0), 0);
    SIGNED(drc_add_connector(table, MEM, last + 1, DRC_PARTITIONS + 1, 0), -13);
    SIGNED(drc_add_connector(table, MEM, last + 1, DRC_PARTITIONS, 0), -15);
    SIGNED(drc_find(table, last), DRC_CONNECTORS - 1);
    SIGNED(drc_connector_at(table, DRC_CONNECTORS - 1, out), 0);
    UNSIGNED(out[0], last);
    SIGNED(drc_connector_at(table, DRC_CONNECTORS, out), -16);
    SIGNED(drc_add_resource(table, MEM, &number), 0);
    UNSIGNED(number, DRC_RESOURCES);
    SIGNED(drc_add_resource(table, MEM, &number), -15);
    UNSIGNED(number, 0);
    UNSIGNED(drc_free_count(table, MEM), DRC_RESOURCES);
    for (uint32_t i = 0; i < DRC_RESOURCES - 1; i++)
        drc_place(table, 1 + i, MEM_1 + i);
    UNSIGNED(drc_free_count(table, MEM), 1);
    UNSIGNED(drc_free_lowest(table, MEM), DRC_RESOURCES);
    SIGNED(drc_place(table, DRC_RESOURCES + 1, last), -17);
    SIGNED(drc_place(table, DRC_RESOURCES, last), 0);
    UNSIGNED(drc_free_lowest(table, MEM), 0);
    SIGNED(drc_set_indicator(table, DRC_PARTITIONS, ALLOCATION, last, 1), 0);
    SIGNED(drc_get_sensor(table, DRC_PARTITIONS, ALLOCATION, last, &number), 0);
    UNSIGNED(number, 1);
}

static void put_word(uint8_t *bytes, uint32_t word) {
    for (int i = 0; i < 4; i++)
        bytes[i] = (uint8_t)(word >> (24 - 8 * i));
}

static void put_index(uint32_t index) {
    memset(work, 0, sizeof work);
    put_word(work, index);
}

static void partition_results(void) {
    put_index(MEM_1);
    SIGNED(drc_set_indicator(table, 1, ISOLATION, MEM_1, 1), -3);
    SIGNED(drc_get_sensor(table, 2, ALLOCATION, MEM_1, &number), -3);
    SIGNED(drc_set_indicator(table, 1, ALLOCATION, MEM_1, 1), 0);
    SIGNED(drc_retract(table, MEM_1), -22);
    SIGNED(drc_configure_connector(table, 1, work, PAGE, TREE), -9003);
    SIGNED(drc_set_indicator(table, 1, ISOLATION, MEM_1, 1), 0);
    SIGNED(drc_configure_connector(table, 1, work, 1, TREE), -3);
    SIGNED(drc_configure_connector(table, 1, work, PAGE, NO_TREE), -1);
    SIGNED(drc_configure_connector(table, 1, work, PAGE, TREE), 2);
    SIGNED(drc_configure_connector(table, 1, work, PAGE, TREE), 0);
}

/* The same walk once more, with the offset of its fault. */
static void fault_results(void) {
    SIGNED(drc_configure_connector_at(table, 1, work, PAGE, TREE, &fault), -9003);
    UNSIGNED(fault, 0);
    SIGNED(drc_set_indicator(table, 1, ISOLATION, MEM_1, 0), 0);
    SIGNED(drc_set_indicator(table, 1, ISOLATION, MEM_1, 1), 0);
    SIGNED(drc_configure_connector_at(table, 1, work, 1, TREE, &fault), -3);
    SIGNED(drc_configure_connector_at(table, 1, work, PAGE, TREE, &fault), 2);
    SIGNED(drc_configure_connector_at(table, 1, work, PAGE, CUT_TREE, &fault), -1);
    UNSIGNED(fault, 8);
    SIGNED(drc_configure_connector_at(table, 1, work, PAGE, TREE, &fault), 0);
    UNSIGNED(fault, 0);
}

/* A Configured bridge with a slot below that is in use is not isolated. */
static void bridge_result(void) {
    const uint32_t bridge = UINT32_C(0x20000001), slot = UINT32_C(0x30000001);
    drc_fresh(table);
    SIGNED(drc_add_connector(table, PHB, bridge, 1, 0), 0);
    SIGNED(drc_add_connector(table, SLOT, slot, 1, bridge), 0);
    SIGNED(drc_add_resource(table, PHB, &number), 0);
    SIGNED(drc_add_resource(table, SLOT, &number), 0);
    SIGNED(drc_place(table, 1, bridge), 0);
    SIGNED(drc_place(table, 2, slot), 0);
    SIGNED(drc_set_indicator(table, 1, ALLOCATION, bridge, 1), 0);
    SIGNED(drc_set_indicator(table, 1, ISOLATION, bridge, 1), 0);
    put_index(bridge);
    SIGNED(drc_configure_connector(table, 1, work, PAGE, TREE), 2);
    SIGNED(drc_configure_connector(table, 1, work, PAGE, TREE), 0);
    SIGNED(drc_set_indicator(table, 1, ALLOCATION, slot, 1), 0);
    SIGNED(drc_set_indicator(table, 1, ISOLATION, bridge, 0), -9000);
}

/* The four arrays, the first and the last with these lengths. */
#define ARRAYS(names_len, types_len) \
    array[0], names_len, array[1], 8, array[2], 8, array[3], types_len

/* A list with this room. */
#define LIST(room) list, room, &written

static void property_results(void) {
    drc_fresh(table);
    SIGNED(drc_add_connector(table, MEM, MEM_1, 1, 0), 0);
    SIGNED(drc_write_properties(table, 1, ARRAYS(9, 8), lengths), -32);
    SIGNED(drc_write_properties(table, 1, ARRAYS(10, 8), lengths), 0);
    UNSIGNED(lengths[0], 10);
    UNSIGNED(lengths[3], 8);
    SIGNED(drc_read_properties(ARRAYS(10, 8), LIST(12)), 0);
    UNSIGNED(written, 12);
    SIGNED(drc_read_properties(ARRAYS(3, 8), LIST(12)), -41);
    SIGNED(drc_read_properties(ARRAYS(9, 8), LIST(12)), -43);
    SIGNED(drc_read_properties(ARRAYS(11, 8), LIST(12)), -45);
    SIGNED(drc_read_properties(ARRAYS(10, 8), LIST(11)), -46);
    array[3][4] = 'm';
    SIGNED(drc_read_properties(ARRAYS(10, 8), LIST(12)), -44);
    array[3][3] = 0;
    SIGNED(drc_read_properties(ARRAYS(10, 8), LIST(12)), -42);
    UNSIGNED(written, 12);
}

static void set_event(uint32_t identifier, uint32_t count, uint32_t index) {
    const uint32_t words[] = {2, 1, identifier, count, index};
    memcpy(event, words, sizeof event);
}

static void write_results(void) {
    set_event(2, 0, MEM_1);
    SIGNED(drc_write_event(0, event, section, 20), -41);
    SIGNED(drc_write_event(1, event, section, 16), -42);
    SIGNED(drc_write_event(0, event, section, 16), 0);
    set_event(4, 1, LAST);
    SIGNED(drc_write_event(0, event, section, 16), -45);
    SIGNED(drc_write_event(1, event, section, 20), 0);
    event[3] = 2;
    SIGNED(drc_write_event(1, event, section, 20), -49);
    event[3] = 0;
    SIGNED(drc_write_event(1, event, section, 20), -48);
    event[1] = LAST;
    SIGNED(drc_write_event(1, event, section, 20), -47);
    event[0] = LAST;
    SIGNED(drc_write_event(1, event, section, 20), -46);
    set_event(3, 1, LAST);
    SIGNED(drc_write_event(1, event, section, 20), -50);
}

/* The section of a range, with one byte more spoiled for each refusal. */
static void read_results(void) {
    set_event(4, 1, LAST);
    SIGNED(drc_write_event(1, event, section, 20), 0);
    SIGNED(drc_read_event(1, section, 20, event), 0);
    UNSIGNED(event[3], 1);
    UNSIGNED(event[4], INT64_C(0xFFFFFFFF));
    section[11] = 1;
    SIGNED(drc_read_event(1, section, 20, event), -50);
    section[15] = 2;
    SIGNED(drc_read_event(1, section, 20, event), -49);
    section[15] = 0;
    SIGNED(drc_read_event(1, section, 20, event), -48);
    section[9] = 0;
    SIGNED(drc_read_event(1, section, 20, event), -47);
    section[8] = 0;
    SIGNED(drc_read_event(1, section, 20, event), -46);
    section[10] = 0;
    SIGNED(drc_read_event(1, section, 20, event), -45);
    section[4] = 0;
    SIGNED(drc_read_event(1, section, 20, event), -44);
    section[0] = 0;
    SIGNED(drc_read_event(1, section, 20, event), -43);
    section[3] = 0;
    SIGNED(drc_read_event(1, section, 20, event), -42);
    SIGNED(drc_read_event(0, section, 20, event), -41);
    UNSIGNED(event[4], INT64_C(0xFFFFFFFF));
}

#define CHANGES changes, DRC_CHANGE_WORDS * MOVED
#define FOUND(room) found, room, &words_found

static void update_results(void) {
    for (uint32_t i = 0; i < MOVED; i++) {
        changes[DRC_CHANGE_WORDS * i] = DRC_CHANGE_DELETE;
        changes[DRC_CHANGE_WORDS * i + 1] = LAST - i;
    }
    SIGNED(drc_update_nodes(2, CHANGES, area, sizeof area), -3);
    SIGNED(drc_update_nodes(1, CHANGES, area, sizeof area), 1);
    SIGNED(drc_read_updates(area, sizeof area, FOUND(3053)), -46);
    SIGNED(drc_read_updates(area, sizeof area, FOUND(3054)), 0);
    UNSIGNED(words_found, 3054);
    UNSIGNED(found[1], INT64_C(0xFFFFFFFF));
    SIGNED(drc_update_nodes(1, CHANGES, area, sizeof area), 0);
    SIGNED(drc_read_updates(area, sizeof area, FOUND(3)), 0);
    UNSIGNED(words_found, 3);
    UNSIGNED(found[1], INT64_C(0xFFFFFC05));
}

/* The area of one delete, with its operator changed for each refusal. */
static void update_refusals(void) {
    SIGNED(drc_read_updates(area, sizeof area - 1, FOUND(3)), -41);
    area[17] = 1;
    SIGNED(drc_read_updates(area, sizeof area, FOUND(3)), -42);
    area[17] = 0;
    area[16] = 4;
    SIGNED(drc_read_updates(area, sizeof area, FOUND(3)), -43);
    area[16] = DRC_CHANGE_ADD;
    SIGNED(drc_read_updates(area, sizeof area, FOUND(3)), -44);
    area[16] = DRC_CHANGE_DELETE;
    area[18] = 3;
    area[19] = 251;
    SIGNED(drc_read_updates(area, sizeof area, FOUND(3)), -45);
    UNSIGNED(words_found, 3);
}

/* The number in eight bytes. */
static uint64_t long_at(const uint8_t *bytes) {
    uint64_t number = 0;
    for (int i = 0; i < 8; i++)
        number = number << 8 | bytes[i];
    return number;
}

static void put_long(uint8_t *bytes, uint64_t number) {
    put_word(bytes, (uint32_t)(number >> 32));
    put_word(bytes + 4, (uint32_t)number);
}

/* Two old entries, at these addresses. */
static void put_blocks(uint64_t one, uint64_t two) {
    memset(memory, 0, sizeof memory);
    put_word(memory, 2);
    put_long(memory + 4, one);
    put_word(memory + 12, LAST - 1);
    put_long(memory + 4 + ENTRY, two);
    put_word(memory + 12 + ENTRY, LAST);
}

/* A new entry. */
static void put_set(uint32_t length, uint64_t address, uint32_t index) {
    memset(memory, 0, sizeof memory);
    put_word(memory, 1);
    put_word(memory + 4, length);
    put_long(memory + 8, address);
    put_word(memory + 16, index);
}

#define GIGABYTES_4 (UINT64_C(1) << 32)
#define HALF (UINT64_C(1) << 63)
#define BLOCKS memory, sizeof memory
#define SET memory, 4 + ENTRY
#define CONVERTED(room) converted, room, &bytes_written

static void group_results(void) {
    put_blocks(5, GIGABYTES_4 + 5);
    SIGNED(drc_memory_to_v2(0, BLOCKS, CONVERTED(28)), -41);
    SIGNED(drc_memory_to_v2(GIGABYTES_4, SET, CONVERTED(28)), -42);
    SIGNED(drc_memory_to_v2(GIGABYTES_4, BLOCKS, CONVERTED(27)), -47);
    UNSIGNED(bytes_written, INT64_C(0xFFFFFFFF));
    SIGNED(drc_memory_to_v2(GIGABYTES_4, BLOCKS, CONVERTED(28)), 0);
    UNSIGNED(bytes_written, 28);
    SIGNED(drc_memory_to_v2(GIGABYTES_4 + 1, BLOCKS, CONVERTED(28)), -47);
    SIGNED(drc_memory_to_v2(GIGABYTES_4 | HALF, BLOCKS, CONVERTED(52)), 0);
    UNSIGNED(bytes_written, 52);
    put_blocks(5, HALF + 5);
    SIGNED(drc_memory_to_v2(HALF, BLOCKS, CONVERTED(28)), 0);
    UNSIGNED(bytes_written, 28);
    put_blocks(HALF + 5, 5);
    SIGNED(drc_memory_to_v2(HALF, BLOCKS, CONVERTED(28)), -47);
    memory[4 + ENTRY + 15] = 1;
    SIGNED(drc_memory_to_v2(HALF, BLOCKS, CONVERTED(28)), -44);
    put_word(converted, MOST + 1);
    SIGNED(drc_memory_to_v2(HALF, converted, sizeof converted, BLOCKS, &bytes_written), -43);
    UNSIGNED(bytes_written, 28);
}

static void expand_results(void) {
    put_set(MOST, 5, LAST - MOST + 1);
    SIGNED(drc_memory_to_v1(0, SET, CONVERTED(LONGEST)), -41);
    SIGNED(drc_memory_to_v1(GIGABYTES_4, BLOCKS, CONVERTED(LONGEST)), -42);
    SIGNED(drc_memory_to_v1(GIGABYTES_4, SET, CONVERTED(LONGEST - 1)), -47);
    UNSIGNED(bytes_written, 28);
    SIGNED(drc_memory_to_v1(GIGABYTES_4, SET, CONVERTED(LONGEST)), 0);
    UNSIGNED(bytes_written, LONGEST);
    UNSIGNED(long_at(converted + LONGEST - ENTRY), INT64_C(0x3FF00000005));
    SIGNED(drc_memory_to_v1(HALF, SET, CONVERTED(LONGEST)), -46);
    put_set(2, HALF - 1, LAST - 1);
    SIGNED(drc_memory_to_v1(HALF, SET, CONVERTED(52)), 0);
    UNSIGNED(long_at(converted + 4 + ENTRY), -1);
    SIGNED(drc_memory_to_v1(HALF + 1, SET, CONVERTED(52)), -46);
    put_set(2, 5, LAST);
    SIGNED(drc_memory_to_v1(GIGABYTES_4, SET, CONVERTED(52)), -46);
    put_set(0, 5, LAST);
    SIGNED(drc_memory_to_v1(GIGABYTES_4, SET, CONVERTED(52)), -45);
    put_set(MOST + 1, 5, LAST);
    SIGNED(drc_memory_to_v1(GIGABYTES_4, SET, CONVERTED(52)), -43);
    UNSIGNED(bytes_written, 52);
}

static void other_results(void) {
    uint32_t reader[DRC_READER_WORDS];
    uint32_t record[DRC_RECORD_WORDS] = {MEM_1, MEM, 1, 0, 1, 1, 0, 0, 0, 1};
    UNSIGNED(drc_check_tree(TREE), 1);
    UNSIGNED(drc_check_tree(NO_TREE), 0);
    SIGNED(drc_compare_trees(TREE, TREE), 1);
    SIGNED(drc_compare_trees(TREE, NO_TREE), -33);
    SIGNED(drc_walk_record(record, work, PAGE, TREE, table), -9003);
    record[4] = 2;
    SIGNED(drc_walk_record(record, work, 1, TREE, table), -3);
    SIGNED(drc_walk_record(record, work, PAGE, NO_TREE, table), -1);
    SIGNED(drc_walk_record_at(record, work, 1, TREE, table, &fault), -3);
    SIGNED(drc_walk_record(record, work, PAGE, TREE, table), 2);
    SIGNED(drc_walk_record_at(record, work, PAGE, CUT_TREE, table, &fault), -1);
    UNSIGNED(fault, 8);
    record[6] = LAST - 3;
    SIGNED(drc_walk_record_at(record, work, PAGE, TREE, table, &fault), -1);
    UNSIGNED(fault, 16);
    drc_reader_fresh(reader);
    SIGNED(drc_read_reply(reader, 2, work, PAGE, structure, 4, strings, 64), -32);
    SIGNED(drc_read_reply(reader, -3, work, PAGE, structure, 64, strings, 64), -31);
    SIGNED(drc_read_reply(reader, 2, work, PAGE, structure, 64, strings, 64), 1);
}

/* A 64-bit number with this lower half and an upper half that is no extension of it. */
static uint64_t wide(uint32_t low) {
    volatile uint64_t high = UINT64_C(0x5A5A5A5A00000000);
    return high | low;
}

#define U(low) ((uint32_t)wide(low))
#define I(low) ((int32_t)wide((uint32_t)(low)))

static void arguments(void) {
    uint32_t reader[DRC_READER_WORDS];
    drc_fresh(table);
    SIGNED(drc_add_connector(table, U(MEM), U(LAST), U(1), U(0)), -11);
    SIGNED(drc_add_connector(table, U(MEM), U(MEM_1), U(LAST), U(0)), -13);
    SIGNED(drc_add_connector(table, U(MEM), U(MEM_1), U(1), U(LAST)), -14);
    SIGNED(drc_add_connector(table, U(MEM), U(MEM_MOST), U(DRC_PARTITIONS), U(0)), 0);
    SIGNED(drc_add_resource(table, U(LAST), &number), -11);
    SIGNED(drc_add_resource(table, U(MEM), &number), 0);
    UNSIGNED(drc_free_count(table, U(MEM)), 1);
    UNSIGNED(drc_free_lowest(table, U(MEM)), 1);
    UNSIGNED(drc_free_count(table, U(LAST)), 0);
    SIGNED(drc_place(table, U(LAST), U(MEM_MOST)), -17);
    SIGNED(drc_place(table, U(1), U(LAST)), -16);
    SIGNED(drc_place(table, U(1), U(MEM_MOST)), 0);
    SIGNED(drc_find(table, U(MEM_MOST)), 0);
    SIGNED(drc_find(table, U(LAST)), -16);
    SIGNED(drc_connector_at(table, U(LAST), out), -16);
    SIGNED(drc_connector_at(table, U(0), out), 0);
    UNSIGNED(out[0], INT64_C(0x8FFFFFFF));
    SIGNED(drc_resource_at(table, U(LAST), out), -17);
    SIGNED(drc_resource_at(table, U(1), out), 0);
    SIGNED(drc_get_sensor(table, U(DRC_PARTITIONS), U(ALLOCATION), U(MEM_MOST), &number), 0);
    SIGNED(drc_get_sensor(table, U(DRC_PARTITIONS), U(LAST), U(MEM_MOST), &number), -3);
    SIGNED(drc_set_indicator(table, U(DRC_PARTITIONS), U(ALLOCATION), U(MEM_MOST), U(LAST)), -3);
    SIGNED(drc_set_indicator(table, U(DRC_PARTITIONS), U(ALLOCATION), U(MEM_MOST), U(1)), 0);
    put_index(MEM_MOST);
    SIGNED(drc_configure_connector_at(table, U(DRC_PARTITIONS), work, PAGE, TREE, &fault), -9003);
    SIGNED(drc_configure_connector_at(table, U(LAST), work, PAGE, TREE, &fault), -3);
    SIGNED(drc_retract(table, U(MEM_MOST)), -22);
    SIGNED(drc_want_back(table, U(LAST)), -16);
    SIGNED(drc_want_back(table, U(MEM_MOST)), 0);
    SIGNED(drc_write_properties(table, U(DRC_PARTITIONS), ARRAYS(18, 8), lengths), 0);
    UNSIGNED(lengths[0], 18);
    SIGNED(drc_write_properties(table, U(LAST), ARRAYS(18, 8), lengths), 0);
    UNSIGNED(lengths[0], 4);
    set_event(2, 0, LAST);
    SIGNED(drc_write_event(U(LAST), event, section, 16), -42);
    SIGNED(drc_write_event(U(LAST), event, section, 20), 0);
    SIGNED(drc_read_event(U(LAST), section, 20, event), 0);
    SIGNED(drc_read_event(U(0), section, 20, event), -41);
    SIGNED(drc_write_event(U(0), event, section, 20), -41);
    SIGNED(drc_write_event(U(0), event, section, 16), 0);
    SIGNED(drc_read_event(U(0), section, 16, event), 0);
    UNSIGNED(event[4], INT64_C(0xFFFFFFFF));
    SIGNED(drc_update_nodes(U(LAST), CHANGES, area, sizeof area), -3);
    SIGNED(drc_update_nodes(U(1), CHANGES, area, sizeof area), 1);
    put_set(2, 5, LAST - 1);
    SIGNED(drc_memory_to_v1(wide(0), SET, CONVERTED(52)), 0);
    UNSIGNED(long_at(converted + 4 + ENTRY), INT64_C(0x5A5A5A5A00000005));
    put_blocks(5, UINT64_C(0x5A5A5A5B00000004));
    SIGNED(drc_memory_to_v2(wide(LAST), BLOCKS, CONVERTED(28)), 0);
    drc_reader_fresh(reader);
    SIGNED(drc_read_reply(reader, I(-9003), work, PAGE, structure, 64, strings, 64), -31);
    SIGNED(drc_read_reply(reader, I(INT32_MIN), work, PAGE, structure, 64, strings, 64), -31);
    SIGNED(drc_read_reply(reader, I(9900), work, PAGE, structure, 64, strings, 64), 2);
    SIGNED(drc_read_reply(reader, I(9905), work, PAGE, structure, 64, strings, 64), 2);
    SIGNED(drc_read_reply(reader, I(5), work, PAGE, structure, 64, strings, 64), 2);
}

int main(void) {
    platform_results();
    partition_results();
    fault_results();
    limit_results();
    bridge_result();
    property_results();
    write_results();
    read_results();
    update_results();
    update_refusals();
    group_results();
    expand_results();
    other_results();
    arguments();
    if (failures != 0) {
        printf("FAILED: %d of %d\n", failures, checks);
        return 1;
    }
    printf("%d results are right in 64 bits\n", checks);
    return 0;
}
