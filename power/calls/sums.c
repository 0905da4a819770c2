/* The running checksum, and the calls made by kind of call and answer. */
#include <inttypes.h>
#include <stdio.h>
#include <stdlib.h>

#include "calls.h"

static uint64_t sum, made, to_make;

/* Every answer that a call can give. Of a resource's number, a number of resources and a row, zero
 * and more, up to the last, are two answers here. */
static struct {
    const char *name;
    size_t known;
    int64_t answers[11];
    uint64_t counts[11];
} tally[CALLS] = {
    [FRESH] = {"drc_fresh", 1, {0}, {0}},
    [ADD_CONNECTOR] = {"drc_add_connector", 6, {0, -11, -12, -13, -14, -15}, {0}},
    [ADD_RESOURCE] = {"drc_add_resource", 3, {0, -11, -15}, {0}},
    [PLACE] = {"drc_place", 6, {0, -16, -17, -18, -19, -20}, {0}},
    [RETRACT] = {"drc_retract", 4, {0, -16, -21, -22}, {0}},
    [WANT_BACK] = {"drc_want_back", 3, {0, -16, -21}, {0}},
    [FREE_COUNT] = {"drc_free_count", 2, {0, 1}, {0}},
    [FREE_LOWEST] = {"drc_free_lowest", 2, {0, 1}, {0}},
    [SET_INDICATOR] = {"drc_set_indicator", 3, {0, -3, -9000}, {0}},
    [GET_SENSOR] = {"drc_get_sensor", 2, {0, -3}, {0}},
    [CONFIGURE_CONNECTOR] = {"drc_configure_connector", 8, {0, 2, 3, 4, 5, -1, -3, -9003}, {0}},
    [CONFIGURE_CONNECTOR_AT] = {"drc_configure_connector_at",
                                8,
                                {0, 2, 3, 4, 5, -1, -3, -9003},
                                {0}},
    [CHECK_TREE] = {"drc_check_tree", 2, {0, 1}, {0}},
    [COMPARE_TREES] = {"drc_compare_trees", 3, {0, 1, -33}, {0}},
    [READER_FRESH] = {"drc_reader_fresh", 1, {0}, {0}},
    [READ_REPLY] = {"drc_read_reply", 5, {0, 1, 2, -31, -32}, {0}},
    [WRITE_PROPERTIES] = {"drc_write_properties", 2, {0, -32}, {0}},
    [READ_PROPERTIES] = {"drc_read_properties", 7, {0, -41, -42, -43, -44, -45, -46}, {0}},
    [WRITE_EVENT] = {"drc_write_event", 9, {0, -41, -42, -45, -46, -47, -48, -49, -50}, {0}},
    [READ_EVENT] = {"drc_read_event",
                    11,
                    {0, -41, -42, -43, -44, -45, -46, -47, -48, -49, -50},
                    {0}},
    [UPDATE_NODES] = {"drc_update_nodes", 3, {0, 1, -3}, {0}},
    [READ_UPDATES] = {"drc_read_updates", 7, {0, -41, -42, -43, -44, -45, -46}, {0}},
    [MEMORY_TO_V2] = {"drc_memory_to_v2", 6, {0, -41, -42, -43, -44, -47}, {0}},
    [MEMORY_TO_V1] = {"drc_memory_to_v1", 7, {0, -41, -42, -43, -45, -46, -47}, {0}},
    [CONNECTOR_AT] = {"drc_connector_at", 2, {0, -16}, {0}},
    [RESOURCE_AT] = {"drc_resource_at", 2, {0, -17}, {0}},
    [FIND] = {"drc_find", 3, {0, 1, -16}, {0}},
    [WALK_RECORD] = {"drc_walk_record", 8, {0, 2, 3, 4, 5, -1, -3, -9003}, {0}},
    [WALK_RECORD_AT] = {"drc_walk_record_at", 8, {0, 2, 3, 4, 5, -1, -3, -9003}, {0}},
};

void make_calls(uint64_t count) { to_make = count; }

void must(bool holds, const char *what) {
    if (holds)
        return;
    printf("FAILED at call %" PRIu64 ": %s\n", made, what);
    exit(1);
}

static uint64_t mixed(uint64_t into, uint64_t number) {
    into = (into ^ number) * UINT64_C(0x9E3779B97F4A7C15);
    return into ^ into >> 32;
}

/* The number that eight bytes make. */
static uint64_t eight(const uint8_t *b) {
    return (uint64_t)b[0] << 56 | (uint64_t)b[1] << 48 | (uint64_t)b[2] << 40 |
           (uint64_t)b[3] << 32 | (uint64_t)b[4] << 24 | (uint64_t)b[5] << 16 |
           (uint64_t)b[6] << 8 | b[7];
}

uint64_t digest(uint64_t from, const uint8_t *bytes, size_t len) {
    size_t i = 0;
    for (; i + 8 <= len; i += 8)
        from = mixed(from, eight(bytes + i));
    for (; i < len; i++)
        from = mixed(from, bytes[i]);
    return from;
}

void sum_bytes(const uint8_t *bytes, size_t len) { sum = digest(sum, bytes, len); }

void sum_words(const uint32_t *words, size_t count) {
    size_t i = 0;
    for (; i + 2 <= count; i += 2)
        sum = mixed(sum, (uint64_t)words[i] << 32 | words[i + 1]);
    if (i < count)
        sum = mixed(sum, words[i]);
}

void sum_sizes(const size_t *sizes, size_t count) {
    for (size_t i = 0; i < count; i++)
        sum = mixed(sum, sizes[i]);
}

static void print_sum(void) { printf("%" PRIu64 " %016" PRIx64 "\n", made, sum); }

/* Prints how often each answer came; ends the program, well if each did. */
static void finish(void) {
    bool complete = true;
    if (made % 1000 != 0)
        print_sum();
    for (int call = 0; call < CALLS; call++) {
        uint64_t calls = 0;
        for (size_t i = 0; i < tally[call].known; i++)
            calls += tally[call].counts[i];
        printf("%-27s%9" PRIu64 " calls:", tally[call].name, calls);
        for (size_t i = 0; i < tally[call].known; i++) {
            printf(" %" PRId64 ": %" PRIu64, tally[call].answers[i], tally[call].counts[i]);
            complete = complete && tally[call].counts[i] > 0;
        }
        puts("");
    }
    puts(complete ? "every answer occurred" : "FAILED: some answer did not occur");
    exit(complete ? 0 : 1);
}

void answered(enum call call, int64_t answer) {
    sum = mixed(mixed(sum, call), (uint64_t)answer);
    made++;
    int64_t most = call == FREE_COUNT || call == FREE_LOWEST ? DRC_RESOURCES : 0;
    if (call == FIND)
        most = DRC_CONNECTORS - 1;
    if (answer > 1 && answer <= most)
        answer = 1;
    size_t i = 0;
    while (i < tally[call].known && tally[call].answers[i] != answer)
        i++;
    must(i < tally[call].known, "an answer that no call of this name gives");
    tally[call].counts[i]++;
    if (made % 1000 == 0)
        print_sum();
    if (made == to_make)
        finish();
}
