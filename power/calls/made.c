/* Each call of the library. What it leaves goes into the checksum, with what stands behind it: the
 * work area, the reader's record and buffers, the arrays and their list, the hot-plug section, the
 * changes, the memory lists, what it writes; of the table the counts, the connector and the
 * resource that the call names, and a share of all words, another one at each call. So SHARES calls
 * show every word, and before a table gets other words it is summed whole. */
#include <string.h>

#include "calls.h"

/* what a word of an answer holds before the call */
#define UNWRITTEN UINT32_C(0xDEADBEEF)
#define UNWRITTEN_SIZE ((size_t)UINT64_C(0xDEADBEEFDEADBEEF))

enum { SHARES = 16 };
/* where the ledger and the connectors begin, and the column of what stands at a connector */
enum { LEDGER = 2, CONNECTORS = LEDGER + DRC_RESOURCE_WORDS * DRC_RESOURCES, RESOURCE = 5 };

void sum_whole(const struct table *t) { sum_words(t->words, COUNT(t->words)); }

/* The counts, and the share whose turn it is. */
static void sum_share(const struct table *t) {
    static size_t turn;
    size_t share = (COUNT(t->words) + SHARES - 1) / SHARES;
    size_t from = turn * share, left = COUNT(t->words) - from;
    turn = (turn + 1) % SHARES;
    sum_words(t->words, LEDGER);
    sum_words(t->words + from, left < share ? left : share);
}

/* The row of the first connector with an index; -16 for none. */
static int32_t row_of(const struct table *t, uint32_t index) {
    uint32_t count = t->words[0] < DRC_CONNECTORS ? t->words[0] : DRC_CONNECTORS;
    for (uint32_t row = 0; row < count; row++)
        if (t->words[CONNECTORS + row] == index)
            return (int32_t)row;
    return -16;
}

static void sum_resource(const struct table *t, uint32_t number) {
    if (number == 0 || number > DRC_RESOURCES)
        return;
    for (size_t column = 0; column < DRC_RESOURCE_WORDS; column++)
        sum_words(&t->words[LEDGER + DRC_RESOURCES * column + number - 1], 1);
}

/* The resource that stands at a connector, 0 for none. */
static uint32_t held(const struct table *t, uint32_t index) {
    int32_t row = row_of(t, index);
    return row < 0 ? 0 : t->words[CONNECTORS + DRC_CONNECTORS * RESOURCE + (size_t)row];
}

/* What a call that names a connector has left: the share, the resource that stood there or was to
 * stand there, and the connector. */
static void sum_table(const struct table *t, uint32_t index, uint32_t stood) {
    int32_t row = row_of(t, index);
    sum_share(t);
    sum_resource(t, stood);
    for (size_t column = 0; row >= 0 && column < DRC_CONNECTOR_WORDS; column++)
        sum_words(&t->words[CONNECTORS + DRC_CONNECTORS * column + (size_t)row], 1);
}

static void sum_area(const struct area *work) { sum_bytes(work->bytes, COUNT(work->bytes)); }

void new_area(struct area *work) { fill(work->bytes, COUNT(work->bytes)); }

void fresh(struct table *t) {
    uint32_t word = any_word();
    sum_whole(t);
    for (size_t i = 0; i < COUNT(t->words); i++)
        t->words[i] = word;
    drc_fresh(t->words);
    sum_whole(t);
    answered(FRESH, 0);
}

int32_t add_connector(struct table *t, uint32_t kind, uint32_t index, uint32_t partition,
                      uint32_t parent) {
    int32_t answer = drc_add_connector(t->words, kind, index, partition, parent);
    sum_table(t, index, 0);
    answered(ADD_CONNECTOR, answer);
    return answer;
}

int32_t add_resource(struct table *t, uint32_t kind) {
    uint32_t number[2] = {UNWRITTEN, UNWRITTEN};
    int32_t answer = drc_add_resource(t->words, kind, number);
    sum_share(t);
    sum_resource(t, number[0]);
    sum_words(number, COUNT(number));
    answered(ADD_RESOURCE, answer);
    return answer;
}

int32_t place(struct table *t, uint32_t resource, uint32_t index) {
    int32_t answer = drc_place(t->words, resource, index);
    sum_table(t, index, resource);
    answered(PLACE, answer);
    return answer;
}

int32_t retract(struct table *t, uint32_t index) {
    uint32_t stood = held(t, index);
    int32_t answer = drc_retract(t->words, index);
    sum_table(t, index, stood);
    answered(RETRACT, answer);
    return answer;
}

int32_t want_back(struct table *t, uint32_t index) {
    uint32_t stood = held(t, index);
    int32_t answer = drc_want_back(t->words, index);
    sum_table(t, index, stood);
    answered(WANT_BACK, answer);
    return answer;
}

uint32_t free_count(const struct table *t, uint32_t kind) {
    uint32_t answer = drc_free_count(t->words, kind);
    sum_share(t);
    answered(FREE_COUNT, answer);
    return answer;
}

uint32_t free_lowest(const struct table *t, uint32_t kind) {
    uint32_t answer = drc_free_lowest(t->words, kind);
    sum_share(t);
    answered(FREE_LOWEST, answer);
    return answer;
}

int32_t set_indicator(struct table *t, uint32_t partition, uint32_t token, uint32_t index,
                      uint32_t value) {
    uint32_t stood = held(t, index);
    int32_t answer = drc_set_indicator(t->words, partition, token, index, value);
    sum_table(t, index, stood);
    answered(SET_INDICATOR, answer);
    return answer;
}

int32_t get_sensor(const struct table *t, uint32_t partition, uint32_t token, uint32_t index) {
    uint32_t value[2] = {UNWRITTEN, UNWRITTEN};
    int32_t answer = drc_get_sensor(t->words, partition, token, index, value);
    sum_table(t, index, 0);
    sum_words(value, COUNT(value));
    answered(GET_SENSOR, answer);
    return answer;
}

/* A step's offset: 0 with every answer but -1, and never past the structure block. What stands
 * behind it goes into the checksum too. */
static uint32_t sum_fault(int32_t answer, const uint32_t *fault, const struct blocks *tree) {
    must(answer == -1 || fault[0] == 0, "only a -1 gives an offset");
    must(fault[0] <= tree->structure_len, "the offset is one of the structure block");
    sum_words(fault, 2);
    return fault[0];
}

int32_t configure_connector_at(struct table *t, uint32_t partition, struct area *work, size_t len,
                               const struct blocks *tree, uint32_t *fault) {
    static struct table lent_table;
    static struct area lent_area;
    uint32_t words[2] = {UNWRITTEN, UNWRITTEN};
    bool compared = percent(5);
    if (compared) {
        lent_table = *t;
        lent_area = *work;
    }
    int32_t answer = drc_configure_connector_at(
        t->words, partition, work->bytes, len, tree->structure, tree->structure_len, tree->strings,
        tree->strings_len, words);
    if (compared) {
        must(answer == drc_configure_connector(lent_table.words, partition, lent_area.bytes, len,
                                               tree->structure, tree->structure_len, tree->strings,
                                               tree->strings_len),
             "a step with an offset answers what one without does");
        must(memcmp(t, &lent_table, sizeof *t) == 0 && memcmp(work, &lent_area, sizeof *work) == 0,
             "a step with an offset leaves what one without does");
    }
    sum_table(t, be_word(work->bytes), 0);
    sum_area(work);
    *fault = sum_fault(answer, words, tree);
    answered(CONFIGURE_CONNECTOR_AT, answer);
    return answer;
}

int32_t configure_connector(struct table *t, uint32_t partition, struct area *work, size_t len,
                            const struct blocks *tree) {
    static bool says_where;
    uint32_t fault;
    says_where = !says_where;
    if (says_where)
        return configure_connector_at(t, partition, work, len, tree, &fault);
    int32_t answer =
        drc_configure_connector(t->words, partition, work->bytes, len, tree->structure,
                                tree->structure_len, tree->strings, tree->strings_len);
    sum_table(t, be_word(work->bytes), 0);
    sum_area(work);
    answered(CONFIGURE_CONNECTOR, answer);
    return answer;
}

uint32_t check_tree(const struct blocks *tree) {
    uint32_t answer = drc_check_tree(tree->structure, tree->structure_len, tree->strings,
                                     tree->strings_len);
    answered(CHECK_TREE, answer);
    return answer;
}

int32_t compare_trees(const struct blocks *one, const struct blocks *two) {
    int32_t answer = drc_compare_trees(one->structure, one->structure_len, one->strings,
                                       one->strings_len, two->structure, two->structure_len,
                                       two->strings, two->strings_len);
    answered(COMPARE_TREES, answer);
    return answer;
}

int32_t compare_read(const struct blocks *tree, const struct reader *r) {
    int32_t answer =
        drc_compare_trees(tree->structure, tree->structure_len, tree->strings, tree->strings_len,
                          r->structure, r->words[0], r->strings, r->words[1]);
    answered(COMPARE_TREES, answer);
    return answer;
}

static void sum_reader(const struct reader *r) {
    sum_words(r->words, COUNT(r->words));
    sum_bytes(r->structure, r->structure_len + BEHIND);
    sum_bytes(r->strings, r->strings_len + BEHIND);
}

void new_reader(struct reader *r, size_t structure_len, size_t strings_len) {
    must(structure_len <= READER_STRUCTURE && strings_len <= READER_STRINGS, "room for a reader");
    uint32_t word = any_word();
    for (size_t i = 0; i < COUNT(r->words); i++)
        r->words[i] = word;
    r->structure_len = structure_len;
    r->strings_len = strings_len;
    fill(r->structure, structure_len + BEHIND);
    fill(r->strings, strings_len + BEHIND);
    drc_reader_fresh(r->words);
    sum_reader(r);
    answered(READER_FRESH, 0);
}

int32_t read_reply(struct reader *r, int32_t status, const struct area *work, size_t len) {
    int32_t answer = drc_read_reply(r->words, status, work->bytes, len, r->structure,
                                    r->structure_len, r->strings, r->strings_len);
    sum_reader(r);
    answered(READ_REPLY, answer);
    return answer;
}

static void sum_arrays(const struct arrays *a) {
    for (size_t i = 0; i < ARRAYS; i++)
        sum_bytes(a->bytes[i], a->len[i] + BEHIND);
}

int32_t write_properties(const struct table *t, uint32_t partition, struct arrays *a,
                         size_t *lengths) {
    uint32_t words[ARRAYS + BEHIND];
    for (size_t i = 0; i < COUNT(words); i++)
        words[i] = UNWRITTEN;
    for (size_t i = 0; i < ARRAYS; i++)
        fill(a->bytes[i], a->len[i] + BEHIND);
    int32_t answer = drc_write_properties(
        t->words, partition, a->bytes[NAMES], a->len[NAMES], a->bytes[INDEXES], a->len[INDEXES],
        a->bytes[DOMAINS], a->len[DOMAINS], a->bytes[TYPES], a->len[TYPES], words);
    sum_share(t);
    sum_arrays(a);
    sum_words(words, COUNT(words));
    answered(WRITE_PROPERTIES, answer);
    for (size_t i = 0; i < ARRAYS && answer == 0; i++)
        lengths[i] = words[i];
    return answer;
}

int32_t read_properties(const struct arrays *a, size_t room) {
    static uint8_t out[LIST_ROOM + BEHIND];
    size_t written[2] = {UNWRITTEN_SIZE, UNWRITTEN_SIZE};
    must(room <= LIST_ROOM, "room for a list");
    fill(out, room + BEHIND);
    int32_t answer = drc_read_properties(
        a->bytes[NAMES], a->len[NAMES], a->bytes[INDEXES], a->len[INDEXES], a->bytes[DOMAINS],
        a->len[DOMAINS], a->bytes[TYPES], a->len[TYPES], out, room, written);
    sum_arrays(a);
    sum_bytes(out, room + BEHIND);
    sum_sizes(written, COUNT(written));
    answered(READ_PROPERTIES, answer);
    return answer;
}

int32_t write_event(uint32_t modern, const uint32_t *event, struct section *s) {
    must(s->len <= SECTION_ROOM, "room for a section");
    fill(s->bytes, s->len + BEHIND);
    int32_t answer = drc_write_event(modern, event, s->bytes, s->len);
    sum_words(event, DRC_EVENT_WORDS);
    sum_bytes(s->bytes, s->len + BEHIND);
    answered(WRITE_EVENT, answer);
    return answer;
}

int32_t read_event(uint32_t modern, const struct section *s, uint32_t *event) {
    uint32_t words[DRC_EVENT_WORDS + BEHIND];
    for (size_t i = 0; i < COUNT(words); i++)
        words[i] = UNWRITTEN;
    int32_t answer = drc_read_event(modern, s->bytes, s->len, words);
    sum_bytes(s->bytes, s->len + BEHIND);
    sum_words(words, COUNT(words));
    answered(READ_EVENT, answer);
    if (answer == 0)
        memcpy(event, words, DRC_EVENT_WORDS * sizeof *event);
    return answer;
}

int32_t update_nodes(uint32_t scope, const struct changes *c, struct area *work, size_t len) {
    must(c->count <= CHANGES_ROOM, "room for changes");
    int32_t answer = drc_update_nodes(scope, c->words, c->count, work->bytes, len);
    sum_words(c->words, c->count + BEHIND);
    sum_area(work);
    answered(UPDATE_NODES, answer);
    return answer;
}

int32_t read_updates(const struct area *work, size_t len, size_t room, struct changes *c) {
    uint32_t written[2] = {UNWRITTEN, UNWRITTEN};
    must(room <= CHANGES_ROOM, "room for changes");
    for (size_t i = 0; i < room + BEHIND; i++)
        c->words[i] = UNWRITTEN;
    int32_t answer = drc_read_updates(work->bytes, len, c->words, room, written);
    sum_area(work);
    sum_words(c->words, room + BEHIND);
    sum_words(written, COUNT(written));
    answered(READ_UPDATES, answer);
    c->count = answer == 0 ? written[0] : 0;
    return answer;
}

typedef int32_t conversion(uint64_t size, const uint8_t *in, size_t in_len, uint8_t *out,
                           size_t out_len, uint32_t *written);

/* All that is not the list, with a refusal everything, stays as it was. */
static int32_t convert(enum call call, conversion *by, uint64_t size, const struct memory *in,
                       size_t room, struct memory *out) {
    static struct memory lent;
    uint32_t written[2] = {UNWRITTEN, UNWRITTEN};
    must(in->len <= MEMORY_ROOM && room <= MEMORY_ROOM, "room for a memory list");
    fill(out->bytes, room + BEHIND);
    memcpy(lent.bytes, out->bytes, room + BEHIND);
    int32_t answer = by(size, in->bytes, in->len, out->bytes, room, written);
    out->len = answer == 0 ? written[0] : 0;
    must(out->len <= room, "a memory list is no longer than its room");
    must(memcmp(out->bytes + out->len, lent.bytes + out->len, room + BEHIND - out->len) == 0,
         "no bytes but the memory list are written");
    must(answer == 0 || written[0] == UNWRITTEN, "a refusal writes no length");
    sum_bytes(in->bytes, in->len + BEHIND);
    sum_bytes(out->bytes, room + BEHIND);
    sum_words(written, COUNT(written));
    answered(call, answer);
    return answer;
}

int32_t memory_to_v2(uint64_t size, const struct memory *in, size_t room, struct memory *out) {
    return convert(MEMORY_TO_V2, drc_memory_to_v2, size, in, room, out);
}

int32_t memory_to_v1(uint64_t size, const struct memory *in, size_t room, struct memory *out) {
    return convert(MEMORY_TO_V1, drc_memory_to_v1, size, in, room, out);
}

int32_t connector_at(const struct table *t, uint32_t row, uint32_t *out) {
    uint32_t words[DRC_CONNECTOR_WORDS + BEHIND];
    for (size_t i = 0; i < COUNT(words); i++)
        words[i] = UNWRITTEN;
    int32_t answer = drc_connector_at(t->words, row, words);
    sum_share(t);
    sum_words(words, COUNT(words));
    answered(CONNECTOR_AT, answer);
    memcpy(out, words, DRC_CONNECTOR_WORDS * sizeof *out);
    return answer;
}

int32_t resource_at(const struct table *t, uint32_t number) {
    uint32_t words[DRC_RESOURCE_WORDS + BEHIND];
    for (size_t i = 0; i < COUNT(words); i++)
        words[i] = UNWRITTEN;
    int32_t answer = drc_resource_at(t->words, number, words);
    sum_share(t);
    sum_words(words, COUNT(words));
    answered(RESOURCE_AT, answer);
    return answer;
}

int32_t find(const struct table *t, uint32_t index) {
    int32_t answer = drc_find(t->words, index);
    must(answer == row_of(t, index), "the row of the first connector with the index");
    sum_share(t);
    answered(FIND, answer);
    return answer;
}

int32_t walk_record_at(uint32_t *record, struct area *work, size_t len, const struct blocks *tree,
                       const struct table *t, uint32_t *fault) {
    static struct area lent_area;
    uint32_t lent_record[DRC_RECORD_WORDS + BEHIND];
    uint32_t words[2] = {UNWRITTEN, UNWRITTEN};
    lent_area = *work;
    memcpy(lent_record, record, sizeof lent_record);
    int32_t answer =
        drc_walk_record_at(record, work->bytes, len, tree->structure, tree->structure_len,
                           tree->strings, tree->strings_len, t->words, words);
    must(answer == drc_walk_record(lent_record, lent_area.bytes, len, tree->structure,
                                   tree->structure_len, tree->strings, tree->strings_len,
                                   t->words),
         "a record's step with an offset answers what one without does");
    must(memcmp(record, lent_record, sizeof lent_record) == 0 &&
             memcmp(work, &lent_area, sizeof lent_area) == 0,
         "a record's step with an offset leaves what one without does");
    sum_words(record, DRC_RECORD_WORDS + BEHIND);
    sum_area(work);
    sum_share(t);
    *fault = sum_fault(answer, words, tree);
    answered(WALK_RECORD_AT, answer);
    return answer;
}

int32_t walk_record(uint32_t *record, struct area *work, size_t len, const struct blocks *tree,
                    const struct table *t) {
    static bool says_where;
    uint32_t fault;
    says_where = !says_where;
    if (says_where)
        return walk_record_at(record, work, len, tree, t, &fault);
    int32_t answer =
        drc_walk_record(record, work->bytes, len, tree->structure, tree->structure_len,
                        tree->strings, tree->strings_len, t->words);
    sum_words(record, DRC_RECORD_WORDS + BEHIND);
    sum_area(work);
    sum_share(t);
    answered(WALK_RECORD, answer);
    return answer;
}
