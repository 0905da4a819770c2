/* Histories of calls from a fresh table, and calls on tables of any words. */
#include <string.h>

#include "calls.h"

/* the words of a connector */
enum {
    INDEX, KIND, PARTITION, PARENT, STATE, RESOURCE, WALK_PLACE, WALK_DEPTH, WALK_PAGE, WANTED
};

enum { READERS = 64 };

/* A history: a table, a work area, and readers for connectors that are walked. */
static struct {
    struct table table;
    struct area area;
    uint32_t connectors, resources, shift, partitions;
    /* an end-node and the begin-node behind it go to the reader as one reply */
    bool siblings;
    /* connectors are bridges and slots only */
    bool bridges;
    /* connectors are added all the time, after many at the start */
    bool crowded;
    /* which connector a reader is for, 0 for none, and whether an end-node waits */
    uint32_t read[READERS];
    bool held[READERS];
    struct reader readers[READERS];
} h;

static uint32_t known_kind(void) { return PICK(CPU, PHB, SLOT, MEM); }

uint32_t any_kind(void) {
    uint32_t chance = below(40);
    if (chance == 0)
        return any_word();
    if (chance == 1)
        return PICK(0, 4, 5, 7, 9);
    return known_kind();
}

/* ---- Connectors that are looked for. */

typedef bool fitting(const uint32_t *connector);

static bool any(const uint32_t *c) { return c != NULL; }
static bool bridge(const uint32_t *c) { return c[KIND] == PHB; }
static bool empty(const uint32_t *c) { return c[RESOURCE] == 0; }
static bool holding(const uint32_t *c) { return c[RESOURCE] != 0; }
static bool unisolated(const uint32_t *c) { return c[STATE] == UNISOLATED; }
static bool wanted_back(const uint32_t *c) { return c[WANTED] == 1; }

/* A connector that is looked for, by chance. */
static bool some_connector(fitting *is, uint32_t *c) {
    for (int tries = 0; tries < 3; tries++) {
        uint32_t row = below(h.connectors);
        if (connector_at(&h.table, row, c) == 0 && is(c))
            return true;
    }
    return false;
}

/* The connector with an index. */
static bool look(uint32_t index, uint32_t *c) {
    int32_t row = find(&h.table, index);
    return row >= 0 && connector_at(&h.table, (uint32_t)row, c) == 0;
}

/* An index, mostly of a connector that is there, and mostly with its partition. */
static uint32_t aim(fitting *is, uint32_t *partition) {
    uint32_t c[DRC_CONNECTOR_WORDS];
    if ((some_connector(is, c) || some_connector(any, c)) && percent(96)) {
        *partition = percent(8) ? below(DRC_PARTITIONS + 3) : c[PARTITION];
        return c[INDEX];
    }
    *partition = below(DRC_PARTITIONS + 2);
    uint32_t kind = known_kind();
    return kind << 28 | below(80);
}

/* ---- One call or some, of a history. */

static void new_connector(void) {
    uint32_t c[DRC_CONNECTOR_WORDS];
    uint32_t other;
    uint32_t partition = 1 + below(h.partitions);
    uint32_t kind = h.bridges ? PICK(PHB, SLOT, SLOT) : any_kind();
    uint32_t index = kind << 28 | between(1, 30);
    uint32_t parent = 0;
    if (percent(3))
        index = any_word();
    if (kind == SLOT && percent(75) && some_connector(bridge, c)) {
        parent = c[INDEX];
        partition = c[PARTITION];
    }
    uint32_t chance = below(40);
    if (chance == 0)
        parent = aim(any, &other);
    else if (chance == 1)
        partition = PICK(0, DRC_PARTITIONS + 1, DRC_PARTITIONS + 2, UINT32_MAX);
    else if (chance == 2)
        partition = 1 + below(DRC_PARTITIONS);
    else if (chance == 3)
        kind = known_kind();
    if (add_connector(&h.table, kind, index, partition, parent) == 0)
        h.connectors++;
}

static void new_resource(void) {
    uint32_t kind = any_kind();
    if (add_resource(&h.table, kind) == 0)
        h.resources++;
}

static void place_one(void) {
    uint32_t c[DRC_CONNECTOR_WORDS];
    uint32_t partition;
    uint32_t index = aim(empty, &partition);
    uint32_t resource = look(index, c) ? free_lowest(&h.table, c[KIND]) : 0;
    if (resource == 0 || percent(15))
        resource = below(h.resources + 3);
    if (percent(1))
        resource = any_word();
    place(&h.table, resource, index);
}

static void retract_one(void) {
    uint32_t partition;
    fitting *is = percent(25) ? wanted_back : holding;
    uint32_t index = aim(is, &partition);
    retract(&h.table, index);
}

/* A connector that is wanted back; where it is Unusable, it does not become usable then. */
static void want_one_back(void) {
    uint32_t c[DRC_CONNECTOR_WORDS];
    uint32_t partition;
    uint32_t index = aim(holding, &partition);
    if (want_back(&h.table, index) != 0 || !look(index, c))
        return;
    must(c[WANTED] == 1 && c[RESOURCE] != 0, "what is wanted back stands there");
    if (c[STATE] == UNUSABLE && percent(50))
        must(set_indicator(&h.table, c[PARTITION], ALLOCATION, index, 1) == -3,
             "what is wanted back is not made usable");
}

static void ask_pool(void) {
    uint32_t kind = any_kind();
    free_count(&h.table, kind);
    free_lowest(&h.table, kind);
}

/* An order that moves the connector on, or any order. */
static void order(void) {
    uint32_t c[DRC_CONNECTOR_WORDS];
    uint32_t partition;
    uint32_t index = aim(holding, &partition);
    uint32_t state = look(index, c) ? c[STATE] : UNISOLATED;
    uint32_t chance = below(10);
    uint32_t token = ISOLATION, value = 1;
    if (chance == 9) {
        token = PICK(ISOLATION, 9002, ALLOCATION, 9004, 0);
        value = PICK(0, 1, 2, 3, UINT32_MAX);
    } else if (chance >= 7) {
        token = PICK(ISOLATION, ALLOCATION);
        value = below(2);
    } else if (state == UNUSABLE && chance < 6) {
        token = ALLOCATION;
    } else if (state == AVAILABLE && chance >= 4 && chance < 6) {
        token = ALLOCATION;
        value = 0;
    } else if (state == CONFIGURED && chance >= 5) {
        value = 0;
    }
    set_indicator(&h.table, partition, token, index, value);
}

static void sense(void) {
    uint32_t partition;
    uint32_t index = aim(any, &partition);
    uint32_t token = percent(90) ? (uint32_t)ALLOCATION : PICK(ISOLATION, 9002, 0, 9004);
    get_sensor(&h.table, partition, token, index);
}

static void catalogue(void) {
    uint32_t c[DRC_CONNECTOR_WORDS];
    uint32_t partition;
    uint32_t number = percent(50) ? below(h.connectors + 3) : below(DRC_CONNECTORS + 3);
    if (percent(5))
        number = any_word();
    connector_at(&h.table, number, c);
    resource_at(&h.table, number);
    find(&h.table, aim(any, &partition));
}

/* ---- Walks. */

static const struct blocks *tree_of(uint32_t index) {
    if (percent(1))
        return any_tree();
    return &forest[((index ^ index >> 28) % FOREST + h.shift) % FOREST];
}

/* How many bytes of the work area are lent: as the walk's page is, or by chance another number. */
static size_t lent(uint32_t page) {
    uint32_t chance = below(200);
    if (chance == 0)
        return PICK(0, 3, 4, 7, 8, 20, 4092, 4095, 4097, 8191, 8193);
    if (chance == 1)
        return below(AREA);
    if (chance == 2)
        return PICK(PAGE, TWO_PAGES);
    if (page == 0 || (page == 1 && chance < 20))
        return PAGE;
    return TWO_PAGES;
}

/* The place of a connector's reader; a new one gets buffers that mostly have room for the tree. */
static size_t reader_of(uint32_t index, const struct blocks *tree) {
    size_t at = 0;
    while (at < READERS && h.read[at] != index)
        at++;
    if (at < READERS)
        return at;
    at = below(READERS);
    uint32_t slack = PICK(0, 16, 64, 64, 64, 100);
    size_t structure = tree->structure_len + slack, strings = tree->strings_len * 2 + slack;
    h.read[at] = index;
    h.held[at] = false;
    new_reader(&h.readers[at], structure < 30 ? 0 : structure - 30,
               strings < 10 ? 0 : strings - 10);
    return at;
}

static void forget_reader(uint32_t index) {
    for (size_t at = 0; at < READERS; at++)
        if (h.read[at] == index)
            h.read[at] = 0;
}

/* A damaged reply goes to a copy of the reader. */
static void damaged_reply(const struct reader *r, int32_t status, size_t len) {
    static struct reader copy;
    static struct area area;
    copy = *r;
    area = h.area;
    uint32_t at = below(64);
    uint32_t byte = PICK(0, 1, 19, 255);
    area.bytes[at] = (uint8_t)byte;
    if (percent(80))
        status = (int32_t)PICK(0, 1, 2, 3, 4, 5, 9902);
    read_reply(&copy, status, &area, len);
}

/* A reply goes to the connector's reader. */
static void reply(uint32_t index, int32_t status, size_t len, const struct blocks *tree) {
    size_t at = reader_of(index, tree);
    struct reader *r = &h.readers[at];
    if (percent(1))
        damaged_reply(r, status, len);
    if (follow(r, h.siblings, &h.held[at], status, &h.area, len) == 0)
        compare_read(tree, r);
}

static int32_t step(uint32_t partition, uint32_t index, uint32_t page) {
    const struct blocks *tree = tree_of(index);
    size_t len = lent(page);
    uint32_t damaged = below(400);
    set_be_word(h.area.bytes, damaged == 0 ? any_word() : index);
    set_be_word(h.area.bytes + 4, damaged == 1 ? PICK(1, 1 << 24, UINT32_MAX) : 0);
    int32_t status = configure_connector(&h.table, partition, &h.area, len, tree);
    if (index != 0 && percent(97))
        reply(index, status, len, tree);
    return status;
}

/* Some steps of a walk, to the end by chance, with a reader that follows. */
static void walk(void) {
    uint32_t c[DRC_CONNECTOR_WORDS];
    uint32_t partition;
    uint32_t index = aim(unisolated, &partition);
    uint32_t steps = percent(15) ? 10000 : between(1, 12);
    for (; steps > 0; steps--) {
        bool there = look(index, c);
        if (!there || (c[WALK_PLACE] == 0 && c[WALK_DEPTH] == 0 && c[WALK_PAGE] == 0))
            forget_reader(index);
        if (step(partition, index, there ? c[WALK_PAGE] : 0) <= 0)
            return;
    }
}

/* ---- Histories. */

static void some_calls(void) {
    bool few = h.connectors < 12 || h.crowded;
    uint32_t chance = below(few ? 130 : 100);
    if (chance < 2 || (chance >= 100 && chance < 118))
        new_connector();
    else if (chance < 5 || chance >= 118)
        new_resource();
    else if (chance < 20)
        place_one();
    else if (chance < 24)
        retract_one();
    else if (chance < 28)
        ask_pool();
    else if (chance < 60)
        order();
    else if (chance < 70)
        sense();
    else if (chance < 95)
        walk();
    else if (chance < 97)
        want_one_back();
    else
        catalogue();
}

/* Numbers of connectors and resources about which blocks of rows, and the table, end. */
static uint32_t edge(void) {
    return PICK(15, 16, 17, 63, 64, 65, 127, 128, 129, DRC_CONNECTORS - 17, DRC_CONNECTORS - 16,
                DRC_CONNECTORS - 1, DRC_CONNECTORS);
}

/* The connector of a row: a CPU or memory. */
static uint32_t row_kind(uint32_t row) { return row % 3 == 0 ? CPU : MEM; }
static uint32_t row_index(uint32_t row) { return row_kind(row) << 28 | (100 + row); }

/* So many connectors and resources at once, the first of them placed in the order of the rows. */
static void crowd(void) {
    uint32_t connectors = edge();
    uint32_t resources = edge();
    uint32_t placed = percent(50) ? connectors : below(connectors);
    for (; h.connectors < connectors; h.connectors++) {
        uint32_t row = h.connectors, partition = 1 + below(h.partitions);
        must(add_connector(&h.table, row_kind(row), row_index(row), partition, 0) == 0,
             "there is room for a connector");
    }
    for (; h.resources < resources; h.resources++) {
        uint32_t kind = PICK(CPU, MEM);
        must(add_resource(&h.table, kind) == 0, "there is room for a resource");
    }
    for (uint32_t row = 0; row < placed; row++)
        place(&h.table, free_lowest(&h.table, row_kind(row)), row_index(row));
}

void history(void) {
    h.crowded = percent(10);
    fresh(&h.table);
    new_area(&h.area);
    h.connectors = h.resources = 0;
    h.shift = below(FOREST);
    h.siblings = percent(30);
    h.bridges = percent(30);
    h.partitions = PICK(1, 2, 3, 8, DRC_PARTITIONS);
    memset(h.read, 0, sizeof h.read);
    if (h.crowded)
        crowd();
    for (uint32_t left = between(50, 1000); left > 0; left--)
        some_calls();
    if (percent(30))
        every_partition(&h.table);
}

/* ---- Tables of any words. */

static uint32_t any_index(void) {
    uint32_t chance = below(10);
    if (chance == 0)
        return 0;
    if (chance < 4)
        return UINT32_C(0x20000000) | below(3);
    if (chance < 7)
        return UINT32_C(0x30000000) | below(3);
    return PICK(0x10000001, 0x80000001, 0x80000002, 7, UINT32_MAX);
}

/* One in so many indexes and free resources of a table, so that the first may stand far behind. */
static uint32_t rare = 1;

/* An index for this place, which but for one in so many no call asks for. */
static uint32_t rare_index(size_t at) {
    uint32_t index = any_index();
    return below(rare) == 0 ? index : UINT32_C(0x70000000) + (uint32_t)at;
}

/* A word for this place, by its column: the ledger's kind and connector, then the connector's words. */
static uint32_t column_word(size_t at) {
    size_t ledger = 2 + 2 * DRC_RESOURCES;
    size_t column = at < ledger ? (at - 2) / DRC_RESOURCES : 2 + (at - ledger) / DRC_CONNECTORS;
    uint32_t few;
    switch (column) {
    case 0:
    case 3: return PICK(CPU, PHB, SLOT, MEM, PHB, SLOT, 4, 0);
    case 1:
    case 2: return rare_index(at);
    case 4: return percent(97) ? below(4) : PICK(DRC_PARTITIONS - 1, DRC_PARTITIONS);
    case 5: return any_index();
    case 6: return below(5);
    case 7: return percent(50) ? below(8) : 0;
    case 8:
        few = below(90);
        return percent(67) ? few & ~UINT32_C(3) : few;
    case 9: return below(10);
    case 10: return below(4);
    default: return any_wanted();
    }
}

uint32_t any_wanted(void) {
    uint32_t word = any_word();
    uint32_t chance = below(10);
    if (chance < 7)
        return chance < 4 ? 1 : 0;
    if (chance == 7)
        return word;
    return PICK(2, 3, 0x100, 0x101, 0x10001, UINT32_C(1) << 31, UINT32_C(0x80000001), UINT32_MAX);
}

uint32_t some_index(void) {
    uint32_t kind = known_kind();
    uint32_t index = kind << 28 | between(1, 30);
    uint32_t other = any_index();
    return percent(30) ? index : other;
}

uint32_t any_count(void) {
    uint32_t chance = below(3);
    if (chance == 0)
        return PICK(0, 1, 5, 20);
    if (chance == 1)
        return edge();
    return PICK(200, DRC_CONNECTORS, DRC_CONNECTORS + 1, 5000, UINT32_MAX);
}

void any_words(struct table *t) {
    bool wild = percent(10);
    sum_whole(t);
    rare = PICK(1, 1, 8, 60, 300);
    for (size_t i = 0; i < 2; i++)
        t->words[i] = any_count();
    for (size_t i = 2; i < COUNT(t->words); i++)
        t->words[i] = wild || percent(1) ? any_word() : column_word(i);
}

void other_words(struct table *t) {
    sum_whole(t);
    if (percent(20))
        t->words[0] = any_count();
    for (uint32_t left = between(1, 40); left > 0; left--) {
        size_t row = percent(70) ? below(24) : below(DRC_CONNECTORS);
        size_t column = below(DRC_CONNECTOR_WORDS);
        size_t at = 2 + DRC_RESOURCE_WORDS * DRC_RESOURCES + DRC_CONNECTORS * column + row;
        t->words[at] = column_word(at);
    }
}

/* A row or a resource's number, mostly a low one. */
static uint32_t any_number(void) { return percent(60) ? below(70) : below(DRC_CONNECTORS + 6); }

static void add_to_any(struct table *t, uint32_t partition) {
    uint32_t kind = known_kind();
    uint32_t index = kind << 28 | below(1000);
    uint32_t parent = percent(50) ? any_index() : 0;
    add_connector(t, kind, index, partition, parent);
}

static void walk_any(struct table *t, struct area *work, uint32_t partition, uint32_t index) {
    const struct blocks *tree = any_tree();
    size_t len = PICK(PAGE, PAGE, TWO_PAGES);
    set_be_word(work->bytes, index);
    set_be_word(work->bytes + 4, 0);
    configure_connector(t, partition, work, len, tree);
}

static void look_at_any(struct table *t) {
    uint32_t c[DRC_CONNECTOR_WORDS];
    uint32_t row = any_number(), number;
    connector_at(t, row, c);
    number = any_number();
    resource_at(t, number);
}

static void call_any(struct table *t, struct area *work) {
    uint32_t index = any_index();
    uint32_t partition = below(4);
    uint32_t token = PICK(ISOLATION, ALLOCATION);
    uint32_t number = any_number();
    uint32_t kind = any_kind();
    find(t, index);
    switch (below(12)) {
    case 0: add_to_any(t, partition); break;
    case 1: add_resource(t, kind); break;
    case 2: place(t, number, index); break;
    case 3: retract(t, index); break;
    case 4:
        free_count(t, kind);
        free_lowest(t, kind);
        break;
    case 5:
    case 6: set_indicator(t, partition, token, index, number % 2); break;
    case 7: get_sensor(t, partition, ALLOCATION, index); break;
    case 8: look_at_any(t); break;
    case 9: want_back(t, index); break;
    default: walk_any(t, work, partition, index); break;
    }
}

void any_table(void) {
    static struct table t;
    static struct area work;
    any_words(&t);
    new_area(&work);
    find(&t, 0);
    for (int left = 30; left > 0; left--)
        call_any(&t, &work);
}
