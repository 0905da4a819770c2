/* A small hypervisor over the C interface: a table, guests that boot with the arrays of their
 * connectors and a list of memory in the form that they read, and one that is told of its memory,
 * takes that and a bridge with a slot, walks their trees, and gives them back when it is told to. A
 * tree with two children of one name is not lent, and the node of a slot that nobody has taken yet
 * is left out of the walk. A call that is lent a tree cut short says where the fault is, and the
 * walk goes on with the whole one. The memory is wanted back twice: while a guest uses it, until it
 * is given back, and while none has taken it yet, which none can until it is retracted. Then a
 * guest has moved here, and asks which nodes changed. In the end the table is made fresh for a
 * second machine room, and filled to the limits. Every status printed is the answer of a call. */
#include <inttypes.h>
#include <stdint.h>
#include <stdio.h>
#include <stdlib.h>
#include <string.h>

#include "fustorbel.h"

enum { CPU = 1, PHB = 2, SLOT = 3, MEM = 8 };
enum { ISOLATION = 9001, ALLOCATION = 9003 };
enum { PAGE = 4096, TREE = 6000, NAMES = 64 };

#define MEM_1 UINT32_C(0x80000001)
#define MEM_2 UINT32_C(0x80000002)
#define MEM_LAST (MEM_1 + DRC_CONNECTORS - 1)
#define PHB_1 UINT32_C(0x20000001)
#define SLOT_1 UINT32_C(0x30000001)
#define SLOT_2 UINT32_C(0x30000002)
#define CPU_1 UINT32_C(0x10000001)

/* A device tree's two blocks. */
struct tree {
    uint8_t structure[TREE];
    size_t structure_len;
    uint8_t strings[NAMES];
    size_t strings_len;
};

static void *room_for(size_t bytes) {
    void *room = malloc(bytes);
    if (room == NULL) {
        fputs("no memory\n", stderr);
        exit(2);
    }
    return room;
}

static void set_word(uint8_t *bytes, uint32_t word) {
    bytes[0] = (uint8_t)(word >> 24);
    bytes[1] = (uint8_t)(word >> 16);
    bytes[2] = (uint8_t)(word >> 8);
    bytes[3] = (uint8_t)word;
}

static uint32_t get_word(const uint8_t *bytes) {
    return (uint32_t)bytes[0] << 24 | (uint32_t)bytes[1] << 16 | (uint32_t)bytes[2] << 8 | bytes[3];
}

static uint64_t get_long(const uint8_t *bytes) {
    return (uint64_t)get_word(bytes) << 32 | get_word(bytes + 4);
}

/* A tree is written token by token. */
static void put_word(struct tree *t, uint32_t word) {
    set_word(t->structure + t->structure_len, word);
    t->structure_len += 4;
}

static void put_bytes(struct tree *t, const void *bytes, size_t len) {
    memcpy(t->structure + t->structure_len, bytes, len);
    t->structure_len += (len + 3) / 4 * 4;
}

static void begin_node(struct tree *t, const char *name) {
    put_word(t, 1);
    put_bytes(t, name, strlen(name) + 1);
}

static void property(struct tree *t, const char *name, const void *value, size_t len) {
    put_word(t, 3);
    put_word(t, (uint32_t)len);
    put_word(t, (uint32_t)t->strings_len);
    put_bytes(t, value, len);
    memcpy(t->strings + t->strings_len, name, strlen(name) + 1);
    t->strings_len += strlen(name) + 1;
}

static void end_node(struct tree *t) { put_word(t, 2); }

static void end(struct tree *t) { put_word(t, 9); }

/* The memory block's tree, whose long property needs a second page. */
static void memory_tree(struct tree *t) {
    static const uint8_t value[5000];
    memset(t, 0, sizeof *t);
    begin_node(t, "mem@1");
    property(t, "reg", "\0\0\0\020", 4);
    begin_node(t, "c");
    property(t, "ibm,data", value, sizeof value);
    end_node(t);
    end_node(t);
    end(t);
}

/* A tree that the check refuses: two children have one name. */
static void merged_tree(struct tree *t) {
    memset(t, 0, sizeof *t);
    begin_node(t, "mem@1");
    property(t, "reg", "\0\0\0\020", 4);
    begin_node(t, "c");
    end_node(t);
    begin_node(t, "c");
    end_node(t);
    end_node(t);
    end(t);
}

/* A node that says to which connector it belongs. */
static void slot_node(struct tree *t, const char *name, uint32_t index) {
    uint8_t value[4];
    set_word(value, index);
    begin_node(t, name);
    property(t, "ibm,my-drc-index", value, sizeof value);
    end_node(t);
}

static void bridge_tree(struct tree *t) {
    memset(t, 0, sizeof *t);
    begin_node(t, "pci@20000001");
    property(t, "device_type", "pci", 4);
    slot_node(t, "slot@1", SLOT_1);
    slot_node(t, "slot@2", SLOT_2);
    end_node(t);
    end(t);
}

/* The nodes of a tree that a reader has built, which has no no-ops. */
static void print_nodes(const uint8_t *structure, size_t used) {
    printf("  the guest's nodes:");
    for (size_t at = 0, len = 0; at < used; at += 4 + (len + 3) / 4 * 4) {
        const char *name = (const char *)structure + at + 4;
        uint32_t token = get_word(structure + at);
        len = 0;
        if (token == 1) {
            len = strlen(name) + 1;
            printf(" %s", name);
        } else if (token == 3) {
            len = 8 + get_word(structure + at + 4);
        }
    }
    puts("");
}

static const char *kind_name(uint32_t kind) {
    switch (kind) {
    case CPU: return "CPU";
    case PHB: return "PHB";
    case SLOT: return "SLOT";
    case MEM: return "MEM";
    default: return "?";
    }
}

/* An index in hexadecimal, or a dash for none. */
static const char *index_text(uint32_t index, char text[9]) {
    if (index == 0)
        return "-";
    snprintf(text, 9, "%08" PRIx32, index);
    return text;
}

static const char *const states[] = {"Unusable", "Available", "Unisolated", "Configured"};

static void print_connectors(const uint32_t *table) {
    static const char *const pages[] = {"-", "asked", "taken"};
    uint32_t c[DRC_CONNECTOR_WORDS];
    char text[9];
    puts("\nconnector  kind  partition  parent    state       resource  walk at  depth  page "
         "  wanted back");
    for (uint32_t row = 0; drc_connector_at(table, row, c) == 0; row++)
        printf("%08" PRIx32 "   %-4s  %9" PRIu32 "  %-8s  %-10s  %8" PRIu32 "  %7" PRIu32
               "  %5" PRIu32 "  %-5s  %s\n",
               c[0], kind_name(c[1]), c[2], index_text(c[3], text), states[c[4]], c[5], c[6], c[7],
               pages[c[8]], c[9] == 1 ? "yes" : "-");
    puts("");
}

static void print_pool(const uint32_t *table) {
    printf("free: %" PRIu32 " MEM, the lowest number %" PRIu32 "\n", drc_free_count(table, MEM),
           drc_free_lowest(table, MEM));
}

/* Everything that the table holds. */
static void print_catalogue(const uint32_t *table) {
    uint32_t r[DRC_RESOURCE_WORDS];
    char text[9];
    print_connectors(table);
    puts("resource  kind  stands at");
    for (uint32_t number = 1; drc_resource_at(table, number, r) == 0; number++)
        printf("%8" PRIu32 "  %-4s  %s\n", number, kind_name(r[0]),
               r[1] == 0 ? "the pool" : index_text(r[1], text));
    puts("");
    print_pool(table);
    puts("");
}

static void add(uint32_t *table, uint32_t kind, uint32_t index, uint32_t partition,
                uint32_t parent) {
    int32_t status = drc_add_connector(table, kind, index, partition, parent);
    printf("add connector %08" PRIx32 " for partition %" PRIu32 ": %" PRId32 ", row %" PRId32 "\n",
           index, partition, status, drc_find(table, index));
}

/* The state of the connector with an index. */
static const char *state_of(const uint32_t *table, uint32_t index) {
    uint32_t c[DRC_CONNECTOR_WORDS];
    int32_t row = drc_find(table, index);
    if (row < 0 || drc_connector_at(table, (uint32_t)row, c) != 0)
        return "none";
    return states[c[4]];
}

static void place(uint32_t *table, uint32_t number, uint32_t index) {
    int32_t status = drc_place(table, number, index);
    printf("place %" PRIu32 " at %08" PRIx32 ": %" PRId32 "\n", number, index, status);
}

/* A new resource, placed at a connector of its kind. */
static void supply(uint32_t *table, uint32_t kind, uint32_t index) {
    uint32_t number;
    int32_t status = drc_add_resource(table, kind, &number);
    printf("add resource, %s: %" PRId32 ", number %" PRIu32 "\n", kind_name(kind), status, number);
    place(table, number, index);
}

static void retract(uint32_t *table, uint32_t index) {
    int32_t status = drc_retract(table, index);
    printf("retract at %08" PRIx32 ": %" PRId32 "\n", index, status);
}

static void want_back(uint32_t *table, uint32_t index) {
    int32_t status = drc_want_back(table, index);
    printf("want back %08" PRIx32 ": %" PRId32 "\n", index, status);
}

static void sense(const uint32_t *table, uint32_t partition, uint32_t index) {
    uint32_t value;
    int32_t status = drc_get_sensor(table, partition, ALLOCATION, index, &value);
    printf("partition %" PRIu32 " senses %08" PRIx32 ": %" PRId32 ", value %" PRIu32 "\n",
           partition, index, status, value);
}

/* Room for the longest arrays: a name has at most 14 bytes, a type 5; and for the guest's list. */
enum {
    NAMES_ROOM = 4 + 14 * DRC_CONNECTORS,
    WORDS_ROOM = 4 + 4 * DRC_CONNECTORS,
    TYPES_ROOM = 4 + 5 * DRC_CONNECTORS,
    LIST_ROOM = 12 * DRC_CONNECTORS
};

/* The four arrays of a partition's connectors, and their lengths. */
struct arrays {
    uint8_t *names, *indexes, *domains, *types;
    uint32_t lengths[4];
};

static void print_arrays(const struct arrays *a) {
    const char *name = (const char *)a->names + 4, *type = (const char *)a->types + 4;
    printf("  lengths %" PRIu32 ", %" PRIu32 ", %" PRIu32 ", %" PRIu32 "; count %" PRIu32 "\n",
           a->lengths[0], a->lengths[1], a->lengths[2], a->lengths[3], get_word(a->names));
    for (uint32_t i = 1; i <= get_word(a->names); i++) {
        printf("  %-5s  %08" PRIx32 "  %08" PRIx32 "  %s\n", name, get_word(a->indexes + 4 * i),
               get_word(a->domains + 4 * i), type);
        name += strlen(name) + 1;
        type += strlen(type) + 1;
    }
}

/* The guest's list: index, kind and domain of each connector. */
static void read_arrays(const struct arrays *a) {
    uint8_t *list = room_for(LIST_ROOM);
    size_t written = 0;
    int32_t status = drc_read_properties(a->names, a->lengths[0], a->indexes, a->lengths[1],
                                         a->domains, a->lengths[2], a->types, a->lengths[3], list,
                                         LIST_ROOM, &written);
    printf("  read: %" PRId32 ", %zu bytes\n", status, written);
    for (size_t at = 0; at < written; at += 12)
        printf("  %08" PRIx32 "  kind %" PRIu32 "  %08" PRIx32 "\n", get_word(list + at),
               get_word(list + at + 4), get_word(list + at + 8));
    free(list);
}

/* A guest boots with its arrays. */
static void boot(const uint32_t *table, uint32_t partition) {
    struct arrays a = {room_for(NAMES_ROOM), room_for(WORDS_ROOM), room_for(WORDS_ROOM),
                       room_for(TYPES_ROOM), {0}};
    int32_t status = drc_write_properties(table, partition, a.names, NAMES_ROOM, a.indexes,
                                          WORDS_ROOM, a.domains, WORDS_ROOM, a.types, TYPES_ROOM,
                                          a.lengths);
    printf("partition %" PRIu32 " boots: %" PRId32 "\n", partition, status);
    if (status == 0) {
        print_arrays(&a);
        read_arrays(&a);
    }
    free(a.types);
    free(a.domains);
    free(a.indexes);
    free(a.names);
}

/* The memory at boot, as a new list: a set of four blocks that are there for good, and a set of
 * twelve that can be added. */
static const uint8_t boot_list[] = {
    0x00, 0x00, 0x00, 0x02,                                                 /* sets */
    0x00, 0x00, 0x00, 0x04, 0x00, 0x00, 0x00, 0x00, 0x00, 0x00, 0x00, 0x00, /* blocks, address */
    0x00, 0x00, 0x00, 0x00, 0xff, 0xff, 0xff, 0xff, 0x00, 0x00, 0x00, 0xa0, /* index to flags */
    0x00, 0x00, 0x00, 0x0c, 0x00, 0x00, 0x00, 0x00, 0x40, 0x00, 0x00, 0x00, /* blocks, address */
    0x80, 0x00, 0x00, 0x04, 0xff, 0xff, 0xff, 0xff, 0x00, 0x00, 0x00, 0x00, /* index to flags */
};

/* The size of a block, the flag of one that is a guest's own when it boots, and where an entry, old
 * or new, has its last two words. */
#define BLOCK_SIZE UINT64_C(0x10000000)
enum { ASSIGNED = 8 };
enum { ASSOCIATIVITY = 16, FLAGS = 20 };

/* The entry of a block, or of a set behind how many it has. */
static void print_entry(const uint8_t *entry, size_t address, size_t index) {
    printf("%016" PRIx64 ", index %08" PRIx32 ", associativity %08" PRIx32 ", flags %08" PRIx32
           "\n",
           get_long(entry + address), get_word(entry + index), get_word(entry + ASSOCIATIVITY),
           get_word(entry + FLAGS));
}

static void print_blocks(const uint8_t *list) {
    const uint8_t *block = list + 4;
    for (uint32_t left = get_word(list); left > 0; left--, block += DRC_MEMORY_ENTRY_BYTES) {
        printf("  ");
        print_entry(block, 0, 8);
    }
}

static void print_sets(const uint8_t *list) {
    const uint8_t *set = list + 4;
    for (uint32_t left = get_word(list); left > 0; left--, set += DRC_MEMORY_ENTRY_BYTES) {
        printf("  %2" PRIu32 " from ", get_word(set));
        print_entry(set, 4, 12);
    }
}

/* The memory as an old list, in so many bytes of room; how many it has. */
static uint32_t expand(uint8_t *out, size_t room) {
    uint32_t written = 0;
    int32_t status = drc_memory_to_v1(BLOCK_SIZE, boot_list, sizeof boot_list, out, room, &written);
    printf("memory, old, in %zu bytes of room: %" PRId32 ", %" PRIu32 " written\n", room, status,
           written);
    if (status == 0)
        print_blocks(out);
    return written;
}

/* An old list as a new one, which is never longer. */
static void group(const uint8_t *list, size_t len) {
    uint8_t *out = room_for(len);
    uint32_t written = 0;
    int32_t status = drc_memory_to_v2(BLOCK_SIZE, list, len, out, len, &written);
    printf("memory, new, in %zu bytes of room: %" PRId32 ", %" PRIu32 " written\n", len, status,
           written);
    if (status == 0)
        print_sets(out);
    free(out);
}

/* One guest reads old lists: as much room as the new one has is too little. The next reads new
 * ones, and two blocks are its own when it boots. */
static void boot_memory(void) {
    uint8_t *list = room_for(DRC_MEMORY_LIST_BYTES);
    expand(list, sizeof boot_list);
    uint32_t len = expand(list, DRC_MEMORY_LIST_BYTES);
    for (size_t i = 4; i < 6; i++)
        set_word(list + 4 + DRC_MEMORY_ENTRY_BYTES * i + FLAGS, ASSIGNED);
    group(list, len);
    free(list);
}

/* What a hot-plug event says: its type, its action and its identifier. */
enum { OF_MEMORY = 2 };
enum { TO_ADD = 1, TO_REMOVE = 2 };
enum { BY_INDEX = 2, BY_RANGE = 4 };

/* The guest reads a section: the index in it, or 0. */
static uint32_t hear(uint32_t modern, const uint8_t *section, size_t len) {
    uint32_t *event = room_for(DRC_EVENT_WORDS * sizeof *event);
    uint32_t index = 0;
    int32_t status = drc_read_event(modern, section, len, event);
    printf("  read: %" PRId32 "\n", status);
    if (status == 0) {
        printf("  type %" PRIu32 ", action %" PRIu32 ", identifier %" PRIu32 ", count %" PRIu32
               ", index %08" PRIx32 "\n",
               event[0], event[1], event[2], event[3], event[4]);
        index = event[4];
    }
    free(event);
    return index;
}

/* The hypervisor tells a guest of an event. The index that the guest reads, or 0. */
static uint32_t tell(uint32_t partition, uint32_t modern, const uint32_t *event) {
    size_t len = modern == 0 ? DRC_LEGACY_SECTION_BYTES : DRC_MODERN_SECTION_BYTES;
    uint8_t *section = room_for(len);
    uint32_t index = 0;
    int32_t status = drc_write_event(modern, event, section, len);
    printf("tell partition %" PRIu32 ", %s: %" PRId32 "\n", partition,
           modern == 0 ? "legacy" : "modern", status);
    if (status == 0) {
        for (size_t at = 0; at < len; at += 4)
            printf("  %08" PRIx32, get_word(section + at));
        puts("");
        index = hear(modern, section, len);
    }
    free(section);
    return index;
}

/* One request of a guest. */
struct order {
    uint32_t partition, index, token, value;
};

static const char *order_name(const struct order *o) {
    if (o->token == ISOLATION)
        return o->value == 0 ? "isolate" : "unisolate";
    return o->value == 0 ? "unusable" : "usable";
}

static void serve(uint32_t *table, const struct order *orders, size_t count) {
    for (size_t i = 0; i < count; i++) {
        const struct order *o = &orders[i];
        int32_t status = drc_set_indicator(table, o->partition, o->token, o->index, o->value);
        printf("partition %" PRIu32 " orders %s %08" PRIx32 ": %" PRId32 "\n", o->partition,
               order_name(o), o->index, status);
    }
}

#define SERVE(table, orders) serve(table, orders, sizeof(orders) / sizeof *(orders))

/* By mistake, one call with no more than a page of the structure block: it says at which token the
 * fault is, here one that the end cuts, and changes nothing. */
static void lend_cut(uint32_t *table, uint32_t partition, uint8_t *work, const struct tree *tree) {
    uint32_t fault;
    int32_t status = drc_configure_connector_at(table, partition, work, PAGE, tree->structure, PAGE,
                                                tree->strings, tree->strings_len, &fault);
    printf("  a tree cut short: reply %" PRId32 ", the fault is at %" PRIu32 "\n", status, fault);
}

/* The guest walks a connector's tree to the end, with a second page when asked, and its reader
 * builds the tree again. Where a second page is asked for, the tree is lent cut short once. */
static void walk(uint32_t *table, uint32_t partition, uint32_t index, const struct tree *tree) {
    uint32_t *reader = room_for(DRC_READER_WORDS * sizeof *reader);
    uint8_t *structure = room_for(tree->structure_len);
    uint8_t *strings = room_for(tree->strings_len);
    size_t pages = 1;
    uint8_t *work = room_for(PAGE);
    int32_t status;
    drc_reader_fresh(reader);
    memset(work, 0, PAGE);
    set_word(work, index);
    do {
        status = drc_configure_connector(table, partition, work, pages * PAGE, tree->structure,
                                         tree->structure_len, tree->strings, tree->strings_len);
        int32_t answer = drc_read_reply(reader, status, work, pages * PAGE, structure,
                                        tree->structure_len, strings, tree->strings_len);
        printf("  reply %" PRId32 ", reader %" PRId32 "\n", status, answer);
        if (status == 5) {
            print_connectors(table);
            lend_cut(table, partition, work, tree);
            uint8_t *two = room_for(2 * PAGE);
            memset(two, 0, 2 * PAGE);
            memcpy(two, work, PAGE);
            free(work);
            work = two;
            pages = 2;
        }
    } while (status > 0);
    print_nodes(structure, reader[0]);
    printf("  the reader's tree is the one lent: %" PRId32 "\n",
           drc_compare_trees(tree->structure, tree->structure_len, tree->strings, tree->strings_len,
                             structure, reader[0], strings, reader[1]));
    free(work);
    free(strings);
    free(structure);
    free(reader);
}

/* The hypervisor lends a tree only if it passes the check. */
static void configure(uint32_t *table, uint32_t partition, uint32_t index,
                      const struct tree *tree) {
    uint32_t passes = drc_check_tree(tree->structure, tree->structure_len, tree->strings,
                                     tree->strings_len);
    printf("partition %" PRIu32 " walks %08" PRIx32 ", check %" PRIu32 "\n", partition, index,
           passes);
    if (passes == 1)
        walk(table, partition, index, tree);
    printf("  the connector is %s\n", state_of(table, index));
}

static void take_and_walk(uint32_t *table, struct tree *tree) {
    static const uint32_t added[DRC_EVENT_WORDS] = {OF_MEMORY, TO_ADD, BY_INDEX, 0, MEM_1};
    const uint32_t index = tell(1, 0, added);
    const struct order memory[] = {{2, index, ALLOCATION, 1},
                                   {1, index, ALLOCATION, 1},
                                   {1, index, ISOLATION, 1},
                                   {1, index, ALLOCATION, 0}};
    static const struct order bridge[] = {{1, SLOT_1, ALLOCATION, 1},
                                          {1, SLOT_2, ALLOCATION, 1},
                                          {1, PHB_1, ALLOCATION, 1},
                                          {1, PHB_1, ISOLATION, 1}};
    static const struct order slot[] = {{1, SLOT_1, ALLOCATION, 1}, {1, PHB_1, ISOLATION, 0}};
    sense(table, 1, index);
    SERVE(table, memory);
    sense(table, 1, index);
    merged_tree(tree);
    configure(table, 1, index, tree);
    memory_tree(tree);
    configure(table, 1, index, tree);
    SERVE(table, bridge);
    bridge_tree(tree);
    configure(table, 1, PHB_1, tree);
    SERVE(table, slot);
}

/* What is wanted back is used until its release. A range, here of one, is for a modern section
 * only. */
static void give_back(uint32_t *table) {
    static const uint32_t removed[DRC_EVENT_WORDS] = {OF_MEMORY, TO_REMOVE, BY_RANGE, 1, MEM_1};
    want_back(table, MEM_1);
    print_connectors(table);
    tell(1, 0, removed);
    const uint32_t index = tell(1, 1, removed);
    const struct order orders[] = {{1, SLOT_1, ALLOCATION, 0},
                                   {1, SLOT_2, ALLOCATION, 0},
                                   {1, PHB_1, ISOLATION, 0},
                                   {1, PHB_1, ALLOCATION, 0},
                                   {1, index, ALLOCATION, 1},
                                   {1, index, ISOLATION, 0},
                                   {1, index, ALLOCATION, 0}};
    SERVE(table, orders);
    sense(table, 1, index);
    place(table, 1, MEM_2);
    retract(table, CPU_1);
}

/* What is wanted back before a guest has taken it can be retracted, and not taken. */
static void change_mind(uint32_t *table) {
    static const struct order usable[] = {{2, MEM_2, ALLOCATION, 1}};
    want_back(table, MEM_2);
    want_back(table, MEM_2);
    want_back(table, CPU_1);
    want_back(table, MEM_2 + 1);
    SERVE(table, usable);
    sense(table, 2, MEM_2);
    print_connectors(table);
    retract(table, MEM_2);
    want_back(table, MEM_2);
    place(table, 1, MEM_2);
    SERVE(table, usable);
}

/* Why a guest asks; how many changes the move made; the most that one area has. */
enum { MIGRATION = 1, FIRMWARE = 2 };
enum { MOVED = 1020, AREA_CHANGES = 1018 };

/* The first and the last change are new nodes, three are nodes that are gone. */
static uint32_t change_kind(uint32_t i) {
    if (i == 0 || i == MOVED - 1)
        return DRC_CHANGE_ADD;
    return i % 400 == 1 ? DRC_CHANGE_DELETE : DRC_CHANGE_UPDATE;
}

/* The guest reads an area: how many changes of each kind it has, and where nodes are new. */
static void read_changes(const uint8_t *work) {
    uint32_t *out = room_for(AREA_CHANGES * DRC_CHANGE_WORDS * sizeof *out);
    uint32_t written = 0, count[] = {[DRC_CHANGE_ADD] = 0};
    int32_t status = drc_read_updates(work, DRC_UPDATE_AREA_BYTES, out,
                                      AREA_CHANGES * DRC_CHANGE_WORDS, &written);
    for (uint32_t at = 0; at < written; at += DRC_CHANGE_WORDS)
        count[out[at]]++;
    printf("  read: %" PRId32 ", %" PRIu32 " deleted, %" PRIu32 " updated, %" PRIu32 " added\n",
           status, count[DRC_CHANGE_DELETE], count[DRC_CHANGE_UPDATE], count[DRC_CHANGE_ADD]);
    for (uint32_t at = 0; at < written; at += DRC_CHANGE_WORDS)
        if (out[at] == DRC_CHANGE_ADD)
            printf("  below phandle %08" PRIx32 ": connector %08" PRIx32 "\n", out[at + 1],
                   out[at + 2]);
    free(out);
}

/* One call of update-nodes, with the same changes each time. */
static int32_t ask(uint32_t partition, uint32_t scope, const uint32_t *changes, uint8_t *work) {
    int32_t status = drc_update_nodes(scope, changes, MOVED * DRC_CHANGE_WORDS, work,
                                      DRC_UPDATE_AREA_BYTES);
    printf("partition %" PRIu32 " asks what changed, scope %" PRIu32 ": %" PRId32
           ", state variable %" PRIu32 "\n",
           partition, scope, status, get_word(work));
    return status;
}

/* A guest that has moved asks until nothing is left. Of its area it sets the first 16 bytes. */
static void arrive(uint32_t partition) {
    uint32_t *changes = room_for(MOVED * DRC_CHANGE_WORDS * sizeof *changes);
    uint8_t *work = room_for(DRC_UPDATE_AREA_BYTES);
    int32_t status;
    for (uint32_t i = 0; i < MOVED; i++) {
        const uint32_t change[] = {change_kind(i), UINT32_C(0x1000) + i, CPU_1 + i};
        memcpy(changes + DRC_CHANGE_WORDS * i, change, sizeof change);
    }
    memset(work, 0, 16);
    ask(partition, FIRMWARE, changes, work);
    do {
        status = ask(partition, MIGRATION, changes, work);
        if (status >= 0)
            read_changes(work);
    } while (status > 0);
    free(work);
    free(changes);
}

/* Memory for each partition in turn, as much as the table takes, all of it placed but the last. */
static void fill_room(uint32_t *table) {
    uint32_t connectors = 0, resources = 0, placed = 0, number;
    while (drc_add_connector(table, MEM, MEM_2 + connectors, 1 + connectors % DRC_PARTITIONS, 0) ==
           0)
        connectors++;
    while (drc_add_resource(table, MEM, &number) == 0)
        resources++;
    while (MEM_2 + placed < MEM_LAST && drc_place(table, 2 + placed, MEM_2 + placed) == 0)
        placed++;
    printf("%" PRIu32 " connectors more, %" PRIu32 " resources more, %" PRIu32 " placed\n",
           connectors, resources, placed);
    print_pool(table);
}

/* A second machine room: a partition past the last is refused, and so is what a full table cannot
 * take; the last connector and the last resource serve as the others do. */
static void second_room(uint32_t *table) {
    enum { LAST = DRC_PARTITIONS, BEFORE_LAST = DRC_PARTITIONS - 1 };
    static const struct order take[] = {{LAST, MEM_1, ALLOCATION, 1},
                                        {LAST, MEM_LAST, ALLOCATION, 1},
                                        {BEFORE_LAST, MEM_LAST, ALLOCATION, 1},
                                        {BEFORE_LAST, MEM_LAST, ISOLATION, 1}};
    static const struct order release[] = {{BEFORE_LAST, MEM_LAST, ISOLATION, 0},
                                           {BEFORE_LAST, MEM_LAST, ALLOCATION, 0}};
    puts("\nthe second machine room");
    drc_fresh(table);
    add(table, MEM, MEM_1, LAST, 0);
    add(table, MEM, MEM_2, LAST + 1, 0);
    supply(table, MEM, MEM_1);
    fill_room(table);
    add(table, MEM, MEM_LAST, 1, 0);
    add(table, MEM, MEM_LAST + 1, 1, 0);
    supply(table, MEM, MEM_LAST);
    place(table, DRC_RESOURCES, MEM_LAST);
    print_pool(table);
    sense(table, BEFORE_LAST, MEM_LAST);
    SERVE(table, take);
    sense(table, BEFORE_LAST, MEM_LAST);
    SERVE(table, release);
    sense(table, BEFORE_LAST, MEM_LAST);
    print_pool(table);
    retract(table, MEM_2);
    print_pool(table);
}

int main(void) {
    uint32_t *table = room_for(DRC_TABLE_WORDS * sizeof *table);
    struct tree *tree = room_for(sizeof *tree);
    drc_fresh(table);
    add(table, MEM, MEM_1, 1, 0);
    add(table, PHB, PHB_1, 1, 0);
    add(table, SLOT, SLOT_1, 1, PHB_1);
    add(table, MEM, MEM_2, 2, 0);
    add(table, CPU, CPU_1, 2, 0);
    add(table, SLOT, SLOT_2, 1, 0);
    add(table, MEM, MEM_2, 2, 0);
    add(table, MEM, MEM_2 + 1, DRC_PARTITIONS + 1, 0);
    supply(table, MEM, MEM_1);
    supply(table, PHB, PHB_1);
    supply(table, SLOT, SLOT_1);
    supply(table, CPU, CPU_1);
    supply(table, MEM, MEM_1);
    supply(table, SLOT, SLOT_2);
    print_catalogue(table);
    boot(table, 1);
    boot(table, 2);
    boot(table, 3);
    boot_memory();
    take_and_walk(table, tree);
    print_catalogue(table);
    give_back(table);
    print_catalogue(table);
    change_mind(table);
    print_catalogue(table);
    arrive(1);
    second_room(table);
    free(tree);
    free(table);
    return 0;
}
