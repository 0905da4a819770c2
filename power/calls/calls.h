/* What the files of the calls program share. The program makes calls of the library from a seed
 * and prints a running checksum of what they answer and leave; it is to print the same on every
 * machine. So each random number is drawn in a statement of its own (C leaves the order of two in
 * one expression to the compiler), and nothing is read from memory in another width than it was
 * written in. */
#ifndef CALLS_H
#define CALLS_H

#include <stdbool.h>
#include <stddef.h>
#include <stdint.h>

#include "fustorbel.h"
#include "walk_record.h"

enum { CPU = 1, PHB = 2, SLOT = 3, MEM = 8 };
enum { ISOLATION = 9001, ALLOCATION = 9003 };
enum { UNUSABLE = 0, AVAILABLE = 1, UNISOLATED = 2, CONFIGURED = 3 };
enum { PAGE = 4096, TWO_PAGES = 8192, AREA = 9000 };
/* words and bytes behind what is lent, which no call may touch */
enum { BEHIND = 8 };

/* ---- random.c */

void seed(uint64_t from);
uint64_t draw(void);
uint32_t any_word(void);
/* A number below n, 0 for 0. */
uint32_t below(uint32_t n);
/* A number from low to high. */
uint32_t between(uint32_t low, uint32_t high);
bool percent(uint32_t p);
uint32_t pick(const uint32_t *from, size_t count);
void fill(uint8_t *bytes, size_t len);
#define COUNT(array) (sizeof(array) / sizeof *(array))
/* One of the numbers given, none of which is drawn itself. */
#define PICK(...) pick((const uint32_t[]){__VA_ARGS__}, COUNT(((const uint32_t[]){__VA_ARGS__})))

/* ---- sums.c */

enum call {
    FRESH, ADD_CONNECTOR, ADD_RESOURCE, PLACE, RETRACT, WANT_BACK, FREE_COUNT, FREE_LOWEST,
    SET_INDICATOR, GET_SENSOR, CONFIGURE_CONNECTOR, CONFIGURE_CONNECTOR_AT, CHECK_TREE,
    COMPARE_TREES, READER_FRESH, READ_REPLY, WRITE_PROPERTIES, READ_PROPERTIES, WRITE_EVENT,
    READ_EVENT, UPDATE_NODES, READ_UPDATES, MEMORY_TO_V2, MEMORY_TO_V1, CONNECTOR_AT, RESOURCE_AT,
    FIND, WALK_RECORD, WALK_RECORD_AT, CALLS
};

/* How many calls are to be made. */
void make_calls(uint64_t count);
uint64_t digest(uint64_t sum, const uint8_t *bytes, size_t len);
void sum_words(const uint32_t *words, size_t count);
void sum_bytes(const uint8_t *bytes, size_t len);
void sum_sizes(const size_t *sizes, size_t count);
/* One more call, its answer in 64 bits as the caller got it. The last one ends the program. */
void answered(enum call call, int64_t answer);
/* Ends the program if something does not hold that must. */
void must(bool holds, const char *what);

/* ---- trees.c */

enum { STRUCTURE_ROOM = 60000, STRINGS_ROOM = 80000 };

/* A device tree's two blocks. */
struct blocks {
    size_t structure_len, strings_len;
    uint8_t structure[STRUCTURE_ROOM], strings[STRINGS_ROOM];
};

enum { FOREST = 60 };
extern struct blocks forest[FOREST];

uint32_t be_word(const uint8_t *bytes);
void set_be_word(uint8_t *bytes, uint32_t word);
/* New trees of every sort, sound ones among them, checked and compared. */
void grow_forest(void);
/* A digest of all trees. */
uint64_t forest_digest(void);
const struct blocks *any_tree(void);
/* A root with a child for each index of a connector, but for those of one index. */
void children_of(struct blocks *b, const uint32_t *indexes, size_t count, uint32_t without);
/* Damages one token of a sound tree, so that a walk meets its fault there; the token's offset. */
size_t damage_token(struct blocks *b);

/* ---- made.c: each call of the library, with what it leaves into the checksum */

struct table {
    uint32_t words[DRC_TABLE_WORDS + BEHIND];
};

struct area {
    uint8_t bytes[AREA + BEHIND];
};

enum { READER_STRUCTURE = 200000, READER_STRINGS = 200000 };

/* A reader with its buffers, of which the first bytes are lent. */
struct reader {
    uint32_t words[DRC_READER_WORDS + BEHIND];
    size_t structure_len, strings_len;
    uint8_t structure[READER_STRUCTURE + BEHIND], strings[READER_STRINGS + BEHIND];
};

enum { NAMES, INDEXES, DOMAINS, TYPES, ARRAYS };
/* room for more connectors than a table has */
enum { ARRAY_ROOM = 15 * DRC_CONNECTORS, LIST_ROOM = 13 * DRC_CONNECTORS };

/* The four array properties, of which the first bytes are lent. */
struct arrays {
    size_t len[ARRAYS];
    uint8_t bytes[ARRAYS][ARRAY_ROOM + BEHIND];
};

enum { SECTION_ROOM = 64 };

/* A hot-plug section, of which the first bytes are lent. */
struct section {
    size_t len;
    uint8_t bytes[SECTION_ROOM + BEHIND];
};

enum { CHANGES_ROOM = DRC_CHANGE_WORDS * (DRC_CHANGES + 4) };

/* Changed nodes, of which the first words are lent. */
struct changes {
    size_t count;
    uint32_t words[CHANGES_ROOM + BEHIND];
};

/* room for more blocks than a list may have */
enum { MEMORY_ROOM = 4 + DRC_MEMORY_ENTRY_BYTES * (DRC_MEMORY_BLOCKS + 8) };

/* A memory list, old or new, of which the first bytes are lent. */
struct memory {
    size_t len;
    uint8_t bytes[MEMORY_ROOM + BEHIND];
};

void new_area(struct area *area);
/* A table into the checksum, whole. */
void sum_whole(const struct table *t);
void fresh(struct table *t);
int32_t add_connector(struct table *t, uint32_t kind, uint32_t index, uint32_t partition,
                      uint32_t parent);
int32_t add_resource(struct table *t, uint32_t kind);
int32_t place(struct table *t, uint32_t resource, uint32_t index);
int32_t retract(struct table *t, uint32_t index);
int32_t want_back(struct table *t, uint32_t index);
uint32_t free_count(const struct table *t, uint32_t kind);
uint32_t free_lowest(const struct table *t, uint32_t kind);
int32_t set_indicator(struct table *t, uint32_t partition, uint32_t token, uint32_t index,
                      uint32_t value);
int32_t get_sensor(const struct table *t, uint32_t partition, uint32_t token, uint32_t index);
/* Every second one is a call that says where a fault is. */
int32_t configure_connector(struct table *t, uint32_t partition, struct area *work, size_t len,
                            const struct blocks *tree);
int32_t configure_connector_at(struct table *t, uint32_t partition, struct area *work, size_t len,
                               const struct blocks *tree, uint32_t *fault);
uint32_t check_tree(const struct blocks *tree);
int32_t compare_trees(const struct blocks *one, const struct blocks *two);
/* A tree with the one that a reader has built. */
int32_t compare_read(const struct blocks *tree, const struct reader *r);
/* A new reader, with any bytes in buffers of these lengths. */
void new_reader(struct reader *r, size_t structure_len, size_t strings_len);
int32_t read_reply(struct reader *r, int32_t status, const struct area *work, size_t len);
/* Arrays into buffers with any bytes; on success their lengths. */
int32_t write_properties(const struct table *t, uint32_t partition, struct arrays *a,
                         size_t *lengths);
/* Arrays into a list with this room. */
int32_t read_properties(const struct arrays *a, size_t room);
/* An event into a section with any bytes. */
int32_t write_event(uint32_t modern, const uint32_t *event, struct section *s);
/* A section; on success its event. */
int32_t read_event(uint32_t modern, const struct section *s, uint32_t *event);
int32_t update_nodes(uint32_t scope, const struct changes *c, struct area *work, size_t len);
/* An area into changes with this room; on success their number of words. */
int32_t read_updates(const struct area *work, size_t len, size_t room, struct changes *c);
/* A list into this room, with any bytes in it; on success its length. */
int32_t memory_to_v2(uint64_t size, const struct memory *in, size_t room, struct memory *out);
int32_t memory_to_v1(uint64_t size, const struct memory *in, size_t room, struct memory *out);
int32_t connector_at(const struct table *t, uint32_t row, uint32_t *out);
int32_t resource_at(const struct table *t, uint32_t number);
int32_t find(const struct table *t, uint32_t index);
/* Every second one is a call that says where a fault is. */
int32_t walk_record(uint32_t *record, struct area *work, size_t len, const struct blocks *tree,
                    const struct table *t);
int32_t walk_record_at(uint32_t *record, struct area *work, size_t len, const struct blocks *tree,
                       const struct table *t, uint32_t *fault);

/* ---- tables.c, walks.c, readers.c, properties.c, hotplug.c, changes.c, memory.c */

uint32_t any_kind(void);
/* A word for wanted back: 1 is the only one that says so. */
uint32_t any_wanted(void);
/* An index that a table of a history, or one of any words, may have. */
uint32_t some_index(void);
/* A count of connectors or resources, also one over the limit. */
uint32_t any_count(void);
/* Words of which many name one another. */
void any_words(struct table *t);
/* Some of them changed. */
void other_words(struct table *t);
/* A list of calls on a fresh table. */
void history(void);
/* Calls on a table of any words. */
void any_table(void);
/* A whole walk, with a reader that builds the tree again. */
void rebuilt(void);
/* The walk of a lone record, from its start or from any words. */
void lone_record(void);
/* A whole walk of nodes that belong to connectors, one of which is unowned. */
void left_out(void);
/* A walk up to a damaged token, whose offset its -1 gives. */
void faults(void);
/* A reply of a walk, an end-node and the begin-node behind it as one where siblings are. */
int32_t follow(struct reader *r, bool siblings, bool *held, int32_t status, const struct area *work,
               size_t len);
/* Replies made up one by one, to a new reader. */
void made_up(void);
/* Any reader's record, any buffers, any reply. */
void any_record(void);
/* The arrays of the partitions of a table, and of numbers that are none. */
void every_partition(const struct table *t);
/* A table of connectors that were added, or one of any words, and its arrays. */
void reached_arrays(void);
void any_arrays(void);
/* Arrays that no table has, sound and damaged. */
void made_up_arrays(void);
/* Hot-plug events and sections, sound, damaged and of any bytes, in both forms. */
void events(void);
/* Changed nodes, reported and read, and areas that are damaged and made up. */
void changed_nodes(void);
/* Memory lists grouped and expanded, sound, with every fault, damaged and made up. */
void memory_lists(void);

#endif
