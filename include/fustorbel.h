/*
 * Dynamic reconfiguration connectors: the calls of libfustorbel.a.
 *
 * The table is DRC_TABLE_WORDS words that the caller owns. One of 706 or 770
 * words, as by older headers, is no table of now: it is too short, and its
 * columns stood elsewhere. It is built anew by the calls. Any words are a
 * table, and any arguments get an answer: no call has a precondition on its
 * values. What the caller owes is the memory: each pointer is to as much of it
 * as the call says, none is NULL, what a call may change overlaps nothing else
 * that the call is handed, and no other call uses it meanwhile. A block of
 * bytes is a pointer and a length. The archive needs memcpy and memset.
 *
 * A kind is 1 CPU, 2 PHB, 3 SLOT or 8 MEM, and the top four bits of a
 * connector's index are its kind. Resources are numbered from 1, partitions
 * from 1 to DRC_PARTITIONS. An index or a resource of 0 is none.
 *
 * In words that no calls have led to, a count over its limit reads as the
 * limit, a state or a page that is none as 0, a word for wanted back that is
 * not 1 as 0, the first connector with an index counts, an empty connector may
 * be wanted back, and a resource that the ledger does not place at the
 * connector stays where the ledger says when the connector is emptied. A call
 * that changes a connector, or wants it back again, may write such a word of it
 * as it reads.
 *
 * A call changes what its comment says and nothing else. A negative answer is a
 * refusal: of those named, in their order, the first that applies. A refusal
 * changes nothing but the *number or *value that is then 0, and the *fault that
 * is always written.
 */
#ifndef FUSTORBEL_H
#define FUSTORBEL_H

#include <stddef.h>
#include <stdint.h>

#ifdef __cplusplus
extern "C" {
#endif

#define DRC_CONNECTORS 1024
#define DRC_RESOURCES 1024
#define DRC_PARTITIONS 32
#define DRC_TABLE_WORDS 12290
#define DRC_READER_WORDS 4
#define DRC_CONNECTOR_WORDS 10
#define DRC_RESOURCE_WORDS 2
#define DRC_EVENT_WORDS 5
#define DRC_LEGACY_SECTION_BYTES 16
#define DRC_MODERN_SECTION_BYTES 20
#define DRC_UPDATE_AREA_BYTES 4096
#define DRC_CHANGES 4096
#define DRC_CHANGE_WORDS 3
#define DRC_CHANGE_DELETE 1
#define DRC_CHANGE_UPDATE 2
#define DRC_CHANGE_ADD 3
#define DRC_MEMORY_BLOCKS 1024
#define DRC_MEMORY_ENTRY_BYTES 24
#define DRC_MEMORY_LIST_BYTES 24580

/* ---- The platform's own calls. */

/* Makes the table one with no connector and no resource: all words 0. */
void drc_fresh(uint32_t *table);

/*
 * Adds a connector, Unusable, empty and not wanted back, as the last row. The
 * parent is 0, or for a SLOT the index of a PHB connector of the same
 * partition.
 * 0; -11 kind unknown, or the index's top four bits differ from it; -12 index
 * in use; -13 partition not 1 to DRC_PARTITIONS; -14 parent given for another
 * kind, or not such a PHB; -15 there are DRC_CONNECTORS already.
 */
int32_t drc_add_connector(uint32_t *table, uint32_t kind, uint32_t index,
                          uint32_t partition, uint32_t parent);

/*
 * Adds a resource, in the pool, and writes its number to *number.
 * 0; -11 kind unknown; -15 there are DRC_RESOURCES already. A refusal writes 0
 * to *number.
 */
int32_t drc_add_resource(uint32_t *table, uint32_t kind, uint32_t *number);

/*
 * Places a resource of the pool at the connector with this index. The
 * connector's state stays as it is, and so does whether it is wanted back.
 * 0; -16 no such connector; -17 no such resource; -18 kinds differ; -19 not in
 * the pool; -20 the connector holds one already.
 */
int32_t drc_place(uint32_t *table, uint32_t resource, uint32_t index);

/*
 * Puts what stands at the connector with this index back in the pool. The
 * connector is no longer wanted back.
 * 0; -16 no such connector; -21 it holds nothing; -22 it is not Unusable.
 */
int32_t drc_retract(uint32_t *table, uint32_t index);

/*
 * Makes the connector with this index one that is wanted back, in whatever
 * state it is, until it is released or retracted. While it is Unusable and
 * wanted back it cannot be made usable; its partition sees it by that refusal
 * alone. Nothing else changes.
 * 0, also where it is wanted back already; -16 no such connector; -21 it holds
 * nothing.
 */
int32_t drc_want_back(uint32_t *table, uint32_t index);

/* How many resources of this kind are in the pool; 0 for an unknown kind. */
uint32_t drc_free_count(const uint32_t *table, uint32_t kind);

/*
 * The lowest number of a resource of this kind in the pool; 0 where there is
 * none, or the kind is unknown.
 */
uint32_t drc_free_lowest(const uint32_t *table, uint32_t kind);

/* ---- The partition's calls. Another partition's connector counts as none. */

/*
 * An order on the partition's own connector.
 * Token 9001, value 0 isolates: an Unisolated or Configured one becomes
 * Available, and a walk is dropped.
 * 9001, 1 unisolates: an Available one becomes Unisolated, with its walk at the
 * start.
 * 9003, 1 makes usable: an Unusable one becomes Available.
 * 9003, 0 makes unusable: an Available one is released, that is, it becomes
 * Unusable and is no longer wanted back, and its resource goes to the pool.
 * -3 no such connector or order; -9000 isolate of a Configured PHB with a slot
 * below that is not Unusable; -3 unisolate of an Unusable one, usable of an
 * Unusable one that is empty, or wanted back, or whose parent is given and not
 * Configured, unusable of an Unisolated or Configured one; else 0, which in the
 * states not named for the order leaves the table unchanged.
 */
int32_t drc_set_indicator(uint32_t *table, uint32_t partition, uint32_t token,
                          uint32_t index, uint32_t value);

/*
 * For token 9003, writes to *value 2 if the partition's own connector is
 * Unusable, else 1.
 * 0; -3 no such connector, or another token. A refusal writes 0 to *value.
 */
int32_t drc_get_sensor(const uint32_t *table, uint32_t partition,
                       uint32_t token, uint32_t index, uint32_t *value);

/*
 * One step of the walk over the tree in structure and strings. The work area
 * has big-endian words: 0 the connector's index, 1 zero; a reply writes 2 the
 * name's offset, 3 a value's length, 4 its offset, and name and value from
 * byte 20 on. No other byte changes.
 * Nodes that belong to an unowned connector are left out, with all below them,
 * and get no reply. A node below the root belongs to the connector whose index
 * is the value of its property ibm,my-drc-index: the first one of four bytes
 * that stands before its children. Unowned is a connector of the table, any
 * partition's, that is Unusable when the walk comes to the node's begin-node;
 * an index that no connector has leaves nothing out.
 * -3 work area not 4,096 or 8,192 bytes, word 1 not zero, or no such
 * connector; -9003 not Unisolated; -3 two pages that were not asked for, or one
 * after two were taken; -1 the tree cannot be read on from here, or not in a
 * node that is left out, or, of a node below the root, its properties cannot be
 * read up to the one that says whose it is, or to its first child or its end;
 * 5 the property needs a second page: only the asking is noted in the table,
 * the walk stays before what it left out, and the work area is unchanged; else
 * one token is taken: 2 begin-node, 3 property, 4 end-node, or 0 the root's
 * end-node, and the connector is Configured.
 */
int32_t drc_configure_connector(uint32_t *table, uint32_t partition,
                                uint8_t *work, size_t work_len,
                                const uint8_t *structure, size_t structure_len,
                                const uint8_t *strings, size_t strings_len);

/*
 * The same step, which also says where a fault is. It answers exactly what
 * drc_configure_connector does, leaves the same in the table and the work area,
 * and always writes *fault: with -1 the byte offset in structure of the token
 * at fault, which may be one that the block's end cuts short, or structure_len
 * where nothing but no-ops is left; but 0 where structure has more than 32,768
 * bytes or strings more than 4,096, or structure_len or the walk's place is not
 * a multiple of 4; with any other answer 0. In a node that is left out, and
 * among the properties that are read to see whose a node is, the token at fault
 * is the one where the fault is met, and not the node's begin-node.
 * A walk from its start that lends one tree at every call never answers -1 if
 * the tree passes drc_check_tree.
 */
int32_t drc_configure_connector_at(uint32_t *table, uint32_t partition,
                                   uint8_t *work, size_t work_len,
                                   const uint8_t *structure,
                                   size_t structure_len, const uint8_t *strings,
                                   size_t strings_len, uint32_t *fault);

/* ---- Trees, as a structure block and a strings block. */

/*
 * 1 where the tree may be lent to a walk, else 0; 0 also where two properties
 * of a node, or two children of a node, have one name. The blocks are only
 * read. This call and the next need at most 25 KB of stack.
 */
uint32_t drc_check_tree(const uint8_t *structure, size_t structure_len,
                        const uint8_t *strings, size_t strings_len);

/*
 * 1 where two trees are the same, 0 where they differ, -33 where either fails
 * the check. No-ops and the arrangement of the strings blocks do not count.
 */
int32_t drc_compare_trees(const uint8_t *structure, size_t structure_len,
                          const uint8_t *strings, size_t strings_len,
                          const uint8_t *structure2, size_t structure2_len,
                          const uint8_t *strings2, size_t strings2_len);

/*
 * ---- The guest's reader of a walk's replies. Its record is DRC_READER_WORDS
 * words: 0 and 1 how many bytes of the structure and the strings buffer are
 * used, 2 how many nodes are open, 3 the innermost one: 0 has no child yet,
 * 1 has a child; 2, and any other number, finished.
 */

/* Makes the record that of a reader before the first reply: all words 0. */
void drc_reader_fresh(uint32_t *reader);

/*
 * Reads one reply, its status and its work area, and writes what it adds after
 * the used bytes of the two buffers, of each of which at most the first
 * 131,072 bytes are used.
 * 0 the tree is finished; 1 taken; 2 waiting, for status 5 and 9900 to 9905;
 * -31 the reply makes no sense here; -32 no room for it. Any answer but 0 and 1
 * leaves the record and both buffers unchanged.
 */
int32_t drc_read_reply(uint32_t *reader, int32_t status,
                       const uint8_t *work, size_t work_len,
                       uint8_t *structure, size_t structure_len,
                       uint8_t *strings, size_t strings_len);

/*
 * ---- The four array properties of a partition's connectors. An array is a
 * big-endian count and then that many entries: in names and types a string with
 * its NUL, in indexes and domains a big-endian word.
 */

/*
 * Writes the arrays of the partition's connectors, in the order they were
 * added, each from the start of its buffer, and to lengths four words: the
 * lengths in bytes of names, indexes, domains and types. A type is CPU, PHB,
 * SLOT or MEM; a name is the type, a space and the decimal of the index's low
 * 28 bits, but a SLOT's is C and that decimal; a domain is FFFFFFFF. Connectors
 * of an unknown kind are left out. Any partition number gets an answer: one
 * without connectors gets four counts of 0. Bytes past the lengths are
 * unchanged, and so is the table.
 * 0; -32 a buffer is too short for its array, and all four buffers and lengths
 * are unchanged.
 */
int32_t drc_write_properties(const uint32_t *table, uint32_t partition,
                             uint8_t *names, size_t names_len,
                             uint8_t *indexes, size_t indexes_len,
                             uint8_t *domains, size_t domains_len,
                             uint8_t *types, size_t types_len,
                             uint32_t *lengths);

/*
 * Reads four such arrays and writes to out three big-endian words for each
 * connector, its index, the kind of its type and its domain, and to *written
 * how many bytes these are. Bytes of out past them are unchanged.
 * 0; -41 an array is cut short: it is under 4 bytes, or has fewer indexes or
 * domains than its count; -42 counts differ; -43 a string without its NUL, or
 * too few strings; -44 a type is unknown; -45 an array has bytes left over;
 * -46 out is too short. Each is looked for in all four arrays before the next.
 * A refusal leaves out and *written unchanged.
 */
int32_t drc_read_properties(const uint8_t *names, size_t names_len,
                            const uint8_t *indexes, size_t indexes_len,
                            const uint8_t *domains, size_t domains_len,
                            const uint8_t *types, size_t types_len,
                            uint8_t *out, size_t out_len, size_t *written);

/*
 * ---- The hot-plug event section, which tells a guest to add or to remove
 * connectors. Where modern is 0 it is legacy and has DRC_LEGACY_SECTION_BYTES,
 * where modern is any other number it has DRC_MODERN_SECTION_BYTES. An event is
 * DRC_EVENT_WORDS words: type (1 CPU, 2 memory, 3 slot, 4 PHB, 5 PCI), which is
 * not a kind: a PHB's kind is 2; action (1 add, 2 remove); identifier; count;
 * index. Identifier 2 names one connector by its index, and the count is 0;
 * 3 leaves the choice of so many to the guest, and the index is 0; 4, in a
 * modern section alone, names so many from that index on. Neither index nor
 * count is compared with a table or with the type, and each may be 0 beside
 * identifier 2 or 3.
 */

/*
 * Writes the event's section to out, over all its bytes.
 * 0; -41 out has 20 bytes and the section is legacy; -42 out's length is not
 * the section's; -45 identifier not 2, 3 or, if modern, 4; -46 type not 1 to 5;
 * -47 action not 1 or 2; -48 identifier 4 and count 0; -49 identifier 4 and the
 * last index passes FFFFFFFF; -50 the count beside an index, or the index
 * beside a count, is not 0.
 */
int32_t drc_write_event(uint32_t modern, const uint32_t *event,
                        uint8_t *out, size_t out_len);

/*
 * Reads the section and writes the five words of its event.
 * 0; -41 in has 20 bytes and the section is legacy; -42 in's length, or the one
 * that it states, is not the section's; -43 its id is not 0x4850; -44 its
 * version is not 1; -45 to -49 as above; -50 one of bytes 5 to 7 or 11 is not
 * 0, or of bytes 16 to 19 beside another identifier than 4.
 */
int32_t drc_read_event(uint32_t modern, const uint8_t *in, size_t in_len,
                       uint32_t *event);

/*
 * ---- The nodes that changed when a partition was moved, told to it over as
 * many calls as that takes. A change is DRC_CHANGE_WORDS words: its kind, which
 * is not a connector's, DRC_CHANGE_DELETE, DRC_CHANGE_UPDATE or DRC_CHANGE_ADD;
 * the phandle of the node that was deleted or updated, or of the parent of the
 * one that was added; and for an add the index of its connector, else any
 * number. None of these is compared with a table. A work area is
 * DRC_UPDATE_AREA_BYTES bytes, in big-endian words: 0 the state variable, 1 to
 * 3 zero, from 4 on operation lists, and then a zero word, the terminator. An
 * operation list is an operator, its first byte an opcode, that is the kind of
 * change, the other three the number of operands, and then these: a phandle for
 * each delete or update, the parent's phandle and the index for each add.
 */

/*
 * One call of update-nodes. The order of the changes is deletes, updates, adds,
 * each kind as it stands in the list; past as many as the state variable says,
 * as many are reported as fit whole, with one operator for each kind among them,
 * and always the terminator. The state variable is then the number of changes reported so
 * far, or 0 where none is left. The partition sets it to 0 for its first call
 * and hands words 0 to 3 on from each call to the next, and each is lent the
 * same changes; what the rest of the area held does not matter. A call that
 * answers 1 reports at least 509 changes, so that nine calls are enough. Bytes
 * after the terminator are unchanged, and so are the changes.
 * 1 more are left; 0 none is left, also where the state variable was the number
 * of changes already and none is reported; -3 scope not 1, more than
 * DRC_CHANGES changes, words not a multiple of DRC_CHANGE_WORDS, a change of
 * another kind, work_len not DRC_UPDATE_AREA_BYTES, one of bytes 4 to 15 not
 * zero, or a state variable over the number of changes, and the area is
 * unchanged.
 */
int32_t drc_update_nodes(uint32_t scope, const uint32_t *changes, size_t words,
                         uint8_t *work, size_t work_len);

/*
 * Reads the area of one call, and writes to out the words of each change in it,
 * in the order of the area, with index 0 for a delete or an update, and to
 * *written how many words these are. An operator without operands, whatever its opcode,
 * is skipped, but the zero word is the terminator. Neither words 0 to 3 nor
 * what stands after the terminator are looked at. Words of out past those
 * written are unchanged. No area has more than 3,054 words of changes.
 * 0; -41 work_len not DRC_UPDATE_AREA_BYTES; then, operator by operator, -42
 * its operands go past the area, -43 its opcode is unknown, -44 an add with an
 * odd number of operands, and -45 the area ends and no terminator came; after
 * all of them -46 out_words too few. A refusal leaves out and *written
 * unchanged.
 */
int32_t drc_read_updates(const uint8_t *work, size_t work_len,
                         uint32_t *out, size_t out_words, uint32_t *written);

/*
 * ---- The list of a partition's memory blocks, in the old form, that of
 * ibm,dynamic-memory, and the new one, that of ibm,dynamic-memory-v2, and from
 * each to the other. A list is a count in 4 bytes and that many entries of
 * DRC_MEMORY_ENTRY_BYTES; all numbers are big-endian. An old entry is a block:
 * its address in 64 bits, then in 32 each its index, a reserved word, its
 * associativity list index and its flags. A new entry is a set: in 32 bits how
 * many blocks, in 64 the address of the first, then in 32 each its index, its
 * associativity list index and its flags. Of the others in a set each has the
 * address of the one before and block_size more, its index and one more, and
 * the same two last words. A list has at most DRC_MEMORY_BLOCKS blocks: what is
 * written never needs more room than DRC_MEMORY_LIST_BYTES. Any block_size but
 * 0 will do, and any address, index, associativity list index and flags, but
 * for the -46: an address need not be a multiple of block_size, nothing is
 * compared with a table, and blocks may come in any order, overlap and be named
 * twice.
 */

/*
 * Reads an old list and writes to out the new list of its blocks, in their
 * order, and to *written how many bytes that has. A block goes into the set of
 * the one before it where its address is block_size more, its index one more
 * and its two last words the same; where such a sum leaves its 64 or 32 bits,
 * it does not. No shorter list of sets has these blocks, and drc_memory_to_v1
 * with this block_size makes of it the bytes of in again. Bytes of out past the
 * list are unchanged, and so is in.
 * 0; -41 block_size is 0; -42 in_len is under 4, or is not that of as many
 * entries as the count says; -43 the count is over DRC_MEMORY_BLOCKS; -44 a
 * reserved word is not 0; -47 out_len is too little for the new list. Each is
 * looked for in the whole list before the next. A refusal leaves out and
 * *written unchanged.
 */
int32_t drc_memory_to_v2(uint64_t block_size, const uint8_t *in, size_t in_len,
                         uint8_t *out, size_t out_len, uint32_t *written);

/*
 * Reads a new list and writes to out the old list of its blocks, set by set,
 * with reserved words of 0, and to *written how many bytes that has.
 * drc_memory_to_v2 with this block_size makes of it a new list that has the
 * same blocks and is no longer than in. Bytes of out past the list are
 * unchanged, and so is in.
 * 0; -41 block_size is 0; -42 in_len is under 4, or is not that of as many
 * entries as the count says; -43 the sets have more than DRC_MEMORY_BLOCKS
 * blocks together; -45 a set has no block; -46 a block's address leaves 64
 * bits, or its index 32, but a block may end past the last address; -47 out_len
 * is too little for the old list. Each is looked for in the whole list before
 * the next. A refusal leaves out and *written unchanged.
 */
int32_t drc_memory_to_v1(uint64_t block_size, const uint8_t *in, size_t in_len,
                         uint8_t *out, size_t out_len, uint32_t *written);

/* ---- What only looks at the table. */

/*
 * Writes DRC_CONNECTOR_WORDS words of the connector in this row, counted from
 * 0: index, kind, partition, parent, state (0 Unusable, 1 Available,
 * 2 Unisolated, 3 Configured), resource, of its walk the place, the depth and
 * the second page (0 neither asked for nor taken, 1 asked for, 2 taken), and 1
 * where it is wanted back, else 0. Lend DRC_CONNECTOR_WORDS words; without the
 * last they were nine, and where nine are lent, one past their end is written.
 * 0; -16 no such row, and out is unchanged.
 */
int32_t drc_connector_at(const uint32_t *table, uint32_t row, uint32_t *out);

/*
 * Writes DRC_RESOURCE_WORDS words of the resource with this number: its kind,
 * and the index of the connector where it stands, 0 for the pool.
 * 0; -17 no such resource, and out is unchanged.
 */
int32_t drc_resource_at(const uint32_t *table, uint32_t number, uint32_t *out);

/*
 * The row, counted from 0, of the first connector with this index: the row that
 * drc_connector_at takes. The table is unchanged.
 * -16 no such connector.
 */
int32_t drc_find(const uint32_t *table, uint32_t index);

#ifdef __cplusplus
}
#endif

#endif
