/*
 * One step of a walk on a connector record that its caller keeps: the two calls
 * of libwalk_record.a, for a hypervisor that keeps its own records. The calls
 * on the whole table are in fustorbel.h.
 */
#ifndef WALK_RECORD_H
#define WALK_RECORD_H

#include <stddef.h>
#include <stdint.h>

#ifdef __cplusplus
extern "C" {
#endif

#define DRC_RECORD_WORDS 10
#define DRC_TABLE_WORDS 12290

/*
 * The record is DRC_RECORD_WORDS words: index, kind, partition, parent, state
 * (0 Unusable, 1 Available, 2 Unisolated, 3 Configured), resource, of the walk
 * the place, the depth and the second page (0 neither asked for nor taken,
 * 1 asked for, 2 taken), and 1 where the connector is wanted back, else 0. A
 * state or a page that is none reads as 0, and so does a last word that is
 * not 1. Lend DRC_RECORD_WORDS words; without the last they were nine, and
 * where nine are lent, the call reaches past their end.
 * The table is DRC_TABLE_WORDS words, as the calls of fustorbel.h keep them, or
 * all 0, and is only read: it says which connectors are unowned, whose nodes are
 * left out as drc_configure_connector leaves them out. One of 706 or 770 words,
 * as by older headers, is no table of now. Any words are a table; where all are
 * 0 it has no connector, and nothing is left out. Record and work area overlap
 * nothing else that is lent, the table neither, and no other call uses them
 * meanwhile.
 * -3 work area not 4,096 or 8,192 bytes; -9003 not Unisolated; -3 two pages
 * that were not asked for, or one after two were taken; -1 the tree cannot be
 * read on from here, or not in a node that is left out, or, of a node below the
 * root, its properties cannot be read up to the one that says whose it is, or to
 * its first child or its end; 5 the property needs a second page: only the
 * asking is noted; 2 begin-node, 3 property, 4 end-node, 0 the root's end-node,
 * and the state is Configured.
 * Whose record it is, and words 0 and 1 of the work area, are the caller's to
 * see to. Words 4, 6, 7 and 8 of the record are written where the answer is not
 * negative, and of the work area what drc_configure_connector would write;
 * nothing else changes: the last word stays as it is, whatever it is, and no
 * answer depends on it.
 */
int32_t drc_walk_record(uint32_t *record, uint8_t *work, size_t work_len,
                        const uint8_t *structure, size_t structure_len,
                        const uint8_t *strings, size_t strings_len,
                        const uint32_t *table);

/*
 * The same step, which also says where a fault is. It answers exactly what
 * drc_walk_record does, leaves the same in the record and the work area, and
 * always writes *fault, which overlaps nothing else that is lent: with -1 the
 * byte offset in structure of the token at fault, which may be one that the
 * block's end cuts short, or structure_len where nothing but no-ops is left;
 * but 0 where structure has more than 32,768 bytes or strings more than 4,096,
 * or structure_len or the place is not a multiple of 4; with any other answer
 * 0. In a node that is left out, and among the properties that are read to see
 * whose a node is, the token at fault is the one where the fault is met, and
 * not the node's begin-node.
 */
int32_t drc_walk_record_at(uint32_t *record, uint8_t *work, size_t work_len,
                           const uint8_t *structure, size_t structure_len,
                           const uint8_t *strings, size_t strings_len,
                           const uint32_t *table, uint32_t *fault);

#ifdef __cplusplus
}
#endif

#endif
