//! The C interface of the proved library, and of the archive that walks a lone record.

use drc::{CONNECTOR_WORDS, READER_WORDS, TABLE_WORDS};

mod c {
    #[link(name = "fustorbel", kind = "static")]
    extern "C" {
        pub fn drc_fresh(table: *mut u32);
        pub fn drc_add_connector(
            table: *mut u32,
            kind: u32,
            index: u32,
            partition: u32,
            parent: u32,
        ) -> i32;
        pub fn drc_add_resource(table: *mut u32, kind: u32, number: *mut u32) -> i32;
        pub fn drc_place(table: *mut u32, resource: u32, index: u32) -> i32;
        pub fn drc_retract(table: *mut u32, index: u32) -> i32;
        pub fn drc_want_back(table: *mut u32, index: u32) -> i32;
        pub fn drc_free_count(table: *const u32, kind: u32) -> u32;
        pub fn drc_free_lowest(table: *const u32, kind: u32) -> u32;
        pub fn drc_set_indicator(
            table: *mut u32,
            partition: u32,
            token: u32,
            index: u32,
            value: u32,
        ) -> i32;
        pub fn drc_get_sensor(
            table: *const u32,
            partition: u32,
            token: u32,
            index: u32,
            value: *mut u32,
        ) -> i32;
        pub fn drc_configure_connector(
            table: *mut u32,
            partition: u32,
            work: *mut u8,
            work_len: usize,
            structure: *const u8,
            structure_len: usize,
            strings: *const u8,
            strings_len: usize,
        ) -> i32;
        pub fn drc_configure_connector_at(
            table: *mut u32,
            partition: u32,
            work: *mut u8,
            work_len: usize,
            structure: *const u8,
            structure_len: usize,
            strings: *const u8,
            strings_len: usize,
            fault: *mut u32,
        ) -> i32;
        pub fn drc_check_tree(
            structure: *const u8,
            structure_len: usize,
            strings: *const u8,
            strings_len: usize,
        ) -> u32;
        pub fn drc_compare_trees(
            structure: *const u8,
            structure_len: usize,
            strings: *const u8,
            strings_len: usize,
            structure2: *const u8,
            structure2_len: usize,
            strings2: *const u8,
            strings2_len: usize,
        ) -> i32;
        pub fn drc_reader_fresh(reader: *mut u32);
        pub fn drc_read_reply(
            reader: *mut u32,
            status: i32,
            work: *const u8,
            work_len: usize,
            structure: *mut u8,
            structure_len: usize,
            strings: *mut u8,
            strings_len: usize,
        ) -> i32;
        pub fn drc_write_properties(
            table: *const u32,
            partition: u32,
            names: *mut u8,
            names_len: usize,
            indexes: *mut u8,
            indexes_len: usize,
            domains: *mut u8,
            domains_len: usize,
            types: *mut u8,
            types_len: usize,
            lengths: *mut u32,
        ) -> i32;
        pub fn drc_read_properties(
            names: *const u8,
            names_len: usize,
            indexes: *const u8,
            indexes_len: usize,
            domains: *const u8,
            domains_len: usize,
            types: *const u8,
            types_len: usize,
            out: *mut u8,
            out_len: usize,
            written: *mut usize,
        ) -> i32;
        pub fn drc_write_event(modern: u32, event: *const u32, out: *mut u8, out_len: usize)
            -> i32;
        pub fn drc_read_event(
            modern: u32,
            section: *const u8,
            section_len: usize,
            event: *mut u32,
        ) -> i32;
        pub fn drc_update_nodes(
            scope: u32,
            changes: *const u32,
            words: usize,
            work: *mut u8,
            work_len: usize,
        ) -> i32;
        pub fn drc_read_updates(
            work: *const u8,
            work_len: usize,
            out: *mut u32,
            out_words: usize,
            written: *mut u32,
        ) -> i32;
        pub fn drc_memory_to_v2(
            block_size: u64,
            list: *const u8,
            list_len: usize,
            out: *mut u8,
            out_len: usize,
            written: *mut u32,
        ) -> i32;
        pub fn drc_memory_to_v1(
            block_size: u64,
            list: *const u8,
            list_len: usize,
            out: *mut u8,
            out_len: usize,
            written: *mut u32,
        ) -> i32;
        pub fn drc_connector_at(table: *const u32, row: u32, out: *mut u32) -> i32;
        pub fn drc_resource_at(table: *const u32, number: u32, out: *mut u32) -> i32;
        pub fn drc_find(table: *const u32, index: u32) -> i32;
    }

    #[link(name = "walk_record", kind = "static")]
    extern "C" {
        pub fn drc_walk_record(
            record: *mut u32,
            work: *mut u8,
            work_len: usize,
            structure: *const u8,
            structure_len: usize,
            strings: *const u8,
            strings_len: usize,
            table: *const u32,
        ) -> i32;
        pub fn drc_walk_record_at(
            record: *mut u32,
            work: *mut u8,
            work_len: usize,
            structure: *const u8,
            structure_len: usize,
            strings: *const u8,
            strings_len: usize,
            table: *const u32,
            fault: *mut u32,
        ) -> i32;
    }
}

pub type Words = [u32; TABLE_WORDS];

// Each call lends what the C interface asks for: a table of TABLE_WORDS words, a reader of
// READER_WORDS words, a connector of CONNECTOR_WORDS, an event of five, four lengths, a word for the
// place of a fault, slices with their lengths, and no byte twice.

pub fn fresh(table: &mut Words) {
    unsafe { c::drc_fresh(table.as_mut_ptr()) }
}

pub fn add_connector(table: &mut Words, kind: u32, index: u32, partition: u32, parent: u32) -> i32 {
    unsafe { c::drc_add_connector(table.as_mut_ptr(), kind, index, partition, parent) }
}

pub fn add_resource(table: &mut Words, kind: u32, number: &mut u32) -> i32 {
    unsafe { c::drc_add_resource(table.as_mut_ptr(), kind, number) }
}

pub fn place(table: &mut Words, resource: u32, index: u32) -> i32 {
    unsafe { c::drc_place(table.as_mut_ptr(), resource, index) }
}

pub fn retract(table: &mut Words, index: u32) -> i32 {
    unsafe { c::drc_retract(table.as_mut_ptr(), index) }
}

pub fn want_back(table: &mut Words, index: u32) -> i32 {
    unsafe { c::drc_want_back(table.as_mut_ptr(), index) }
}

pub fn free_count(table: &Words, kind: u32) -> u32 {
    unsafe { c::drc_free_count(table.as_ptr(), kind) }
}

pub fn free_lowest(table: &Words, kind: u32) -> u32 {
    unsafe { c::drc_free_lowest(table.as_ptr(), kind) }
}

pub fn set_indicator(table: &mut Words, partition: u32, token: u32, index: u32, value: u32) -> i32 {
    unsafe { c::drc_set_indicator(table.as_mut_ptr(), partition, token, index, value) }
}

pub fn get_sensor(table: &Words, partition: u32, token: u32, index: u32, value: &mut u32) -> i32 {
    unsafe { c::drc_get_sensor(table.as_ptr(), partition, token, index, value) }
}

pub fn configure_connector(
    table: &mut Words,
    partition: u32,
    work: &mut [u8],
    (structure, strings): (&[u8], &[u8]),
) -> i32 {
    unsafe {
        c::drc_configure_connector(
            table.as_mut_ptr(),
            partition,
            work.as_mut_ptr(),
            work.len(),
            structure.as_ptr(),
            structure.len(),
            strings.as_ptr(),
            strings.len(),
        )
    }
}

pub fn configure_connector_at(
    table: &mut Words,
    partition: u32,
    work: &mut [u8],
    (structure, strings): (&[u8], &[u8]),
    fault: &mut u32,
) -> i32 {
    unsafe {
        c::drc_configure_connector_at(
            table.as_mut_ptr(),
            partition,
            work.as_mut_ptr(),
            work.len(),
            structure.as_ptr(),
            structure.len(),
            strings.as_ptr(),
            strings.len(),
            fault,
        )
    }
}

pub fn check_tree((structure, strings): (&[u8], &[u8])) -> u32 {
    unsafe {
        c::drc_check_tree(structure.as_ptr(), structure.len(), strings.as_ptr(), strings.len())
    }
}

pub fn compare_trees(a: (&[u8], &[u8]), b: (&[u8], &[u8])) -> i32 {
    unsafe {
        c::drc_compare_trees(
            a.0.as_ptr(),
            a.0.len(),
            a.1.as_ptr(),
            a.1.len(),
            b.0.as_ptr(),
            b.0.len(),
            b.1.as_ptr(),
            b.1.len(),
        )
    }
}

pub fn reader_fresh(reader: &mut [u32; READER_WORDS]) {
    unsafe { c::drc_reader_fresh(reader.as_mut_ptr()) }
}

pub fn read_reply(
    reader: &mut [u32; READER_WORDS],
    status: i32,
    work: &[u8],
    structure: &mut [u8],
    strings: &mut [u8],
) -> i32 {
    unsafe {
        c::drc_read_reply(
            reader.as_mut_ptr(),
            status,
            work.as_ptr(),
            work.len(),
            structure.as_mut_ptr(),
            structure.len(),
            strings.as_mut_ptr(),
            strings.len(),
        )
    }
}

pub fn write_properties(
    table: &Words,
    partition: u32,
    [names, indexes, domains, types]: [&mut [u8]; 4],
    lengths: &mut [u32; 4],
) -> i32 {
    unsafe {
        c::drc_write_properties(
            table.as_ptr(),
            partition,
            names.as_mut_ptr(),
            names.len(),
            indexes.as_mut_ptr(),
            indexes.len(),
            domains.as_mut_ptr(),
            domains.len(),
            types.as_mut_ptr(),
            types.len(),
            lengths.as_mut_ptr(),
        )
    }
}

pub fn read_properties(
    [names, indexes, domains, types]: [&[u8]; 4],
    out: &mut [u8],
    written: &mut usize,
) -> i32 {
    unsafe {
        c::drc_read_properties(
            names.as_ptr(),
            names.len(),
            indexes.as_ptr(),
            indexes.len(),
            domains.as_ptr(),
            domains.len(),
            types.as_ptr(),
            types.len(),
            out.as_mut_ptr(),
            out.len(),
            written,
        )
    }
}

pub fn write_event(modern: u32, event: &[u32; 5], out: &mut [u8]) -> i32 {
    unsafe { c::drc_write_event(modern, event.as_ptr(), out.as_mut_ptr(), out.len()) }
}

pub fn read_event(modern: u32, section: &[u8], event: &mut [u32; 5]) -> i32 {
    unsafe { c::drc_read_event(modern, section.as_ptr(), section.len(), event.as_mut_ptr()) }
}

pub fn update_nodes(scope: u32, changes: &[u32], work: &mut [u8]) -> i32 {
    let (words, work_len) = (changes.len(), work.len());
    unsafe { c::drc_update_nodes(scope, changes.as_ptr(), words, work.as_mut_ptr(), work_len) }
}

pub fn read_updates(work: &[u8], out: &mut [u32], written: &mut u32) -> i32 {
    let (work_len, out_words) = (work.len(), out.len());
    unsafe { c::drc_read_updates(work.as_ptr(), work_len, out.as_mut_ptr(), out_words, written) }
}

pub fn memory_to_v2(block_size: u64, list: &[u8], out: &mut [u8], written: &mut u32) -> i32 {
    let (from, from_len, out_len) = (list.as_ptr(), list.len(), out.len());
    unsafe { c::drc_memory_to_v2(block_size, from, from_len, out.as_mut_ptr(), out_len, written) }
}

pub fn memory_to_v1(block_size: u64, list: &[u8], out: &mut [u8], written: &mut u32) -> i32 {
    let (from, from_len, out_len) = (list.as_ptr(), list.len(), out.len());
    unsafe { c::drc_memory_to_v1(block_size, from, from_len, out.as_mut_ptr(), out_len, written) }
}

pub fn connector_at(table: &Words, row: u32, out: &mut [u32; CONNECTOR_WORDS]) -> i32 {
    unsafe { c::drc_connector_at(table.as_ptr(), row, out.as_mut_ptr()) }
}

pub fn resource_at(table: &Words, number: u32, out: &mut [u32; 2]) -> i32 {
    unsafe { c::drc_resource_at(table.as_ptr(), number, out.as_mut_ptr()) }
}

pub fn find(table: &Words, index: u32) -> i32 {
    unsafe { c::drc_find(table.as_ptr(), index) }
}

pub fn walk_record(
    record: &mut [u32; CONNECTOR_WORDS],
    work: &mut [u8],
    (structure, strings): (&[u8], &[u8]),
    table: &Words,
) -> i32 {
    unsafe {
        c::drc_walk_record(
            record.as_mut_ptr(),
            work.as_mut_ptr(),
            work.len(),
            structure.as_ptr(),
            structure.len(),
            strings.as_ptr(),
            strings.len(),
            table.as_ptr(),
        )
    }
}

pub fn walk_record_at(
    record: &mut [u32; CONNECTOR_WORDS],
    work: &mut [u8],
    (structure, strings): (&[u8], &[u8]),
    table: &Words,
    fault: &mut u32,
) -> i32 {
    unsafe {
        c::drc_walk_record_at(
            record.as_mut_ptr(),
            work.as_mut_ptr(),
            work.len(),
            structure.as_ptr(),
            structure.len(),
            strings.as_ptr(),
            strings.len(),
            table.as_ptr(),
            fault,
        )
    }
}
