//! Hot-plug sections, written and read: one memory block to add, in the legacy form, and a range to
//! remove, in the modern one.

use crate::{bench, library};
use drc::{Form, HotplugEvent};
use std::hint::black_box;

const CALLS: usize = 20_000;

/// Writes an event's section, and reads it.
pub fn write_and_read(name: &str, modern: u32, event: [u32; 5]) {
    let section = write(&format!("write-event, {name}"), modern, event);
    let again = read(&format!("read-event, {name}"), modern, &section);
    assert_eq!(again, event);
}

fn write(name: &str, modern: u32, event: [u32; 5]) -> Vec<u8> {
    let rust_event = HotplugEvent::from_words(event);
    let length = Form::from_word(modern).length();
    let (mut ours, mut rust) = (vec![0; length], vec![0; length]);
    let our_turn = || {
        for _ in 0..CALLS {
            let (event, out) = (black_box(&event), &mut ours[..]);
            assert_eq!(library::write_event(black_box(modern), event, out), 0);
        }
        CALLS
    };
    let rust_turn = || {
        for _ in 0..CALLS {
            let (event, out) = (black_box(&rust_event), &mut rust[..]);
            assert_eq!(event.write(Form::from_word(black_box(modern)), out), Ok(()));
        }
        CALLS
    };
    bench(name, our_turn, rust_turn);
    assert_eq!(ours, rust);
    ours
}

fn read(name: &str, modern: u32, section: &[u8]) -> [u32; 5] {
    let (mut ours, mut rust) = ([0; 5], Err(0));
    let our_turn = || {
        for _ in 0..CALLS {
            let (section, event) = (black_box(section), &mut ours);
            assert_eq!(library::read_event(black_box(modern), section, event), 0);
        }
        CALLS
    };
    let rust_turn = || {
        for _ in 0..CALLS {
            rust = HotplugEvent::read(Form::from_word(black_box(modern)), black_box(section));
            assert!(rust.is_ok());
        }
        CALLS
    };
    bench(name, our_turn, rust_turn);
    assert_eq!(rust.map(|event| event.to_words()), Ok(ours));
    ours
}
