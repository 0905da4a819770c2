//! Hot-plug sections: events of every sort written, and sections read as they were written, damaged
//! and made up.

use crate::library;
use crate::rng::Rng;
use crate::tally::{differ, same, Call, Tally};
use drc::Form::{self, Legacy, Modern};
use drc::HotplugEvent;

/// Type, action, identifier, count and index.
type Event = [u32; 5];

const FORMS: [Form; 2] = [Legacy, Modern];

/// Every word but 0 asks for the modern form.
const MODERN_WORDS: [u32; 7] = [1, 2, 0xFF, 0x100, 0x1_0000, 1 << 31, u32::MAX];

/// Numbers next to the limits, and some with the same low bytes as others.
const EDGES: [u32; 23] = [
    0, 1, 2, 3, 4, 5, 6, 0x7F, 0x80, 0xFF, 0x100, 0x101, 0x102, 0x103, 0x104, 0xFFFF, 0x10000,
    0x10001, 0x10004, 0x7FFFFFFF, 0x80000000, 0xFFFFFFFE, 0xFFFFFFFF,
];

/// Lengths past every section's, and some with the same low bytes as those.
const LONG: [usize; 8] = [32, 36, 40, 272, 276, 4_096, 65_552, 65_556];

/// The identifiers that a form has.
fn identifiers(form: Form) -> &'static [u32] {
    match form {
        Legacy => &[2, 3],
        Modern => &[2, 3, 4],
    }
}

// ---- The calls.

fn form_word(rng: &mut Rng, form: Form) -> u32 {
    match form {
        Legacy => 0,
        Modern => rng.pick(&MODERN_WORDS),
    }
}

/// Writes an event on both sides, to so many bytes, with bytes behind that no call may touch. The
/// section, or none where both refuse.
fn write(
    rng: &mut Rng,
    tally: &mut Tally,
    form: Form,
    event: Event,
    lent: usize,
) -> Option<Vec<u8>> {
    let modern = form_word(rng, form);
    let mut out = vec![0; lent + 8];
    rng.fill(&mut out);
    let (mut library_out, lent_event) = (out.clone(), event);
    let written = HotplugEvent::from_words(event).write(Form::from_word(modern), &mut out[..lent]);
    let rust = written.err().unwrap_or(0);
    let library = library::write_event(modern, &lent_event, &mut library_out[..lent]);
    let call = || format!("write_event {modern:#x} {event:x?} out {lent}");
    let kind = match form {
        Legacy => Call::WriteLegacyEvent,
        Modern => Call::WriteModernEvent,
    };
    tally.answer(kind, call, rust.into(), library.into());
    same("the section", call, &out, &library_out);
    same("the event that is lent to read", call, &event, &lent_event);
    out.truncate(lent);
    written.is_ok().then_some(out)
}

/// Reads a section on both sides, to five words, with words behind that no call may touch. The
/// event, or none where both refuse.
fn read(rng: &mut Rng, tally: &mut Tally, form: Form, section: &[u8]) -> Option<Event> {
    let modern = form_word(rng, form);
    let before = section.to_vec();
    let mut words: [u32; 7] = std::array::from_fn(|_| rng.word());
    let mut library_words = words;
    let (event, _) = words.split_first_chunk_mut().unwrap();
    let (library_event, _) = library_words.split_first_chunk_mut().unwrap();
    let given = HotplugEvent::read(Form::from_word(modern), section);
    let rust = match given {
        Ok(given) => {
            *event = given.to_words();
            0
        }
        Err(refusal) => refusal,
    };
    let library = library::read_event(modern, section, library_event);
    let call = || format!("read_event {modern:#x} {before:02x?}");
    let kind = match form {
        Legacy => Call::ReadLegacyEvent,
        Modern => Call::ReadModernEvent,
    };
    tally.answer(kind, call, rust.into(), library.into());
    same("the event", call, &words, &library_words);
    same("the section that is lent to read", call, &before, section);
    given.ok().map(|event| event.to_words())
}

/// Writes an event; the section that it gives is read as that event.
fn write_and_read(rng: &mut Rng, tally: &mut Tally, form: Form, event: Event) {
    if let Some(section) = write(rng, tally, form, event, form.length()) {
        let again = read(rng, tally, form, &section);
        if again != Some(event) {
            differ("a trip", "the event that was written", &event, &again);
        }
    }
}

/// Reads a section; the event that it gives is written as that section.
fn read_and_write(rng: &mut Rng, tally: &mut Tally, form: Form, section: &[u8]) {
    if let Some(event) = read(rng, tally, form, section) {
        let again = write(rng, tally, form, event, form.length());
        if again.as_deref() != Some(section) {
            differ("a trip", "the section that was read", &section, &again);
        }
    }
}

// ---- Events, and sections that may be of any bytes.

/// A number at the edges, or any.
fn number(rng: &mut Rng) -> u32 {
    if rng.percent(50) {
        rng.pick(&EDGES)
    } else {
        rng.word() >> rng.below(32)
    }
}

/// A sound event with this identifier.
fn sound(rng: &mut Rng, identifier: u32) -> Event {
    let (event_type, action) = (rng.between(1, 5) as u32, rng.between(1, 2) as u32);
    let (count, index) = match identifier {
        2 => (0, number(rng)),
        3 => (number(rng), 0),
        _ => {
            let count = number(rng).max(1);
            (count, number(rng).min(u32::MAX - (count - 1)))
        }
    };
    [event_type, action, identifier, count, index]
}

/// The section of any event: of count and index, what its identifier does not put into the fourth
/// word is in the fifth.
fn section(form: Form, [event_type, action, identifier, count, index]: Event) -> Vec<u8> {
    let (fourth, fifth) = if identifier == 2 { (index, count) } else { (count, index) };
    let mut section = vec![0x48, 0x50, 0, form.length() as u8, 1, 0, 0, 0];
    section.extend([event_type as u8, action as u8, identifier as u8, 0]);
    section.extend(fourth.to_be_bytes());
    if form == Modern {
        section.extend(fifth.to_be_bytes());
    }
    section
}

// ---- Every one.

/// Sound events of every type, action and identifier, and their sections with each byte set to each
/// value.
fn every_byte(rng: &mut Rng, tally: &mut Tally, form: Form) {
    for (event_type, action) in (1..=5).flat_map(|event_type| [(event_type, 1), (event_type, 2)]) {
        for &identifier in identifiers(form) {
            let [_, _, _, count, index] = sound(rng, identifier);
            let event = [event_type, action, identifier, count, index];
            write_and_read(rng, tally, form, event);
            let sound = section(form, event);
            for at in 0..sound.len() {
                let mut damaged = sound.clone();
                for byte in 0..=255 {
                    damaged[at] = byte;
                    read_and_write(rng, tally, form, &damaged);
                }
            }
        }
    }
}

/// Every length lent, and in the section stated or not.
fn every_length(rng: &mut Rng, tally: &mut Tally, form: Form) {
    for lent in (0..=24).chain(LONG) {
        for &identifier in identifiers(form) {
            let event = sound(rng, identifier);
            write(rng, tally, form, event, lent);
            let mut bytes = section(form, event).repeat(lent / 16 + 1);
            bytes.truncate(lent);
            read(rng, tally, form, &bytes);
            if let Some(stated) = bytes.get_mut(2..4) {
                stated.copy_from_slice(&(lent as u16).to_be_bytes());
            }
            read(rng, tally, form, &bytes);
        }
    }
}

/// Any event, and its section.
fn either_way(rng: &mut Rng, tally: &mut Tally, form: Form, event: Event) {
    write_and_read(rng, tally, form, event);
    read_and_write(rng, tally, form, &section(form, event));
}

/// Events with each two of their words at the edges, and ranges that end next to the last index.
fn every_edge(rng: &mut Rng, tally: &mut Tally, form: Form) {
    for identifier in 2..=4 {
        for (one, other) in (0..5).flat_map(|other| (0..other).map(move |one| (one, other))) {
            let mut event = sound(rng, identifier);
            for (a, b) in EDGES.into_iter().flat_map(|a| EDGES.map(|b| (a, b))) {
                event[one] = a;
                event[other] = b;
                either_way(rng, tally, form, event);
            }
        }
    }
    for index in EDGES {
        for more in [u32::MAX - 1, u32::MAX, 0, 1, 2] {
            let count = index.wrapping_neg().wrapping_add(more);
            either_way(rng, tally, form, [2, 1, 4, count, index]);
        }
    }
}

/// What is the same at each run, but for the numbers in sound events.
pub fn every(rng: &mut Rng, tally: &mut Tally) {
    for form in FORMS {
        every_byte(rng, tally, form);
        every_length(rng, tally, form);
        every_edge(rng, tally, form);
    }
}

// ---- Some.

/// What can be wrong, each by the number of its refusal.
const FAULTS: [i32; 10] = [-41, -42, -43, -44, -45, -46, -47, -48, -49, -50];

/// Spoils an event, or how many bytes are lent for its section.
fn spoil_event(rng: &mut Rng, fault: i32, event: &mut Event, lent: &mut usize) {
    match fault {
        -41 => *lent = 20,
        -42 if rng.percent(50) => *lent = rng.pick(&[0, 1, 4, 12, 15, 16, 17, 19, 21, 24, 32]),
        -45 => event[2] = rng.pick(&[0, 1, 4, 5, 0x80, 0xFF, 0x102, 0x1_0003, u32::MAX]),
        -46 => event[0] = rng.pick(&[0, 6, 7, 0x80, 0xFF, 0x101, 0x1_0005, u32::MAX]),
        -47 => event[1] = rng.pick(&[0, 3, 4, 0x80, 0xFF, 0x101, 0x1_0002, u32::MAX]),
        -48 => [event[2], event[3]] = [4, 0],
        -49 => {
            let count = number(rng).max(2);
            let index = count.wrapping_neg() + rng.pick(&[1, count - 1]);
            [event[2], event[3], event[4]] = [4, count, index];
        }
        -50 if event[2] == 2 => event[3] = number(rng).max(1),
        -50 if event[2] == 3 => event[4] = number(rng).max(1),
        _ => {}
    }
}

/// Spoils what only a section has.
fn spoil_section(rng: &mut Rng, fault: i32, section: &mut [u8]) {
    let at = match fault {
        -42 => rng.pick(&[2, 3]),
        -43 => rng.pick(&[0, 1]),
        -44 => 4,
        -50 => rng.pick(&[5, 6, 7, 11]),
        _ => return,
    };
    section[at] ^= 1 << rng.below(8);
}

/// An event and a section with two things wrong, or one.
fn faulty(rng: &mut Rng, tally: &mut Tally, form: Form, faults: [i32; 2]) {
    let identifier = rng.pick(identifiers(form));
    let (mut event, mut lent) = (sound(rng, identifier), form.length());
    for fault in faults {
        spoil_event(rng, fault, &mut event, &mut lent);
    }
    write(rng, tally, form, event, lent);
    let mut section = section(form, event);
    for fault in faults {
        spoil_section(rng, fault, &mut section);
    }
    section.resize(lent, 0);
    read(rng, tally, form, &section);
}

/// An event with up to three words changed, and its section with up to three bytes changed.
fn changed(rng: &mut Rng, tally: &mut Tally, form: Form) {
    let identifier = rng.pick(identifiers(form));
    let mut event = sound(rng, identifier);
    for _ in 0..rng.below(4) {
        event[rng.below(5)] = number(rng);
    }
    write_and_read(rng, tally, form, event);
    let mut section = section(form, event);
    for _ in 0..rng.below(4) {
        let at = rng.below(section.len());
        section[at] = number(rng) as u8;
    }
    read_and_write(rng, tally, form, &section);
}

/// Any bytes, mostly as many as a section has, and mostly behind the start of one.
fn any_bytes(rng: &mut Rng, tally: &mut Tally, form: Form) {
    let lent = if rng.percent(80) { form.length() } else { rng.below(25) };
    let mut bytes = vec![0; lent];
    rng.fill(&mut bytes);
    let start = section(form, sound(rng, 2));
    let right = rng.pick(&[0, 4, 8, 9, 10, 11, 12]).min(lent);
    bytes[..right].copy_from_slice(&start[..right]);
    read_and_write(rng, tally, form, &bytes);
}

/// Each two faults, and what is made up.
pub fn some(rng: &mut Rng, tally: &mut Tally) {
    for form in FORMS {
        for faults in FAULTS.into_iter().flat_map(|one| FAULTS.map(|other| [one, other])) {
            faulty(rng, tally, form, faults);
        }
        for _ in 0..200 {
            changed(rng, tally, form);
            any_bytes(rng, tally, form);
        }
    }
}
