//! Readers that take another edition for the one named. Each must be found in every function that takes an edition.

/// What the edition named is taken for; one that is neither 1 nor 2 is refused.
pub type Renaming = fn(u32) -> u32;

/// The wrong ones.
pub const OTHER_EDITIONS: &[(&str, Renaming)] = &[
    ("edition 1 is read as 2", |edition| if edition == 1 { 2 } else { edition }),
    ("edition 2 is read as 1", |edition| if edition == 2 { 1 } else { edition }),
    ("the editions change places", |edition| [0, 2, 1].get(edition as usize).copied().unwrap_or(edition)),
    ("edition 1 is refused", |edition| if edition == 1 { 0 } else { edition }),
    ("edition 2 is refused", |edition| if edition == 2 { 3 } else { edition }),
    ("edition 0 is read as 1", |edition| if edition == 0 { 1 } else { edition }),
    ("edition 0 is read as 2", |edition| if edition == 0 { 2 } else { edition }),
    ("edition 3 is read as 1", |edition| if edition == 3 { 1 } else { edition }),
    ("edition 3 is read as 2", |edition| if edition == 3 { 2 } else { edition }),
    ("the greatest edition is read as 1", |edition| if edition == u32::MAX { 1 } else { edition }),
    ("editions count from 0", |edition| edition.wrapping_add(1)),
    ("every other edition is read as 1", |edition| if edition == 2 { 2 } else { 1 }),
    ("every other edition is read as 2", |edition| if edition == 1 { 1 } else { 2 }),
    ("later editions are read as 2", |edition| edition.min(2)),
    ("an edition is odd or even", |edition| 2 - edition % 2),
    ("an edition has 2 bits", |edition| edition & 3),
    ("an edition has 8 bits", |edition| edition & 0xFF),
    ("an edition has 16 bits", |edition| edition & 0xFFFF),
    ("an edition has 31 bits", |edition| edition & i32::MAX as u32),
];

/// Whether an edition is none.
pub fn is_wrong(edition: u32) -> bool {
    !radar_reference::numbers::EDITIONS.contains(&edition)
}
