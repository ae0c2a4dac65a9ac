//! Compares record by record, and makes the first difference small.

use crate::answers::{Answer, Room, Second, Voice, VOICES};
use reference::hex::to_hex;
use reference::listing::listing;
use reference::shrink::shrink;

/// The second implementation, and what was seen so far.
pub struct Tester {
    second: Second,
    /// How many records were compared.
    pub compared: usize,
    /// How often each answer came, 0 for a chart.
    pub seen: [usize; 13],
    /// How often words led to each other in each of the four ways.
    pub led: [usize; 4],
}

/// The first difference, for a person to read.
pub type Outcome = Result<(), String>;

impl Tester {
    /// A tester that has seen nothing.
    pub fn new() -> Tester {
        Tester {
            second: Second::new(),
            compared: 0,
            seen: [0; 13],
            led: [0; 4],
        }
    }

    /// Compares all voices on one record with lists of a length.
    pub fn record(&mut self, bytes: &[u8], room: Room) -> Outcome {
        let (expected, lists) = self.second.answer(bytes, room);
        self.compared += 1;
        self.seen[usize::from(expected.refusal)] += 1;
        for voice in VOICES {
            if voice.answer(bytes, lists.clone()) != expected {
                return Err(self.smallest(voice, bytes, room));
            }
        }
        Ok(())
    }

    /// What the second implementation and a voice answer.
    fn both(&mut self, voice: Voice, bytes: &[u8], room: Room) -> (Answer, Answer) {
        let (expected, lists) = self.second.answer(bytes, room);
        (expected, voice.answer(bytes, lists))
    }

    /// The smallest record found on which the two differ, and how.
    fn smallest(&mut self, voice: Voice, bytes: &[u8], room: Room) -> String {
        let small = shrink(bytes, |bytes| {
            let (expected, found) = self.both(voice, bytes, room);
            expected != found
        });
        let (expected, found) = self.both(voice, &small, room);
        let difference = found.difference(&expected).unwrap_or_default();
        format!(
            "record {}\nlists longer than needed by {:?}\n{} differs: {difference}\n\
             second implementation:\n{}",
            to_hex(&small),
            room.0,
            voice.name,
            listing(&small)
        )
    }
}
