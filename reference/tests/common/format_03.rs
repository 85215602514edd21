//! Blocks of format 03 looked at from outside, character by character.

use super::walk::Seen;
use reference::cases::case::Call;
use std::collections::BTreeSet;

/// How often rubbish behind a first F was judged, by what stands before that F.
#[derive(Debug, Default)]
pub struct Rubbish {
    /// A PIN: the rubbish is 20.
    pub behind_pin: u32,
    /// Too few digits or too many: 24 comes first.
    pub behind_wrong_count: u32,
    /// A letter: 20 whatever follows.
    pub behind_letter: u32,
    /// Places, counted from 0, at which one nibble was all the rubbish behind a PIN.
    pub alone: BTreeSet<usize>,
}

impl Rubbish {
    /// That of the answering cases among some commands.
    pub fn in_commands<'a>(cases: impl IntoIterator<Item = &'a Seen>) -> Rubbish {
        let mut rubbish = Rubbish::default();
        for case in cases.into_iter().filter(|case| case.call == Call::Answer) {
            let format = case.walked.as_ref().map(|command| command.format);
            if format == Some(3) {
                rubbish.look(&case.runs[1], case.number);
            }
        }
        rubbish
    }

    /// Looks at a block of format 03 and at what its call answered. A number that is judged before
    /// the block says nothing of it.
    pub fn look(&mut self, block: &[u8], number: u32) {
        let Ok(block) = <[u8; 8]>::try_from(block) else { return };
        let characters = format!("{:016X}", u64::from_be_bytes(block));
        let Some((before, _)) = characters.split_once('F') else { return };
        let rubbish = Vec::from_iter((before.len()..16).filter(|&it| &characters[it..=it] != "F"));
        let is_reached = [0, 1, 20, 24, 81, 86].contains(&number);
        if !is_reached || rubbish.is_empty() {
            return;
        }
        let (times, wanted) = if !before.bytes().all(|character| character.is_ascii_digit()) {
            (&mut self.behind_letter, 20)
        } else if !(4..=12).contains(&before.len()) {
            (&mut self.behind_wrong_count, 24)
        } else {
            self.alone.extend(rubbish.first().filter(|_| rubbish.len() == 1));
            (&mut self.behind_pin, 20)
        };
        assert_eq!(number, wanted, "{characters}");
        *times += 1;
    }

    /// Each kind so often at least.
    pub fn assert_met(&self, times: u32) {
        let met = [self.behind_pin, self.behind_wrong_count, self.behind_letter];
        assert!(met.iter().all(|&met| met >= times), "{self:?}, not {times}");
    }
}
