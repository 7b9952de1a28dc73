//! Calls that section 4 refuses, made by mistake or in a bad hour: they change nothing.

use super::firmware::{Form, STROKE};
use super::{Machine, MOST_FUEL};
use crate::calls::Answer;
use crate::limits::VALUE_BYTES;
use crate::script::{line, Act};

impl Machine {
    pub(super) fn refused_call(&mut self) {
        let form = self.record.form;
        let (function, ancillae) = (STROKE[form as usize], self.any_stroke(form));
        let other = if form == Form::Old { Form::Tick } else { Form::Old };
        let convert = |fuel, function, ancillae| Act::Convert { fuel, function, ancillae };
        let enough = MOST_FUEL;
        let act = match self.rng.below(10) {
            0 => convert(enough, STROKE[other as usize], self.any_stroke(other)),
            1 => convert(enough, *self.rng.pick(&[11, 64, u16::MAX]), ancillae),
            2 => convert(enough, function, Vec::new()),
            3 => convert(enough, function, [&ancillae[..], &[5]].concat()),
            4 => convert(self.rng.below(4) as u16, function, ancillae),
            5 => convert(enough + 1, function, ancillae),
            6 => Act::Rollback { fuel: self.rng.below(3) as u16 },
            7 => Act::Open { record: vec![4; VALUE_BYTES] },
            8 => Act::Open { record: [vec![4; VALUE_BYTES], vec![0]].concat() },
            _ => return self.in_too_short_a_buffer(convert(enough, function, ancillae)),
        };
        let answer = self.act(act, self.buffer);
        assert!(matches!(answer, Answer::Refused(_)), "a call that is refused: {:?}", line(&answer));
    }

    /// Just the fields fit: one more entry does not.
    fn in_too_short_a_buffer(&mut self, act: Act) {
        let answer = self.act(act, self.player.fields.len());
        assert!(matches!(answer, Answer::Refused(_)), "a buffer that is too short: {:?}", line(&answer));
    }

    fn any_stroke(&mut self, form: Form) -> Vec<u8> {
        let seconds = self.rng.below(16) as u8;
        super::Stroke { seconds, volume: self.rng.below(8) as u8 }.bytes(form)
    }
}
