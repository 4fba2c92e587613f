//! The busiest stretch (CR 7) asked of both sides: the number, the tick, all lent memory
//! and the engine's bytes must agree.

use super::{rows, Comparison, GUARD};
use crate::busiest::tally;
use crate::unit::Unit;

impl Comparison<'_> {
    /// Makes the call on both sides; ends the run at a difference. The number both gave,
    /// and what then stands where the tick goes.
    pub fn busiest_stretch(&mut self, records: &[u8], width: u32) -> (i64, u32) {
        self.call_number += 1;
        self.calls += 1;
        // Records at any place of memory, between guards; the tick between two numbers
        // that nobody may touch.
        let shift = self.random.place(8);
        let within = GUARD + shift..GUARD + shift + records.len();
        let mut lent = self.memory(shift + records.len());
        lent[within.clone()].copy_from_slice(records);
        let memory = lent.clone();
        let ticks = [0; 3].map(|_| self.random.draw() as u32);
        let (mut expected, mut found) = (ticks, ticks);
        let image = self.unit.image().to_vec();

        let wanted = self.reference.busiest_stretch(records, width, &mut expected[1]);
        let answer = self.unit.busiest_stretch(&memory[within], width, &mut found[1]);

        let same = [
            (answer == wanted, "the answers differ"),
            (found == expected, "the ticks differ"),
            (wanted > 0 || expected == ticks, "the reference wrote a tick where there is none"),
            (memory == lent, "the unit wrote into its records"),
            (self.unit.image() == image, "the engine's bytes changed"),
        ];
        if let Some((_, what)) = same.into_iter().find(|(agree, _)| !agree) {
            println!("call: busiest_stretch, width {width}, {} bytes", records.len());
            println!("records:\n{}", rows(records));
            println!("answers: reference {wanted}, unit {answer}");
            println!("ticks: as lent {ticks:?}, reference {expected:?}, unit {found:?}");
            self.fail(what);
        }
        tally::answered(&mut self.tally, records, width, answer, expected[1]);
        (answer, expected[1])
    }
}
