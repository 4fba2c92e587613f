//! How often each rule, refusal and value occurred in a run. Every row is
//! declared beforehand, so one that never occurred can be named.

use crate::busiest;
use crate::lent_block;
use crate::reference::*;
use std::collections::HashMap;

/// The calls compared, by the names of the C interface.
#[derive(Clone, Copy, Debug, PartialEq, Eq)]
pub enum Call {
    Sample,
    Block,
    BlockRead,
    BlockWrite,
    BlockAppend,
    BlockStrikeOut,
    MessageCheck,
}

impl Call {
    pub const ALL: [Call; 7] = [
        Call::Sample,
        Call::Block,
        Call::BlockRead,
        Call::BlockWrite,
        Call::BlockAppend,
        Call::BlockStrikeOut,
        Call::MessageCheck,
    ];

    pub fn name(self) -> &'static str {
        match self {
            Call::Sample => "sample",
            Call::Block => "block",
            Call::BlockRead => "block_read",
            Call::BlockWrite => "block_write",
            Call::BlockAppend => "block_append",
            Call::BlockStrikeOut => "block_strike_out",
            Call::MessageCheck => "message_check",
        }
    }

    /// Whether the call is given the engine; only then may it change it.
    pub fn is_given_the_engine(self) -> bool {
        matches!(self, Call::Sample | Call::Block)
    }

    /// The refusals that the documents give this call, in their order, but for
    /// 21: only an engine lent as bytes can be outside its ranges.
    pub fn refusals(self) -> &'static [i32] {
        match self {
            Call::Sample => &[1, 2, 22, 3, 4, 5, 6, 7, 8, 23],
            Call::Block => &[1, 2, 9, 10, 11, 12, 22, 3, 4, 5, 6, 7, 8, 23],
            Call::BlockRead => &[1, 2, 9, 10, 11, 12, 3, 4, 5, 6, 7, 8],
            Call::BlockWrite => &[1, 2, 3, 4, 5, 6, 7, 8],
            Call::BlockAppend => &[1, 9, 10, 11, 12, 3, 4, 5, 6, 7, 8],
            Call::BlockStrikeOut => &[1, 9, 10, 11, 12, 3, 4, 5, 6, 7, 8, 34],
            Call::MessageCheck => &[13, 14],
        }
    }
}

/// Ticks of a still run at which stationarySince turns, and just before.
const SINCE_TURNS: [usize; 6] = [599, 600, 1_199, 1_200, 8_999, 9_000];

/// F at its limit for still and at the 32-bit floats on either side.
pub fn edges_of_still() -> [(&'static str, f32); 3] {
    let limit = 8.0_f32;
    [("8", limit), ("next above 8", limit.next_up()), ("next below 8", limit.next_down())]
}

pub const KINDS: [&str; 3] = ["New", "Update", "Cancel"];
const CONDITIONS: [&str; 8] = ["a", "b", "c", "d", "e", "f", "g", "h"];
const HAPPENINGS: [&str; 4] = ["eCall", "low severity", "pedestrian", "high severity"];

/// Losses, one of each length that has a row.
const LOSSES: [usize; 10] = [1, 2, 3, 4, 5, 6, 7, 8, 9, 51];

/// A loss's length as its row has it.
fn length(loss: usize) -> String {
    match loss {
        0..=8 => loss.to_string(),
        9..=50 => "9 to 50".to_string(),
        _ => "51 or more".to_string(),
    }
}

/// What a loss does to the countdown of warning 1 or 2.
const IN_COUNTDOWNS: [&str; 4] = [
    "readings lost in its countdown",
    "five readings lost in a row in its countdown",
    "its cycle's first tick without a reading",
    "its cycle's first tick the first reading after a loss",
];

/// What is so at the tick of a Cancel by distance alone; the last one is where the
/// distance that counted before CR 5, from the last New or Update, would bring none.
const MOVED: [&str; 5] = [
    "before its first Update",
    "between Updates",
    "its Update due by period",
    "its Update due by ignition off",
    "at most 5,000 dm from its last Update",
];

/// The side that the larger part of a distance lies to.
const SIDES: [&str; 4] = ["east", "west", "north", "south"];

/// What does not end a warning; the last one is where that other distance would.
const STAYS: [&str; 3] = [
    "exactly 5,000 dm from its New, before an Update",
    "exactly 5,000 dm from its New, after an Update",
    "more than 5,000 dm from its last Update",
];

/// The warnings that end with a Cancel.
pub const WITH_CANCEL: [u8; 3] = [STOPPED, BROKEN_DOWN, POST_CRASH];

/// Bytes of a record that 14 refuses as its warning has another value there:
/// which, their place, the warning, the value, and one that the warning has.
const MISFITS: [(&str, usize, u8, u8, u8); 18] = [
    ("kind", 0, UNRESPONSIVE_DRIVER, kind::CANCEL, kind::NEW),
    ("sub cause", 2, UNRESPONSIVE_DRIVER, 0, 8),
    ("sub cause", 2, UNRESPONSIVE_DRIVER, 2, 8),
    ("sub cause", 2, UNRESPONSIVE_DRIVER, 3, 8),
    ("cause", 3, UNRESPONSIVE_DRIVER, 94, 99),
    ("quality", 4, UNRESPONSIVE_DRIVER, 2, 1),
    ("quality", 4, UNRESPONSIVE_DRIVER, 3, 1),
    ("validity", 30, UNRESPONSIVE_DRIVER, 30, 2),
    ("validity", 30, UNRESPONSIVE_DRIVER, 180, 2),
    ("sub cause", 2, STOPPED, 8, 0),
    ("sub cause", 2, BROKEN_DOWN, 8, 2),
    ("sub cause", 2, POST_CRASH, 8, 3),
    ("cause", 3, STOPPED, 99, 94),
    ("cause", 3, BROKEN_DOWN, 99, 94),
    ("cause", 3, POST_CRASH, 99, 94),
    ("validity", 30, STOPPED, 2, 30),
    ("validity", 30, BROKEN_DOWN, 2, 30),
    ("validity", 30, POST_CRASH, 2, 180),
];

/// How warning 4 ends by these causes, which may be none where 3 overrules it.
fn how_4_ends(causes: &EndCauses) -> &'static str {
    match (causes.inactive, causes.still) {
        (true, true) => "bit clear and still",
        (true, false) => "bit clear",
        (false, true) => "still",
        (false, false) => "bit set and not still",
    }
}

#[derive(Default)]
pub struct Tally {
    rows: Vec<(String, u64)>,
    places: HashMap<String, usize>,
}

impl Tally {
    pub fn new() -> Tally {
        let mut tally = Tally::default();
        tally.declare_triggers();
        tally.declare_rules();
        tally.declare_unresponsive_driver();
        tally.declare_losses();
        tally.declare_distances();
        tally.declare_order();
        tally.declare_fields();
        tally.declare_calls();
        lent_block::tally::declare(&mut tally);
        busiest::tally::declare(&mut tally);
        tally
    }

    pub fn declare(&mut self, row: impl Into<String>) {
        let row = row.into();
        self.places.insert(row.clone(), self.rows.len());
        self.rows.push((row, 0));
    }

    pub fn count(&mut self, row: &str) {
        let place = *self.places.get(row).unwrap_or_else(|| panic!("no row '{row}' declared"));
        self.rows[place].1 += 1;
    }

    pub fn count_if(&mut self, occurred: bool, row: &str) {
        if occurred {
            self.count(row);
        }
    }

    pub fn print(&self) {
        for (row, count) in &self.rows {
            println!("{count:>12}  {row}");
        }
    }

    pub fn never_occurred(&self) -> Vec<&str> {
        self.rows.iter().filter(|(_, count)| *count == 0).map(|(row, _)| row.as_str()).collect()
    }

    fn declare_triggers(&mut self) {
        for warning in 1..=2 {
            for k in 0..=4 {
                self.declare(format!("trigger of {warning}: countdown with k = {k}"));
            }
            for name in &CONDITIONS[4..] {
                self.declare(format!("trigger of {warning}: condition {name}"));
            }
            self.declare(format!("trigger of {warning}: at its cycle's first tick"));
            self.declare(format!("trigger of {warning}: a condition twice in one cycle"));
            self.declare(format!("trigger of {warning}: graded below what shortened it"));
            self.declare(format!("trigger of {warning}: a tick later, as 4 stood before"));
        }
        for name in HAPPENINGS {
            self.declare(format!("trigger of 3: {name} alone, still"));
        }
        self.declare("trigger of 3: high severity, not still");
        self.declare("trigger of 3: happening waited for still");
        self.declare("trigger of 3: bit 4 set too");
        self.declare("trigger of 3: bit 4 set too, quality 1");
        self.declare("trigger of 3: window from tick 0");
        self.declare("trigger of 3: window from 150 back");
        self.declare("trigger of 3: window from its own Cancel");
        self.declare("trigger of 3: happening 150 ticks back alone");
        self.declare("trigger of 3: happening at its Cancel's tick alone");
        self.declare("no trigger of 3: happening 151 ticks back, still");
        self.declare("no trigger of 3: happening before its Cancel, still");
        for name in CONDITIONS {
            self.declare(format!("condition {name} becomes fulfilled"));
        }
        for name in ["belt", "ignition"] {
            self.declare(format!("{name} off from tick 0 is no switch-off"));
        }
        self.declare("still with a reading above 8");
        self.declare("not still with a reading of at most 8");
        self.declare("no reading yet");
        for (name, _) in edges_of_still() {
            self.declare(format!("F is {name}"));
        }
    }

    fn declare_rules(&mut self) {
        for warning in BY_RANK {
            self.declare(format!("rule 1: New of {warning}, none standing"));
        }
        for (standing, warning) in [(1, 2), (1, 4), (1, 3), (2, 4), (2, 3)] {
            self.declare(format!("rule 1: {standing} overruled by {warning}"));
            self.declare(format!("rule 1: {standing} overruled by {warning}, Cancel due"));
            self.declare(format!("rule 1: {standing} overruled by {warning}, Update due"));
        }
        for lower in [STOPPED, BROKEN_DOWN, UNRESPONSIVE_DRIVER] {
            self.declare(format!("rule 1: 3 taken while {lower} triggers too"));
        }
        for warning in WITH_CANCEL {
            self.declare(format!("rule 2: Cancel of {warning}, not still"));
            if warning != POST_CRASH {
                self.declare(format!("rule 2: Cancel of {warning}, hazard lights off"));
            }
            self.declare(format!("rule 2: Cancel of {warning}, moved"));
            self.declare(format!("rule 2: Cancel of {warning} while its Update is due"));
        }
        self.declare("no Cancel of 3: not still for 151 ticks, some before its New");
        self.declare("no Cancel of 3: hazard lights off");
        for warning in WITH_CANCEL {
            self.declare(format!("rule 3: Update of {warning}, period"));
            self.declare(format!("rule 3: Update of {warning}, ignition"));
            self.declare(format!("rule 3: Update of {warning}, period and ignition"));
        }
    }

    fn declare_unresponsive_driver(&mut self) {
        for what in [
            "at tick 0",
            "no reading yet",
            "F above 8",
            "reading lost, not still at the last one",
            "sixth missing reading",
            "later missing reading",
            "still at the tick before with the bit set",
            "bit clear for one tick while not still",
            "still for one tick with the bit set",
            "a tick after the Cancel of 3",
        ] {
            self.declare(format!("trigger of 4: {what}"));
        }
        self.declare("no trigger of 4: 3 stands");
        self.declare("no trigger of 4: at the tick of the Cancel of 3");
        self.declare("no trigger of 3 or 4: bit 4 set, still");
        self.declare("rule 1: 4 overruled by 3, bit set and not still");
        self.declare("rule 1: 4 overruled by 3, Update due");
        for rule in ["rule 1: 4 overruled by 3", "rule 2: end of 4"] {
            for how in ["bit clear", "still", "bit clear and still"] {
                self.declare(format!("{rule}, {how}"));
            }
        }
        self.declare("rule 2: end of 4 while its Update is due");
        for what in [
            "not still for 51 ticks since its New",
            "hazard lights off",
            "ignition switched off",
            "more than 5,000 dm from its New",
        ] {
            self.declare(format!("no effect on 4: {what}"));
        }
        self.declare("rule 3: Update of 4, period");
    }

    /// Losses of readings (CR 2), and what falls in them.
    fn declare_losses(&mut self) {
        for before in ["still", "not still", "no reading yet"] {
            for loss in LOSSES {
                self.declare(format!("loss of {} after {before}", length(loss)));
            }
        }
        for loss in ["that keeps still", "that ends still", "without still"] {
            for after in ["still", "not still"] {
                self.declare(format!("loss {loss}, then {after}"));
            }
        }
        for warning in [STOPPED, BROKEN_DOWN] {
            for what in IN_COUNTDOWNS {
                self.declare(format!("trigger of {warning}: {what}"));
            }
        }
        self.declare("trigger of 3: still without a reading");
        self.declare("trigger of 3: at the first reading after a loss");
        self.declare("no trigger of 4: bit 4 set, still without a reading");
        self.declare("rule 2: end of 4, at the first reading after a loss");
        for warning in WITH_CANCEL {
            self.declare(format!("rule 2: Cancel of {warning}, not still by a loss"));
            self.declare(format!("no Cancel of {warning}: still again where a loss has it due"));
            self.declare(format!("Cancel of {warning} without a reading"));
        }
        for warning in BY_RANK {
            self.declare(format!("New of {warning} without a reading"));
            self.declare(format!("Update of {warning} without a reading"));
        }
        for since in 0..=3 {
            self.declare(format!("stationarySince {since}, readings lost in its still run"));
        }
        for ticks in SINCE_TURNS {
            self.declare(format!("New or Update after {ticks} ticks of still, readings lost"));
        }
    }

    /// What the distance from the New ends, and what it does not (CR 5).
    fn declare_distances(&mut self) {
        for warning in WITH_CANCEL {
            for what in MOVED {
                self.declare(format!("rule 2: Cancel of {warning}, moved alone: {what}"));
            }
            for side in SIDES {
                let row = format!("rule 2: Cancel of {warning}, moved alone: {side}");
                self.declare(format!("{row} after an Update"));
            }
            for what in STAYS {
                self.declare(format!("no Cancel of {warning}: {what}"));
            }
        }
    }

    /// "One Cancel stands between neighbouring New messages where the earlier
    /// isn't of 4, none where it is" (CR 1): no other number has a row.
    fn declare_order(&mut self) {
        for earlier in BY_RANK {
            let cancels = usize::from(earlier != UNRESPONSIVE_DRIVER);
            for later in BY_RANK {
                self.declare(format!("New of {earlier}, {cancels} Cancel, New of {later}"));
            }
        }
    }

    fn declare_fields(&mut self) {
        for kind in ["New", "Update"] {
            self.declare(format!("{kind} of 4, quality 1"));
            self.declare(format!("{kind} of 4, stationarySince 0"));
        }
        for kind in KINDS {
            for warning in WITH_CANCEL {
                for quality in 1..=3 {
                    self.declare(format!("{kind} of {warning}, quality {quality}"));
                }
                for since in 0..=3 {
                    self.declare(format!("{kind} of {warning}, stationarySince {since}"));
                }
            }
        }
        for ticks in SINCE_TURNS {
            self.declare(format!("New or Update after {ticks} ticks of still"));
        }
        for road_type in [0, 1, 2, 3, ROAD_OMITTED] {
            self.declare(format!("roadType {road_type}"));
        }
        for road in 0..=6 {
            self.declare(format!("message on road {road}"));
        }
        self.declare("heading unknown in a message");
        self.declare("validity 30 of warning 2");
        self.declare("validity 180 of warning 2");
        self.declare("New and Cancel of one event at neighbouring ticks");
    }

    fn declare_calls(&mut self) {
        for call in Call::ALL {
            self.declare(format!("{} accepted", call.name()));
            for number in call.refusals() {
                self.declare(format!("{} refused {number}", call.name()));
            }
        }
        for bit in 5..=7 {
            self.declare(format!("sample refused 5 for bit {bit} alone"));
        }
        for (field, _, warning, value, _) in MISFITS {
            self.declare(format!("message_check refused 14 for {field} {value} of {warning}"));
        }
        for messages in 0..=2 {
            self.declare(format!("sample call gave {messages} messages"));
        }
        for messages in 0..=4 {
            self.declare(format!("block call gave {messages} messages"));
        }
    }

    /// Counts the answer to a call with this input and, before the call, this lent
    /// memory.
    pub fn answered(&mut self, call: Call, input: &[u8], lent: &[u8], answer: i32) {
        if matches!(call, Call::BlockAppend | Call::BlockStrikeOut) {
            lent_block::tally::answered(self, call, input, lent, answer);
        }
        if answer < 0 {
            self.count(&format!("{} refused {}", call.name(), -answer));
            match (call, -answer) {
                (Call::Sample, 5) => self.refused_bits(input[8] & !happening::ALL),
                (Call::MessageCheck, 14) => self.misfits_of(input),
                _ => (),
            }
            return;
        }
        self.count(&format!("{} accepted", call.name()));
        if call.is_given_the_engine() && answer <= 4 {
            self.count(&format!("{} call gave {answer} messages", call.name()));
        }
    }

    fn refused_bits(&mut self, bits: u8) {
        for bit in 5..=7 {
            self.count_if(bits == 1 << bit, &format!("sample refused 5 for bit {bit} alone"));
        }
    }

    /// Counts the value that alone got a record refused, if there is one.
    fn misfits_of(&mut self, record: &[u8]) {
        for (field, at, warning, value, right) in MISFITS {
            if record[1] != warning || record[at] != value {
                continue;
            }
            let mut mended = record.to_vec();
            mended[at] = right;
            let alone = Message::from_record(&mended).is_ok();
            let row = format!("message_check refused 14 for {field} {value} of {warning}");
            self.count_if(alone, &row);
        }
    }

    /// Counts what occurred at tick i of the history, where `given` are the
    /// messages of this tick.
    pub fn ticked(&mut self, history: &History, i: usize, given: &[Message]) {
        self.facts_at(history, i);
        let standing = history.stood_before(i);
        match given {
            [] => self.nothing_given(history, standing, i),
            [.., last] if last.kind == kind::NEW => self.new_given(history, standing, last, i),
            [cancel, ..] if cancel.kind == kind::CANCEL => self.cancel_given(history, standing, i),
            _ => self.update_given(history, standing, i),
        }
        for message in given {
            self.fields_of(history, message, i);
        }
    }

    fn facts_at(&mut self, history: &History, i: usize) {
        let sample = &history.samples()[i];
        let still = history.still(i);
        let before = if i == 0 { 0 } else { history.fulfilled(i - 1) };
        let newly = history.fulfilled(i) & !before;
        for (place, name) in CONDITIONS.iter().enumerate() {
            if newly >> place & 1 != 0 {
                self.count(&format!("condition {name} becomes fulfilled"));
            }
        }
        match sample.reading() {
            None => {
                let none = history.samples()[..=i].iter().all(|s| s.reading().is_none());
                self.count_if(none, "no reading yet");
            }
            Some(x) => {
                self.count_if(still && x > 8, "still with a reading above 8");
                self.count_if(!still && x <= 8, "not still with a reading of at most 8");
                self.loss_before(history, i);
            }
        }
        for (name, edge) in edges_of_still() {
            if history.filter(i) == Some(edge) {
                self.count(&format!("F is {name}"));
            }
        }
        if i == 30 {
            for (name, switch) in [("belt", switch::BELT), ("ignition", switch::IGNITION)] {
                let off = history.samples()[..=i].iter().all(|s| !s.on(switch));
                self.count_if(off, &format!("{name} off from tick 0 is no switch-off"));
            }
        }
    }

    /// Counts the loss that the reading at tick i ends, if one does.
    fn loss_before(&mut self, history: &History, i: usize) {
        let loss = missing(&history.samples()[..i]);
        if loss == 0 {
            return;
        }
        let word = |still: bool| if still { "still" } else { "not still" };
        let first = i - loss;
        let before = if first == 0 { "no reading yet" } else { word(history.still(first - 1)) };
        self.count(&format!("loss of {} after {before}", length(loss)));
        let how = match (history.still(first), history.still(i - 1)) {
            (true, true) => "that keeps still",
            (true, false) => "that ends still",
            _ => "without still",
        };
        self.count(&format!("loss {how}, then {}", word(history.still(i))));
    }

    fn nothing_given(&mut self, history: &History, standing: u8, i: usize) {
        if standing == UNRESPONSIVE_DRIVER {
            self.nothing_given_of_4(history, i);
        } else if standing != NONE {
            self.stays(history, standing, i);
            let again = history.still(i) && due_by_loss(history, standing, i);
            let row = format!("no Cancel of {standing}: still again where a loss has it due");
            self.count_if(again, &row);
        }
        if standing == POST_CRASH {
            let long = rules(standing).cancel_delay.is_some_and(|d| history.not_still_for(d, i));
            self.count_if(long, "no Cancel of 3: not still for 151 ticks, some before its New");
            let lights_off = !history.samples()[i].on(switch::HAZARD);
            self.count_if(lights_off, "no Cancel of 3: hazard lights off");
            self.count_if(history.triggers(UNRESPONSIVE_DRIVER, i), "no trigger of 4: 3 stands");
        }
        if standing == NONE && history.still(i) {
            self.forgotten_happenings(history, i);
            let active = history.mitigation_active(i);
            self.count_if(active, "no trigger of 3 or 4: bit 4 set, still");
            let lost = active && history.samples()[i].reading().is_none();
            self.count_if(lost, "no trigger of 4: bit 4 set, still without a reading");
        }
    }

    /// Warning 4 ends, or stays whatever would end or update another.
    fn nothing_given_of_4(&mut self, history: &History, i: usize) {
        let causes = history.end_causes(i);
        if causes.any() {
            self.count(&format!("rule 2: end of 4, {}", how_4_ends(&causes)));
            let due = history.update_causes(i).any();
            self.count_if(due, "rule 2: end of 4 while its Update is due");
            let after_loss = causes.still && missing(&history.samples()[..i]) > MOST_MISSING;
            self.count_if(after_loss, "rule 2: end of 4, at the first reading after a loss");
            return;
        }
        for (occurred, what) in [
            (history.not_still_since_new(50, i), "not still for 51 ticks since its New"),
            (!history.samples()[i].on(switch::HAZARD), "hazard lights off"),
            (history.ignition_switched_off(i), "ignition switched off"),
            (history.square_moved(i) > SQUARE_TOO_FAR, "more than 5,000 dm from its New"),
        ] {
            self.count_if(occurred, &format!("no effect on 4: {what}"));
        }
    }

    fn forgotten_happenings(&mut self, history: &History, i: usize) {
        let first = history.first_counted(i);
        let just_over = i > 150 && history.happenings(i - 151, i - 151) != 0;
        self.count_if(just_over, "no trigger of 3: happening 151 ticks back, still");
        let oldest = i.saturating_sub(150);
        let before_cancel = oldest < first && history.happenings(oldest, first - 1) != 0;
        self.count_if(before_cancel, "no trigger of 3: happening before its Cancel, still");
    }

    fn new_given(&mut self, history: &History, standing: u8, new: &Message, i: usize) {
        let warning = new.warning;
        if standing == NONE {
            self.count(&format!("rule 1: New of {warning}, none standing"));
        } else {
            self.overruled(history, standing, warning, i);
        }
        match warning {
            POST_CRASH => self.crash_trigger(history, standing, i),
            UNRESPONSIVE_DRIVER => self.mitigation_trigger(history, standing, i),
            _ => self.cycle_trigger(history, new, i),
        }
        self.order_of(history, new);
    }

    fn overruled(&mut self, history: &History, standing: u8, warning: u8, i: usize) {
        let row = format!("rule 1: {standing} overruled by {warning}");
        let causes = history.end_causes(i);
        if has_cancel(standing) {
            self.count(&row);
            self.count_if(causes.any(), &format!("{row}, Cancel due"));
        } else {
            self.count(&format!("{row}, {}", how_4_ends(&causes)));
        }
        self.count_if(history.update_causes(i).any(), &format!("{row}, Update due"));
    }

    /// Counts a New by the New before it and the Cancels between them.
    fn order_of(&mut self, history: &History, new: &Message) {
        let messages = history.messages();
        let place = messages.iter().rposition(|m| m == new).expect("it was given");
        let Some(before) = messages[..place].iter().rposition(|m| m.kind == kind::NEW) else {
            return;
        };
        let between = &messages[before..place];
        let cancels = between.iter().filter(|m| m.kind == kind::CANCEL).count();
        let earlier = messages[before].warning;
        self.count(&format!("New of {earlier}, {cancels} Cancel, New of {}", new.warning));
    }

    fn mitigation_trigger(&mut self, history: &History, standing: u8, i: usize) {
        let row = |what: &str| format!("trigger of 4: {what}");
        self.count_if(i == 0, &row("at tick 0"));
        self.count(&row(match missing(&history.samples()[..=i]) {
            0 => "F above 8",
            lost if lost > i => "no reading yet",
            lost if !history.still(i - lost) => "reading lost, not still at the last one",
            lost if lost == MOST_MISSING + 1 => "sixth missing reading",
            _ => "later missing reading",
        }));
        if i == 0 {
            return;
        }
        let still = history.still(i - 1);
        let active = history.mitigation_active(i - 1);
        self.count_if(still && active, &row("still at the tick before with the bit set"));
        if standing == NONE {
            let stood = history.stood_before(i - 1);
            let ended = stood == UNRESPONSIVE_DRIVER;
            self.count_if(ended && !still, &row("bit clear for one tick while not still"));
            self.count_if(ended && active, &row("still for one tick with the bit set"));
            self.count_if(stood == POST_CRASH, &row("a tick after the Cancel of 3"));
        }
    }

    fn crash_trigger(&mut self, history: &History, standing: u8, i: usize) {
        for lower in &BY_RANK[rank(standing)..rank(POST_CRASH) - 1] {
            let too = history.triggers(*lower, i);
            self.count_if(too, &format!("rule 1: 3 taken while {lower} triggers too"));
        }
        let first = history.first_counted(i);
        let counted = history.happenings(first, i);
        for (place, name) in HAPPENINGS.iter().enumerate() {
            let alone = counted == 1 << place && history.still(i);
            self.count_if(alone, &format!("trigger of 3: {name} alone, still"));
        }
        let waited = history.happenings(i, i) == 0;
        self.count_if(!history.still(i), "trigger of 3: high severity, not still");
        self.count_if(waited, "trigger of 3: happening waited for still");
        let by_still = counted & happening::HIGH_SEVERITY == 0;
        let lost = by_still && history.samples()[i].reading().is_none();
        self.count_if(lost, "trigger of 3: still without a reading");
        let after_loss = by_still && missing(&history.samples()[..i]) > MOST_MISSING;
        self.count_if(after_loss, "trigger of 3: at the first reading after a loss");
        let active = history.mitigation_active(i);
        self.count_if(active, "trigger of 3: bit 4 set too");
        let pressed = active && counted == happening::ECALL;
        self.count_if(pressed, "trigger of 3: bit 4 set too, quality 1");
        self.crash_window(history, first, i);
    }

    fn crash_window(&mut self, history: &History, first: usize, i: usize) {
        let only_first = first < i && history.happenings(first + 1, i) == 0;
        if first > i.saturating_sub(150) {
            self.count("trigger of 3: window from its own Cancel");
            self.count_if(only_first, "trigger of 3: happening at its Cancel's tick alone");
        } else if i > 150 {
            self.count("trigger of 3: window from 150 back");
            self.count_if(only_first, "trigger of 3: happening 150 ticks back alone");
        } else {
            self.count("trigger of 3: window from tick 0");
        }
    }

    fn cycle_trigger(&mut self, history: &History, new: &Message, i: usize) {
        let row = |what: &str| format!("trigger of {}: {what}", new.warning);
        let cycle = history.cycle(new.warning, i).expect("a New of 1 or 2 ends a cycle");
        let k = (cycle.conditions & condition::A_TO_D).count_ones();
        let counted_down = i - cycle.first + 100 * k as usize >= 300;
        self.count_if(counted_down, &row(&format!("countdown with k = {k}")));
        for (place, name) in CONDITIONS.iter().enumerate().skip(4) {
            let seen = cycle.conditions >> place & 1 != 0;
            self.count_if(seen, &row(&format!("condition {name}")));
        }
        self.count_if(cycle.first == i, &row("at its cycle's first tick"));
        let twice = (0..8).any(|place| starts(history, place, cycle.first, i) > 1);
        self.count_if(twice, &row("a condition twice in one cycle"));
        self.count_if(k > 0 && new.quality == 1, &row("graded below what shortened it"));
        let before = cycle.first.saturating_sub(1);
        let delayed = history.stood_before(before) == UNRESPONSIVE_DRIVER;
        let delayed = delayed && history.need(new.warning, before);
        self.count_if(delayed, &row("a tick later, as 4 stood before"));
        if counted_down {
            self.losses_in_countdown(history, new.warning, cycle.first, i);
        }
    }

    fn losses_in_countdown(&mut self, history: &History, warning: u8, first: usize, i: usize) {
        let cycle = &history.samples()[first..=i];
        let lost_first = missing(&cycle[..1]) == 1;
        let occurred = [
            cycle.iter().any(|s| s.reading().is_none()),
            cycle.windows(MOST_MISSING).any(|row| missing(row) == MOST_MISSING),
            lost_first,
            !lost_first && missing(&history.samples()[..first]) > MOST_MISSING,
        ];
        for (occurred, what) in occurred.into_iter().zip(IN_COUNTDOWNS) {
            self.count_if(occurred, &format!("trigger of {warning}: {what}"));
        }
    }

    fn cancel_given(&mut self, history: &History, standing: u8, i: usize) {
        let causes = history.end_causes(i);
        let row = |cause: &str| format!("rule 2: Cancel of {standing}{cause}");
        self.count_if(causes.not_still, &row(", not still"));
        self.count_if(causes.hazard_off, &row(", hazard lights off"));
        self.count_if(causes.moved, &row(", moved"));
        let lost = causes.not_still && due_by_loss(history, standing, i);
        self.count_if(lost, &row(", not still by a loss"));
        self.count_if(history.update_causes(i).any(), &row(" while its Update is due"));
        if causes.moved && !causes.not_still && !causes.hazard_off {
            self.moved_alone(history, &row(", moved alone"), i);
        }
        let after_3 = standing == POST_CRASH && history.triggers(UNRESPONSIVE_DRIVER, i);
        self.count_if(after_3, "no trigger of 4: at the tick of the Cancel of 3");
    }

    /// Counts a Cancel by distance alone.
    fn moved_alone(&mut self, history: &History, row: &str, i: usize) {
        let last = history.last_new_or_update(i);
        let updated = last.kind == kind::UPDATE;
        let due = history.update_causes(i);
        let occurred = [
            !updated && !due.any(),
            updated && !due.any(),
            due.period,
            due.ignition,
            history.square_from(last, i) <= SQUARE_TOO_FAR,
        ];
        for (occurred, what) in occurred.into_iter().zip(MOVED) {
            self.count_if(occurred, &format!("{row}: {what}"));
        }
        let side = side(history.standing_new(i), &history.samples()[i]);
        self.count_if(updated, &format!("{row}: {side} after an Update"));
    }

    /// Counts what does not end a warning at a tick at which it stays.
    fn stays(&mut self, history: &History, standing: u8, i: usize) {
        let last = history.last_new_or_update(i);
        let updated = last.kind == kind::UPDATE;
        let exactly = history.square_moved(i) == SQUARE_TOO_FAR;
        let far = history.square_from(last, i) > SQUARE_TOO_FAR;
        let occurred = [exactly && !updated, exactly && updated, far];
        for (_, what) in occurred.into_iter().zip(STAYS).filter(|(occurred, _)| *occurred) {
            self.count(&format!("no Cancel of {standing}: {what}"));
        }
    }

    fn update_given(&mut self, history: &History, standing: u8, i: usize) {
        if has_cancel(standing) {
            self.stays(history, standing, i);
        }
        let causes = history.update_causes(i);
        let cause = match (causes.period, causes.ignition) {
            (true, true) => "period and ignition",
            (true, false) => "period",
            _ => "ignition",
        };
        self.count(&format!("rule 3: Update of {standing}, {cause}"));
    }

    /// Counts the still run behind stationarySince of a New or Update.
    fn since_of(&mut self, history: &History, message: &Message, i: usize) {
        let Some(first) = history.still_run(i) else {
            return;
        };
        let ticks = i - first;
        let turns = SINCE_TURNS.contains(&ticks);
        let lost = history.samples()[first..=i].iter().any(|s| s.reading().is_none());
        let since = message.stationary_since;
        self.count_if(lost, &format!("stationarySince {since}, readings lost in its still run"));
        let row = format!("New or Update after {ticks} ticks of still");
        self.count_if(turns, &row);
        self.count_if(turns && lost, &format!("{row}, readings lost"));
    }

    fn fields_of(&mut self, history: &History, message: &Message, i: usize) {
        let kind = KINDS[usize::from(message.kind) - 1];
        let warning = message.warning;
        self.count(&format!("{kind} of {warning}, quality {}", message.quality));
        self.count(&format!("{kind} of {warning}, stationarySince {}", message.stationary_since));
        self.count(&format!("roadType {}", message.road_type));
        if message.kind != kind::CANCEL {
            self.count(&format!("message on road {}", history.samples()[i].road));
            self.since_of(history, message, i);
        }
        let lost = history.samples()[i].reading().is_none();
        self.count_if(lost, &format!("{kind} of {warning} without a reading"));
        self.count_if(message.heading == UNKNOWN_HEADING, "heading unknown in a message");
        if warning == BROKEN_DOWN {
            self.count(&format!("validity {} of warning 2", message.validity));
        }
        if message.kind == kind::CANCEL {
            let new = |m: &&Message| m.kind == kind::NEW && m.event == message.event;
            let since = history.messages().iter().rev().find(new).map(|m| i - m.reference as usize);
            self.count_if(since == Some(1), "New and Cancel of one event at neighbouring ticks");
        }
    }
}

/// The side of a message's position that the sample's lies to.
fn side(from: &Message, now: &Sample) -> &'static str {
    let east = i64::from(now.east) - i64::from(from.east);
    let north = i64::from(now.north) - i64::from(from.north);
    let [to_east, to_west, to_north, to_south] = SIDES;
    match (east.abs() >= north.abs(), east > 0, north > 0) {
        (true, true, _) => to_east,
        (true, false, _) => to_west,
        (false, _, true) => to_north,
        (false, _, false) => to_south,
    }
}

/// Missing readings in a row at the end of these samples.
fn missing(samples: &[Sample]) -> usize {
    samples.iter().rev().take_while(|s| s.reading().is_none()).count()
}

/// Whether a loss, with its sixth missing reading, made the vehicle not still so
/// many ticks before tick i that the warning's Cancel is due there if it still is
/// not.
fn due_by_loss(history: &History, warning: u8, i: usize) -> bool {
    rules(warning).cancel_delay.is_some_and(|delay| {
        missing(&history.samples()[..i]) == delay + MOST_MISSING
            && history.still(i - delay - 1)
            && (i - delay..=i).all(|t| history.stood_before(t) == warning)
    })
}

/// How often a condition became fulfilled at the ticks from `first` to i.
fn starts(history: &History, place: usize, first: usize, i: usize) -> usize {
    let fulfilled = |t: usize| history.fulfilled(t) >> place & 1 != 0;
    (first..=i).filter(|&t| fulfilled(t) && (t == first || !fulfilled(t - 1))).count()
}
