//! Days of driving made from a seed: drives, stands, towing, lost readings,
//! switches, gear moves, doors, crashes, an active risk mitigation function, and
//! days on a flatbed. A day is an endless source of samples; whoever uses it takes
//! as many as wanted.

use crate::random::Random;
use crate::reference::{gear, happening, switch, Sample, FARTHEST, NO_READING, UNKNOWN_HEADING};
use crate::scenes::stopped;
use flatbed::Leg;

mod flatbed;

/// Spans at and around which something in document 01 turns.
const TURNS: [i64; 12] = [1, 2, 30, 31, 50, 100, 150, 200, 250, 300, 450, 600];

/// Losses of readings at whose last tick a Cancel is due, and a tick less.
const LONG_LOSSES: [i64; 4] = [56, 55, 156, 155];

/// Jumps whose square is at, or just past, 5,000 dm, or too big for 32 bits.
const JUMPS: [(i32, i32); 12] = [
    (5_000, 0),
    (5_001, 0),
    (5_000, -1),
    (0, -5_000),
    (0, -5_001),
    (3_000, 4_000),
    (-3_000, 4_001),
    (-4_000, -3_000),
    (4_999, 100),
    (65_536, 0),
    (0, -65_536),
    (46_341, 46_341),
];

/// Coordinates to begin a day at or to be set to: the start and the map's ends.
const PLACES: [i32; 4] = [0, 0, FARTHEST, -FARTHEST];

/// In `Planned`, beside the happenings' bits: no reading comes.
const LOST: u8 = 1 << 7;

/// The switches of a vehicle under way.
const USUAL: u8 = switch::IGNITION | switch::BELT;

/// What kind of day it is; each number n means "about once in n".
#[derive(Clone, Copy)]
pub struct Style {
    /// A piece of the day is a stand past 15 minutes.
    long_stand: u64,
    /// A switch or the lever is moved again and again in a piece of the day.
    busy: u64,
    /// A switch or the lever is found changed at the start of a piece.
    changed: u64,
    /// A piece of the day has happenings.
    crash: u64,
    /// The risk mitigation function becomes active in a piece of the day.
    mitigation: u64,
    /// Readings are lost in a piece of the day, whatever the vehicle does in it.
    lossy: u64,
    /// A stand is without hazard lights.
    unlit: u64,
    /// Whether drives last as long as in traffic.
    traffic: bool,
    /// Whether the car is carried on a flatbed again and again (CR 5).
    flatbed: bool,
}

/// Everything happens, and soon after one another.
pub const TRAINING: Style = Style {
    long_stand: 400,
    busy: 6,
    changed: 4,
    crash: 4,
    mitigation: 4,
    lossy: 4,
    unlit: 6,
    traffic: false,
    flatbed: false,
};
/// Few switches move, so that countdowns run to their end.
pub const QUIET: Style =
    Style { busy: 40, changed: 16, crash: 12, mitigation: 8, unlit: 5, ..TRAINING };
/// Stands past 15 minutes.
pub const LONG_STANDS: Style =
    Style { long_stand: 6, busy: 16, changed: 12, crash: 3, mitigation: 8, unlit: 3, ..TRAINING };
/// A day as the recorder sees it: mostly driving, now and then a stop.
pub const TRAFFIC: Style = Style {
    long_stand: 60,
    busy: 60,
    changed: 12,
    crash: 40,
    mitigation: 40,
    lossy: 40,
    unlit: 2,
    traffic: true,
    flatbed: false,
};
/// On a flatbed, and seldom anything else.
pub const FLATBED: Style =
    Style { busy: 6, crash: 8, mitigation: 8, lossy: 8, flatbed: true, ..TRAINING };

#[derive(Clone, Copy, PartialEq)]
enum Motion {
    Standing,
    Driving,
    Creeping,
    Lost,
    Towed { east: i32, north: i32 },
    Carried,
}

pub struct Day {
    random: Random,
    style: Style,
    /// The last sample given out; the next one is made from it.
    now: Sample,
    motion: Motion,
    /// No bump breaks this stand.
    steady: bool,
    /// Ticks left of this piece of the day.
    left: i64,
    /// For each switch, and at last the lever: ticks to its next move.
    moves: [Option<i64>; 9],
    planned: Vec<Planned>,
    /// On a flatbed: what is left of the way, the next leg last.
    way: Vec<Leg>,
}

/// Happenings or lost readings to come, or that are there: from which to which
/// tick, counted from now, and which.
struct Planned {
    first: i64,
    last: i64,
    what: u8,
}

impl Day {
    pub fn new(seed: u64, style: Style) -> Day {
        let mut random = Random::new(seed);
        let mut now = stopped(0);
        now.switches = USUAL;
        if random.one_in(2) {
            now.switches = random.draw() as u8;
        }
        now.east = random.pick(&PLACES);
        now.north = random.pick(&PLACES);
        let mut day = Day {
            random,
            style,
            now,
            motion: Motion::Standing,
            steady: false,
            left: 0,
            moves: [None; 9],
            planned: Vec::new(),
            way: Vec::new(),
        };
        day.begin_piece();
        day
    }

    /// The next sample.
    pub fn next_sample(&mut self) -> Sample {
        let planned = self.planned_now();
        let mut given = Sample { happenings: planned & happening::ALL, ..self.now };
        if planned & LOST != 0 {
            given.speed = NO_READING;
        }
        self.left -= 1;
        if self.left <= 0 {
            self.begin_piece();
        }
        self.move_on();
        self.move_switches();
        self.now.tick += 1;
        given
    }

    /// A span of ticks, often at or beside one at which something turns.
    fn span(&mut self) -> i64 {
        match self.random.place(10) {
            0..=4 => (self.random.pick(&TURNS) + self.random.between(-1, 1)).max(1),
            5..=8 => self.random.between(1, 400),
            _ => self.random.between(400, 2_000),
        }
    }

    fn begin_piece(&mut self) {
        if self.style.flatbed {
            return self.begin_flatbed_piece();
        }
        self.motion = self.next_motion();
        self.left = self.span();
        self.steady = self.random.one_in(self.style.long_stand);
        if self.steady {
            self.motion = Motion::Standing;
            self.left = self.random.between(8_900, 10_500);
        } else if self.style.traffic && self.motion == Motion::Driving {
            self.left = self.random.between(300, 6_000);
        }
        self.settle_switches();
        self.now.speed = self.first_speed();
        if self.random.one_in(3) {
            self.now.road = self.random.between(0, 6) as u8;
        }
        self.now.heading = match self.random.place(6) {
            0 => UNKNOWN_HEADING,
            1 => 3_600,
            _ => self.random.between(0, 3_600) as u16,
        };
        if self.random.one_in(self.style.crash) {
            self.plan_happenings();
        }
        if self.random.one_in(self.style.mitigation) {
            self.plan_mitigation();
        }
        if self.random.one_in(self.style.lossy) {
            self.plan_losses();
        }
        if self.random.one_in(12) {
            self.jump();
        }
    }

    fn jump(&mut self) {
        if self.random.one_in(5) {
            self.now.east = self.random.pick(&PLACES);
            self.now.north = self.random.pick(&PLACES);
        } else {
            let (east, north) = self.random.pick(&JUMPS);
            self.shift(east, north);
        }
    }

    fn next_motion(&mut self) -> Motion {
        let stood = matches!(self.motion, Motion::Standing | Motion::Lost);
        match self.random.place(20) {
            0..=7 => Motion::Standing,
            8..=10 if stood => Motion::Standing,
            8..=14 => Motion::Driving,
            15 => Motion::Creeping,
            16..=17 => Motion::Lost,
            _ => Motion::Towed { east: self.step(), north: self.step() },
        }
    }

    fn step(&mut self) -> i32 {
        let widest = self.random.pick(&[2, 20, 60, 200]);
        self.random.between(-widest, widest) as i32
    }

    fn first_speed(&mut self) -> u16 {
        match self.motion {
            Motion::Standing | Motion::Towed { .. } | Motion::Carried => {
                self.random.pick(&[0, 0, 0, 0, 3, 8])
            }
            Motion::Driving => self.random.between(9, 3_500) as u16,
            Motion::Creeping => 9,
            Motion::Lost => NO_READING,
        }
    }

    /// The switches and the lever as this piece of the day finds them, and
    /// which of them will be moved in it.
    fn settle_switches(&mut self) {
        if self.random.one_in(2) {
            self.now.switches = USUAL;
            self.now.gear = gear::FORWARD;
        }
        for place in 0..self.moves.len() {
            if self.random.one_in(self.style.changed) {
                self.flip(place);
            }
            let busy = self.random.one_in(self.style.busy);
            self.moves[place] = busy.then(|| self.span());
        }
        let stands = self.motion != Motion::Driving;
        let lit = stands && !self.random.one_in(self.style.unlit);
        if lit {
            self.now.switches |= switch::HAZARD;
        } else if self.style.traffic {
            self.now.switches &= !switch::HAZARD;
        }
    }

    /// Moves one switch, or the lever.
    fn flip(&mut self, place: usize) {
        if place < 8 {
            self.now.switches ^= 1 << place;
        } else {
            let levers =
                [gear::UNKNOWN, gear::PARK, gear::PARK, gear::IDLE, gear::FORWARD, gear::REVERSE];
            self.now.gear = self.random.pick(&levers);
        }
    }

    fn move_switches(&mut self) {
        for place in 0..self.moves.len() {
            let Some(left) = self.moves[place] else {
                continue;
            };
            if left <= 1 {
                self.flip(place);
            }
            self.moves[place] = Some(if left <= 1 { self.span() } else { left - 1 });
        }
    }

    fn move_on(&mut self) {
        match self.motion {
            Motion::Standing | Motion::Lost => self.now_and_then_a_bump(),
            Motion::Creeping => self.now.speed = self.random.between(6, 10) as u16,
            Motion::Towed { east, north } => self.shift(east, north),
            Motion::Carried => self.carry(),
            Motion::Driving => self.drive(),
        }
    }

    /// In a stand, a reading that is lost or wrong for one tick.
    fn now_and_then_a_bump(&mut self) {
        if self.steady || self.motion == Motion::Lost {
            return;
        }
        self.now.speed = match self.random.place(3_000) {
            0 => NO_READING,
            1 => self.random.between(9, 60) as u16,
            _ if self.now.speed > 8 => 0,
            _ => self.now.speed,
        };
    }

    fn drive(&mut self) {
        let change = self.random.between(-40, 40);
        self.now.speed = (i64::from(self.now.speed) + change).clamp(9, 5_000) as u16;
        // A tick is 0.1 s, so speed in cm/s is a hundredth of it in dm a tick.
        let way = i32::from(self.now.speed) / 100;
        let eastward = self.now.heading % 1_800 < 900;
        self.shift(if eastward { way } else { 0 }, if eastward { 0 } else { way });
    }

    /// Moves the vehicle, back to the start where the map ends.
    fn shift(&mut self, east: i32, north: i32) {
        let onto_map = |c: i32| if c.abs() <= FARTHEST { c } else { 0 };
        self.now.east = onto_map(self.now.east + east);
        self.now.north = onto_map(self.now.north + north);
    }

    /// One happening in this piece of the day, and perhaps another where
    /// warning 3 forgets or is cancelled.
    fn plan_happenings(&mut self) {
        let at = self.random.between(0, self.left);
        self.plan_happening(at);
        if self.random.one_in(2) {
            let gap = self.random.pick(&[1, 50, 149, 150, 151, 152, 300, 600]);
            self.plan_happening(at + gap);
        }
    }

    fn plan_happening(&mut self, at: i64) {
        let what = self.happening();
        self.planned.push(Planned { first: at, last: at, what });
    }

    /// The risk mitigation function is active from now or later in this piece
    /// of the day on, once or again and again with short breaks. Now and then a
    /// happening comes when it ends, or a tick before or after.
    fn plan_mitigation(&mut self) {
        let flickering = self.random.one_in(4);
        let times = if flickering { self.random.between(2, 20) } else { 1 };
        let mut first = self.random.pick(&[0, self.left / 2, self.left - 1]);
        for _ in 0..times {
            let length = if flickering { self.random.between(1, 12) } else { self.span() };
            let last = first + length - 1;
            self.planned.push(Planned { first, last, what: happening::MITIGATION });
            first = last + 1 + self.random.between(1, 3);
            if self.random.one_in(4) {
                let after = self.random.between(0, 2);
                self.plan_happening(last + after);
            }
        }
    }

    /// Readings are lost from now or later in this piece of the day on: once and for
    /// long, or again and again, at most 5, 6 or 8 in a row and often just as many.
    fn plan_losses(&mut self) {
        let mut first = self.random.pick(&[0, self.left / 2, self.left - 1]);
        if self.random.one_in(4) {
            let length = self.random.pick(&LONG_LOSSES);
            self.planned.push(Planned { first, last: first + length - 1, what: LOST });
            return;
        }
        let longest = self.random.pick(&[5, 5, 6, 8]);
        let most_between = self.random.pick(&[1, 3, 20, 100]);
        for _ in 0..self.random.pick(&[1, 2, 10, 40]) {
            let often = self.random.one_in(3);
            let length = if often { longest } else { self.random.between(1, longest) };
            let last = first + length - 1;
            self.planned.push(Planned { first, last, what: LOST });
            first = last + 1 + self.random.between(1, most_between);
        }
    }

    fn happening(&mut self) -> u8 {
        match self.random.place(8) {
            0 => self.random.between(1, i64::from(happening::ALL)) as u8,
            1..=3 => happening::HIGH_SEVERITY,
            _ => 1 << self.random.place(4),
        }
    }

    /// What is there now, of what was planned.
    fn planned_now(&mut self) -> u8 {
        let mut now = 0;
        for planned in &mut self.planned {
            if planned.first <= 0 {
                now |= planned.what;
            }
            planned.first -= 1;
            planned.last -= 1;
        }
        self.planned.retain(|planned| planned.last >= 0);
        now
    }
}
