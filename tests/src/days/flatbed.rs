//! Days on a flatbed (CR 5): the car drives, stands with a door open, and is then
//! carried while it stands by its readings. Its New comes as the carriage begins, so
//! that a way can be laid out by the ticks of its Updates.

use super::{Day, Motion, USUAL};
use crate::reference::{rules, switch, BROKEN_DOWN, POST_CRASH, STOPPED};

/// A step east and north.
type Step = (i32, i32);

/// Steps of 5 dm, all the way round; 1 to 4 of them are taken a tick.
const ROUND: [Step; 12] = [
    (5, 0),
    (4, 3),
    (3, 4),
    (0, 5),
    (-3, 4),
    (-4, 3),
    (-5, 0),
    (-4, -3),
    (-3, -4),
    (0, -5),
    (3, -4),
    (4, -3),
];

/// So many of these steps one way are exactly 5,000 dm.
const STEPS: i64 = 1_000;

/// A decimetre to each side.
const DECIMETRES: [Step; 4] = [(1, 0), (-1, 0), (0, 1), (0, -1)];

/// The ignition's place among the switches.
const IGNITION: usize = 1;

/// A part of a way: a step at each of so many ticks.
#[derive(Clone, Copy)]
pub(super) struct Leg {
    ticks: i64,
    step: Step,
}

/// So many ticks one way, so many steps a tick.
fn leg(ticks: i64, pace: i64, (east, north): Step) -> Leg {
    Leg { ticks, step: (east * pace as i32, north * pace as i32) }
}

fn rest(ticks: i64) -> Leg {
    Leg { ticks, step: (0, 0) }
}

fn back((east, north): Step) -> Step {
    (-east, -north)
}

impl Day {
    /// The car drives, stands and is carried in turns.
    pub(super) fn begin_flatbed_piece(&mut self) {
        self.moves = [None; 9];
        match self.motion {
            Motion::Driving => self.stand_open(),
            Motion::Standing => self.begin_carriage(),
            _ => self.drive_off(),
        }
        self.now.road = self.random.between(0, 6) as u8;
        self.now.heading = self.random.between(0, 3_600) as u16;
    }

    /// Without hazard lights and long enough to end all that stands.
    fn drive_off(&mut self) {
        self.motion = Motion::Driving;
        self.left = self.random.between(152, 170);
        self.now.speed = self.random.between(300, 1_500) as u16;
        self.now.switches = USUAL;
        if self.random.one_in(self.style.mitigation) {
            self.plan_mitigation();
        }
    }

    /// So long that a New comes as soon as the hazard lights go on.
    fn stand_open(&mut self) {
        self.motion = Motion::Standing;
        self.left = self.random.between(32, 60);
        self.now.speed = self.first_speed();
        self.now.switches = USUAL | switch::DOOR;
    }

    /// Warning 1, 2 or 3, and a way; now and then something comes between.
    fn begin_carriage(&mut self) {
        let warning = self.random.pick(&[STOPPED, BROKEN_DOWN, POST_CRASH]);
        self.motion = Motion::Carried;
        self.now.switches |= switch::DOOR;
        match warning {
            STOPPED => self.now.switches |= switch::HAZARD,
            BROKEN_DOWN => self.now.switches |= switch::HAZARD | switch::MESSAGE,
            _ => self.plan_happening(0),
        }
        if self.random.one_in(self.style.busy) {
            let place = self.random.place(self.moves.len());
            self.moves[place] = Some(self.span());
        }
        let mut way = self.way(rules(warning).update_period as i64);
        way.retain(|leg| leg.ticks > 0);
        self.left = 1 + way.iter().map(|leg| leg.ticks).sum::<i64>() + self.random.between(0, 40);
        way.reverse();
        // At the carriage's first tick, that of the New, the flatbed still stands.
        way.push(rest(1));
        self.way = way;
        if self.random.one_in(self.style.crash) {
            self.plan_happenings();
        }
        if self.random.one_in(self.style.lossy) {
            self.plan_losses();
        }
    }

    /// One tick of the way; at its end the flatbed stands.
    pub(super) fn carry(&mut self) {
        let Some(Leg { ticks, step: (east, north) }) = self.way.pop() else {
            return;
        };
        if ticks > 1 {
            self.way.push(Leg { ticks: ticks - 1, step: (east, north) });
        }
        self.shift(east, north);
    }

    /// A way for a warning with an Update after every `period` ticks.
    fn way(&mut self, period: i64) -> Vec<Leg> {
        let direction = self.random.pick(&ROUND);
        let pace = self.random.between(1, 4);
        match self.random.place(8) {
            0 => vec![leg(2 * STEPS / pace + self.random.between(1, 100), pace, direction)],
            1..=3 => self.to_an_update(period, pace, direction),
            4 => self.to_the_edge(period, direction),
            5 => self.there_and_back(pace, direction),
            6 => self.in_a_circle(pace),
            _ => self.astray(),
        }
    }

    /// Too far for the first time where an Update is due, or a tick before or after,
    /// with a wait on the way. Now and then the ignition goes off at that tick.
    fn to_an_update(&mut self, period: i64, pace: i64, direction: Step) -> Vec<Leg> {
        let within = STEPS / pace;
        let later = self.random.pick(&[0, 0, 1]);
        let beside = self.random.pick(&[-1, 0, 0, 0, 1]);
        let too_far = period * ((within + 1) / period + 1 + later) + beside;
        let before = self.random.between(0, within);
        if self.random.one_in(3) {
            self.moves[IGNITION] = Some(too_far + 1);
        }
        vec![
            leg(before, pace, direction),
            rest(too_far - 1 - within),
            leg(within - before + self.random.between(1, 300), pace, direction),
        ]
    }

    /// To exactly 5,000 dm, there for a while, often up to an Update, and then a
    /// decimetre to one of four sides.
    fn to_the_edge(&mut self, period: i64, direction: Step) -> Vec<Leg> {
        let pace = self.random.pick(&[1, 2, 4]);
        let there = STEPS / pace;
        let next_update = period * (there / period + 1 + self.random.between(0, 1));
        let at_update = self.random.one_in(2);
        let wait = if at_update { next_update - there - 1 } else { self.random.between(1, period) };
        let decimetre = self.random.pick(&DECIMETRES);
        vec![leg(there, pace, direction), rest(wait), leg(1, 1, decimetre), rest(period)]
    }

    /// To one side, to the other and back, as far as 5,000 dm or a step more; to the
    /// other side at the same pace or, as a position that leaps, at once.
    fn there_and_back(&mut self, pace: i64, direction: Step) -> Vec<Leg> {
        let farthest = STEPS / pace;
        let near = self.random.between(farthest / 3, farthest);
        let way = self.random.pick(&[near, farthest, farthest, farthest + 1]);
        let over = if self.random.one_in(2) {
            leg(2 * way, pace, back(direction))
        } else {
            leg(1, 2 * way * pace, back(direction))
        };
        let wait = rest(self.random.between(0, 100));
        vec![leg(way, pace, direction), wait, over, wait, leg(way, pace, direction)]
    }

    /// Once round, either way; some circles are wider than 5,000 dm and some are not.
    fn in_a_circle(&mut self, pace: i64) -> Vec<Leg> {
        let ticks = self.random.between(120, 300) / pace;
        let first = self.random.place(ROUND.len());
        let turn = self.random.pick(&[1, ROUND.len() - 1]);
        let side = |n: usize| leg(ticks, pace, ROUND[(first + n * turn) % ROUND.len()]);
        (0..ROUND.len()).map(side).collect()
    }

    /// Some ticks in one direction, some in another.
    fn astray(&mut self) -> Vec<Leg> {
        let some_leg = |_| {
            let ticks = self.random.between(10, 100);
            let pace = self.random.between(0, 4);
            leg(ticks, pace, self.random.pick(&ROUND))
        };
        (0..20).map(some_leg).collect()
    }
}
