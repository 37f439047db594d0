//! The plain crate's stages as the numbers that the proved crate `state` gives them.

use crate::random::Random;
use plain::{Light, Phase, Place, Sheet, Stage, Then, Unit, Walker};

pub type Numbers = ([u32; 7], [u64; 3]);

/// What follows a stage, and the phase that is next: with the count at line 3 the transfer has begun, and track clearance green is owed.
fn follows(next: u16, begun: bool) -> [u32; 2] {
    match next {
        _ if begun => [2, 0],
        0 => [0, 0],
        next => [1, next.into()],
    }
}

fn by(unit: &Unit, begun: bool) -> Numbers {
    let track = |kind, [then, next]: [u32; 2], place, spent: u32| ([kind, place, then, next, 0, 0, 0], [spent, 0]);
    let (stage, [spent, walked]) = match unit.stage {
        Stage::TrackGreen => track(0, [0, 0], 0, 0),
        Stage::TrackYellow { next, spent } => track(1, follows(next, begun), 0, spent),
        Stage::TrackRed { next, spent } => track(2, follows(next, begun), 0, spent),
        Stage::ClearanceYellow { spent } => track(1, [3, 0], 1, spent),
        Stage::ClearanceRed { spent } => track(2, [3, 0], 1, spent),
        Stage::ClearanceGreen { spent } => track(5, [0, 0], 0, spent),
        Stage::AllRed => track(6, [0, 0], 0, 0),
        Stage::Open { place, phase, green, walk } => ([3, place as u32, 0, 0, phase.into(), 0, 0], [green, walk]),
        Stage::Ending { phase, then, light, walker } => {
            let (place, [then, next]) = match then {
                Then::Normal(next) => (Place::Normal, follows(next, begun)),
                Then::Dwell(0) => (Place::Dwell, [4, 0]),
                Then::Dwell(next) => (Place::Dwell, [1, next.into()]),
                Then::Return => (Place::Dwell, [0, 0]),
            };
            let (light, spent) = match light {
                Light::Green(k) => (0, k),
                Light::Yellow(k) => (1, k),
                Light::Red(k) => (2, k),
            };
            let (walker, walked) = match walker {
                Walker::Walk(k) => (0, k),
                Walker::Clearance(k) => (1, k),
            };
            ([4, place as u32, then, next, phase.into(), light, walker], [spent, walked])
        }
    };
    (stage, [spent, walked, unit.count].map(u64::from))
}

fn line3(unit: &Unit) -> u32 {
    u32::from(unit.sheet.l01) + u32::from(unit.sheet.l02)
}

/// A unit as a tick leaves it. On the zero sheet line 3 is 0, but no transfer begins there: no tick is taken.
pub fn numbers(unit: &Unit) -> Numbers {
    by(unit, unit.count == line3(unit) && line3(unit) > 0)
}

/// A unit as somebody may hand it over: with the count at line 3 and a phase next all the same.
pub fn as_handed_over(unit: &Unit) -> Numbers {
    by(unit, false)
}

pub fn name(unit: &Unit) -> &'static str {
    match unit.stage {
        Stage::TrackGreen => "after it: track green",
        Stage::TrackYellow { .. } => "after it: track yellow",
        Stage::TrackRed { .. } => "after it: track red",
        Stage::Open { place: Place::Normal, .. } => "after it: phase",
        Stage::Open { place: Place::Dwell, .. } => "after it: dwell, phase",
        Stage::Ending { then: Then::Normal(_), .. } => "after it: phase ending",
        Stage::Ending { then: Then::Dwell(_), .. } => "after it: dwell, phase ending",
        Stage::Ending { then: Then::Return, .. } => "after it: dwell, call gone off",
        Stage::ClearanceGreen { .. } => "after it: clearance green",
        Stage::ClearanceYellow { .. } => "after it: clearance yellow",
        Stage::ClearanceRed { .. } => "after it: clearance red",
        Stage::AllRed => "after it: dwell, all red",
    }
}

/// A time of an interval of that length: any, its end more often, and one past it now and then.
fn spent(random: &mut Random, length: u32) -> u32 {
    match random.below(24) {
        0 => length + 1,
        1..=5 => length,
        _ => random.below(length as usize + 1) as u32,
    }
}

/// A phase's number, mostly one that is listed.
fn listed(random: &mut Random, sheet: &Sheet) -> u16 {
    match sheet.listed() {
        [] => 1,
        _ if random.one_in(24) => random.below(10) as u16,
        phases => phases[random.below(phases.len())].number,
    }
}

/// A unit on the sheet in any state, most of them such as a run could come to.
pub fn any(random: &mut Random, sheet: Sheet) -> Unit {
    let phase = listed(random, &sheet);
    let p: Phase = sheet.phase(phase).copied().unwrap_or_default();
    let next = if random.one_in(3) { 0 } else { listed(random, &sheet) };
    let (yellow, red) = (u32::from(sheet.track_yellow), u32::from(sheet.track_red));
    let green = u32::from(p.green) + u32::from(p.other);
    let l51 = plain::worksheet::lengths(&sheet).l51;
    let stage = match random.below(10) {
        0 => Stage::TrackGreen,
        1 => Stage::TrackYellow { next, spent: spent(random, yellow) },
        2 => Stage::TrackRed { next, spent: spent(random, red) },
        3 => {
            let place = random.of_these(&[Place::Normal, Place::Dwell]);
            Stage::Open { place, phase, green: spent(random, green), walk: spent(random, p.walk.into()) }
        }
        4 => Stage::ClearanceGreen { spent: spent(random, l51) },
        5 => Stage::ClearanceYellow { spent: spent(random, yellow) },
        6 => Stage::ClearanceRed { spent: spent(random, red) },
        7 => Stage::AllRed,
        _ => {
            let light = match random.below(3) {
                0 => Light::Green(spent(random, green)),
                1 => Light::Yellow(spent(random, p.yellow.into())),
                _ => Light::Red(spent(random, p.red.into())),
            };
            let walker = match random.below(2) {
                0 => Walker::Walk(spent(random, p.walk.into())),
                _ => Walker::Clearance(spent(random, p.clearance.into())),
            };
            let then = random.of_these(&[Then::Normal(next), Then::Dwell(next), Then::Return]);
            Stage::Ending { phase, then, light, walker }
        }
    };
    let count = spent(random, u32::from(sheet.l01) + u32::from(sheet.l02));
    Unit { sheet, stage, count }
}
