//! A proved record beside what can be seen of the peer's: every field that has
//! a meaning in the state it is in.

use peer::settings::Direction;
use peer::sight::{CourseSight, SegmentSight, Sight};
use peer::state::{Reason, State};
use proved::record::{Channel, Flow, Lone, Pulse, Settings, Window};

/// The number that the proved record has for a state.
pub fn state_number(state: State) -> u8 {
    match state {
        State::Closed => 0,
        State::Enabled => 1,
        State::Open => 2,
        State::Closing => 3,
    }
}

/// The number that the proved record and answer have for a reason.
pub fn reason_number(reason: Reason) -> u8 {
    match reason {
        Reason::None => 0,
        Reason::Retries => 1,
        Reason::LateOpen => 2,
        Reason::ControlNumber => 3,
        Reason::DataNumber => 4,
        Reason::Flags => 5,
        Reason::Heartbeat => 6,
    }
}

/// Panics if the record is not what is seen of the peer's.
#[track_caller]
pub fn assert_same(record: &Channel, settings: &Settings, direction: Direction, sight: &Sight) {
    assert_eq!(record.addresses, settings.addresses);
    assert_eq!(record.limits, settings.limits);
    let sends = direction == Direction::Sending;
    let mut window = if sends {
        sending_window(sight, record.limits.slots)
    } else {
        receiving_window(sight, record.limits.slots)
    };
    if sight.start.is_none() && sight.held.is_empty() {
        // Nothing is held and nothing is received: no place means anything.
        window.place = record.window.place;
    }
    assert_eq!(record.window, window);
    assert_marks(record, &sight.held);
    assert_eq!(record.phase.kept, u8::from(sight.close_kept));
    assert_eq!(
        u32::from(record.timers.closing),
        sight.close_timer.unwrap_or(0)
    );
    assert_eq!(record.phase.control, lone(sight.control, record));
    assert_pulse(record, sends, sight);
    if sends && sight.start.is_some() {
        assert_courses(record, &sight.held);
    } else if sight.start.is_some() {
        assert_eq!(record.phase.accepted, u8::from(sight.accepted));
    }
}

/// The Heartbeat, and Flow Control; out of OPEN there is neither. The last number means
/// nothing at a sender, whose peer has none.
#[track_caller]
fn assert_pulse(record: &Channel, sends: bool, sight: &Sight) {
    let pulse = &record.pulse;
    assert_eq!(
        u32::from(pulse.left),
        sight.heartbeat_timer,
        "the ticks until a Heartbeat is made"
    );
    assert_eq!(pulse.beat, lone(sight.heartbeat, record));
    let first = sight.flow_first;
    let flow = Flow {
        packet: lone(sight.flow_control, record),
        number: first.map_or(0, |first| first.number),
        stated: first.map_or(0, |first| first.stated),
        last: if sends {
            pulse.flow.last
        } else {
            sight.last_number
        },
        recorded: sight.recorded,
    };
    assert_eq!(pulse.flow, flow);
    if sight.start.is_none() {
        assert_eq!(*pulse, Pulse::default(), "out of OPEN");
    }
}

/// "Segment s of an opening lies in slot s - 1 modulo slots."
fn place_of(segment: u64, slots: usize) -> usize {
    ((segment - 1) % slots as u64) as usize
}

/// How many of these segments the start has passed.
fn passed(held: &[SegmentSight], start: u64) -> usize {
    held.iter().take_while(|one| one.number < start).count()
}

fn sending_window(sight: &Sight, slots: usize) -> Window {
    let held = &sight.held;
    let oldest = held.first().map_or(1, |one| one.number);
    let start = sight.start.unwrap_or(oldest);
    let behind = passed(held, start);
    let is_out = |one: &&SegmentSight| one.course.is_none_or(|course| course.hand_outs > 0);
    let flight = match sight.start {
        Some(_) => held[behind..].iter().take_while(is_out).count(),
        None => 0,
    };
    Window {
        start: sight.start.map_or(1, |start| start as u8),
        place: place_of(start, slots),
        behind,
        ahead: held.len() - behind,
        flight,
        way: 0,
    }
}

fn receiving_window(sight: &Sight, slots: usize) -> Window {
    let held = &sight.held;
    let next = held.last().map_or(1, |one| one.number + 1);
    let start = sight.start.unwrap_or(next);
    Window {
        start: sight.start.map_or(1, |start| start as u8),
        place: place_of(start, slots),
        behind: passed(held, start),
        ahead: 0,
        flight: 0,
        way: sight.unfinished,
    }
}

/// A segment's slot is marked with its flags and 1 more, every other with 0.
fn assert_marks(record: &Channel, held: &[SegmentSight]) {
    let mut marks = [0; 128];
    for one in held {
        marks[place_of(one.number, record.limits.slots)] = one.flags + 1;
    }
    assert_eq!(record.marks, marks);
}

/// A packet sent alone, Control, a Heartbeat or Flow Control: 0 none, 1 ready, 2 handed out, 3
/// ready again.
fn lone(course: Option<CourseSight>, record: &Channel) -> Lone {
    let Some(course) = course else {
        return Lone::blank();
    };
    Lone {
        state: match (course.hand_outs, course.timer) {
            (0, _) => 1,
            (_, Some(_)) => 2,
            (_, None) => 3,
        },
        timer: course.timer.unwrap_or(0) as u16,
        tries: resends_left(course, record),
    }
}

/// The resends left to a packet; 0 before it is handed out.
fn resends_left(course: CourseSight, record: &Channel) -> u16 {
    match course.hand_outs {
        0 => 0,
        hand_outs => record.limits.retries + 1 - hand_outs as u16,
    }
}

/// In OPEN, of each segment from the start on: whether it is acknowledged, its
/// timer, and once it is handed out its resends.
fn assert_courses(record: &Channel, held: &[SegmentSight]) {
    let Channel { window, timers, .. } = record;
    for one in &held[window.behind..] {
        let place = place_of(one.number, record.limits.slots);
        assert_eq!(record.acked[place], u8::from(one.course.is_none()));
        let timer = one.course.and_then(|course| course.timer);
        assert_eq!(u32::from(timers.left[place]), timer.unwrap_or(0));
        if let Some(course) = one.course.filter(|course| course.hand_outs > 0) {
            assert_eq!(timers.tries[place], resends_left(course, record));
        }
    }
}
