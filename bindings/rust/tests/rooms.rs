//! Many rooms in one process: the methods, which lend the record, beside the raw calls that take it by value. After each call
//! of a room, a refused one too, the two records must be the same.

use lumbixet::raw::{self, lumbixet_packet, lumbixet_timer, lumbixet_write};
use lumbixet::*;
use std::collections::BTreeSet;

const ROOMS: u64 = 50;
const TURNS: u64 = 400;

/// The next pseudo-random number (splitmix64), below a limit.
fn below(state: &mut u64, limit: u64) -> u64 {
    *state = state.wrapping_add(0x9e37_79b9_7f4a_7c15);
    let mut z = *state;
    z = (z ^ z >> 30).wrapping_mul(0xbf58_476d_1ce4_e5b9);
    z = (z ^ z >> 27).wrapping_mul(0x94d0_49bb_1331_11eb);
    (z ^ z >> 31) % limit
}

/// A room: its receiver, and the record of the same calls by value.
struct Room {
    receiver: Receiver,
    by_value: raw::Receiver,
}

impl Room {
    fn opened(room: u64) -> Room {
        let receiver = Receiver::open(room % 7, room % 5, Millis(25), Micros(1000)).unwrap();
        Room { by_value: *receiver.record(), receiver }
    }

    /// The result of both forms of one call; the record is taken from the one by value, and compared with the other.
    fn agreed<T>(&mut self, lent: Result<T, Refusal>, result: u64, next: raw::Receiver) -> u64 {
        assert_eq!(lent.err().map_or(0, |refusal| refusal.number()), result);
        assert_eq!(*self.receiver.record(), next);
        assert!(result == 0 || next == self.by_value, "a refused call changed the record");
        self.by_value = next;
        result
    }

    fn packet(&mut self, number: u64, time: u64, eliciting: bool, mark: Mark) -> u64 {
        let lent = self.receiver.packet(Packet { number, time: Micros(time), eliciting, mark });
        let answer = unsafe { lumbixet_packet(self.by_value, number, time, eliciting, mark.ecn()) };
        self.agreed(lent, answer.result, answer.next)
    }

    fn timer(&mut self, time: u64) -> u64 {
        let lent = self.receiver.timer(Micros(time));
        let answer = unsafe { lumbixet_timer(self.by_value, time) };
        self.agreed(lent, answer.result, answer.next)
    }

    fn write(&mut self, time: u64, counts: bool, room: usize) -> u64 {
        let (mut one, mut other) = ([0xa5; 40], [0xa5; 40]);
        let (now, lent) = (Micros(time), &mut one[..room]);
        let written = if counts { self.receiver.write_with_counts(now, lent) } else { self.receiver.write(now, lent) };
        let written = written.map(<[u8]>::len);
        let wrote = unsafe { lumbixet_write(self.by_value, time, counts, other.as_mut_ptr(), room) };
        assert_eq!((written.unwrap_or(0) as u64, one), (wrote.length, other));
        self.agreed(written, wrote.result, wrote.next)
    }
}

#[test]
fn rooms_in_turn() {
    let mut state = 14;
    let mut rooms: Vec<Room> = (0..ROOMS).map(Room::opened).collect();
    let mut seen = BTreeSet::new();
    for turn in 0..TURNS {
        for room in &mut rooms {
            let time = if below(&mut state, 60) == 0 { LARGEST + 1 } else { 3000 * turn + below(&mut state, 3000) };
            let near = room.by_value.end.saturating_add(below(&mut state, 3));
            let number = if below(&mut state, 4) == 0 { near.saturating_sub(below(&mut state, 1100)) } else { near };
            seen.insert(match below(&mut state, 8) {
                0 => ("timer", room.timer(time)),
                1 => ("write", room.write(time, turn % 2 == 0, below(&mut state, 40) as usize)),
                2 => ("packet", room.packet(near + 1100 * u64::from(turn % 50 == 0), time, false, Mark::Ce)),
                _ => ("packet", room.packet(number, time, true, Mark::Ect0)),
            });
        }
    }
    for mut room in rooms {
        room.by_value.cause = 6;
        room.receiver = Receiver::from_record(room.by_value);
        seen.extend([
            ("packet", room.packet(0, 0, true, Mark::None)),
            ("timer", room.timer(0)),
            ("write", room.write(0, true, 40)),
        ]);
    }
    let results = |name: &'static str, results: &[u64]| results.iter().map(move |result| (name, *result)).collect::<Vec<_>>();
    let all = [results("packet", &[0, 1, 5, 6, 7]), results("timer", &[0, 1, 5]), results("write", &[0, 1, 5, 8, 9])].concat();
    assert_eq!(seen.into_iter().collect::<Vec<_>>(), all);
}
