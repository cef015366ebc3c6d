//! A capture unit and its peer in one process: packets over a line that loses some, acknowledgments back, and the loss list.

use lumbixet::*;

/// Hears a frame in lists that hold everything; gives both lists.
fn hears(losses: &mut Losses, frame: &[u8]) -> Result<(Vec<u64>, Vec<u64>), Refusal> {
    let (mut acknowledged, mut lost) = ([0; HELD], [0; HELD]);
    losses.heard(frame, &mut acknowledged, &mut lost).map(|(changes, _)| (changes.acknowledged.to_vec(), changes.lost.to_vec()))
}

fn sent(count: u64) -> Losses {
    let mut losses = Losses::open();
    (0..count).for_each(|number| assert_eq!(losses.send(), Ok(number)));
    losses
}

/// Every seventh packet is lost on the way. The peer acknowledges as its own rules say.
#[test]
fn over_a_line() {
    let mut losses = Losses::default();
    let mut receiver = Receiver::open(9, 3, Millis(25), Micros(1000)).unwrap();
    let (mut arrived, mut told_lost) = (vec![], vec![]);
    for time in 0..3000 {
        let number = losses.send().unwrap();
        if number % 7 == 3 {
            continue;
        }
        let packet = Packet { number, time: Micros(time), eliciting: true, mark: Mark::None };
        if receiver.packet(packet).unwrap().is_none() {
            continue;
        }
        let mut buffer = [0; ACK_ROOM];
        let frame = receiver.write(Micros(time), &mut buffer).unwrap();
        let (acknowledged, lost) = hears(&mut losses, frame).unwrap();
        arrived.extend(acknowledged);
        told_lost.extend(lost);
    }
    let (last, passed) = (*arrived.last().unwrap(), arrived.last().unwrap() - PACKET_THRESHOLD);
    assert!(arrived.iter().all(|number| number % 7 != 3));
    assert_eq!(told_lost, (0..=passed).filter(|number| number % 7 == 3).collect::<Vec<_>>());
    let (acknowledged, lost) = (arrived.len() as u64, told_lost.len() as u64);
    assert_eq!(losses.states(), States { outstanding: 3000 - acknowledged - lost, acknowledged, lost });
    assert_eq!((losses.sent(), losses.record().end), (3000, last + 1));
}

#[test]
fn late_and_repeated() {
    let mut losses = sent(8);
    assert_eq!(hears(&mut losses, &[0x02, 7, 0, 0, 0]), Ok((vec![7], vec![0, 1, 2, 3, 4])));
    assert_eq!(hears(&mut losses, &[0x02, 3, 0, 0, 1]), Ok((vec![2, 3], vec![])));
    assert_eq!(hears(&mut losses, &[0x02, 3, 0, 0, 1]), Ok((vec![], vec![])));
    assert_eq!(losses.states(), States { outstanding: 2, acknowledged: 3, lost: 3 });
    let (mut first, mut second) = ([0; 1], [0; 1]);
    let (changes, rest) = losses.heard(&[0x03, 6, 0, 0, 0, 1, 2, 3, 0xee], &mut first, &mut second).unwrap();
    assert_eq!((changes, rest), (Changes { acknowledged: &[6], lost: &[] }, &[0xee][..]));
}

#[test]
fn refusals() {
    let mut losses = sent(8);
    let before = losses.clone();
    assert_eq!(losses.heard(&[], &mut [], &mut []), Err(Refusal::Ends));
    assert_eq!(losses.heard(&[0x1f], &mut [], &mut []), Err(Refusal::OtherType));
    assert_eq!(losses.heard(&[0x02, 8, 0, 0, 9], &mut [], &mut []), Err(Refusal::BelowZero));
    assert_eq!(losses.heard(&[0x02, 8, 0, 0, 8], &mut [], &mut []), Err(Refusal::NeverSent));
    assert_eq!(losses.heard(&[0x02, 7, 0, 0, 0], &mut [0; 1], &mut [0; 4]), Err(Refusal::NoRoom));
    assert_eq!(losses.heard(&[0x02, 7, 0, 0, 0], &mut [], &mut [0; 5]), Err(Refusal::NoRoom));
    assert_eq!(losses, before, "a refused call changed the record");
    assert_eq!(Losses::from_record(*losses.record()), losses);
    let mut broken = *losses.record();
    broken.lost_before = 1;
    let mut broken = Losses::from_record(broken);
    assert_eq!(broken.send(), Err(Refusal::Inconsistent));
    assert_eq!(broken.heard(&[], &mut [], &mut []), Err(Refusal::Inconsistent));
}

/// The 1,025th number, and the last of all.
#[test]
fn full_records() {
    let mut losses = sent(HELD as u64);
    assert_eq!(losses.send(), Err(Refusal::NoRoom));
    assert_eq!(hears(&mut losses, &[0x02, 0, 0, 0, 0]), Ok((vec![0], vec![])));
    assert_eq!((losses.send(), losses.send()), (Ok(1024), Err(Refusal::NoRoom)));
    assert_eq!(hears(&mut losses, &[0x02, 0, 0, 0, 0]), Ok((vec![], vec![])));
    assert_eq!(losses.states(), States { outstanding: 1024, acknowledged: 1, lost: 0 });
    let mut last = raw::Losses { acknowledged: [u64::MAX; 16], next: LARGEST, ..raw::Losses::default() };
    last.acknowledged_before = LARGEST - 1024;
    let mut last = Losses::from_record(last);
    assert_eq!((last.send(), last.send()), (Ok(LARGEST), Err(Refusal::TooLarge)));
}
