use super::*;

/// Lines that hold these, each from the head on.
fn lines(queues: [&[usize]; 3]) -> Lines {
    let mut lines = Lines::default();
    for (line, queue) in lines.0.iter_mut().zip(queues) {
        queue.iter().for_each(|&index| line.join(index));
    }
    lines
}

/// 3 x (1 + 16) octets: of each line a count, then the indexes, then zeros.
#[test]
fn octets_there_and_back() {
    let full: Vec<usize> = (0..16).rev().collect();
    for queues in [[&[][..], &[], &[]], [&[3], &[0, 5], &full]] {
        let lines = lines(queues);
        let mut octets = [0xA5; LINE_OCTETS];
        lines.write(&mut octets);
        for (line, queue) in octets.chunks(17).zip(queues) {
            assert_eq!(usize::from(line[0]), queue.len());
            let expected = queue.iter().copied().chain([0; 16]).take(16);
            assert!(line[1..]
                .iter()
                .map(|&octet| usize::from(octet))
                .eq(expected));
        }
        assert_eq!(Lines::read(&octets, 16), Some(lines));
    }
}

/// Indexes in range, none twice, and nothing behind them.
#[test]
fn octets_that_are_no_lines() {
    let mut octets = [0; LINE_OCTETS];
    octets[34..37].copy_from_slice(&[2, 4, 1]);
    assert!(Lines::read(&octets, 5).is_some());
    assert_eq!(Lines::read(&octets, 4), None);
    assert_eq!(Lines::read(&octets[1..], 16), None);
    for (place, octet) in [
        (34, 17),
        (34, 1),
        (34, 3),
        (35, 1),
        (37, 1),
        (50, 1),
        (0, 255),
    ] {
        let mut octets = octets;
        octets[place] = octet;
        let expected = match place {
            34 if octet == 3 => Some(lines([&[], &[], &[4, 1, 0]])),
            _ => None,
        };
        assert_eq!(Lines::read(&octets, 16), expected, "{place}: {octet}");
    }
}

/// Each rank has a line of its own.
#[test]
fn ranks_before_places() {
    let lines = lines([&[2, 1], &[0], &[1, 0]]);
    let next = |ready: &[(usize, Rank)]| lines.next(|index, rank| ready.contains(&(index, rank)));
    assert_eq!(next(&[]), None);
    assert_eq!(next(&[(0, Rank::Control)]), None);
    let ready = [(0, Rank::NewData), (1, Rank::NewData)];
    assert_eq!(next(&ready), Some((1, Rank::NewData)));
    let ready = [(1, Rank::NewData), (0, Rank::ResentData)];
    assert_eq!(next(&ready), Some((0, Rank::ResentData)));
    let ready = [(0, Rank::ResentData), (1, Rank::Control)];
    assert_eq!(next(&ready), Some((1, Rank::Control)));
}

/// A channel may join one line, leave another, and keep its place in a third.
#[test]
fn a_channel_in_all_lines() {
    let mut all = lines([&[0, 1], &[1, 0], &[0]]);
    all.relist(1, |rank| rank != Rank::Control);
    assert_eq!(all, lines([&[0], &[1, 0], &[0, 1]]));
    all.leave(0, Rank::NewData);
    assert_eq!(all, lines([&[0], &[1, 0], &[1]]));
}
