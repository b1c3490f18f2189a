//! The sums of a block (request 5), beside what is written and as `sums` prints them.

mod common;

use bench_model::bus::Record;
use bench_model::harness::random::Random;
use bench_model::runfile::{self, Sums, BLOCK};
use bench_model::sums;
use common::*;

/// Block 5 of these records, which the writer takes, and the sums beside it.
fn written(n: u8, records: &[Record]) -> ([u8; BLOCK], Sums) {
    let mut block = [0xee; BLOCK];
    let (written, sums) = runfile::write_block(&mut block, 5, n, records);
    assert_eq!(written, Ok(()));
    (block, sums)
}

fn check_of(block: &[u8; BLOCK]) -> u32 {
    u16::from_le_bytes([block[510], block[511]]).into()
}

/// Byte i × (i + 1) over the head.
fn head_sum(block: &[u8; BLOCK]) -> u32 {
    (0..14).map(|i| u32::from(block[i]) * (i as u32 + 1)).sum()
}

fn summed(file: &[u8]) -> String {
    String::from_utf8(sums::sums(file)).expect("the text is ASCII")
}

/// The sums of a file of these records, right or wrong.
fn summed_run(n: u8, records: &[Record]) -> String {
    summed(&any_file(n, records))
}

/// "the one sum is 2 × 15 = 30, the head's is 1 × 5 + 2 × 6 = 17, the check is 47"
#[test]
fn case_h() {
    let file = runfile::write_file(2, &[arbitrate(0)]).unwrap();
    let block: &[u8; BLOCK] = file[..].try_into().unwrap();
    let mut expected = [0; 31];
    expected[0] = 30;
    assert_eq!(runfile::sums(block), expected);
    assert_eq!((head_sum(block), check_of(block)), (17, 47));
    assert_eq!(summed(&file), "0 30\ndone 1\n");
}

/// By hand, as in the test of the layout: the request's bytes at i + 1 = 15 to 30 make 15 + 16 +
/// 63·17 + 42·20 + 23 + 2·24 + 3·25 + 4·26 + 5·27 + 6·28 + 7·29 + 8·30 = 2938, the respond's at 31 to
/// 46 make 3·31 + 32 + 9·34 + 35 = 466, and the head's 5·1 + 2·5 + 3·6 = 33.
#[test]
fn two_actions_by_hand() {
    let records = [labelled(1, 63, 0x0403_0201, 0x0807_0605, 42), respond(1, 9, 1)];
    let (block, sums) = written(3, &records);
    assert_eq!(sums[..2], [2938, 3404]);
    assert_eq!(sums[2..], [0; 29], "0 past the count");
    assert_eq!((head_sum(&block), check_of(&block)), (33, 3437));
    let file = runfile::write_file(3, &records).unwrap();
    assert_eq!(summed(&file), "0 2938 3404\ndone 2\n");
}

/// Whatever bytes stand there.
#[test]
fn zero_past_the_count() {
    let mut block = [0xff; BLOCK];
    for count in 0..=31 {
        block[4] = count;
        let sums = runfile::sums(&block);
        let (used, past) = sums.split_at(count.into());
        assert!(used.iter().all(|&sum| sum != 0));
        assert!(past.iter().all(|&sum| sum == 0));
    }
}

/// 31 times pass: byte 14 + 16j is 5, so the k-th sum is 5 · (15 + 31 + … + (16k − 1)), which is
/// 5 · k · (8k + 7).
#[test]
fn a_block_of_31_actions() {
    let (block, sums) = written(2, &[pass(); 31]);
    for (sum, k) in sums.into_iter().zip(1..) {
        assert_eq!(sum, 5 * k * (8 * k + 7));
    }
    assert_eq!(sums[30], 39_525);
    // 5·1 + 31·5 + 2·6 = 172
    assert_eq!((head_sum(&block), check_of(&block)), (172, 39_697));
}

/// The last byte of the last action is byte 509: times 510, in the last sum alone.
#[test]
fn the_last_action_is_summed() {
    let mut records = [request(0, 1, 0, 0); 31];
    let (_, without) = written(2, &records);
    records[30] = request(0, 1, 0, 7 << 24);
    let (_, with) = written(2, &records);
    assert_eq!(with[..30], without[..30]);
    assert_eq!(u32::from(with[30]), (u32::from(without[30]) + 7 * 510) % 65_521);
}

#[test]
fn modulo_65521() {
    let mut block = [0xff; BLOCK];
    block[4] = 31;
    let sums = runfile::sums(&block);
    // 255 · (15 + … + 30) = 91,800 = 65,521 + 26,279
    assert_eq!(sums[0], 26_279);
    // 255 · (15 + … + 510) = 33,201,000 = 506 · 65,521 + 47,374
    assert_eq!(sums[30], 47_374);
    // 255 · 256 + 241 = 65,521: byte 240 is in action 15, byte 255 in action 16.
    block.fill(0);
    block[4] = 31;
    block[240] = 1;
    block[255] = 255;
    let sums = runfile::sums(&block);
    assert_eq!(sums[13..17], [0, 241, 0, 0]);
    block[239] = 240;
    // 240 · 240 + 241 = 57,841, and 65,280 more: 57,600 over the modulus.
    assert_eq!(runfile::sums(&block)[14..16], [57_841, 57_600]);
    block[240] = 0;
    block[239] = 1;
    // 240 + 65,280 = 65,520: nothing is taken.
    assert_eq!(runfile::sums(&block)[14..16], [240, 65_520]);
}

/// "0 past the count and when refused": by each number that the writer looks at.
#[test]
fn a_refused_write() {
    let refused = |length: usize, n: u8, records: &[Record]| {
        let mut buffer = vec![0xee; length];
        let (written, sums) = runfile::write_block(&mut buffer, 0, n, records);
        assert_eq!((buffer, sums), (vec![0xee; length], [0; 31]));
        written.expect_err("a refusal").number()
    };
    let last = |wrong: Record| refused(512, 2, &[&[pass(); 30][..], &[wrong]].concat());
    assert_eq!(refused(511, 2, &[pass()]), 8);
    assert_eq!(refused(512, 64, &[pass()]), 1);
    assert_eq!(refused(512, 2, &[]), 11);
    assert_eq!(refused(512, 2, &[pass(); 32]), 11);
    assert_eq!(last(Record { kind: 13, ..pass() }), 2);
    assert_eq!(last(Record { node: 1, ..pass() }), 3);
    assert_eq!(last(clock(2)), 4);
    assert_eq!(last(change(2)), 5);
    assert_eq!(last(labelled(0, 1, 0, 0, 64)), 13);
    assert_eq!(last(request(0, 0, 0, 0)), 15);
    assert_eq!(last(respond(1, 16, 0)), 6);
}

/// "The last one and the sum of the head […] add up to the check, modulo 65,521", and each is the one
/// before and an action's own bytes.
#[test]
fn head_and_last_sum_make_the_check() {
    let mut random = Random::new(5);
    for _ in 0..2000 {
        let records: Vec<Record> = (0..random.between(1, 31))
            .map(|_| Record::from_bytes(&std::array::from_fn(|_| random.draw() as u8)))
            .collect();
        let mut block = [0; BLOCK];
        let number = random.draw() as u32;
        runfile::write_unchecked(&mut block, number, random.byte(2, 63), &records);
        let sums = runfile::sums(&block);
        let last = u32::from(sums[records.len() - 1]);
        assert_eq!((last + head_sum(&block)) % 65_521, check_of(&block));
        let mut before = 0;
        for (k, &sum) in sums[..records.len()].iter().enumerate() {
            let own = (0..16).map(|i| 14 + 16 * k + i);
            let own: u32 = own.map(|i| u32::from(block[i]) * (i as u32 + 1)).sum();
            assert_eq!((before + own) % 65_521, sum.into());
            before = sum.into();
        }
    }
}

/// A line for each block, each block from 0 again; actions are counted on. None of these passes is
/// open: `sums` does not play.
#[test]
fn a_file_of_three_blocks() {
    let text = summed_run(2, &[pass(); 63]);
    let full: String = (1..=31).map(|k| format!(" {}", 5 * k * (8 * k + 7))).collect();
    assert_eq!(text, format!("0{full}\n1{full}\n2 75\ndone 63\n"));
}

/// "before any of its actions is looked at", and then in their order.
#[test]
fn refused_after_the_line() {
    let line = "0 75 230 465";
    let second = |wrong: Record| summed_run(2, &[pass(), wrong, pass()]);
    let ends = |text: &str, last: &str| {
        assert_eq!(text.lines().count(), 2, "{text}");
        assert_eq!(text.lines().next_back(), Some(last));
    };
    assert_eq!(second(pass()), format!("{line}\ndone 3\n"));
    ends(&second(Record { kind: 0, ..pass() }), "refused 1 2");
    ends(&second(Record { label: 1, ..pass() }), "refused 1 3");
    ends(&second(labelled(2, 2, 0, 0, 64)), "refused 1 4");
    ends(&second(labelled(1, 2, 0, 0, 64)), "refused 1 5");
    ends(&second(labelled(1, 63, 0, 0, 64)), "refused 1 13");
    ends(&second(labelled(1, 1, 0, 0, 64)), "refused 1 13");
    ends(&second(labelled(1, 1, 0, 0, 63)), "refused 1 15");
    ends(&second(respond(1, 0, 2)), "refused 1 6");
    // Kind 13 at the first: 13 · 15, then 5 · 31 more.
    let first = summed_run(2, &[Record { kind: 13, ..pass() }, pass()]);
    assert_eq!(first, "0 195 350\nrefused 0 2\n");
    // The last of a full block; the next block is not reached.
    let mut run = [pass(); 40];
    run[30] = clock(2);
    let text = summed_run(2, &run);
    ends(&text, "refused 30 4");
    assert_eq!(text.lines().next().unwrap().split(' ').count(), 32);
}

/// A run from before request 10: both blocks have their lines, as they had, and the second has its
/// request of a node to itself after them.
#[test]
fn an_older_run() {
    let text = summed_run(2, &older_run());
    let lines: Vec<&str> = text.lines().collect();
    assert_eq!(lines.len(), 3);
    let sums = |line: &str| line.split(' ').skip(1).count();
    assert_eq!((sums(lines[0]), sums(lines[1]), lines[2]), (31, 27, "refused 42 15"));
    // Up to the request the sums are those of a run that goes elsewhere; its address is 0 then, and the
    // 63 of the other has place 14 + 16·11 + 3 = 193.
    let mut elsewhere = older_run();
    elsewhere[42].address = 63;
    let text = summed_run(2, &elsewhere);
    let other: Vec<&str> = text.lines().collect();
    assert_eq!((lines[0], other[2]), (other[0], "done 58"));
    let second =
        |line: &str| -> Vec<u32> { line.split(' ').map(|sum| sum.parse().unwrap()).collect() };
    let (own, other) = (second(lines[1]), second(other[1]));
    assert_eq!(own[..12], other[..12]);
    for (own, other) in own[12..].iter().zip(&other[12..]) {
        assert_eq!((own + 63 * 193) % 65_521, *other);
    }
}

/// 8, 9, 1, 10 and 11 come before the block's line.
#[test]
fn a_refused_block_has_no_line() {
    assert_eq!(summed(&[]), "refused 0 8\n");
    assert_eq!(summed(&[0; 511]), "refused 0 8\n");
    assert_eq!(summed(&[0; 512]), "refused 0 1\n");
    let file = runfile::write_file(2, &[pass(); 32]).unwrap();
    let first = summed(&file[..512]).replace("done 31\n", "");
    assert_eq!(summed(&file), format!("{first}1 75\ndone 32\n"));
    let second = |alter: &dyn Fn(&mut [u8; BLOCK])| {
        let mut file = file.clone();
        let block: &mut [u8; BLOCK] = (&mut file[512..]).try_into().unwrap();
        alter(block);
        runfile::seal(block);
        summed(&file)
    };
    assert_eq!(second(&|block| block[5] = 64), format!("{first}refused 31 1\n"));
    assert_eq!(second(&|block| block[0] = 2), format!("{first}refused 31 10\n"));
    assert_eq!(second(&|block| block[6] = 1), format!("{first}refused 31 11\n"));
    assert_eq!(summed(&file[..1023]), format!("{first}refused 31 8\n"));
    let mut altered = file.clone();
    altered[512 + 14] = 6;
    assert_eq!(summed(&altered), format!("{first}refused 31 9\n"));
}
