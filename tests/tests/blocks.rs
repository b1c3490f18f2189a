//! Run files: blocks read and written, and the numbers 8, 9, 1, 10 and 11 in their order.

mod common;

use bench_model::bus::{Record, Refusal};
use bench_model::runfile::{self, Head, Reader, BLOCK};
use bench_model::transcript;
use common::*;

/// A run of so many actions that are accepted: requests into buffers and lost arbitrations.
fn long_run(actions: usize) -> Vec<Record> {
    let mut run = vec![labelled(0, 63, 1, 2, 5), arbitrate(0), labelled(1, 63, 3, 4, 63)];
    run.resize(actions.max(3), arbitrate(1));
    run.truncate(actions);
    run
}

fn file_of(actions: usize) -> Vec<u8> {
    runfile::write_file(2, &long_run(actions)).unwrap()
}

fn last_line(bytes: &[u8]) -> String {
    printed_file(bytes).lines().next_back().unwrap().to_string()
}

/// Alters one block of a file and makes its check right again.
fn altered(mut file: Vec<u8>, place: usize, alter: impl Fn(&mut [u8; BLOCK])) -> Vec<u8> {
    let block: &mut [u8; BLOCK] =
        (&mut file[place * BLOCK..(place + 1) * BLOCK]).try_into().unwrap();
    alter(block);
    runfile::seal(block);
    file
}

#[test]
fn the_layout_of_a_block() {
    let mut block = [0xee; BLOCK];
    let records = [labelled(1, 63, 0x0403_0201, 0x0807_0605, 42), respond(1, 9, 1)];
    runfile::write_block(&mut block, 0x0d0c_0b0a, 3, &records).0.unwrap();
    assert_eq!(block[..6], [0x0a, 0x0b, 0x0c, 0x0d, 2, 3]);
    assert_eq!(block[6..14], [0; 8]);
    assert_eq!(block[14..30], [1, 1, 63, 0, 0, 42, 0, 0, 1, 2, 3, 4, 5, 6, 7, 8]);
    assert_eq!(block[30..46], [3, 1, 0, 9, 1, 0, 0, 0, 0, 0, 0, 0, 0, 0, 0, 0]);
    assert_eq!(block[46..510], [0; 464]);
    // By hand: 10·1 + 11·2 + 12·3 + 13·4 + 2·5 + 3·6 = 148; the request's bytes at i + 1 = 15 to 30:
    // 15 + 16 + 63·17 + 42·20 + 23 + 2·24 + 3·25 + 4·26 + 5·27 + 6·28 + 7·29 + 8·30 = 2938; the
    // respond's at 31 to 35: 3·31 + 32 + 9·34 + 35 = 466.
    assert_eq!(block[510..], 3552u16.to_le_bytes());
    let (head, actions) = runfile::read_block(&block).unwrap();
    assert_eq!(head, Head { number: 0x0d0c_0b0a, count: 2, n: 3 });
    assert_eq!(actions, &block[14..46]);
    assert_eq!(actions.as_ptr(), block[14..].as_ptr(), "a part of the caller's own block");
    assert_eq!(runfile::records(actions).collect::<Vec<_>>(), records);
}

#[test]
fn the_check_is_modulo_65521() {
    let mut block = [0xff; BLOCK];
    // 255 · (1 + 2 + … + 510) = 255 · 130,305 = 33,227,775 = 507 · 65,521 + 8,628
    assert_eq!(runfile::check(&block), 8_628);
    block.fill(0);
    // 255 · 256 + 241 = 65,521
    block[255] = 255;
    block[240] = 1;
    assert_eq!(runfile::check(&block), 0);
    block[0] = 1;
    assert_eq!(runfile::check(&block), 1);
}

#[test]
fn written_and_read_back() {
    for actions in [1, 30, 31, 32, 61, 62, 63, 93] {
        let run = long_run(actions);
        let file = file_of(actions);
        assert_eq!(file.len(), actions.div_ceil(31) * BLOCK);
        let mut reader = Reader::default();
        let mut read = Vec::new();
        for block in file.chunks(BLOCK) {
            let (head, actions) = reader.block(block).unwrap();
            assert_eq!(head.n, 2);
            read.extend(runfile::records(actions));
        }
        assert_eq!(read, run);
        assert_eq!(last_line(&file), format!("done {actions}"));
    }
}

#[test]
fn the_index_runs_on_across_blocks() {
    let text = printed_file(&file_of(63));
    assert!(text.starts_with("nodes 2\n0 1 -\n1 2 0 won\n2 1 -\n3 2 1 lost\n"));
    assert!(text.contains("\n30 2 1 lost\n31 2 1 lost\n32 2 1 lost\n"));
    assert!(text.ends_with("\n61 2 1 lost\n62 2 1 lost\ndone 63\n"));
    assert_eq!(text.lines().count(), 65);
}

#[test]
fn number_8() {
    assert_eq!(printed_file(&[]), "refused 0 8\n");
    assert_eq!(printed_file(&[0; 511]), "refused 0 8\n");
    let file = file_of(63);
    assert_eq!(last_line(&file[..1023]), "refused 31 8");
    assert_eq!(last_line(&file[..1025]), "refused 62 8");
    assert_eq!(last_line(&[&file[..], &[0]].concat()), "refused 63 8");
    for length in [0, 511, 513] {
        assert_eq!(runfile::read_block(&vec![0; length]), Err(Refusal::BlockLength));
        let mut buffer = vec![7; length];
        let (written, _) = runfile::write_block(&mut buffer, 0, 1, &[]);
        assert_eq!(written, Err(Refusal::BlockLength), "8 before 1 and 11");
        assert_eq!(buffer, vec![7; length]);
    }
}

#[test]
fn number_9() {
    let file = file_of(63);
    for place in [0, 4, 5, 6, 14, 509, 510, 511] {
        let mut bytes = file.clone();
        bytes[512 + place] ^= 1;
        assert_eq!(last_line(&bytes), "refused 31 9", "byte {place}");
    }
    // 65,521 for 0 is congruent, and not equal.
    let mut zeros = [0; BLOCK];
    zeros[510..].copy_from_slice(&65_521u16.to_le_bytes());
    assert_eq!(printed_file(&zeros), "refused 0 9\n");
}

#[test]
fn number_1() {
    for n in [0, 1, 64, 255] {
        assert_eq!(last_line(&altered(file_of(63), 0, |block| block[5] = n)), "refused 0 1");
        assert_eq!(last_line(&altered(file_of(63), 1, |block| block[5] = n)), "refused 31 1");
    }
}

#[test]
fn number_10() {
    let file = file_of(63);
    let blocks: Vec<&[u8]> = file.chunks(BLOCK).collect();
    let joined = |places: &[usize]| -> Vec<u8> {
        places.iter().flat_map(|&place| blocks[place].to_vec()).collect()
    };
    assert_eq!(last_line(&joined(&[1, 2])), "refused 0 10");
    assert_eq!(last_line(&joined(&[0, 2])), "refused 31 10");
    assert_eq!(last_line(&joined(&[0, 0, 1])), "refused 31 10");
    assert_eq!(last_line(&joined(&[0, 1, 1])), "refused 62 10");
    // n not block 0's
    assert_eq!(last_line(&altered(file.clone(), 1, |block| block[5] = 3)), "refused 31 10");
    // The number's four bytes all count.
    for place in 0..4 {
        let bytes = altered(file.clone(), 1, |block| block[place] ^= 0x80);
        assert_eq!(last_line(&bytes), "refused 31 10");
    }
    // The block before not full: found at the next block.
    let mut bytes = file_of(30);
    bytes.extend(blocks[1]);
    assert_eq!(last_line(&bytes), "refused 30 10");
}

#[test]
fn none_follows_the_last_number() {
    let head = Head { number: u32::MAX - 1, count: 31, n: 2 };
    let mut block = [0; BLOCK];
    let run = long_run(31);
    runfile::write_block(&mut block, u32::MAX, 2, &run).0.unwrap();
    let mut reader = Reader::after(head);
    assert!(reader.block(&block).is_ok());
    for number in [0, 1, u32::MAX] {
        runfile::write_block(&mut block, number, 2, &run).0.unwrap();
        assert_eq!(reader.block(&block), Err(Refusal::BlockOrder));
    }
}

#[test]
fn number_11() {
    for count in [0, 32, 255] {
        assert_eq!(last_line(&altered(file_of(63), 1, |block| block[4] = count)), "refused 31 11");
    }
    for place in 6..14 {
        assert_eq!(last_line(&altered(file_of(63), 1, |block| block[place] = 1)), "refused 31 11");
    }
    // The last block has one action: bytes 30 to 509 are past it.
    for place in [30, 31, 509] {
        assert_eq!(last_line(&altered(file_of(63), 2, |block| block[place] = 1)), "refused 62 11");
    }
    // One action less counted than there are.
    assert_eq!(last_line(&altered(file_of(63), 1, |block| block[4] = 30)), "refused 31 11");
    // One more: it is a record of kind 0.
    assert_eq!(last_line(&altered(file_of(63), 2, |block| block[4] = 2)), "refused 63 2");
}

/// "A file's block is looked at by 8, 9, 1, 10, 11, then each action".
#[test]
fn several_at_once_in_a_file() {
    let spoil = |number: bool, n: bool| {
        altered(file_of(63), 0, |block| {
            block[0] = number.into();
            block[4] = 32;
            block[5] = if n { 64 } else { 2 };
            block[14] = 0;
        })
    };
    let mut all = spoil(true, true);
    all[510] ^= 1;
    assert_eq!(printed_file(&all[..511]), "refused 0 8\n");
    assert_eq!(printed_file(&all), "refused 0 9\n");
    assert_eq!(printed_file(&spoil(true, true)), "refused 0 1\n");
    assert_eq!(printed_file(&spoil(true, false)), "refused 0 10\n");
    assert_eq!(printed_file(&spoil(false, false)), "refused 0 11\n");
    let wrong_kind = altered(file_of(63), 0, |block| block[14] = 0);
    assert_eq!(printed_file(&wrong_kind), "nodes 2\nrefused 0 2\n");
    // A later action is looked at when its turn comes: the one before it is played.
    let wrong_later = altered(file_of(63), 0, |block| block[30] = 0);
    assert_eq!(printed_file(&wrong_later), "nodes 2\n0 1 -\nrefused 1 2\n");
}

/// "A single block read by itself is looked at by 8, 9, 1 and 11 only; its actions are given back
/// unchecked."
#[test]
fn a_single_block() {
    let block = |alter: &dyn Fn(&mut [u8; BLOCK])| altered(file_of(3), 0, alter);
    let numbered = block(&|block| block[0] = 9);
    assert_eq!(runfile::read_block(&numbered).unwrap().0.number, 9, "not 10");
    let wrong = block(&|block| block[14] = 99);
    let (_, actions) = runfile::read_block(&wrong).unwrap();
    assert_eq!(actions[0], 99, "unchecked");
    let both = block(&|block| {
        block[4] = 0;
        block[5] = 1;
    });
    assert_eq!(runfile::read_block(&both), Err(Refusal::NodeCount), "1 before 11");
    assert_eq!(runfile::read_block(&block(&|block| block[4] = 0)), Err(Refusal::BlockContent));
    let mut unsealed = both.clone();
    unsealed[0] ^= 1;
    assert_eq!(runfile::read_block(&unsealed), Err(Refusal::BlockCheck), "9 before 1");
}

/// Every label has a file of its own, and is read back from it.
#[test]
fn labels_written_and_read_back() {
    for label in 0..=63 {
        let run = [labelled(1, 0, 1, 2, label), pass(), labelled(0, 63, 3, 4, 63 - label)];
        let file = runfile::write_file(2, &run).unwrap();
        assert_eq!([file[19], file[35], file[51]], [label, 0, 63 - label]);
        let (_, actions) = runfile::read_block(&file).unwrap();
        assert!(runfile::records(actions).eq(run));
    }
}

/// "then each action, when its turn comes": 13 ends a file there.
#[test]
fn number_13() {
    for label in [64, 128, 255] {
        // The request at 2, and one after the first block.
        let wrong = altered(file_of(63), 0, |block| block[14 + 16 * 2 + 5] = label);
        assert_eq!(printed_file(&wrong), "nodes 2\n0 1 -\n1 2 0 won\nrefused 2 13\n");
        let mut run = long_run(63);
        run[40] = labelled(1, 63, 3, 4, label);
        let mut file = file_of(63);
        let block = (&mut file[BLOCK..2 * BLOCK]).try_into().unwrap();
        runfile::write_unchecked(block, 1, 2, &run[31..62]);
        assert_eq!(last_line(&file), "refused 40 13");
    }
    // A single block gives it back.
    let wrong = altered(file_of(3), 0, |block| block[19] = 64);
    let (_, actions) = runfile::read_block(&wrong).unwrap();
    assert_eq!(actions[5], 64, "unchecked");
}

/// "then each action, when its turn comes": 15 ends a file there. A single block gives it back.
#[test]
fn number_15() {
    // The request at 2 is node 1's to all.
    let wrong = altered(file_of(63), 0, |block| block[14 + 16 * 2 + 2] = 1);
    assert_eq!(printed_file(&wrong), "nodes 2\n0 1 -\n1 2 0 won\nrefused 2 15\n");
    let (_, actions) = runfile::read_block(&wrong[..BLOCK]).unwrap();
    assert_eq!(actions[16 * 2..16 * 2 + 3], [1, 1, 1], "unchecked");
}

/// "The writer looks at 8, 1, 11, then 2 to 6 for each action", at 13 after 5 and at 15 after 13.
#[test]
fn the_writer() {
    let refused = |n: u8, records: &[Record]| {
        let mut buffer = [0xee; BLOCK];
        let (written, sums) = runfile::write_block(&mut buffer, 0, n, records);
        assert_eq!(buffer, [0xee; BLOCK], "a refused write leaves its buffer as it was");
        assert_eq!(sums, [0; 31], "and has no sums");
        written.expect_err("a refusal").number()
    };
    let wrong = Record { kind: 13, ..Record::default() };
    assert_eq!(refused(64, &[]), 1);
    assert_eq!(refused(2, &[]), 11);
    assert_eq!(refused(2, &[wrong; 32]), 11);
    assert_eq!(refused(2, &[pass(), wrong]), 2);
    assert_eq!(refused(2, &[pass(), Record { node: 1, ..pass() }]), 3);
    assert_eq!(refused(2, &[pass(), clock(2)]), 4);
    assert_eq!(refused(2, &[pass(), change(2)]), 5);
    assert_eq!(refused(2, &[pass(), labelled(1, 2, 0, 0, 64)]), 5);
    assert_eq!(refused(2, &[pass(), labelled(1, 63, 0, 0, 64)]), 13);
    assert_eq!(refused(2, &[pass(), labelled(1, 1, 0, 0, 64)]), 13);
    // "the writer does not write one", whatever comes before it.
    assert_eq!(refused(2, &[pass(), request(0, 0, 0, 0)]), 15);
    assert_eq!(refused(2, &[&held()[..], &[request(1, 1, 0, 0)]].concat()), 15);
    assert_eq!(refused(63, &[request(62, 62, 0, 0)]), 15);
    assert_eq!(refused(2, &[pass(), Record { label: 1, ..clock(1) }]), 3);
    assert_eq!(refused(2, &[pass(), respond(1, 16, 0)]), 6);
    assert_eq!(refused(2, &[clock(2), wrong]), 4, "each action in its turn");
    let no_label = labelled(1, 63, 0, 0, 255);
    assert_eq!(refused(2, &[no_label, clock(2)]), 13, "each action in its turn");
    assert_eq!(refused(2, &[request(0, 0, 0, 0), no_label]), 15, "each action in its turn");
    // 7 is not looked at.
    let mut buffer = [0xee; BLOCK];
    assert_eq!(runfile::write_block(&mut buffer, 0, 2, &[pass(); 31]).0, Ok(()));
    let run = [labelled(0, 1, 0, 0, 63); 31];
    assert_eq!(runfile::write_block(&mut buffer, 0, 2, &run).0, Ok(()));
    assert_eq!(runfile::write_file(2, &[]), Err(Refusal::BlockContent));
    assert_eq!(runfile::write_file(1, &[]), Err(Refusal::NodeCount));
}

#[test]
fn figures_are_decimal() {
    let mut text = Vec::new();
    for value in [0, 9, 10, 99, 100, 4_294_967_295, u64::MAX] {
        transcript::done(&mut text, value);
    }
    let expected =
        "done 0\ndone 9\ndone 10\ndone 99\ndone 100\ndone 4294967295\ndone 18446744073709551615\n";
    assert_eq!(String::from_utf8(text).unwrap(), expected);
    let run = [labelled(0, 63, u32::MAX, 0, 10), arbitrate(0)];
    let run = [&run[..], &packet_of_two()].concat();
    let end = "\n12 4 0 sent 10\n13 5 1 broad 4294967295 0 10\ndone 14\n";
    assert!(printed(2, &run).ends_with(end));
}
