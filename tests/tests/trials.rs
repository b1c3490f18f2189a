//! Load trials (request 8): the examples and vectors of docs/TRIALS.md, its rules by hand, and each
//! sentence of the request on trials of random settings.

mod common;

use bench_model::bus::{Record, Refusal};
use bench_model::harness::hits::{self, Hits};
use bench_model::harness::random::Random;
use bench_model::harness::settings::{longer, plain, settings};
use bench_model::harness::{outside, ways};
use bench_model::runfile::{self, BLOCK};
use bench_model::settings::read;
use bench_model::trial::{run_file, trial, Settings, Tally, User};
use common::*;

/// A user of whom nothing is said.
const UNSAID: User = User { spell: 0, address: 0, fillers: 0, hold: false, period: 0 };

/// "User 0: to 1" and so on; what is not named is 0, and release.
fn to(address: u8) -> User {
    User { address, ..UNSAID }
}

/// Two users, and so many actions.
fn two(actions: u16, users: [User; 2]) -> Settings {
    given(2, actions, &users)
}

fn given(n: u8, actions: u16, users: &[User]) -> Settings {
    let mut settings = Settings::new(n, actions);
    settings.users[..users.len()].copy_from_slice(users);
    settings
}

/// What nobody's trial counts.
const STRANGE: Tally = Tally { requests: 7, wins: 65_535, sent: 1, ack: 2, miss: 3, drops: 4 };

/// A trial that is not refused.
fn tried(settings: &Settings) -> (Vec<Record>, Tally) {
    let mut tally = STRANGE;
    let records = trial(settings, &mut tally).expect("not refused");
    (records, tally)
}

/// The checks of its run file's blocks.
fn checks(settings: &Settings) -> Vec<u16> {
    let file = run_file(settings, &mut STRANGE.clone()).expect("not refused");
    file.chunks(BLOCK).map(|block| u16::from_le_bytes([block[510], block[511]])).collect()
}

fn tally([requests, wins, sent, ack, miss, drops]: [u16; 6]) -> Tally {
    Tally { requests, wins, sent, ack, miss, drops }
}

/// A node's packet or acknowledgement, n = 2: so many times clock and pass.
fn signals(node: u8, count: usize) -> Vec<Record> {
    [clock(node), pass()].repeat(count)
}

/// The first action of a trial at which this holds of it and its place.
fn index_of(settings: &Settings, is: impl Fn(&Record) -> bool) -> Option<usize> {
    tried(settings).0.iter().position(is)
}

/// The reports of a trial, with index, kind and node.
fn reported(settings: &Settings) -> Vec<String> {
    let (records, _) = tried(settings);
    let text = printed(settings.n, &records);
    reports(&text).into_iter().map(String::from).collect()
}

// ---- "Three examples"

fn a_loss() -> Settings {
    two(19, [to(1), User { period: 2, ..to(0) }])
}

#[test]
fn example_1() {
    let mut run = vec![labelled(0, 1, 0, 0, 0), labelled(1, 0, 1, 0, 0), arbitrate(0)];
    run.extend(signals(0, 4));
    run.extend([clock(0), lose(), clock(0), pass()]);
    run.extend([grant(), clock(1), gap(), gap()]);
    assert_eq!(tried(&a_loss()), (run, tally([2, 1, 0, 0, 1, 1])));
    assert_eq!(reported(&a_loss()), ["2 2 0 won", "14 5 1 drop BodyOwn", "17 9 0 miss 0"]);
    assert_eq!(checks(&a_loss()), [17_450]);
}

fn a_reply() -> Settings {
    let user_0 = User { spell: 3, hold: true, ..to(1) };
    let user_1 = User { spell: 9, fillers: 1, hold: true, ..to(0) };
    two(48, [user_0, user_1])
}

#[test]
fn example_2() {
    let mut run = vec![labelled(0, 1, 0, 0, 0), labelled(1, 0, 1, 0, 0), arbitrate(0)];
    run.extend(signals(0, 6));
    run.extend([grant(), clock(1), pass(), respond(1, 1, 1)]);
    run.extend(signals(1, 3));
    run.push(labelled(1, 0, 1, 1, 1));
    run.extend(signals(1, 6));
    run.extend([grant(), respond(0, 1, 0)]);
    run.extend(signals(0, 3));
    run.extend([gap(), gap()]);
    assert_eq!(tried(&a_reply()), (run.clone(), tally([3, 1, 0, 2, 0, 0])));
    let reports =
        ["2 2 0 won", "14 5 1 good 0 0 0", "24 5 0 ack 1 0", "37 5 0 good 1 1 1", "45 5 1 ack 1 1"];
    assert_eq!(reported(&a_reply()), reports);
    assert_eq!(checks(&a_reply()), [39_706, 14_028]);
    // "The next actions would be request 0 to 1 (0, 1, 1) and arbitrate 1."
    run.extend([labelled(0, 1, 0, 1, 1), arbitrate(1)]);
    assert_eq!(tried(&Settings { actions: 50, ..a_reply() }).0, run);
}

fn a_wait() -> Settings {
    two(36, [User { spell: 60, ..to(63) }, User { spell: 40, ..to(63) }])
}

#[test]
fn example_3() {
    let mut run = vec![labelled(0, 63, 0, 0, 0), labelled(1, 63, 1, 0, 0)];
    for node in 0..2 {
        run.push(arbitrate(node));
        run.extend(signals(node, 6));
        run.extend([gap(), gap()]);
    }
    assert_eq!((run[17], run.len()), (arbitrate(1), 32));
    run.extend([reset(), labelled(1, 63, 1, 1, 1), arbitrate(1), clock(1)]);
    assert_eq!(tried(&a_wait()), (run, tally([3, 3, 2, 0, 0, 0])));
    assert_eq!(checks(&a_wait()), [45_247, 4417]);
    // "Now left is 30 and 25: both fall by 25", so node 0 may ask five actions after node 1 could.
    let again = index_of(&Settings { actions: 80, ..a_wait() }, |record| {
        *record == labelled(0, 63, 0, 1, 1)
    });
    // The packet ends at 46, the gaps are 47 and 48.
    assert_eq!(again, Some(49));
}

/// The same by their texts; the first is the page's own.
#[test]
fn examples_in_plain_words() {
    let text = "nodes 2             # the first example below\nactions 19\nuser 0 to 1\nuser 1 to 0 lose 2\n";
    assert_eq!(read(text.as_bytes()), Ok(a_loss()));
    for settings in [a_loss(), a_reply(), a_wait(), longer(63, 1)] {
        assert_eq!(read(plain(&settings).as_bytes()), Ok(settings));
    }
}

/// "Longer ones"
#[test]
fn vectors() {
    for (n, actions, counters, sum) in [
        (2, 1000, [45, 30, 0, 33, 10, 6], 1_514_945),
        (5, 65_535, [1343, 957, 191, 711, 437, 262], 83_059_845),
        (63, 65_535, [175, 80, 19, 63, 30, 243], 85_595_932),
    ] {
        let settings = longer(n, actions);
        let (records, counted) = tried(&settings);
        assert_eq!(records.len(), actions.into());
        assert_eq!(counted, tally(counters), "n = {n}");
        let checks = checks(&settings);
        assert_eq!(checks.len(), usize::from(actions).div_ceil(31));
        assert_eq!(checks.into_iter().map(u32::from).sum::<u32>(), sum, "n = {n}");
    }
}

// ---- refusals

/// "A trial is refused by the first of these that holds, and then the tally stays as it was".
#[test]
fn refused_by_1_5_15_and_11() {
    let refused = |settings: &Settings| {
        let mut tally = STRANGE;
        let refusal = trial(settings, &mut tally).expect_err("refused");
        assert_eq!(tally, STRANGE);
        assert_eq!(run_file(settings, &mut tally), Err(refusal));
        assert_eq!(tally, STRANGE);
        refusal
    };
    for n in [0, 1, 64, 65, 255] {
        assert_eq!(refused(&given(n, 5, &[])), Refusal::NodeCount);
        assert_eq!(refused(&given(n, 0, &[to(200)])), Refusal::NodeCount);
    }
    for (n, address) in [(2, 2), (2, 62), (2, 64), (2, 255), (62, 62), (63, 64), (63, 255)] {
        assert_eq!(refused(&given(n, 5, &[to(address)])), Refusal::Address);
        assert_eq!(refused(&given(n, 0, &[to(63), to(address)])), Refusal::Address);
        // "So 5 is looked at for all nodes before 15 is for any": node 0 would send to itself.
        let mut last = Settings::new(n, 5);
        last.users[usize::from(n) - 1] = to(address);
        assert_eq!(refused(&last), Refusal::Address);
        assert_eq!(refused(&Settings { actions: 0, ..last }), Refusal::Address);
        // "What is set for other nodes is not read."
        let mut other = given(2, 5, &[to(1)]);
        other.users[2] = to(address);
        other.users[62] = to(address);
        assert_eq!(tried(&other), tried(&given(2, 5, &[to(1)])));
    }
    for n in [2, 3, 62, 63] {
        // Each of them alone, and the first and the last at once.
        for node in 0..n {
            let mut itself = given(n, 5, &[to(63); 63]);
            itself.users[usize::from(node)] = to(node);
            assert_eq!(refused(&itself), Refusal::ToItself);
            itself.users[usize::from(n) - 1] = to(n - 1);
            assert_eq!(refused(&itself), Refusal::ToItself);
            // 15 comes before 11.
            assert_eq!(refused(&Settings { actions: 0, ..itself }), Refusal::ToItself);
        }
        // Where nothing is said, node 0 would.
        assert_eq!(refused(&given(n, 5, &[])), Refusal::ToItself);
        assert_eq!(refused(&given(n, 0, &[])), Refusal::ToItself);
    }
    let mut other = given(2, 5, &[to(1)]);
    other.users[2] = to(2);
    other.users[62] = to(62);
    assert_eq!(tried(&other), tried(&given(2, 5, &[to(1)])));
    assert_eq!(refused(&given(2, 0, &[to(1)])), Refusal::BlockContent);
    assert_eq!(refused(&given(63, 0, &[to(62)])), Refusal::BlockContent);
    let order = [Refusal::NodeCount, Refusal::Address, Refusal::ToItself, Refusal::BlockContent];
    assert_eq!(order.map(Refusal::number), [1, 5, 15, 11]);
}

/// Each n, addresses at the ends of their range, 1 action and the most.
#[test]
fn not_refused() {
    for n in 2..=63 {
        let address = |i| if i % 2 == 0 && i != n - 1 { n - 1 } else { 63 };
        let users: Vec<User> = (0..n).map(|i| to(address(i))).collect();
        assert_eq!(tried(&given(n, 1, &users)).0, [request(0, n - 1, 0, 0)]);
    }
    assert_eq!(tried(&given(63, 65_535, &[to(62)])).0.len(), 65_535);
}

// ---- the rules by hand

/// "there is none before a node's first win: every user asks at the start"
#[test]
fn every_user_asks_at_the_start() {
    let users = [User { spell: 255, ..to(63) }; 5];
    let mut run: Vec<Record> = (0..5).map(|node| request(node, 63, node.into(), 0)).collect();
    run.push(arbitrate(0));
    assert_eq!(tried(&given(5, 6, &users)).0, run);
}

/// "A spell counts actions of anybody, from the one after the `won` on": 14 are between the win at 2
/// and the Idle bus at 17.
#[test]
fn a_spell_is_over() {
    let asks_again = |spell| {
        let settings = two(18, [User { spell, ..to(63) }, to(63)]);
        tried(&settings).0[17]
    };
    assert_eq!(asks_again(0), labelled(0, 63, 0, 1, 1));
    assert_eq!(asks_again(13), labelled(0, 63, 0, 1, 1));
    assert_eq!(asks_again(14), labelled(0, 63, 0, 1, 1));
    assert_eq!(asks_again(15), arbitrate(1));
    assert_eq!(asks_again(255), arbitrate(1));
}

/// "Reset comes before waiting, also when no buffer is full", and after it the least left of all is
/// taken off: node 1's, then both at once.
#[test]
fn waiting() {
    // Wins at 2 and 17; the reset at 32. Left is spell - 30 and spell - 15 then.
    let after_reset = |spell_0, spell_1| {
        let settings =
            two(36, [User { spell: spell_0, ..to(63) }, User { spell: spell_1, ..to(63) }]);
        let run = tried(&settings).0;
        assert_eq!(run[32], reset());
        run[33..].to_vec()
    };
    let again = |node: u8| labelled(node, 63, node.into(), 1, 1);
    assert_eq!(after_reset(255, 255), [again(0), arbitrate(0), clock(0)]);
    assert_eq!(after_reset(250, 230), [again(1), arbitrate(1), clock(1)]);
    assert_eq!(after_reset(100, 85), [again(0), again(1), arbitrate(0)]);
    // One action later: the second spell is over when the first request is made.
    assert_eq!(after_reset(101, 85), [again(1), again(0), arbitrate(0)]);
    assert_eq!(after_reset(102, 85), [again(1), arbitrate(1), clock(1)]);
    // No waiting: node 0's spell is over with the reset.
    assert_eq!(after_reset(31, 255), [again(0), arbitrate(0), clock(0)]);
}

/// 5b: the lowest that has not won; each asks again after its win, before the next one arbitrates. 5c:
/// when all that wait have won.
#[test]
fn fairness() {
    let run = tried(&given(3, 80, &[to(63); 3])).0;
    let reset_at = run.iter().position(|&record| record == reset()).expect("a reset");
    let users: Vec<(u8, u8)> = run[..=reset_at + 1]
        .iter()
        .filter(|record| [1, 2, 10].contains(&record.kind))
        .map(|record| (record.kind, record.node))
        .collect();
    let asked = [(1, 0), (1, 1), (1, 2)];
    let won = [(2, 0), (1, 0), (2, 1), (1, 1), (2, 2), (1, 2)];
    assert_eq!(users, [&asked[..], &won, &[(10, 0), (2, 0)]].concat());
}

/// "one count for Header, Data and Ack together, for each receiver, over the whole trial […] The
/// period-th itself is lost; period 1 loses all."
#[test]
fn losses() {
    let lost = |settings: &Settings| -> Vec<usize> {
        let run = tried(settings).0;
        (0..run.len()).filter(|&index| run[index] == lose()).collect()
    };
    // Node 1 gets Header and Data at 10 and 12, at 42 and 44, and a Header at 59; what comes between
    // is its own packet, and two resets.
    let period = |period| two(60, [to(63), User { spell: 255, period, ..to(63) }]);
    assert_eq!(lost(&period(0)), []);
    assert_eq!(lost(&period(1)), [10, 12, 42, 44, 59]);
    assert_eq!(lost(&period(2)), [12, 44]);
    assert_eq!(lost(&period(3)), [42]);
    assert_eq!(lost(&period(4)), [44]);
    assert_eq!(lost(&period(5)), [59]);
    assert_eq!(lost(&period(6)), []);
    // The acknowledgement's Ack is the first that comes to node 0.
    let ack = |period| two(25, [User { period, ..to(1) }, to(0)]);
    assert_eq!(lost(&ack(1)), [20]);
    assert_eq!(lost(&ack(2)), []);
    assert_eq!(reported(&ack(1))[2..], ["22 5 0 miss 0"]);
    assert_eq!(reported(&ack(2))[2..], ["22 5 0 ack 1 0"]);
    // A node that is not addressed counts too, whatever its mode: node 2, in Wait.
    let third = given(3, 40, &[to(1), to(0), User { period: 2, ..to(0) }]);
    // Four actions, then three for each signal: the fifth one's Data.
    assert_eq!(tried(&third).0[16..19], [clock(0), pass(), lose()]);
}

/// "exactly its fillers before each respond"
#[test]
fn fillers() {
    for fillers in [0, 1, 2, 255] {
        let settings = two(600, [to(1), User { fillers, ..to(0) }]);
        let run = tried(&settings).0;
        assert_eq!(run[15], grant());
        let made = signals(1, fillers.into());
        assert_eq!(run[16..16 + made.len()], made);
        assert_eq!(run[16 + made.len()], respond(1, 1, 0));
    }
}

/// "A reply goes to the user's address": to 63 it ends in `sent`, to a node that does not listen in
/// `miss`.
#[test]
fn replies() {
    let reply = |address| {
        let settings = given(3, 100, &[to(1), User { hold: true, ..to(address) }, UNSAID]);
        let run = tried(&settings).0;
        let held = run.iter().position(|&record| record == respond(1, 1, 1)).unwrap();
        // Three signals, each to two nodes; then at once.
        assert_eq!(run[held + 10], labelled(1, address, 1, 1, 1));
        let of_1 = |report: &String| {
            let words: Vec<&str> = report.split(' ').collect();
            (words[2] == "1").then(|| words[3..].join(" "))
        };
        let reports = reported(&settings);
        let ends = reports.iter().filter_map(of_1).find(|report| !report.starts_with("good"));
        (ends.unwrap(), reports.iter().any(|report| report.contains(" 0 broad 1 1 1")))
    };
    assert_eq!(reply(0), ("ack 1 1".into(), false));
    assert_eq!(reply(63), ("sent 1".into(), true));
    assert_eq!(reply(2), ("miss 1".into(), false));
}

/// "header i, data *made* and label *made* modulo 64"
#[test]
fn headers_data_and_labels() {
    let settings = two(10_000, [to(63), User { hold: true, ..to(0) }]);
    for node in 0..2 {
        let of_node = |record: &&Record| record.kind == 1 && record.node == node;
        let run = tried(&settings).0;
        let requests: Vec<&Record> = run.iter().filter(of_node).collect();
        assert!(requests.len() > 128);
        for (record, made) in requests.into_iter().zip(0..) {
            let address = [63, 0][usize::from(node)];
            assert_eq!(*record, labelled(node, address, node.into(), made, (made % 64) as u8));
        }
    }
}

/// All users but user 0 as they are if nothing is said: their packets go to node 0.
#[test]
fn nothing_said() {
    let (run, counted) = tried(&given(3, 400, &[to(2)]));
    for record in run.iter().filter(|record| record.kind == 1) {
        assert_eq!(record.address, if record.node == 0 { 2 } else { 0 });
    }
    assert!(counted.ack > 10 && counted.sent + counted.miss + counted.drops == 0);
}

// ---- each sentence of the request, on random settings

/// A random trial: its settings and its actions.
fn random_trial(random: &mut Random) -> (Settings, Vec<Record>) {
    let actions = match random.below(20) {
        0 => random.between(5000, 65_535),
        1..=4 => random.between(1, 100),
        _ => random.between(100, 3000),
    };
    let settings = settings(random, actions as u16);
    let records = tried(&settings).0;
    (settings, records)
}

#[test]
fn seen_from_outside() {
    let mut random = Random::new(8);
    let mut hits = Hits::default();
    for turn in 0..400 {
        let (settings, records) = random_trial(&mut random);
        if let Err(why) = outside::look(&settings, &records, &mut hits) {
            panic!("trial {turn}: {why}\n{}", plain(&settings));
        }
    }
    // Every branch of the rules.
    if let Err(why) = hits::account(&hits, &outside::branches(), "400 trials") {
        panic!("{why}");
    }
}

/// "The tally must equal what the same actions, played as a run file, report."
#[test]
fn the_tally_is_what_is_printed() {
    let mut random = Random::new(88);
    for _ in 0..150 {
        let (settings, records) = random_trial(&mut random);
        let mut tally = STRANGE;
        let file = run_file(&settings, &mut tally).expect("not refused");
        assert_eq!(outside::records(&file), Ok(records));
        let text = printed_file(&file);
        assert!(text.starts_with(&format!("nodes {}\n", settings.n)));
        assert!(text.ends_with(&format!("\ndone {}\n", settings.actions)));
        assert_eq!(outside::counted(text.as_bytes()), tally, "{}", plain(&settings));
    }
}

/// "a longer trial with the same settings begins with the shorter one's actions", and counts no less.
#[test]
fn a_longer_trial() {
    let mut random = Random::new(888);
    for _ in 0..100 {
        let (settings, records) = random_trial(&mut random);
        let whole = tried(&settings).1;
        let actions = random.between(1, settings.actions.into()) as u16;
        let shorter = Settings { actions, ..settings };
        let (first, counted) = tried(&shorter);
        assert_eq!(first, records[..usize::from(actions)]);
        assert!(counted.requests <= whole.requests && counted.wins <= whole.wins);
        assert!(counted.miss <= whole.miss && counted.drops <= whole.drops);
    }
}

/// What is set for nodes from n on changes nothing.
#[test]
fn other_nodes_are_not_read() {
    let mut random = Random::new(8888);
    for _ in 0..100 {
        let (settings, records) = random_trial(&mut random);
        let mut other = settings.clone();
        for user in &mut other.users[usize::from(settings.n)..] {
            let address = ways::no_address(&mut random, settings.n);
            *user = User { spell: 9, address, fillers: 9, hold: true, period: 1 };
        }
        assert_eq!(tried(&other), (records, tried(&settings).1));
    }
}

// ---- who looks from outside sees what is wrong

/// What is said of this run in the place of the trial's.
fn blamed(settings: &Settings, records: &[Record]) -> String {
    let settings = Settings { actions: records.len() as u16, ..settings.clone() };
    outside::look(&settings, records, &mut Hits::default()).expect_err("a run that no trial gives")
}

/// The trial's run with other actions in the place of some of its own, and then at its end.
fn altered(settings: &Settings, from: usize, count: usize, by: &[Record]) -> String {
    let mut records = tried(settings).0;
    records.splice(from..from + count, by.iter().copied());
    records.truncate(from + by.len());
    blamed(settings, &records)
}

#[test]
fn wrong_runs_are_seen() {
    let (loss, reply, wait) = (a_loss(), a_reply(), a_wait());
    let is = |why: String, part: &str| assert!(why.contains(part), "{why}, not {part}");
    // "each of them open when chosen"
    is(altered(&loss, 3, 1, &[grant()]), "refused by 7");
    // "It arbitrates only to win"
    is(altered(&wait, 3, 0, &[arbitrate(1)]), "not Idle");
    // "resets only where no full buffer lacks the won mark"
    is(altered(&wait, 17, 1, &[reset()]), "lacks the won mark");
    // "neither while a user past its spell has an empty buffer"
    is(altered(&loss, 1, 1, &[arbitrate(0)]), "past its spell");
    let quick = two(18, [to(63), to(63)]);
    is(altered(&quick, 17, 1, &[arbitrate(1)]), "past its spell");
    let after = two(33, [User { spell: 30, ..to(63) }, User { spell: 14, ..to(63) }]);
    is(altered(&after, 32, 1, &[reset()]), "past its spell");
    // "uses no kind 7, 11 or 12"
    is(altered(&loss, 10, 1, &[change(0)]), "in a trial");
    is(altered(&loss, 2, 1, &[ask(0)]), "in a trial");
    is(altered(&loss, 2, 1, &[decide(0)]), "in a trial");
    // "no request into a buffer before its spell is over": it is, one action later.
    let soon = two(20, [User { spell: 15, ..to(63) }, to(63)]);
    is(altered(&soon, 17, 0, &[labelled(0, 63, 0, 1, 1)]), "may ask");
    // waiting for more than the least
    is(altered(&wait, 33, 1, &[labelled(0, 63, 0, 1, 1)]), "may ask");
    // on a bus that is not Idle: node 0 rests, the gap has still to come to node 1
    is(altered(&quick, 16, 0, &[labelled(0, 63, 0, 1, 1)]), "not Idle");
    // "exactly its fillers before each respond and no others"
    is(altered(&reply, 16, 2, &[respond(1, 1, 1)]), "0 fillers");
    is(altered(&reply, 18, 0, &[clock(1)]), "filler 2");
    is(altered(&reply, 25, 0, &[clock(1)]), "Holding");
    // "hold where open"
    is(altered(&reply, 18, 1, &[respond(1, 1, 0)]), "hold is false");
    is(altered(&reply, 39, 1, &[respond(0, 1, 1)]), "hold is true");
    is(altered(&reply, 18, 1, &[respond(1, 2, 1)]), "acknowledgement 2");
    // "just those losses"
    is(altered(&loss, 12, 1, &[pass()]), "lost is false");
    is(altered(&loss, 10, 1, &[lose()]), "lost is true");
    is(altered(&loss, 4, 1, &[lose()]), "is lost");
    // the request of i
    for wrong in [
        labelled(0, 63, 0, 0, 0),
        labelled(0, 1, 1, 0, 0),
        labelled(0, 1, 0, 1, 0),
        labelled(0, 1, 0, 0, 1),
    ] {
        is(altered(&loss, 0, 1, &[wrong]), "request 0 of node 0");
    }
    // the lowest
    is(altered(&loss, 0, 1, &[labelled(1, 0, 1, 0, 0)]), "may ask");
    is(altered(&loss, 2, 1, &[arbitrate(1)]), "may win");
    // "exactly the given number"
    let (records, _) = tried(&loss);
    let fewer = outside::look(&loss, &records[..18], &mut Hits::default());
    assert_eq!(fewer, Err("18 actions, not 19".into()));
    // Nothing altered, nothing said.
    for settings in [loss, reply, wait] {
        let (records, _) = tried(&settings);
        assert_eq!(outside::look(&settings, &records, &mut Hits::default()), Ok(()));
    }
}

/// A file that is no run file is not looked at.
#[test]
fn records_of_a_file() {
    let (records, _) = tried(&a_reply());
    let mut file = runfile::write_file(2, &records).unwrap();
    assert_eq!(outside::records(&file), Ok(records));
    file[600] ^= 1;
    assert_eq!(outside::records(&file), Err("block 1 is refused by 9".into()));
}
