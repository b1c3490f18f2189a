//! "A run printed", and its sums: every line, ended by a newline, the last one too.

use crate::bus::{Refusal, Report, Reported};

/// `nodes 2`
pub fn nodes(out: &mut Vec<u8>, n: u8) {
    out.extend_from_slice(b"nodes ");
    figure(out, n.into());
    out.push(b'\n');
}

/// "The player's line: index, kind, then `-` or node and report".
pub fn action(out: &mut Vec<u8>, index: u64, kind: u8, reported: Option<Reported>) {
    figure(out, index);
    out.push(b' ');
    figure(out, kind.into());
    let Some(Reported { node, report }) = reported else {
        out.extend_from_slice(b" -\n");
        return;
    };
    out.push(b' ');
    figure(out, node.into());
    out.push(b' ');
    out.extend_from_slice(report.word().as_bytes());
    match report {
        Report::Won | Report::Lost | Report::Sent { .. } | Report::Miss { .. } => (),
        Report::Ack { ack, .. } => after_space(out, ack.into()),
        Report::Dcrc { head } => after_space(out, head.header.into()),
        Report::Good { head, data } | Report::Broad { head, data } => {
            after_space(out, head.header.into());
            after_space(out, data.into());
        }
        // "`drop` and the name of the mode it left"
        Report::Drop { left } => {
            out.push(b' ');
            out.extend_from_slice(left.name().as_bytes());
        }
    }
    // "end with it, so case A's line 12 reads `12 4 0 sent 0`"
    if let Some(label) = report.label() {
        after_space(out, label.into());
    }
    out.push(b'\n');
}

/// `0 30`: "the block's number and the sums of its actions".
pub fn sums(out: &mut Vec<u8>, number: u32, sums: &[u16]) {
    figure(out, number.into());
    for &sum in sums {
        after_space(out, sum.into());
    }
    out.push(b'\n');
}

/// `done 16`
pub fn done(out: &mut Vec<u8>, accepted: u64) {
    out.extend_from_slice(b"done ");
    figure(out, accepted);
    out.push(b'\n');
}

/// "A refusal prints `refused`, the count accepted so far and the number".
pub fn refused(out: &mut Vec<u8>, accepted: u64, refusal: Refusal) {
    out.extend_from_slice(b"refused ");
    figure(out, accepted);
    after_space(out, refusal.number().into());
    out.push(b'\n');
}

fn after_space(out: &mut Vec<u8>, value: u64) {
    out.push(b' ');
    figure(out, value);
}

/// "every figure in decimal"
fn figure(out: &mut Vec<u8>, mut value: u64) {
    if value < 10 {
        out.push(b'0' + value as u8);
        return;
    }
    let mut digits = [0; 20];
    let mut first = digits.len();
    while value > 0 {
        first -= 1;
        digits[first] = b'0' + (value % 10) as u8;
        value /= 10;
    }
    out.extend_from_slice(&digits[first..]);
}
