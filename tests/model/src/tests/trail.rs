use super::*;
use crate::journal::{header, header_of, line, replay, report, Fault, Refused};
use crate::tables::Status;

fn trail(lines: &[Vec<u8>]) -> Vec<u8> {
    [&header(4)[..], &lines.concat()[..]].concat()
}

fn fault(trail: &[u8]) -> (Fault, u64) {
    let Refused { fault, line } = replay(trail).unwrap_err();
    (fault, line)
}

#[test]
fn the_worked_trail() {
    let trail = trail(&[line(0x8000, 0, &worked_example())]);
    assert_eq!(trail.len(), 84);
    assert_eq!(
        trail[..12],
        [0x52, 0x4b, 0x54, 3, 0, 4, 0, 0x80, 0x48, 0, 0, 0]
    );
    assert_eq!(trail[12..], worked_example());
    assert_eq!(
        report(&trail),
        "ports 4\nlines 1\ncharged 1\nflows 0\ngroups 1\n"
    );
}

#[test]
fn a_header_alone() {
    for header in [
        header(62),
        header_of(1, 62),
        header_of(2, 62),
        header_of(3, 62),
    ] {
        assert_eq!(
            report(&header),
            "ports 62\nlines 0\ncharged 0\nflows 0\ngroups 0\n"
        );
    }
    assert_eq!(header(62), header_of(3, 62));
}

#[test]
fn header_faults_in_their_order() {
    let whole = header(4);
    for length in 0..6 {
        assert_eq!(fault(&whole[..length]), (Fault::CutShort, 0));
    }
    assert_eq!(fault(b"XXX\x09\x09"), (Fault::CutShort, 0));
    assert_eq!(fault(b"RKX\x09\x09\x00"), (Fault::Mark, 0));
    assert_eq!(fault(b"rKT\x01\x00\x04"), (Fault::Mark, 0));
    assert_eq!(fault(b"RKT\x04\x00\x00"), (Fault::Version, 0));
    assert_eq!(fault(b"RKT\x01\x01\x04"), (Fault::Version, 0));
    for version in [1, 2, 3] {
        for ports in [0, 63] {
            assert_eq!(fault(&header_of(version, ports)), (Fault::PortCount, 0));
        }
    }
    // A header fault hides what follows.
    assert_eq!(report(b"RKT\x01\x00\x3f\x01"), "refused 13 line 0\n");
}

#[test]
fn cut_before_disagreeing_and_the_first_line_first() {
    let good = line(0x8000, 0, &worked_example());
    let bad = line(0x8000, 1, &worked_example());
    assert_eq!(
        fault(&trail(&[good.clone(), bad.clone()])),
        (Fault::Disagrees, 2)
    );
    assert_eq!(
        report(&trail(&[good.clone(), bad.clone()])),
        "refused 14 line 2\n"
    );
    // The second line is at fault both ways, then only the third is cut.
    assert_eq!(
        fault(&trail(&[good.clone(), bad[..70].to_vec()])),
        (Fault::CutShort, 2)
    );
    assert_eq!(
        fault(&trail(&[good.clone(), bad, vec![1]])),
        (Fault::Disagrees, 2)
    );
    for length in 1..good.len() {
        assert_eq!(
            fault(&trail(&[good.clone(), good[..length].to_vec()])),
            (Fault::CutShort, 2)
        );
    }
}

#[test]
fn long_payloads() {
    let body = |length: usize| {
        let mut body = worked_example();
        body.extend([99, 0, 0, 0, 8, 0, 0, 0].repeat(8_192));
        body.truncate(length);
        body
    };
    assert!(replay(&trail(&[line(0x8000, 0, &body(4_096))])).is_ok());
    assert_eq!(
        fault(&trail(&[line(0x8000, 0, &body(4_104))])),
        (Fault::Disagrees, 1)
    );
    assert_eq!(
        fault(&trail(&[line(0x8016, 0, &body(4_097))])),
        (Fault::Disagrees, 1)
    );
    let mut cut = line(0x8000, 0, &body(4_104));
    cut.pop();
    assert_eq!(fault(&trail(&[cut])), (Fault::CutShort, 1));
}

#[test]
fn all_16_bits_are_compared() {
    for bit in 0..16 {
        let wrong = line(0x8000 ^ 1 << bit, 0, &worked_example());
        assert_eq!(fault(&trail(&[wrong])), (Fault::Disagrees, 1));
    }
}

#[test]
fn lines_without_a_payload() {
    let stamped = |status: Status| line(status.stamp(), 9, &[]);
    let lines = [
        stamped(Status::Enxio),
        stamped(Status::Emsgsize),
        stamped(Status::Einval),
    ];
    let done = replay(&trail(&lines)).unwrap();
    assert_eq!((done.lines, done.charged), (3, 0));
    for status in [
        Status::Ok,
        Status::Enoent,
        Status::Enomem,
        Status::Eexist,
        Status::Enotsup,
    ] {
        assert_eq!(fault(&trail(&[stamped(status)])), (Fault::Disagrees, 1));
    }
    for status in [Status::Enxio, Status::Emsgsize] {
        assert_eq!(
            fault(&trail(&[line(status.stamp(), 0, &[0; 8])])),
            (Fault::Disagrees, 1)
        );
    }
    // Without bit 15 it is no such line.
    assert_eq!(fault(&trail(&[line(6, 0, &[])])), (Fault::Disagrees, 1));
}

#[test]
fn slots_are_not_checked_and_only_ok_is_charged() {
    let lines = [
        line(0x8000, 500, &worked_example()),
        line(0x8011, 500, &worked_example()),
        line(0x8000, 3, &flow_0(1, 1, 1, 1, 10)),
        line(0x805f, 3, &payload(6, &[])),
    ];
    assert_eq!(
        report(&trail(&lines)),
        "ports 4\nlines 4\ncharged 2\nflows 1\ngroups 1\n"
    );
}
