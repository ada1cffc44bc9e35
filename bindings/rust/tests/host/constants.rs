//! The crate's numbers are those of include/rocker.h, which tests/c-interface holds to the device.

use rocker::{register, Outputs, Refusal, Status, HEADER, LIST, RECORD};
use std::collections::HashMap;

/// Each name of the header that stands for one number: `#define NAME N` or `NAME = N`.
fn header() -> HashMap<&'static str, u64> {
    let text = include_str!("../../../../include/rocker.h");
    let words: Vec<&str> = text
        .split(|c: char| c.is_whitespace() || c == ',')
        .filter(|word| !word.is_empty())
        .collect();
    let number = |word: &str| match word.strip_prefix("0x") {
        Some(digits) => u64::from_str_radix(digits, 16).ok(),
        None => word.parse().ok(),
    };
    let named = |three: &[&'static str]| match *three {
        ["#define", name, value] | [name, "=", value] => number(value).map(|value| (name, value)),
        _ => None,
    };
    words
        .windows(3)
        .filter_map(named)
        .filter(|(name, _)| name.starts_with("ROCKER_"))
        .collect()
}

#[test]
fn registers() {
    let header = header();
    let registers = [
        ("TEST", register::TEST),
        ("TEST64", register::TEST64),
        ("CONTROL", register::CONTROL),
        ("PORT_PHYS_COUNT", register::PORT_PHYS_COUNT),
        ("PORT_PHYS_LINK_STATUS", register::PORT_PHYS_LINK_STATUS),
        ("PORT_PHYS_ENABLE", register::PORT_PHYS_ENABLE),
        ("SWITCH_ID", register::SWITCH_ID),
        ("BASE_ADDR", register::BASE_ADDR),
        ("SIZE", register::SIZE),
        ("HEAD", register::HEAD),
        ("TAIL", register::TAIL),
        ("CTRL", register::CTRL),
        ("CREDITS", register::CREDITS),
    ];
    for (name, offset) in registers {
        assert_eq!(header[format!("ROCKER_REG_{name}").as_str()], offset, "{name}");
    }
    let listed = header.keys().filter(|name| name.starts_with("ROCKER_REG_")).count();
    assert_eq!(listed, registers.len() + 2, "BOGUS and END are no registers of this crate");
}

#[test]
fn lengths() {
    let header = header();
    let lengths = [
        ("LIST", LIST),
        ("OUTPUT", Outputs::NUMBERS),
        ("HEADER_BYTES", HEADER),
        ("PAYLOAD", RECORD - 6),
    ];
    for (name, length) in lengths {
        assert_eq!(header[format!("ROCKER_{name}").as_str()], length as u64, "{name}");
    }
}

#[test]
fn answers_and_statuses() {
    let header = header();
    let answers = [
        ("BAD_ACCESS", Refusal::Access),
        ("BAD_VALUE", Refusal::Value),
        ("IDLE", Refusal::Idle),
        ("CREDITS_FULL", Refusal::CreditsFull),
        ("BAD_DESCRIPTOR", Refusal::Descriptor),
        ("SHORT_BUFFER", Refusal::Buffer),
        ("BAD_PORT", Refusal::Port),
        ("BAD_FRAME", Refusal::Frame),
        ("SHORT_LIST", Refusal::List),
    ];
    for (name, refusal) in answers {
        assert_eq!(header[format!("ROCKER_{name}").as_str()], u64::from(refusal.number()), "{name}");
    }
    let statuses = header
        .iter()
        .filter_map(|(name, code)| Some((name.strip_prefix("ROCKER_STATUS_")?, code)));
    let mut seen = 0;
    for (name, code) in statuses {
        let status = Status::of((header["ROCKER_COMPLETED"] + code) as u16).expect("a status");
        assert_eq!(format!("{status:?}").to_uppercase(), name);
        seen += 1;
    }
    assert_eq!(seen, 8);
}
