//! What texts are read as strictly, and what is told of their faults.
use deadpool::{Strict, managed, unmanaged};
use std::fmt::Debug;

/// What was read, or the error.
fn shown<T: Debug>(read: serde_json::Result<T>) -> String {
    match read {
        Ok(config) => format!("{config:?}"),
        Err(error) => error.to_string(),
    }
}

fn managed_shown(text: &str) -> String {
    shown(serde_json::from_str(text).map(|Strict::<managed::Settings>(settings)| settings))
}

fn unmanaged_shown(text: &str) -> String {
    shown(serde_json::from_str(text).map(Strict::<unmanaged::Settings>::into_inner))
}

/// What stands before the arrow of each line is read as what stands behind it.
fn each_reads(lines: &str, read: fn(&str) -> String) {
    for line in lines.lines() {
        let (text, expected) = line.split_once(" => ").expect("an arrow");
        assert_eq!(read(text), expected, "{line}");
    }
}

const OUT_OF_RANGE: &str = "no whole number from 0 to 18446744073709551615";

#[test]
fn faults_of_a_managed_pool_name_the_key() {
    let lines = r#"[] => no object
5 => no object
{} => max_size: missing
{"max_siz":1} => max_siz: no key of a pool
{"max_size":null} => max_size: no number
{"max_size":1,"min_idel":2} => min_idel: no key of a pool
{"max_size":null,"min_idel":2} => min_idel: no key of a pool
{"max_size":1,"max_size":2} => max_size: it stands twice
{"max_size":1,"timeouts":null} => timeouts: no object
{"max_size":1,"timeouts":{"wiat":null}} => timeouts.wiat: no key of a pool
{"timeouts":{"wait":null,"wait":null}} => timeouts.wait: it stands twice
{"max_size":1,"timeouts":{"wait":5}} => timeouts.wait: no duration
{"max_size":1,"timeouts":{"wait":null,"create":{"secs":5}}} => timeouts.create: no duration
{"max_size":1,"timeouts":{"recycle":{"secs":1,"nanos":0,"x":1}}} => timeouts.recycle: no duration
{"max_size":1,"timeouts":{"recycle":{"secs":18446744073709551615,"nanos":1000000000}}} => timeouts.recycle: no duration
{"max_size":1,"timeouts":{"recycle":5,"create":5}} => timeouts.create: no duration
{"max_size":1,"queue_mode":"fifo"} => queue_mode: neither Fifo nor Lifo
{"max_size":1,"queue_mode":{"Fifo":null}} => queue_mode: neither Fifo nor Lifo
{"max_size":1,"max_waiting":true} => max_waiting: no number"#;
    each_reads(lines, managed_shown);
    for number in ["-1", "1.5", "18446744073709551616"] {
        let expected = format!("max_size: {OUT_OF_RANGE}");
        assert_eq!(managed_shown(&format!(r#"{{"max_size":{number}}}"#)), expected);
        let expected = format!("max_waiting: {OUT_OF_RANGE}");
        assert_eq!(managed_shown(&format!(r#"{{"max_size":1,"max_waiting":{number}}}"#)), expected);
    }
}

#[test]
fn faults_of_an_unmanaged_pool_name_the_key() {
    let lines = r#"{"max_size":"1"} => max_size: no number
{"max_size":1,"timeouts":{}} => timeouts: no key of a pool
{"max_size":1,"queue_mode":"Fifo"} => queue_mode: no key of a pool
{"max_size":1,"runtime":null} => runtime: no key of a pool
{"max_size":1,"timeout":5} => timeout: no duration
{"max_size":1,"max_waiting":{}} => max_waiting: no number"#;
    each_reads(lines, unmanaged_shown);
}

/// A text that is no duration is in the error, with why.
#[test]
fn a_text_that_is_no_duration_is_told() {
    let lines = r#"{"timeout":""} => timeout: "" is no duration: a whole number is missing
{"timeout":"-5s"} => timeout: "-5s" is no duration: a whole number is missing
{"timeout":"+5s"} => timeout: "+5s" is no duration: a whole number is missing
{"timeout":"1m  30s"} => timeout: "1m  30s" is no duration: a whole number is missing
{"timeout":"1m "} => timeout: "1m " is no duration: a whole number is missing
{"timeout":"m"} => timeout: "m" is no duration: a whole number is missing
{"timeout":"30"} => timeout: "30" is no duration: its unit is none of h, m, s and ms
{"timeout":"30 s"} => timeout: "30 s" is no duration: its unit is none of h, m, s and ms
{"timeout":"1.5s"} => timeout: "1.5s" is no duration: its unit is none of h, m, s and ms
{"timeout":"5M"} => timeout: "5M" is no duration: its unit is none of h, m, s and ms
{"timeout":"7 d"} => timeout: "7 d" is no duration: its unit is none of h, m, s and ms
{"timeout":"1m30s"} => timeout: "1m30s" is no duration: its unit is none of h, m, s and ms
{"timeout":"30s 1m"} => timeout: "30s 1m" is no duration: its units do not fall
{"timeout":"1s 1s"} => timeout: "1s 1s" is no duration: its units do not fall
{"timeout":"18446744073709551616ms"} => timeout: "18446744073709551616ms" is no duration: it is too long
{"timeout":"5124095576030432h"} => timeout: "5124095576030432h" is no duration: it is too long"#;
    for line in lines.lines() {
        let (text, expected) = line.split_once(" => ").expect("an arrow");
        let unmanaged = format!(r#"{{"max_size":1,{}"#, &text[1..]);
        assert_eq!(unmanaged_shown(&unmanaged), expected);
        let managed = text.replace("timeout", "wait");
        let managed = managed_shown(&format!(r#"{{"max_size":1,"timeouts":{managed}}}"#));
        assert_eq!(managed, expected.replacen("timeout", "timeouts.wait", 1));
        // (without strictness the format says where)
        let told = expected.strip_prefix("timeout: ").expect("the key");
        let told = format!("{told} at line 1 column {}", unmanaged.len() - 1);
        assert_eq!(shown(serde_json::from_str::<unmanaged::PoolConfig>(&unmanaged)), told);
    }
}

#[test]
fn a_duration_may_be_a_text() {
    let text = r#"{"max_size":3,"timeouts":{"wait":"30s","create":"1h 1m 30s","recycle":"500ms"}}"#;
    let timeouts = "timeouts: Timeouts { wait: Some(30s), create: Some(3690s), recycle: Some(500ms) }";
    assert!(managed_shown(text).contains(timeouts), "{}", managed_shown(text));
    assert!(unmanaged_shown(r#"{"max_size":3,"timeout":"5m"}"#).contains("timeout: Some(300s)"));
}

/// What has no fault is read as it is without strictness.
#[test]
fn what_is_known_is_read_as_ever() {
    for text in [
        r#"{"max_size":3}"#,
        r#"{"max_size":3,"max_waiting":null}"#,
        r#"{"max_size":3,"max_waiting":0}"#,
        r#"{"max_size":3,"timeouts":{"wait":{"secs":1,"nanos":2},"create":null},"queue_mode":"Lifo","max_waiting":9}"#,
        r#"{"queue_mode":"Fifo","max_size":0,"timeouts":{"recycle":{"nanos":4294967295,"secs":0}}}"#,
        r#"{"max_size":3,"timeouts":{"wait":"30s","create":"1m 30s","recycle":"500ms"}}"#,
    ] {
        assert_eq!(managed_shown(text), shown(serde_json::from_str::<managed::Settings>(text)));
        assert!(managed_shown(text).starts_with("Settings"), "{text}");
    }
    for text in [
        r#"{"max_size":3}"#,
        r#"{"max_size":3,"max_waiting":0}"#,
        r#"{"max_size":3,"timeout":{"secs":1,"nanos":2},"max_waiting":9}"#,
        r#"{"max_size":3,"timeout":"1h"}"#,
    ] {
        assert_eq!(unmanaged_shown(text), shown(serde_json::from_str::<unmanaged::Settings>(text)));
        assert!(unmanaged_shown(text).starts_with("Settings"), "{text}");
    }
    let settings = managed::Settings { max_waiting: Some(5), ..managed::PoolConfig::new(4).into() };
    let written = serde_json::to_string(&settings).expect("a text");
    assert_eq!(managed_shown(&written), format!("{settings:?}"));
}

/// What settings have beside a configuration is no key of a configuration alone.
#[test]
fn a_configuration_alone_has_its_own_keys() {
    let (bounded, plain) = (r#"{"max_size":1,"max_waiting":1}"#, r#"{"max_size":1}"#);
    let managed = |text| shown(serde_json::from_str(text).map(|Strict::<managed::PoolConfig>(config)| config));
    let unmanaged = |text| shown(serde_json::from_str(text).map(|Strict::<unmanaged::PoolConfig>(config)| config));
    assert_eq!([managed(bounded), unmanaged(bounded)], ["max_waiting: no key of a pool"; 2]);
    assert_eq!(managed(plain), shown(serde_json::from_str::<managed::PoolConfig>(plain)));
    assert_eq!(unmanaged(plain), shown(serde_json::from_str::<unmanaged::PoolConfig>(plain)));
    assert!(managed(plain).starts_with("PoolConfig") && unmanaged(plain).starts_with("PoolConfig"));
}
