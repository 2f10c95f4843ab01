//! A call of each function, with what README.md and docs show of its command.

use yolktrowel::{check, elements, full, generate, pair, panel, run, settle, show, Answer, Rack, Status};

const HEADSET: &[u8] = include_bytes!("../../examples/headset.bin");

/// The headset's descriptor as lines of a script, its end, and these lines.
fn script_of(lines: &str) -> Vec<u8> {
    let hex: String = HEADSET.iter().map(|byte| format!("{byte:02x}")).collect();
    let descriptor: String = hex.as_bytes().chunks(96).map(|piece| format!("d {}\n", String::from_utf8_lossy(piece))).collect();
    format!("{descriptor}g\n{lines}").into_bytes()
}

/// The last lines of an answer that is well.
fn last(answer: &Answer, count: usize) -> Vec<&str> {
    assert!(answer.is_ok(), "{:?}: {}", answer.status, answer.text);
    let lines: Vec<&str> = answer.lines().collect();
    lines[lines.len() - count..].to_vec()
}

#[test]
fn a_descriptor_is_checked() {
    assert_eq!(last(&check(HEADSET), 1), ["ok blocks 28 entities 7 streams 2 domains 1"]);
    let mut broken = HEADSET.to_vec();
    broken[83] = 2;
    let answer = check(&broken);
    assert_eq!((answer.status, answer.rule(), answer.text.as_str()), (Status::Descriptor, Some("G4"), "descriptor G4 at 78\n"));
}

#[test]
fn a_descriptor_is_shown() {
    assert_eq!(last(&show(HEADSET), 1), ["stream 2 setting 1 in terminal 7 channels 1 subslot 2 bits 16 packet 50 valid yes"]);
}

#[test]
fn elements_are_listed() {
    assert_eq!(last(&elements(HEADSET), 2), ["mute.6.0 rw 0", "volume.6.1 rw 0"]);
}

#[test]
fn a_script_runs_on_each_rack() {
    for rack in [Rack::Plain, Rack::Lanes] {
        let answer = run(&script_of("c 2101010200030200 4000\nh set volume.3.1 -2560\nh get volume.3.1\n"), rack);
        assert_eq!(last(&answer, 3), ["c stall Q9", "h done", "h volume.3.1 -2560"]);
    }
    assert_eq!(run(b"x\n", Rack::Plain).rule(), Some("S2"));
}

#[test]
fn a_script_is_made_from_a_number() {
    let answer = generate(1, Rack::Plain);
    assert!(answer.is_ok() && answer.lines().count() > 1, "{:?}", answer.status);
    assert_eq!(answer, generate(1, Rack::Lanes));
}

#[test]
fn a_full_speed_stream_runs() {
    assert_eq!(last(&full(48000, b"v 2\nm 8\n"), 2), ["l 1 288 288", "f 1 0c0000 ok"]);
    assert_eq!(full(192000, b"").status, Status::Usage);
}

#[test]
fn a_pair_of_streams_runs() {
    let answer = pair(48000, b"m 43\nm 1 o1\nq\n");
    assert!(last(&answer, 1).len() == 1 && answer.text.contains("stream 1 out level 258 target 258 under 0 over 0 lost 1\n"));
}

#[test]
fn a_panel_tells_its_host() {
    let answer = panel(&script_of("w volume.3.1 -2560\nh show volume.3.1\nn\n"));
    assert_eq!(last(&answer, 4), ["w done", "h volume.3.1 0", "n 000101020003", "h volume.3.1 -2560"]);
}

#[test]
fn streams_settle() {
    let answer = settle();
    assert_eq!(last(&answer, 12)[6], "rate 48000 settle 2312");
}
