//! `minute` and `replay` on streams written out by hand.

use reference::calls::Form;
use reference::programs::program;
use reference::tables::TABLE_BYTES;

fn run_on(form: Form, tables: Vec<u8>, stream: &[u8]) -> String {
    let mut out = Vec::new();
    program(form, false, tables, &mut &stream[..], &mut out).unwrap();
    String::from_utf8(out).unwrap()
}

fn run(form: Form, stream: &[u8]) -> String {
    run_on(form, vec![0; TABLE_BYTES], stream)
}

fn minute_line(text: &[u8]) -> Vec<u8> {
    let mut record = [&[3], text].concat();
    record.resize(81, 0);
    record
}

const CLOSE: [u8; 5] = [4, 0, 0, 0, 0x3C];

#[test]
fn the_example_of_document_01() {
    let stream = [0x01, 0x00, 0x05, 0x00, 0x64, 0x00, 0x00, 0x00, 0x04, 0x00, 0x00, 0x00, 0x3C];
    assert_eq!(run(Form::Minute, &stream), "0 1 1 0 0 0\n");
}

#[test]
fn tables_of_another_length() {
    for length in [0, 1, TABLE_BYTES - 1, TABLE_BYTES + 1] {
        for form in [Form::Minute, Form::Replay] {
            assert_eq!(run_on(form, vec![0; length], &CLOSE), "refused 1\n");
        }
    }
}

#[test]
fn minute_says_nothing_of_what_is_carried_out() {
    let stream = [minute_line(b""), minute_line(b"junk 1"), [2; 17].to_vec()].concat();
    assert_eq!(run(Form::Minute, &stream), "");
}

#[test]
fn minute_says_what_is_refused() {
    let wrong_event = [1, 0, 0, 0, 0, 0, 0, 16];
    let stream = [&wrong_event[..], &minute_line(b"hv"), &minute_line(b"h\nv"), &CLOSE].concat();
    assert_eq!(run(Form::Minute, &stream), "refused 2\nrefused 5\nrefused 4\n0 0 0 0 0 0\n");
}

#[test]
fn a_line_of_minute_ends_before_its_first_zero_byte() {
    let stream = [minute_line(b"junk 1\0\x01hv"), CLOSE.to_vec()].concat();
    assert_eq!(run(Form::Minute, &stream), "0 0 0 0 0 0\n");
    assert_eq!(run(Form::Minute, &minute_line(&[b'x'; 80])), "refused 5\n");
}

#[test]
fn bad_records_of_minute() {
    for stream in [
        &[0][..],
        &[5],
        &[6],
        &[7, 0, 0, 0, 0, 0, 0],
        &[8, 0, 0],
        &[9],
        &[10, 0, 0],
        &[11, 0, 0],
        &[255],
        &[1, 0, 0, 0, 0, 0, 0],
        &[2],
        &[3],
        &[4, 0],
    ] {
        let before = [&CLOSE[..], stream].concat();
        assert_eq!(run(Form::Minute, &before), "0 0 0 0 0 0\nbad record\n", "{stream:?}");
    }
}

#[test]
fn bad_records_of_replay() {
    for stream in [
        &[0][..],
        &[12],
        &[1],
        &[3],
        &[3, 0],
        &[3, 0, 1],
        &[5, 0],
        &[5, 0, 2, 0],
        &[6, 1, 16, 0],
        &[7],
        &[7, 0, 0, 0, 0, 0],
        &[8, 0],
        &[8, 0, 1],
        &[10],
        &[10, 0],
        &[10, 0, 1],
        &[11],
        &[11, 1, 16, 0],
    ] {
        assert_eq!(run(Form::Replay, stream), "bad record\n", "{stream:?}");
    }
    assert_eq!(run(Form::Replay, &[]), "");
}

fn digits(bytes: &[u8], length: usize) -> String {
    let text: String = bytes.iter().map(|byte| format!("{byte:02x}")).collect();
    text + &"00".repeat(length - bytes.len())
}

#[test]
fn replay_prints_the_whole_echo_buffer() {
    let stream =
        [&[3, 0, 0][..], &[3, 0, 1, 127], &[3, 0, 4], b"hv 1", &[5, 0, 5, 0, 3, 7, 0, 7], &[5, 0, 0]]
            .concat();
    let package = digits(b"binary A:00000000 N:00000001 OK\r\nSIT> ", 128);
    let expected = [
        format!("line 0 {} 0\n", digits(b"SIT> ", 128)),
        format!("line 4 {} 0\n", digits(b"SIT> ", 128)),
        format!("line 0 {} 0\n", digits(b"0000 hv 1\r\nSIT> ", 128)),
        format!("package 0 {package}\n"),
        format!("package 8 {package}\n"),
    ];
    assert_eq!(run(Form::Replay, &stream), expected.concat());
}

fn replay_line(text: &[u8]) -> Vec<u8> {
    [&[3, 0, text.len() as u8], text].concat()
}

#[test]
fn replay_prints_the_sum_behind_the_echo() {
    // Bytes 255, 255 and 3: their sum is 513, 201 hex. The package's own is one too many at first.
    let package = |sum| [5, 0, 7, 0, 5, 255, 255, 3, 2, sum];
    let (wrong, right) = (package(2), package(1));
    let mut stream =
        [&wrong[..], &replay_line(b"ask 7000 0"), &replay_line(b"loadat 0"), &right].concat();
    for line in ["ask 7000 0", "commit 7000 0 200", "commit 7000 0 201", "ask 7000 0"] {
        stream.extend(replay_line(line.as_bytes()));
    }
    let echo = |text: &str| digits(format!("{text}\r\nSIT> ").as_bytes(), 128);
    let expected = [
        format!("package 10 {}", echo("binary A:00000000 N:00000003 ckserr 00000202 00000201")),
        format!("line 15 {} 0", echo("ask 7000 0?")),
        format!("line 0 {} 0", echo("0000 loadat 0")),
        format!("package 0 {}", echo("binary A:00000000 N:00000003 OK")),
        format!("line 0 {} 513", echo("0001 ask 7000 0")),
        format!("line 16 {} 0", echo("commit 7000 0 200?")),
        format!("line 0 {} 0", echo("0002 commit 7000 0 201")),
        format!("line 6 {} 0", echo("ask 7000 0?")),
    ];
    assert_eq!(run(Form::Replay, &stream), expected.join("\n") + "\n");
}

#[test]
fn minute_has_nothing_to_ask_for() {
    let lines =
        ["ask 7000 0", "commit 7000 0 0", "load 7000 0"].map(|line| minute_line(line.as_bytes()));
    assert_eq!(run(Form::Minute, &lines.concat()), "refused 5\n".repeat(3));
}

fn zeros(n: usize) -> String {
    " 0".repeat(n)
}

#[test]
fn replay_prints_a_close_and_its_packets_read_back() {
    // A sample of box 8 by tables of zeros but for one cell, and a reading.
    let mut tables = vec![0; TABLE_BYTES];
    tables[3 * (0x1000 + 128 * 18 + 88)] = 128 + 8;
    let event = [1, 1, 44, 0x03, 0xE8, 0, 0, 8];
    let reading = [&[2][..], &[0x10, 0x01], &[0; 14]].concat();
    let text = run_on(Form::Replay, tables.clone(), &[&event[..], &reading, &CLOSE].concat());
    let lines: Vec<&str> = text.lines().collect();
    assert_eq!(lines[..3], ["event 0", "reading 0", "close 0 0 1 1 1 0 0"]);
    assert_eq!(lines[3], format!("boxes 0 1 1 0 0 0 0 1{}", zeros(108)));
    assert_eq!(lines[4], format!("beacons{}", zeros(12)));
    assert_eq!(lines.len(), 5 + 13);
    let packets: Vec<Vec<u8>> = lines[5..]
        .iter()
        .map(|line| {
            let text = line.strip_prefix("out ").unwrap();
            assert_eq!(text.len(), 544);
            (0..272).map(|i| u8::from_str_radix(&text[2 * i..2 * i + 2], 16).unwrap()).collect()
        })
        .collect();
    assert_eq!(packets[0][..13], [0x0A, 0x5D, 0xC0, 0, 1, 9, 0, 0, 0, 0x3C, 0, 0x10, 0x01]);
    // t 300, channel 1,000, box 8, priority 1: document 01's record with another box.
    assert_eq!(packets[1][11..15], [0x96, 0x3E, 0x80, 0x11]);

    let read = |packet: &[u8]| run(Form::Replay, &[&[6, 1, 16], packet].concat());
    let sum = (128 + 8) << 16;
    assert_eq!(
        read(&packets[0]),
        format!(
            "packet 0\nrate 0 60 0 1\nrates 4097{} 0 1 1 0 0 0 0 1{}\nsettings 0 0 0 0 0 500 {sum}\n",
            zeros(7),
            zeros(108)
        )
    );
    let records = digits(&[0x96, 0x3E, 0x80, 0x11], 256);
    assert_eq!(read(&packets[1]), format!("packet 0\nsample 0 60 0 0\nrecords {records}\n"));
    assert_eq!(read(&packets[12]), format!("packet 0\nbeacon 0 60 0 1\nrates{} 1 0 0\n", zeros(12)));
    assert_eq!(run(Form::Replay, &[6, 0, 0]), "packet 11\n");
}

#[test]
fn replay_prints_listing_packets_and_what_is_gathered() {
    // Words of zeros but the second one of packet 249, at C1B5.
    let mut tables = vec![0; TABLE_BYTES];
    let at = 3 * (0xC1B5 - 0x7000);
    tables[at..at + 3].copy_from_slice(&[1, 2, 3]);
    let mut packet = vec![0x0A, 0x52, 0xC0, 0, 1, 9, 0, 0, 0, 0x3C, 0, 0, 0, 0, 0, 0, 0, 0xC1, 0xB4];
    packet.extend([0, 0, 0, 1, 2, 3]);
    packet.resize(271, 0);
    // 0A + 52 + C0 + 1 + 9 + 3C + C1 + B4 + 1 + 2 + 3 = 10 + 82 + 192 + 1 + 9 + 60 + 193 + 180 + 6
    // = 733 = 2 x 256 + 221.
    packet.push(221);
    let gather = [&[8, 1, 16], &packet[..]].concat();
    let listing = |i: u8| [7, 0, i, 0, 0, 0, 0x3C];
    let stream = [&listing(249)[..], &listing(250), &gather, &gather, &[8, 0, 0, 9, 9]].concat();
    let expected = [
        format!("listing 0\nout {}\n", digits(&packet, 272)),
        "listing 14\ngather 0 249\ngather 0 249\ngather 11 249\n".to_string(),
        format!("gathered 249 {}\n", digits(&tables, TABLE_BYTES)),
        format!("gathered 250 {}\n", digits(&[], TABLE_BYTES)),
    ];
    assert_eq!(run_on(Form::Replay, tables, &stream), expected.concat());
}

#[test]
fn replay_prints_converted_packets() {
    // A beacon packet of frame 7 and time 60 with the rates 4,096, 999,936 and 4,095 in it.
    let packet = |codes: [u8; 6], mark: u8, sum: u8| {
        let mut packet = vec![0x0A, 0x70, 0xC0, 7, 1, 9, 0, 0, 0, 0x3C, 0];
        packet.extend(codes);
        packet.resize(267, 0);
        packet.extend([0, 7, mark, 0, sum]);
        packet
    };
    // 0A + 70 + C0 + 7 + 1 + 9 + 3C + 7 = 10 + 112 + 192 + 7 + 1 + 9 + 60 + 7 = 398 for both, and
    // 18 + 8F + 42 + F + FF = 24 + 143 + 66 + 15 + 255 = 503: 901 = 3 x 256 + 133;
    // 10 + 8E + 84 + F + FF + mark = 16 + 142 + 132 + 15 + 255 + 2 = 562: 960 = 3 x 256 + 192.
    let first = packet([0x18, 0, 0x8F, 0x42, 0x0F, 0xFF], 0, 133);
    let second = packet([0x10, 0, 0x8E, 0x84, 0x0F, 0xFF], 2, 192);
    // One count more than 4,096, under the mark of packets written aboard: one more and one less.
    let odd = packet([0x10, 1, 0x8E, 0x84, 0x0F, 0xFF], 1, 192);
    let record = |kind: u8, packet: &[u8]| [&[kind, 1, 16], packet].concat();
    let there = [record(10, &first), record(10, &second), vec![10, 0, 0], record(10, &odd)];
    let back = [record(11, &second), record(11, &first), record(11, &odd), vec![11, 0, 1, 9]];
    let expected = [
        format!("second 0\nout {}\nsecond 13\nsecond 11\nsecond 13\n", digits(&second, 272)),
        format!("first 0\nout {}\nfirst 13\nfirst 17\nfirst 11\n", digits(&first, 272)),
    ];
    assert_eq!(run(Form::Replay, &[there.concat(), back.concat()].concat()), expected.concat());
    let read = "packet 0\nbeacon 7 60 7 2\nrates 4096 999936 4095 0 0 0 0 0 0 0 0 0 0 0 0\n";
    assert_eq!(run(Form::Replay, &record(6, &second)), read);
}

#[test]
fn replay_prints_what_became_of_the_samples() {
    // Every event is of box 7: of gain 0 with priority 1; by Klo gain 1 has u 0, and priority 0.
    let mut tables = vec![0; TABLE_BYTES];
    tables[3 * (0x1000 + 128 * 18 + 88)] = 128 + 7;
    tables[3 * (0xC201 - 0x7000)..][..3].copy_from_slice(&[1, 0, 0]);
    let (high, low) = ([1, 0, 5, 0, 1, 0, 0, 8], [1, 0, 5, 0x0F, 0xFF, 0, 1, 8]);
    let settings = [replay_line(b"junk 1"), replay_line(b"limhi 3"), CLOSE.to_vec()].concat();
    // 704 fill the slots. Of 7 after them 4 have priority 1: 3 of these replace, 4 events are dropped.
    let events =
        [high.repeat(700), low.repeat(6), high.repeat(2), low.to_vec(), high.repeat(2)].concat();
    let stream = [&settings[..], &events, &CLOSE, &events, &CLOSE].concat();
    let text = run_on(Form::Replay, tables, &stream);
    let closes: Vec<&str> = text.lines().filter(|line| line.starts_with("close")).collect();
    assert_eq!(
        closes,
        ["close 0 0 0 0 0 0 0", "close 0 1 711 704 711 3 4", "close 0 2 711 704 711 3 4"]
    );
    // Bytes 35 to 41 of the beacon packet, which comes last; 711 is 2C7 hex.
    let beacon = text.lines().last().unwrap().strip_prefix("out ").unwrap();
    assert_eq!(&beacon[70..84], "02c70003000400");
}
