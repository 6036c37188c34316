//! The program where reading or printing does not go as usual. What it must print is taken from documents 01 and 02.

use crate::comparison::Comparison;
use std::fs::File;
use std::io::{Read, Write};
use std::os::fd::OwnedFd;
use std::os::unix::net::UnixStream;
use std::process::{Child, Command, Stdio};
use std::thread;
use std::time::{Duration, Instant};

/// A program that takes longer has not ended.
const LIMIT: Duration = Duration::from_secs(20);

/// A1's fields 02 to 0E, which B2 shares.
const SITE: &str =
    "020001 01  030002 0A41  040001 32  050001 01  060002 00C8  070004 006407D0  080002 0032  \
    090001 50  0A0002 012C  0B0002 03E8  0C0002 0BB8  0D0002 03E8  0E0002 0014";

const LISTING: &str = "id maxS minN maxN nutN region acidEx nutEx verdict
A1 735 205 1021 249 2 221 451 over
B2 735 205 1021 249 0 0 0 within
";

/// A1 in kind 53 at 5 °C below zero, where W is 67 and M 409, B2 in kind 52, and A1 in kind 54 at 8 °C.
const LISTING_OF_ALL_KINDS: &str = "id maxS minN maxN nutN region acidEx nutEx verdict
A1 595 205 866 249 2 368 451 over
B2 735 205 1021 249 0 0 0 within
A1 735 205 1021 249 2 221 451 over
";

/// A1 in kind 55 at 8 °C: with P 5000, where 25 of bicarbonate leach, before B2 in kind 52; with the ceiling of 50 and P 1250, where
/// 100 leach beside 10 of hydrogen; and with P 3175, where 254 leach and nothing is left.
const LISTING_OF_BICARBONATE: &str = "id maxS minN maxN nutN region acidEx nutEx verdict
A1 710 205 993 249 2 248 451 over
B2 735 205 1021 249 0 0 0 within
A1 154 205 376 249 2 831 451 over
A1 0 205 205 249 1 995 451 over
";

/// A1 with four species, and as a reserve: of kind 52, of kind 53 at 5 °C below zero, where W is 67 and M 720, and of kind 54.
const LISTING_OF_RESERVES: &str = "id maxS minN maxN nutN region acidEx nutEx verdict
A1 149 557 722 601 3 494 99 over
A1 1225 50 1411 94 0 0 606 over
B2 735 205 1021 249 0 0 0 within
A1 1087 50 1257 94 0 0 606 over
A1 1225 50 1411 94 0 0 606 over
";

fn bytes(hex: &str) -> Vec<u8> {
    let digits: Vec<u32> = hex.chars().filter_map(|c| c.to_digit(16)).collect();
    digits.chunks(2).map(|c| (c[0] * 16 + c[1]) as u8).collect()
}

/// A record of document 01 by its name and its pair.
fn record(name: &str, pair: &str) -> Vec<u8> {
    bytes(&format!("52004B 010002 {name} {SITE} 0F0004 {pair}"))
}

/// Such a record in kind 53, with its temperature byte.
fn record_53(name: &str, pair: &str, temperature: &str) -> Vec<u8> {
    bytes(&format!(
        "53004F 010002 {name} {SITE} 0F0004 {pair} 100001 {temperature}"
    ))
}

/// A1 in kind 54 at 8 °C, with the two bytes of its species.
fn record_54(species: &str) -> Vec<u8> {
    let site = SITE.replace("070004 00", &format!("070005 {species}"));
    bytes(&format!(
        "540050 010002 4131 {site} 0F0004 01F402BC 100001 0D"
    ))
}

/// A1 with another field 07 in a kind, by its outer tag and length, and what follows field 0F.
fn with_stand(outer: &str, stand: &str, last: &str) -> Vec<u8> {
    let site = SITE.replace("070004 006407D0", stand);
    bytes(&format!(
        "{outer} 010002 4131 {site} 0F0004 01F402BC {last}"
    ))
}

/// A1 in kind 55 at 8 °C, with the two bytes of its ceiling and of P.
fn record_55(ceiling: &str, p: &str) -> Vec<u8> {
    let site = SITE
        .replace("070004 00", "070005 0000")
        .replace("0D0002 03E8", &format!("0D0002 {ceiling}"));
    bytes(&format!(
        "550055 010002 4131 {site} 0F0004 01F402BC 100001 0D 110002 {p}"
    ))
}

pub fn compare(comparison: &mut Comparison, path: &str) {
    let a1 = record("4131", "01F402BC");
    let b2 = record("4232", "00C800F0");
    let cold = record_53("4131", "01F402BC", "00");
    let hot = record_53("4131", "01F402BC", "1A");
    let (pine, overseas) = (record_54("0000"), record_54("0100"));
    assert_eq!((a1.len(), b2.len(), cold.len()), (78, 78, 82));
    assert_eq!((pine.len(), overseas.len()), (83, 83));
    let both = [&a1[..], &b2].concat();
    let mut expect = |name: &str, (printed, ended): (Vec<u8>, bool), expected: &str| {
        comparison.expect(name, &printed, expected.as_bytes(), ended)
    };

    // Nothing is printed after a failed read.
    let folder = File::open("/").expect("a folder");
    expect("a folder as input", run(path, folder.into()), "");
    let closed = shell(path, "<&-").stdin(Stdio::null()).spawn();
    expect("a closed input", output(closed.expect("sh")), "");
    expect("a read that fails after a record", cut_off(path, &a1), "");

    expect(
        "an empty input",
        run(path, Stdio::null()),
        "refused 1 at 0\n",
    );
    expect("byte by byte", drip(path, &both, 1), LISTING);
    expect(
        "two records at once",
        drip(path, &both, both.len()),
        LISTING,
    );
    let all_kinds = [&cold[..], &b2, &pine].concat();
    expect(
        "all kinds, byte by byte",
        drip(path, &all_kinds, 1),
        LISTING_OF_ALL_KINDS,
    );
    let four = "070010 00190000 01190001 05190100 08194E20";
    let reserves = [
        with_stand("520057", four, ""),
        with_stand("520047", "070000", ""),
        b2.clone(),
        with_stand("53004B", "070000", "100001 00"),
        with_stand("54004B", "070000", "100001 0D"),
    ]
    .concat();
    assert_eq!(reserves.len(), 90 + 74 + 78 + 78 + 78);
    expect(
        "reserves, byte by byte",
        drip(path, &reserves, 1),
        LISTING_OF_RESERVES,
    );
    // The program lends an empty list.
    let lacking = [&pine[..], &overseas].concat();
    expect(
        "species 256",
        drip(path, &lacking, lacking.len()),
        "refused 16 at 113\n",
    );
    let near_neutral = [
        record_55("03E8", "1388"),
        b2.clone(),
        record_55("0032", "04E2"),
        record_55("0032", "0C67"),
    ]
    .concat();
    assert_eq!(near_neutral.len(), 88 + 78 + 88 + 88);
    expect(
        "kind 55, byte by byte",
        drip(path, &near_neutral, 1),
        LISTING_OF_BICARBONATE,
    );
    // With P 3176 a load of −1 would be left. What is behind it is not looked at.
    let negative = [&near_neutral[..], &record_55("0032", "0C68"), &[0x55]].concat();
    expect(
        "a negative CLmaxS",
        drip(path, &negative, negative.len()),
        "refused 21 at 425\n",
    );
    let too_hot = [&cold[..], &hot].concat();
    expect(
        "a temperature of 21 °C",
        drip(path, &too_hot, too_hot.len()),
        "refused 8 at 160\n",
    );
    let zeros = File::open("/dev/zero").expect("/dev/zero");
    expect("endless zeros", run(path, zeros.into()), "refused 3 at 0\n");
    let mut file = a1.repeat(500);
    file.push(0x52);
    expect(
        "a byte after 500 records",
        drip(path, &file, 4096),
        "refused 4 at 39000\n",
    );

    // What cannot be printed is lost, and the program ends.
    let full = File::options()
        .write(true)
        .open("/dev/full")
        .expect("/dev/full");
    let child = Command::new(path).stdin(Stdio::null()).stdout(full).spawn();
    expect("a full output", output(child.expect("the program")), "");
    let child = shell(path, ">&-").stdin(Stdio::null()).spawn();
    expect("a closed output", output(child.expect("sh")), "");
}

/// The program under a shell that redirects.
fn shell(path: &str, redirection: &str) -> Command {
    let mut command = Command::new("sh");
    command.args(["-c", &format!("exec \"$0\" {redirection}"), path]);
    command.stdout(Stdio::piped());
    command
}

fn run(path: &str, input: Stdio) -> (Vec<u8>, bool) {
    let child = Command::new(path)
        .stdin(input)
        .stdout(Stdio::piped())
        .spawn();
    output(child.expect("the program"))
}

/// The file through a pipe, `piece` bytes at a time.
fn drip(path: &str, file: &[u8], piece: usize) -> (Vec<u8>, bool) {
    let mut command = Command::new(path);
    let child = command.stdin(Stdio::piped()).stdout(Stdio::piped()).spawn();
    let mut child = child.expect("the program");
    let mut stdin = child.stdin.take().expect("piped");
    for piece in file.chunks(piece) {
        if stdin.write_all(piece).is_err() {
            break;
        }
        thread::sleep(Duration::from_millis(1));
    }
    drop(stdin);
    output(child)
}

/// An input that gives the bytes and then, with no end, fails.
fn cut_off(path: &str, file: &[u8]) -> (Vec<u8>, bool) {
    let (mut ours, theirs) = UnixStream::pair().expect("a pair of sockets");
    theirs.set_nonblocking(true).expect("a socket");
    ours.write_all(file).expect("room for a record");
    run(path, OwnedFd::from(theirs).into())
}

/// What a program printed, and whether it ended by itself and in time.
fn output(mut child: Child) -> (Vec<u8>, bool) {
    let start = Instant::now();
    while child.try_wait().expect("a child").is_none() {
        if start.elapsed() > LIMIT {
            child.kill().expect("a child");
        }
        thread::sleep(Duration::from_millis(1));
    }
    let ended = child.wait().expect("a child").code().is_some();
    let mut printed = Vec::new();
    if let Some(mut stdout) = child.stdout.take() {
        stdout.read_to_end(&mut printed).expect("a pipe");
    }
    (printed, ended)
}
