//! Scripts written by hand, with what each prints, at either width.

use super::template::{most_slots, template, Script, Template, FORMAT};
use super::widths::{widths, MALFORMED_WIDTHS};

/// Document 01's sample.
const SAMPLE: (&str, &str) = (
    "op=format pages=2 slots=4@\nop=launch pages=0,1\nop=write page=0 slot=2 fill=3\nop=cut\nop=recover\nop=launch pages=1\nop=write page=1 slot=3 fill=3\nop=list\n",
    "answer=0\nanswer=0\nanswer=0 done=0\nanswer=0\nanswer=0\nanswer=0\nanswer=0 done=1\npage=0 version=0 slot=0 drawn=0 state=empty\npage=1 version=2 slot=3 drawn=2@ state=set\nanswer=0\n",
);

/// Lines that mean nothing after an accepted format; each prints answer=line and ends the run.
pub const MALFORMED: [&str; 63] = [
    "",
    " ",
    "op",
    "op=",
    "op=formatpages=2 slots=4",
    "op=format",
    "op=format pages=2",
    "op=format slots=4 pages=2",
    "op=format pages=2  slots=4",
    "op=format pages=2 slots=4 ",
    " op=format pages=2 slots=4",
    "op=format pages=2\tslots=4",
    "op=format pages=2 slots=4\r",
    "op=format pages=+2 slots=4",
    "op=format pages=-2 slots=4",
    "op=format pages=0x2 slots=4",
    "op=format pages= slots=4",
    "op=format pages=2 slots=",
    "op=format pages=4294967296 slots=4",
    "op=format pages=2 slots=99999999999999999999",
    "op=format pages=2 slots=4294967296",
    "op=format pages=1,2 slots=4",
    "OP=format pages=2 slots=4",
    "op=Format pages=2 slots=4",
    "op=launch",
    "op=launch pages=",
    "op=launch pages=,",
    "op=launch pages=0,",
    "op=launch pages=,0",
    "op=launch pages=0,,1",
    "op=launch pages=0, 1",
    "op=launch page=0",
    "op=launch pages=0 1",
    "op=launch pages=4294967296",
    "op=launch pages=0;1",
    "op=launch pages=0\0",
    "op=launch pages=0 slots=4",
    "op=write page=0 slot=2",
    "op=write page=0 slot=2 fill=256",
    "op=write page=0 slot=2 fill=",
    "op=write page=0 slot=2 fill=0 ",
    "op=write slot=2 page=0 fill=0",
    "op=write page=0,1 slot=2 fill=0",
    "op=write page=0 slot=2 fill=4294967296",
    "op=write pages=0 slot=2 fill=0",
    "op=withdraw",
    "op=withdraw page=",
    "op=withdraw pages=0",
    "op=withdraw page=0,1",
    "op=erase",
    "op=erase slots=",
    "op=erase slot=0",
    "op=erase slots=0,1,",
    "op=cut ",
    "op=cuts",
    "op=cut page=0",
    "op=recover state=1",
    "op=list pages=0",
    "op=suggest",
    "op=clean block=0",
    "op=sweep",
    "op=count fill=3",
    "op=read page=0",
];

/// The hand-written scripts.
pub fn by_hand(width: u32) -> Vec<Script> {
    let mut all = vec![template("sample", SAMPLE.0, SAMPLE.1)];
    all.extend(edges());
    all.extend(refusals());
    all.extend(long_lines(width));
    all.extend(widths(width));
    for line in MALFORMED.iter().chain(&MALFORMED_WIDTHS) {
        all.push(template(&format!("malformed {line:?}"), &format!("{FORMAT}{line}\n{FORMAT}"), "answer=0\nanswer=line\n"));
    }
    for other in
        ["op=launch pages=0", "op=write page=0 slot=1 fill=1", "op=withdraw page=0", "op=erase slots=0", "op=cut", "op=recover", "op=list"]
    {
        all.push(template(&format!("{other} before format"), &format!("{other}\n{FORMAT}"), "answer=line\n"));
        all.push(template(
            &format!("{other} after a refused format"),
            &format!("op=format pages=0 slots=4@\n{other}\n"),
            "answer=1\nanswer=line\n",
        ));
    }
    let mut all: Vec<Script> = all.into_iter().map(|t| t.at(width)).collect();
    for bytes in [&b"op=list\xC3\xA9\n"[..], b"\xFF\n", b"op=\x00list\n", b"\x80", b"\x00"] {
        all.push(Script { name: format!("bytes {bytes:?}"), input: bytes.to_vec(), output: b"answer=line\n".to_vec() });
    }
    all
}

/// Ends of lines, leading zeros, formats that follow.
fn edges() -> Vec<Template> {
    vec![
        template("empty input", "", ""),
        template("one LF", "\n", "answer=line\n"),
        template("no last LF", "op=format pages=2 slots=4@", "answer=0\n"),
        template("cut without LF", &format!("{FORMAT}op=cut"), "answer=0\nanswer=0\n"),
        template("leading zeros", "op=format pages=0000000000000002 slots=004@\nop=launch pages=00,0001\nop=write page=00 slot=03 fill=000000255\n", "answer=0\nanswer=0\nanswer=0 done=0\n"),
        template("sizes out of bounds", "op=format pages=0 slots=4\nop=format pages=257 slots=300\nop=format pages=2 slots=1025\nop=format pages=3 slots=2\nop=format pages=4294967295 slots=4294967295\nop=format pages=1 slots=4294967295\nop=format pages=256 slots=1024\n", "answer=1\nanswer=1\nanswer=1\nanswer=1\nanswer=1\nanswer=1\nanswer=0\n"),
        template("no room", "op=format pages=1 slots=1@\nop=launch pages=0\nop=write page=0 slot=0 fill=1\nop=list\n", "answer=0\nanswer=0\nanswer=11 done=0\npage=0 version=0 slot=0 drawn=0 state=empty\nanswer=0\n"),
        template("a refused later format leaves flights", &format!("{FORMAT}op=launch pages=0\nop=format pages=9 slots=2@\nop=write page=0 slot=2 fill=1\nop=list\n"), "answer=0\nanswer=0\nanswer=1\nanswer=0 done=1\npage=0 version=1 slot=2 drawn=1@ state=set\npage=1 version=0 slot=1 drawn=0 state=empty\nanswer=0\n"),
        template("a refused later format leaves a lost state", &format!("{FORMAT}op=cut\nop=format pages=2 slots=1@\nop=list\nop=recover\nop=list\n"), "answer=0\nanswer=0\nanswer=1\nanswer=5\nanswer=0\npage=0 version=0 slot=0 drawn=0 state=empty\npage=1 version=0 slot=1 drawn=0 state=empty\nanswer=0\n"),
        template("a later format starts anew", &format!("{FORMAT}op=launch pages=0\nop=write page=0 slot=3 fill=255\nop=format pages=1 slots=2@\nop=list\nop=write page=0 slot=3 fill=1\n"), "answer=0\nanswer=0\nanswer=0 done=1\nanswer=0\npage=0 version=0 slot=0 drawn=0 state=empty\nanswer=0\nanswer=6 done=0\n"),
        template("a stored silence is set", &format!("{FORMAT}op=launch pages=0\nop=write page=0 slot=2 fill=0\nop=list\n"), "answer=0\nanswer=0\nanswer=0 done=1\npage=0 version=1 slot=2 drawn=0 state=set\npage=1 version=0 slot=1 drawn=0 state=empty\nanswer=0\n"),
        template("a page whose set was never whole is empty", &format!("{FORMAT}op=launch pages=0\nop=write page=0 slot=2 fill=0\nop=launch pages=1,0\nop=write page=1 slot=3 fill=9\nop=list\nop=cut\nop=recover\nop=list\n"), "answer=0\nanswer=0\nanswer=0 done=1\nanswer=0\nanswer=0 done=0\npage=0 version=1 slot=2 drawn=0 state=set\npage=1 version=0 slot=1 drawn=0 state=empty\nanswer=0\nanswer=0\nanswer=0\npage=0 version=1 slot=2 drawn=0 state=set\npage=1 version=0 slot=1 drawn=0 state=empty\nanswer=0\n"),
    ]
}

/// Every refusal that a script reaches, and what a lost state answers.
fn refusals() -> Vec<Template> {
    vec![
        template("after a cut", &format!("{FORMAT}op=cut\nop=launch pages=0\nop=withdraw page=9\nop=erase slots=0\nop=list\nop=write page=9 slot=9 fill=1\nop=cut\nop=recover\nop=launch pages=0\n"), "answer=0\nanswer=0\nanswer=5\nanswer=5\nanswer=5\nanswer=5\nanswer=5 done=0\nanswer=0\nanswer=0\nanswer=0\n"),
        template("out of range", &format!("{FORMAT}op=launch pages=2\nop=launch pages=4294967295\nop=launch pages=0,0\nop=write page=2 slot=2 fill=1\nop=write page=0 slot=4 fill=1\nop=withdraw page=2\nop=erase slots=4\nop=erase slots=3,3\n"), "answer=0\nanswer=6\nanswer=6\nanswer=6\nanswer=6 done=0\nanswer=6 done=0\nanswer=6\nanswer=6\nanswer=6\n"),
        template("flights", &format!("{FORMAT}op=launch pages=1,0\nop=launch pages=0\nop=write page=1 slot=0 fill=1\nop=write page=1 slot=2 fill=1\nop=write page=1 slot=3 fill=1\nop=withdraw page=0\nop=withdraw page=0\nop=write page=0 slot=3 fill=1\n"), "answer=0\nanswer=0\nanswer=7\nanswer=11 done=0\nanswer=0 done=0\nanswer=10 done=0\nanswer=0\nanswer=9\nanswer=9 done=0\n"),
        template("erasing", &format!("{FORMAT}op=erase slots=0\nop=erase slots=3\nop=launch pages=0\nop=write page=0 slot=2 fill=1\nop=erase slots=0,1\nop=erase slots=0\nop=list\n"), "answer=0\nanswer=12\nanswer=12\nanswer=0\nanswer=0 done=1\nanswer=12\nanswer=0\npage=0 version=1 slot=2 drawn=1@ state=set\npage=1 version=0 slot=1 drawn=0 state=empty\nanswer=0\n"),
        template("a needed straddler (cases 4, 6, 7)", CASE_6.0, CASE_6.1),
    ]
}

/// Pages 0, 1, 2: a ring of 0 and 1 that stops after page 0, then a ring of 1 and 2, then page 1 alone.
const CASE_6: (&str, &str) = (
    "op=format pages=3 slots=8@\nop=launch pages=0,1\nop=write page=0 slot=3 fill=1\nop=withdraw page=1\nop=launch pages=1,2\nop=write page=1 slot=4 fill=2\nop=write page=2 slot=5 fill=2\nop=cut\nop=recover\nop=launch pages=1\nop=write page=1 slot=6 fill=4\nop=erase slots=4\nop=erase slots=3,4\nop=erase slots=1\nop=erase slots=3\nop=erase slots=4\nop=cut\nop=recover\nop=list\n",
    "answer=0\nanswer=0\nanswer=0 done=0\nanswer=0\nanswer=0\nanswer=0 done=0\nanswer=0 done=1\nanswer=0\nanswer=0\nanswer=0\nanswer=0 done=1\nanswer=12\nanswer=12\nanswer=0\nanswer=0\nanswer=0\nanswer=0\nanswer=0\npage=0 version=0 slot=0 drawn=0 state=empty\npage=1 version=3 slot=6 drawn=1@ state=set\npage=2 version=1 slot=5 drawn=1@ state=set\nanswer=0\n",
);

/// Lines of 512 and 513 bytes, lists of 64 and 65 entries.
fn long_lines(width: u32) -> Vec<Template> {
    let padded = |n: usize| format!("op=launch pages={}1", "0".repeat(n - 17));
    let list = |n: usize| (0..n).map(|i| i.to_string()).collect::<Vec<_>>().join(",");
    let large = format!("op=format pages=256 slots={}@\n", most_slots(width));
    vec![
        template("512 bytes", &format!("{FORMAT}{}\n", padded(512)), "answer=0\nanswer=0\n"),
        template("512 bytes without LF", &format!("{FORMAT}{}", padded(512)), "answer=0\nanswer=0\n"),
        template("513 bytes", &format!("{FORMAT}{}\n{FORMAT}", padded(513)), "answer=0\nanswer=line\n"),
        template("513 bytes without LF", &format!("{FORMAT}{}", padded(513)), "answer=0\nanswer=line\n"),
        template("514 bytes", &format!("{FORMAT}{}\n", padded(514)), "answer=0\nanswer=line\n"),
        template("100,000 bytes", &format!("{FORMAT}{}\n", padded(100_000)), "answer=0\nanswer=line\n"),
        template("64 entries", &format!("{large}op=launch pages={}\n", list(64)), "answer=0\nanswer=0\n"),
        template("65 entries", &format!("{large}op=launch pages={}\n", list(65)), "answer=0\nanswer=line\n"),
        template(
            "64 entries over 512 bytes",
            &format!("{large}op=erase slots={}\n", vec!["4294967295"; 64].join(",")),
            "answer=0\nanswer=line\n",
        ),
        template(
            "44 entries of ten digits",
            &format!("{large}op=erase slots={}\n", vec!["4294967295"; 44].join(",")),
            "answer=0\nanswer=6\n",
        ),
        template("64 slots", &format!("{large}op=erase slots={}\n", list(64)), "answer=0\nanswer=12\n"),
        template("65 slots", &format!("{large}op=erase slots={}\n", list(65)), "answer=0\nanswer=line\n"),
    ]
}
