//! Scripts written by hand about the width that a format line may end in.

use super::template::{most_slots, template, Template, FORMAT};

/// Lines with a width that mean nothing after an accepted format.
pub const MALFORMED_WIDTHS: [&str; 42] = [
    "op=format pages=2 slots=4 width=32",
    "op=format pages=2 slots=4 width=0",
    "op=format pages=2 slots=4 width=6",
    "op=format pages=2 slots=4 width=63",
    "op=format pages=2 slots=4 width=65",
    "op=format pages=2 slots=4 width=96",
    "op=format pages=2 slots=4 width=640",
    "op=format pages=2 slots=4 width=4294967295",
    "op=format pages=2 slots=4 width=064",
    "op=format pages=2 slots=4 width=+64",
    "op=format pages=2 slots=4 width=0x40",
    "op=format pages=2 slots=4 width=64,64",
    "op=format pages=2 slots=4 width=64x",
    "op=format pages=2 slots=4 width=64 ",
    "op=format pages=2 slots=4 width=64\r",
    "op=format pages=2 slots=4 width=64\0",
    "op=format pages=2 slots=4 width=64 width=64",
    "op=format pages=2 slots=4 width=64 fill=0",
    "op=format pages=2 slots=4 width=",
    "op=format pages=2 slots=4 width",
    "op=format pages=2 slots=4 Width=64",
    "op=format pages=2 slots=4 wide=64",
    "op=format pages=2 slots=4 64",
    "op=format pages=2 slots=4width=64",
    "op=format pages=2 slots=4  width=64",
    "op=format pages=2 slots=4\twidth=64",
    "op=format pages=2 width=64",
    "op=format pages=2 width=64 slots=4",
    "op=format width=64 pages=2 slots=4",
    "op=format pages=2 slots=513 width=64",
    "op=format pages=0 slots=513 width=64",
    "op=format pages=2 slots=0513 width=64",
    "op=format pages=257 slots=1024 width=64",
    "op=format pages=2 slots=4294967295 width=64",
    "op=format pages=4294967296 slots=4 width=64",
    "op=launch pages=0 width=64",
    "op=write page=0 slot=2 fill=0 width=64",
    "op=withdraw page=0 width=64",
    "op=erase slots=0 width=64",
    "op=cut width=64",
    "op=recover width=64",
    "op=list width=64",
];

/// The width of a format line, what is drawn at it, and formats that follow at the other.
pub fn widths(width: u32) -> Vec<Template> {
    let most = most_slots(width);
    let wide = |n: usize| format!("op=format pages={}2 slots=4 width=64", "0".repeat(n - 34));
    vec![
        template("every stop drawn", &format!("{FORMAT}op=launch pages=0\nop=write page=0 slot=2 fill=255\nop=list\nop=cut\nop=recover\nop=list\n"), "answer=0\nanswer=0\nanswer=0 done=1\npage=0 version=1 slot=2 drawn=8@ state=set\npage=1 version=0 slot=1 drawn=0 state=empty\nanswer=0\nanswer=0\nanswer=0\npage=0 version=1 slot=2 drawn=8@ state=set\npage=1 version=0 slot=1 drawn=0 state=empty\nanswer=0\n"),
        template("512 stops", "op=format pages=1 slots=2 width=64\nop=launch pages=0\nop=write page=0 slot=1 fill=255\nop=list\n", "answer=0\nanswer=0\nanswer=0 done=1\npage=0 version=1 slot=1 drawn=512 state=set\nanswer=0\n"),
        template("the last slot", &format!("op=format pages=1 slots={most}@\nop=launch pages=0\nop=write page=0 slot={most} fill=1\nop=write page=0 slot={} fill=7\nop=erase slots=0\nop=list\n", most - 1), &format!("answer=0\nanswer=0\nanswer=6 done=0\nanswer=0 done=1\nanswer=0\npage=0 version=1 slot={} drawn=3@ state=set\nanswer=0\n", most - 1)),
        template("a later format of the other width", &format!("{FORMAT}op=launch pages=0\nop=write page=0 slot=2 fill=255\nop=list\nop=format pages=1 slots=3~\nop=list\nop=launch pages=0\nop=write page=0 slot=2 fill=255\nop=list\n{FORMAT}op=list\nop=launch pages=1\nop=write page=1 slot=3 fill=128\nop=list\n"), "answer=0\nanswer=0\nanswer=0 done=1\npage=0 version=1 slot=2 drawn=8@ state=set\npage=1 version=0 slot=1 drawn=0 state=empty\nanswer=0\nanswer=0\npage=0 version=0 slot=0 drawn=0 state=empty\nanswer=0\nanswer=0\nanswer=0 done=1\npage=0 version=1 slot=2 drawn=8~ state=set\nanswer=0\nanswer=0\npage=0 version=0 slot=0 drawn=0 state=empty\npage=1 version=0 slot=1 drawn=0 state=empty\nanswer=0\nanswer=0\nanswer=0 done=1\npage=0 version=0 slot=0 drawn=0 state=empty\npage=1 version=1 slot=3 drawn=1@ state=set\nanswer=0\n"),
        template("a refused later format leaves the width", &format!("{FORMAT}op=launch pages=0,1\nop=write page=0 slot=2 fill=3\nop=format pages=3 slots=2~\nop=format pages=257 slots=512~\nop=write page=1 slot=3 fill=255\nop=list\n"), "answer=0\nanswer=0\nanswer=0 done=0\nanswer=1\nanswer=1\nanswer=0 done=1\npage=0 version=1 slot=2 drawn=2@ state=set\npage=1 version=1 slot=3 drawn=8@ state=set\nanswer=0\n"),
        template("sizes out of bounds at width 64", "op=format pages=0 slots=4 width=64\nop=format pages=257 slots=512 width=64\nop=format pages=3 slots=2 width=64\nop=format pages=0 slots=0 width=64\nop=format pages=4294967295 slots=512 width=64\nop=format pages=256 slots=512 width=64\nop=format pages=256 slots=512 width=64\n", "answer=1\nanswer=1\nanswer=1\nanswer=1\nanswer=1\nanswer=0\nanswer=0\n"),
        template("1,024 slots after 512 of 64 bytes", "op=format pages=1 slots=0512 width=64\nop=format pages=1 slots=1024\nop=launch pages=0\nop=write page=0 slot=1023 fill=255\nop=list\n", "answer=0\nanswer=0\nanswer=0\nanswer=0 done=1\npage=0 version=1 slot=1023 drawn=256 state=set\nanswer=0\n"),
        template("513 slots of 64 bytes before format", &format!("op=format pages=2 slots=513 width=64\n{FORMAT}"), "answer=line\n"),
        template("width=32 before format", &format!("op=format pages=2 slots=4 width=32\n{FORMAT}"), "answer=line\n"),
        template("a format of 512 bytes", &format!("{}\nop=list\n", wide(512)), "answer=0\npage=0 version=0 slot=0 drawn=0 state=empty\npage=1 version=0 slot=1 drawn=0 state=empty\nanswer=0\n"),
        template("a format of 513 bytes", &format!("{}\nop=list\n", wide(513)), "answer=line\n"),
    ]
}
