//! A call and its answer as one line of text: a letter, the fields, ` = `, the fields of the answer, all joined by
//! single spaces. Numbers are decimals. A byte string is `x` and two hexadecimal digits for each byte.

use crate::side::{Answer, Backend, Call};

fn hex(bytes: &[u8]) -> String {
    let mut text = String::with_capacity(1 + 2 * bytes.len());
    text.push('x');
    for b in bytes {
        text.push_str(&format!("{:02x}", b));
    }
    text
}

fn backend(b: &Backend) -> String {
    format!("{} {} {} {} {} {}", b.tag, b.root, b.largest, b.uid, b.gid, b.mode)
}

pub fn call_text(call: &Call) -> String {
    match call {
        Call::New(c) => format!(
            "n {} {} {} {} {} {} {} {}",
            c.capacity, c.known, c.in_opts, c.out_opts, c.flags, c.mapping.0, c.mapping.1, c.mapping.2
        ),
        Call::Remove => "p".to_string(),
        Call::Mount(path, b) => format!("m {} {}", hex(path), backend(b)),
        Call::RestoreMount(index, path, b) => format!("r {} {} {}", index, hex(path), backend(b)),
        Call::Umount(path) => format!("u {}", hex(path)),
        Call::Rootfs(path) => format!("q {}", hex(path)),
        Call::Walk(path) => format!("w {}", hex(path)),
        Call::Route(full) => format!("t {}", full),
        Call::Lookup(node, name) => format!("l {} {}", node, hex(name)),
        Call::List { node, size, offset, room } => format!("d {} {} {} {}", node, size, offset, room),
        Call::Convert(index, number) => format!("c {} {}", index, number),
        Call::Out(uid, gid) => format!("o {} {}", uid, gid),
        Call::Back(uid, gid) => format!("b {} {}", uid, gid),
        Call::Component(name) => format!("k {}", hex(name)),
        Call::Save => "s".to_string(),
        Call::Restore(bytes) => format!("a {}", hex(bytes)),
        Call::Settings => "i".to_string(),
    }
}

pub fn answer_text(answer: &Answer) -> String {
    let mut fields: Vec<String> = answer.numbers.iter().map(|n| n.to_string()).collect();
    if let Some(bytes) = &answer.bytes {
        fields.push(hex(bytes));
    }
    fields.join(" ")
}

pub fn line(call: &Call, answer: &Answer) -> String {
    format!("{} = {}", call_text(call), answer_text(answer))
}
