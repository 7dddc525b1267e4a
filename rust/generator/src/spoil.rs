//! Files that are refused with a wanted number, made from a design that
//! reads. Each number is reached in several ways.

use crate::random::Random;
use crate::record::{Body, Plan, Record, Role};
use crate::shape::nest;

pub const FILE_LIMIT: usize = 32_768;

/// The file of `plan` with a fault that has this number, 1 to 9.
/// The plan must read and be short enough for 130 small records more.
pub fn spoil(random: &mut Random, plan: &Plan, number: u8) -> Vec<u8> {
    match number {
        1 => too_long(random, plan),
        2 => cut_short(random, plan),
        3 => unknown_mark(random, plan),
        4 => misplaced(random, plan),
        5 => too_many(random, plan),
        6 => bad_field(random, plan),
        7 => bad_body(random, plan),
        8 => bad_entry(random, plan),
        _ => no_schedule(plan),
    }
}

fn too_long(random: &mut Random, plan: &Plan) -> Vec<u8> {
    let mut file = plan.file();
    let over = random.pick(&[1, 1, 1, 2, 500, 32_768]);
    let padding = random.pick(&[0, b'U', 0xFF]);
    // Padding before the schedule or after it: it must not matter.
    if random.in_hundred(50) {
        file.truncate(plan.first(plan.schedule_place()).len());
    }
    file.resize(FILE_LIMIT + over, padding);
    file
}

fn cut_short(random: &mut Random, plan: &Plan) -> Vec<u8> {
    let at = random.below(plan.records.len());
    let mut file = plan.first(at);
    match random.below(4) {
        0 => {
            // One byte that is no mark yet.
            let byte = random.pick(&[b'R', b'C', b'U', b'M', b'S', 0, 0xFF]);
            file.push(byte);
        }
        1 if plan.records[at].body().is_some() => {
            let mut changed = plan.clone();
            let rest = plan.file().len() - file.len();
            let length = random.pick(&[rest, rest + 1, 0x7FFF, 0x8000, 0xFFFF]);
            changed.records[at].set_length(length);
            file = changed.file();
        }
        _ => {
            let record = plan.records[at].bytes();
            let cut = random.within(1, record.len() - 1);
            file.extend(&record[..cut]);
        }
    }
    file
}

const KNOWN: [[u8; 2]; 6] = [*b"RG", *b"CR", *b"UM", *b"MD", *b"RL", *b"SC"];

/// Two bytes that are no mark, though some come near.
fn no_mark(random: &mut Random) -> [u8; 2] {
    loop {
        let mut mark = random.pick(&KNOWN);
        match random.below(5) {
            0 => mark.swap(0, 1),
            1 => mark[1] = random.pick(b"GRMDLC"),
            2 => mark[random.below(2)] ^= 0x20,
            3 => mark[random.below(2)] = random.byte(),
            _ => mark = [random.byte(), random.byte()],
        }
        if !KNOWN.contains(&mark) {
            return mark;
        }
    }
}

fn unknown_mark(random: &mut Random, plan: &Plan) -> Vec<u8> {
    let mut changed = plan.clone();
    let at = random.below(plan.schedule_place() + 1);
    let mut bytes = no_mark(random).to_vec();
    for _ in 0..random.below(4) {
        bytes.push(random.edge());
    }
    changed.records.insert(at, Record::Raw(bytes));
    if random.in_hundred(40) {
        changed.records.truncate(at + 1);
    }
    changed.file()
}

fn misplaced(random: &mut Random, plan: &Plan) -> Vec<u8> {
    if random.in_hundred(40) {
        return after_schedule(random, plan);
    }
    let places: Vec<usize> = (0..=plan.schedule_place())
        .filter(|at| !plan.latest_is_user(*at))
        .collect();
    let at = random.pick(&places);
    let mut record = small_body_record(random).bytes();
    if random.in_hundred(50) {
        // 4 stands before the fields: they may be bad or missing.
        record.truncate(random.within(2, record.len()));
        record[2..].fill(0xFF);
    }
    let mut changed = plan.clone();
    changed.records.insert(at, Record::Raw(record));
    changed.file()
}

fn after_schedule(random: &mut Random, plan: &Plan) -> Vec<u8> {
    let mut file = plan.file();
    match random.below(4) {
        0 => file.push(random.edge()),
        1 => file.extend(no_mark(random)),
        2 => file.extend(Record::schedule(vec![]).bytes()),
        _ => {
            let at = random.below(plan.records.len());
            let record = plan.records[at].bytes();
            let length = random.within(1, record.len());
            file.extend(&record[..length]);
        }
    }
    file
}

fn small_body_record(random: &mut Random) -> Record {
    let mut body = Body::new();
    if random.in_hundred(50) {
        body.bool(true);
        body.local(0);
        Record::rule(body)
    } else {
        body.number(1);
        Record::method(0, 1, &[], body)
    }
}

/// Records up to the limit and one more, which may be cut or bad.
fn too_many(random: &mut Random, plan: &Plan) -> Vec<u8> {
    let mut changed = plan.clone();
    changed.records.truncate(plan.schedule_place());
    let instances = plan.instance_count();
    let mut extra = match random.below(3) {
        0 => {
            let filling = vec![Record::User; 64 - instances];
            changed.records.extend(filling);
            small_instance(random)
        }
        1 => {
            let record = Record::method(0, 1, &[], Body::of_length(2));
            fill_up(&mut changed, record.clone(), 128 - plan.method_count());
            record
        }
        _ => {
            let record = Record::rule(Body::rule_of_length(4));
            fill_up(&mut changed, record.clone(), 64 - plan.rule_count());
            record
        }
    }
    .bytes();
    match random.below(4) {
        0 => extra.truncate(random.within(2, extra.len())),
        1 => extra[2..].fill(9),
        _ => {}
    }
    changed.records.push(Record::Raw(extra));
    if random.in_hundred(50) {
        changed.records.push(Record::schedule(vec![]));
    }
    changed.file()
}

fn small_instance(random: &mut Random) -> Record {
    match random.below(3) {
        0 => Record::Register { start: 1 },
        1 => Record::Concurrent { ports: 2, start: 1 },
        _ => Record::User,
    }
}

fn fill_up(plan: &mut Plan, record: Record, times: usize) {
    if !plan.latest_is_user(plan.records.len()) {
        plan.records.push(Record::User);
    }
    let filling = vec![record; times];
    plan.records.extend(filling);
}

/// A field outside a body; the file may end right after it.
fn bad_field(random: &mut Random, plan: &Plan) -> Vec<u8> {
    let mut changed = plan.clone();
    let fielded = |record: &Record| {
        matches!(
            record,
            Record::Concurrent { .. } | Record::Method { .. } | Record::Schedule { .. }
        )
    };
    let mut at = random.pick(&plan.places(fielded));
    if random.in_hundred(30) {
        at = random.below(plan.schedule_place() + 1);
        let new = Record::Concurrent { ports: 1, start: 0 };
        changed.records.insert(at, new);
    }
    let mut record = changed.records[at].bytes();
    let field = match &changed.records[at] {
        Record::Method { parameters, .. } => spoil_head(random, &mut record, parameters.len()),
        Record::Schedule { .. } => {
            record[2] = random.pick(&[65, 66, 128, 255]);
            2
        }
        _ => {
            record[2] = random.pick(&[0, 5, 9, 255]);
            2
        }
    };
    let mut file = changed.first(at);
    let cut = random.in_hundred(40);
    if cut {
        record.truncate(field + 1);
    }
    file.extend(record);
    if !cut {
        for later in &changed.records[at + 1..] {
            file.extend(later.bytes());
        }
    }
    file
}

/// Spoil one field of a method's head; the answer is where it stands.
fn spoil_head(random: &mut Random, record: &mut [u8], parameters: usize) -> usize {
    let field = random.within(2, 4 + parameters);
    record[field] = match field {
        2 => random.pick(&[3, 4, 128, 255]),
        3 if random.in_hundred(50) => random.pick(&[3, 4, 255]),
        // A has Void and the others have not: the contrary is no agreement.
        3 if record[2] == 1 => random.pick(&[1, 2]),
        3 => 0,
        4 => random.pick(&[5, 6, 255]),
        _ => random.pick(&[0, 3, 255]),
    };
    field
}

fn bad_body(random: &mut Random, plan: &Plan) -> Vec<u8> {
    let mut changed = plan.clone();
    let mut places = plan.places(|record| record.body().is_some());
    if places.is_empty() {
        let at = plan.schedule_place();
        changed.records.insert(at, small_body_record(random));
        if !plan.latest_is_user(at) {
            changed.records.insert(at, Record::User);
        }
        places = changed.places(|record| record.body().is_some());
    }
    let at = random.pick(&places);
    let record = &mut changed.records[at];
    let whole = record.body().map_or(0, |body| body.bytes.len());
    if random.below(10) == 0 {
        // The bytes stay, but the record ends before them.
        record.set_length(random.below(whole));
    } else {
        let is_rule = matches!(record, Record::Rule { .. });
        let body = record.body().cloned().unwrap_or_default();
        record.set_body(worse(random, body, is_rule));
    }
    changed.file()
}

/// The body with a fault in it.
fn worse(random: &mut Random, mut body: Body, is_rule: bool) -> Body {
    match random.below(9) {
        0 => body.truncate(random.below(body.bytes.len())),
        1 => body.put(random.edge(), Role::Number),
        2 => body.bool(true),
        3 => {
            let depth = random.within(17, 20);
            return too_deep(random, depth, is_rule);
        }
        4 => return too_wide(random, is_rule),
        _ => spoil_byte(random, &mut body),
    }
    body
}

/// A body that is too deep; in a rule, its guard or its body.
fn too_deep(random: &mut Random, depth: usize, is_rule: bool) -> Body {
    let mut body = Body::new();
    let first = random.in_hundred(50);
    if is_rule && first {
        body.bool(true);
    }
    body.append(&nest(depth, &mut |_| random.below(crate::shape::PLACES)));
    if is_rule && !first {
        body.bool(true);
    }
    body
}

/// A block or call with all the parts its count says, but too many.
fn too_wide(random: &mut Random, is_rule: bool) -> Body {
    let mut body = Body::new();
    if is_rule {
        body.bool(true);
    }
    if random.in_hundred(50) {
        body.block(33);
        for _ in 0..33 {
            body.open_do();
            body.bool(true);
        }
    } else {
        body.call(0, 0, 5);
        for _ in 0..5 {
            body.local(0);
        }
    }
    body
}

/// Set a byte of the body to one that its place does not allow.
fn spoil_byte(random: &mut Random, body: &mut Body) {
    loop {
        let at = random.below(body.bytes.len());
        body.bytes[at] = match body.roles[at] {
            Role::Expression => random.pick(&[0, 8, 9, 12, 13, 255]),
            Role::Statement => random.pick(&[0, 1, 2, 7, 10, 11, 255]),
            Role::Bool => random.pick(&[2, 3, 255]),
            Role::Operator => random.pick(&[7, 8, 255]),
            Role::BlockCount => random.pick(&[0, 33, 34, 255]),
            Role::ArgumentCount => random.pick(&[5, 6, 255]),
            Role::Number | Role::Local | Role::Instance | Role::Method => continue,
        };
        return;
    }
}

fn bad_entry(random: &mut Random, plan: &Plan) -> Vec<u8> {
    let at = plan.schedule_place();
    let rules = plan.rule_count();
    let mut entries = match &plan.records[at] {
        Record::Schedule { entries, .. } => entries.clone(),
        _ => Vec::new(),
    };
    let place = random.below(entries.len() + 1).min(63);
    let missing = random
        .pick(&[rules, rules, rules + 1, 64, 127, 255])
        .max(rules) as u8;
    let bad = match entries[..place] {
        [] => missing,
        _ if random.in_hundred(40) => missing,
        _ => random.pick(&entries[..place]),
    };
    entries.truncate(63);
    entries.insert(place, bad);
    let count = random.within(place + 1, entries.len().max(place + 1));
    // What comes after the bad entry may be missing.
    if random.in_hundred(40) {
        entries.truncate(place + 1);
    }
    let mut changed = plan.clone();
    let count = random.pick(&[count, entries.len(), 64]);
    changed.records[at] = Record::Schedule { count, entries };
    changed.file()
}

fn no_schedule(plan: &Plan) -> Vec<u8> {
    plan.first(plan.schedule_place())
}
