//! What the tests share: document 01's tables and short ways to ask.
#![allow(dead_code)]

use reference::generate::{pack, rule, Plan};
use reference::table::{Rule, ANY};
use reference::{plus, run, step, Action, Answer, Forecast, Record, Session};

pub const AMPLE: usize = 1 << 24;
/// For a small scene's records, where there are many runs.
pub const ROOM: usize = 1 << 12;
pub const ELEMENT: u8 = 0;
pub const ATTRIBUTE: u8 = 1;
pub const SAMPLE: &[u8] = b"<r xmlns=\"u\">a<x/></r>";

/// Document 01's T.
pub fn t() -> Vec<u8> {
    vec![0x01, 0x02, 0x01, 0x01, 0x00, 0x06, 0x00, 0x08, 0x01, 0x75]
}

/// Document 01's T2.
pub fn t2() -> Vec<u8> {
    table(
        &["u", "v"],
        2,
        2,
        vec![
            rule(0, ELEMENT, 1, Action::Validate, 0, 1),
            rule(1, ELEMENT, 2, Action::Validate, 1, 1),
            rule(1, ELEMENT, 2, Action::Attach, 0, 1),
            rule(1, ELEMENT, ANY, Action::Unwrap, 0, 1),
        ],
    )
}

/// The page N1's K: all is kept in unit 0.
pub fn k() -> Vec<u8> {
    vec![
        0x00, 0x02, 0x01, 0x03, 0x03, 0xFE, 0x00, 0x08, 0x0B, 0xFC, 0x00, 0x08, 0x0F, 0xFC, 0x00,
        0x08,
    ]
}

/// The table that keeps a table's former results: t+ of page N3. Answers of the time before
/// request N3 are asked of it.
pub fn former(table: &[u8]) -> Vec<u8> {
    plus(table).expect("an accepted table with room for the rules")
}

/// A table by the name that the pages give it.
pub fn named(table: &str) -> Vec<u8> {
    match table.trim() {
        "K" => k(),
        "T" => t(),
        "T2" => t2(),
        other => panic!("no table {other}"),
    }
}

pub fn table(uris: &[&str], modes: u8, schemas: u8, rules: Vec<Rule>) -> Vec<u8> {
    pack(&Plan {
        namespaces: uris.iter().map(|uri| uri.as_bytes().to_vec()).collect(),
        modes,
        schemas,
        rules,
    })
}

/// Number and place of a run with ample output; they are the same with t+.
pub fn ends(table: &[u8], scene: &[u8]) -> (u8, u64) {
    let ends = |table: &[u8]| {
        let (answer, _) = run(table, scene, AMPLE);
        (answer.number, answer.place)
    };
    let found = ends(table);
    if let Some(kept) = plus(table).filter(|kept| kept != table) {
        assert_eq!(ends(&kept), found);
    }
    found
}

/// Number and place with T.
pub fn with_t(scene: &str) -> (u8, u64) {
    ends(&t(), scene.as_bytes())
}

pub fn answer(number: u8, place: u64, events: u64, records: u64) -> Answer {
    Answer {
        number,
        place,
        events,
        records,
    }
}

/// Bytes as lines of seven fields.
pub fn lines(bytes: &[u8]) -> Vec<String> {
    bytes.chunks(16).map(|r| Record::read(r).line()).collect()
}

/// The records of a run with ample output, as lines.
pub fn records(table: &[u8], scene: &str) -> Vec<String> {
    lines(&run(table, scene.as_bytes(), AMPLE).1)
}

/// The records of one unit, without its number.
pub fn unit(records: &[String], number: u64) -> Vec<String> {
    let start = format!("{number} ");
    records
        .iter()
        .filter_map(|record| record.strip_prefix(&start))
        .map(str::to_string)
        .collect()
}

/// A scene of nested elements of one namespace.
pub fn nested(depth: usize) -> Vec<u8> {
    ["<r>".repeat(depth), "</r>".repeat(depth)]
        .concat()
        .into_bytes()
}

/// v and q alternating under a u root, with so many v.
pub fn alternating(vs: usize) -> String {
    let mut scene = String::from("<r xmlns='u'>");
    for _ in 0..vs {
        scene.push_str("<x xmlns='v'><w xmlns='q'>");
    }
    scene.push_str(&"</w></x>".repeat(vs));
    scene.push_str("</r>");
    scene
}

/// The bytes of a scene as the pages write it: \xNN is a byte, {k:s} is s written k times.
pub fn bytes(written: &str) -> Vec<u8> {
    let mut list = Vec::new();
    let mut rest = written;
    while let Some(first) = rest.chars().next() {
        if let Some(hex) = rest.strip_prefix("\\x") {
            list.push(u8::from_str_radix(&hex[..2], 16).expect("two digits"));
            rest = &hex[2..];
        } else if let Some((inner, behind)) = rest.strip_prefix('{').and_then(|r| r.split_once('}'))
        {
            let (count, repeated) = inner.split_once(':').expect("{k:s}");
            list.extend(bytes(repeated).repeat(count.parse().expect("a count")));
            rest = behind;
        } else {
            list.push(first as u8);
            rest = &rest[1..];
        }
    }
    list
}

/// The numbers of a field, up to a remark.
pub fn numbers(field: &str) -> Vec<u64> {
    let written = field.split('#').next().unwrap_or_default();
    let words = written.split_whitespace();
    words.map(|word| word.parse().expect(field)).collect()
}

/// The lines of a page's block that are no remarks.
pub fn written(block: &'static str) -> impl Iterator<Item = &'static str> {
    block
        .lines()
        .filter(|line| !line.is_empty() && !line.starts_with('#'))
}

/// A table of these blocks, written as NAME = bytes, or one that other pages name.
pub fn table_in(blocks: &[&'static str], name: &str) -> Vec<u8> {
    let name = name.trim();
    let found = blocks
        .iter()
        .flat_map(|block| written(block))
        .find_map(|line| line.strip_prefix(name)?.strip_prefix(" = "));
    match found {
        Some(hex) => hex
            .split(' ')
            .map(|byte| u8::from_str_radix(byte, 16).expect(hex))
            .collect(),
        None => named(name),
    }
}

/// A run of a page's block, with the records below it, if they are shown.
pub struct Vector {
    pub line: &'static str,
    pub table: Vec<u8>,
    pub scene: Vec<u8>,
    pub output: usize,
    pub answer: Answer,
    pub records: Vec<&'static str>,
}

impl Vector {
    pub fn of(blocks: &[&'static str], line: &'static str) -> Vector {
        let fields: Vec<&str> = line.split('|').collect();
        Vector {
            line,
            table: table_in(blocks, fields[0]),
            scene: bytes(fields[1]),
            output: fields[2].trim().parse().unwrap_or(AMPLE),
            answer: four(fields[3]),
            records: Vec::new(),
        }
    }

    /// A run by a table gives what the page says.
    pub fn check(&self, table: &[u8]) {
        let (got, written) = run(table, &self.scene, self.output);
        assert_eq!(got, self.answer, "{}", self.line);
        assert_eq!(written.len() as u64, 16 * got.records, "{}", self.line);
        if !self.records.is_empty() {
            assert_eq!(lines(&written), self.records, "{}", self.line);
        }
    }
}

/// The runs of a block; their tables may stand there.
pub fn vectors(block: &'static str) -> Vec<Vector> {
    let mut list: Vec<Vector> = Vec::new();
    for line in written(block) {
        if let Some(record) = line.strip_prefix("    ") {
            list.last_mut().expect("a vector").records.push(record);
        } else if line.contains('|') {
            list.push(Vector::of(&[block], line));
        }
    }
    list
}

/// number@place.
pub fn ending(word: &str) -> (u8, u64) {
    let (number, place) = word.split_once('@').expect(word);
    (number.parse().expect(word), place.parse().expect(word))
}

/// A decision's example: the line, its scene, number and place.
pub type Decided = (&'static str, Vec<u8>, (u8, u64));

/// The examples of a block: decision, |scene|, number@place.
pub fn decided(block: &'static str) -> Vec<Decided> {
    let of = |line: &'static str| {
        let fields: Vec<&str> = line.split('|').collect();
        (line, bytes(fields[1]), ending(fields[2].trim()))
    };
    written(block).map(of).collect()
}

/// Scenes stepped in turn, each from the session that the one before left, until a number is not
/// 0: a line of a block, by its table and by the one that keeps its former results.
pub fn check_steps(line: &str) {
    let fields: Vec<&str> = line.split('|').collect();
    let table = named(fields[0]);
    for table in [former(&table), table] {
        let mut session = Session::fresh();
        for pair in fields[1..].chunks(2) {
            let expected: Vec<(u8, u64)> = pair[1].split_whitespace().map(ending).collect();
            let got = stepped(&table, &bytes(pair[0]), &mut session);
            assert_eq!(got, expected, "{line}");
        }
    }
}

/// Steps until a number is not 0; each one's number and place.
fn stepped(table: &[u8], scene: &[u8], session: &mut Session) -> Vec<(u8, u64)> {
    let mut list = Vec::new();
    loop {
        let (got, next, _) = step(table, scene, session, AMPLE);
        list.push((got.number, got.place));
        if got.number != 0 {
            assert_eq!(next, *session);
            return list;
        }
        assert_eq!(next.place, got.place);
        *session = next;
    }
}

/// Number, place, events, records.
pub fn four(field: &str) -> Answer {
    let four = numbers(field);
    answer(four[0] as u8, four[1], four[2], four[3])
}

/// A line of six figures and the bound, which a refused table has not.
pub struct Forecasted {
    pub line: &'static str,
    pub table: Vec<u8>,
    pub scene: Vec<u8>,
    pub forecast: Forecast,
    pub bound: Option<u64>,
}

/// The forecasts of a block; their tables stand in these.
pub fn forecasts(blocks: &[&'static str], block: &'static str) -> Vec<Forecasted> {
    let of = |line: &'static str| {
        let fields: Vec<&str> = line.split('|').collect();
        let bound = fields[3].trim();
        Forecasted {
            line,
            table: table_in(blocks, fields[0]),
            scene: bytes(fields[1]),
            forecast: figures(&numbers(fields[2])),
            bound: (bound != "-").then(|| numbers(bound)[0]),
        }
    };
    written(block)
        .filter(|line| line.contains('|'))
        .map(of)
        .collect()
}

pub fn figures(six: &[u64]) -> Forecast {
    Forecast {
        number: six[0] as u8,
        place: six[1],
        records: six[2],
        units: six[3],
        strands: six[4],
        depth: six[5],
    }
}

/// A 2 or 3 at p: the first p bytes give 1, after the root also 9, at p with the same events; the
/// bytes up to the one that decides give 1; every longer scene gives the same.
pub fn check_refused_byte(scene: &[u8]) {
    let (whole, records) = run(&k(), scene, ROOM);
    if !matches!(whole.number, 2 | 3) {
        return;
    }
    let place = whole.place as usize;
    let decided = place + deciding(scene, place);
    for cut in place..=decided {
        let (got, written) = run(&k(), &scene[..cut], ROOM);
        assert!(
            got.number == 1 || got.number == 9 && cut == place,
            "{got:?}"
        );
        assert_eq!(
            (got.place, got.events, &written),
            (cut as u64, whole.events, &records)
        );
    }
    for longer in [
        scene[..=decided].to_vec(),
        [scene, &b"<r/>-->?>"[..]].concat(),
    ] {
        assert_eq!(run(&k(), &longer, ROOM), (whole, records.clone()));
    }
}

/// How far behind a refused byte the one stands that decides.
fn deciding(scene: &[u8], place: usize) -> usize {
    let (before, from) = scene.split_at(place);
    let target = from
        .get(..3)
        .is_some_and(|target| target.eq_ignore_ascii_case(b"xml"));
    match (from.starts_with(b"]]>"), before.ends_with(b"<?") && target) {
        (true, _) => 2,
        (_, true) => 3,
        _ => 0,
    }
}
