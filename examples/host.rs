// A host in Rust: sample A by one run, in an output of the size that the forecast gives, then event by event, then as it comes in, five bytes at a time.
#[link(name = "capi", kind = "static")]
extern "C" {
    fn calcivorne_run(
        table: *const u8,
        table_len: usize,
        scene: *const u8,
        scene_len: usize,
        out: *mut u8,
        out_len: usize,
        answer: *mut [u64; 4],
    ) -> u8;
    fn calcivorne_session_size() -> u64;
    fn calcivorne_fresh(session: *mut u8, session_len: usize) -> u8;
    fn calcivorne_step(
        table: *const u8,
        table_len: usize,
        scene: *const u8,
        scene_len: usize,
        session: *mut u8,
        session_len: usize,
        out: *mut u8,
        out_len: usize,
        answer: *mut [u64; 4],
    ) -> u8;
    fn calcivorne_advance(
        table: *const u8,
        table_len: usize,
        scene: *const u8,
        scene_len: usize,
        session: *mut u8,
        session_len: usize,
        most: u64,
        out: *mut u8,
        out_len: usize,
        answer: *mut [u64; 4],
    ) -> u8;
}

#[link(name = "forecast", kind = "static")]
extern "C" {
    fn calcivorne_forecast(
        table: *const u8,
        table_len: usize,
        scene: *const u8,
        scene_len: usize,
        figures: *mut [u64; 6],
    ) -> u8;
}

const TABLE: [u8; 10] = [0x01, 0x02, 0x01, 0x01, 0x00, 0x06, 0x00, 0x08, 0x01, 0x75];
const SCENE: &[u8] = b"<r xmlns=\"u\">a<x/></r>";
const CHUNK: usize = 5;
const ROOM: usize = 32;

fn run(table: &[u8], scene: &[u8], out: &mut [u8]) -> [u64; 4] {
    let mut answer = [0; 4];
    unsafe {
        calcivorne_run(
            table.as_ptr(),
            table.len(),
            scene.as_ptr(),
            scene.len(),
            out.as_mut_ptr(),
            out.len(),
            &mut answer,
        );
    }
    answer
}

fn forecast(table: &[u8], scene: &[u8]) -> [u64; 6] {
    let mut figures = [0; 6];
    unsafe {
        calcivorne_forecast(
            table.as_ptr(),
            table.len(),
            scene.as_ptr(),
            scene.len(),
            &mut figures,
        );
    }
    figures
}

fn fresh() -> Vec<u8> {
    let mut session = vec![0; unsafe { calcivorne_session_size() } as usize];
    unsafe { calcivorne_fresh(session.as_mut_ptr(), session.len()) };
    session
}

fn step(table: &[u8], scene: &[u8], session: &mut [u8], out: &mut [u8]) -> [u64; 4] {
    let mut answer = [255, 0, 0, 0];
    unsafe {
        calcivorne_step(
            table.as_ptr(),
            table.len(),
            scene.as_ptr(),
            scene.len(),
            session.as_mut_ptr(),
            session.len(),
            out.as_mut_ptr(),
            out.len(),
            &mut answer,
        );
    }
    answer
}

fn advance(table: &[u8], scene: &[u8], session: &mut [u8], most: u64, out: &mut [u8]) -> [u64; 4] {
    let mut answer = [255, 0, 0, 0];
    unsafe {
        calcivorne_advance(
            table.as_ptr(),
            table.len(),
            scene.as_ptr(),
            scene.len(),
            session.as_mut_ptr(),
            session.len(),
            most,
            out.as_mut_ptr(),
            out.len(),
            &mut answer,
        );
    }
    answer
}

// A number, the most significant byte first.
fn field(bytes: &[u8]) -> u64 {
    bytes.iter().fold(0, |value, b| value * 256 + u64::from(*b))
}

fn print_record(r: &[u8]) {
    let fields = [&r[0..2], &r[2..3], &r[3..4], &r[4..7], &r[7..10], &r[10..13], &r[13..16]];
    let words: Vec<String> = fields.iter().map(|f| field(f).to_string()).collect();
    println!("{}", words.join(" "));
}

// The output is set aside by the forecast.
fn whole(scene: &[u8]) {
    let [number, _, records, units, strands, depth] = forecast(&TABLE, scene);
    println!("forecast: {number}, {records} records, {units} units, {strands} strands, depth {depth}");
    let mut out = vec![0; 16 * records as usize];
    let answer = run(&TABLE, scene, &mut out);
    for r in out.chunks(16).take(answer[3] as usize) {
        print_record(r);
    }
    println!("{} {} {} {}", answer[0], answer[1], answer[2], answer[3]);
}

// For a host that does something at each event: where it ends, and its records alone.
fn event_by_event(scene: &[u8], out: &mut [u8]) {
    let mut session = fresh();
    let number = loop {
        match step(&TABLE, scene, &mut session, out) {
            [0, place, _, records] => println!("event up to {place}: {records} records"),
            [number, ..] => break number,
        }
    };
    println!("event by event: {number}");
}

// The scene grows: on 1, or on 9 while bytes are still to come, the next ones are appended and the same session goes on.
// The output is kept short here: on 25 the records so far are taken, and the session goes on with all of the output.
fn in_chunks(scene: &[u8], out: &mut [u8]) {
    let mut session = fresh();
    let mut come = 0;
    let (mut events, mut records) = (0, 0);
    let number = loop {
        let answer = advance(&TABLE, &scene[..come], &mut session, u64::MAX, &mut out[..ROOM]);
        events += answer[2];
        records += answer[3];
        match answer[0] {
            25 if answer[2] > 0 => {}
            1 | 9 if come < scene.len() => come = scene.len().min(come + CHUNK),
            number => break number,
        }
    };
    println!("in chunks: {number}, {events} events, {records} records");
}

fn main() {
    whole(SCENE);
    let mut out = vec![0; 65536];
    event_by_event(SCENE, &mut out);
    in_chunks(SCENE, &mut out);
}
