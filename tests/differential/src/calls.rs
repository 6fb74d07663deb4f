//! The C calls with slices. Every slice that may be written, and sessions and offers in any case, is lent from the middle of a longer buffer whose
//! borders are looked at afterwards.

/// Number, place, events, records.
pub type Four = [u64; 4];

/// Number, place, records, units, strands, depth.
pub type Six = [u64; 6];

/// What stands in an answer before a call; no call writes it.
pub const UNWRITTEN: u64 = 0xDEAD_BEEF_5A5A_5A5A;
pub const NO_ANSWER: Four = [UNWRITTEN; 4];

const BORDER: usize = 64;

extern "C" {
    fn calcivorne_judge(table: *const u8, table_len: usize, answer: *mut u64) -> u8;
    fn calcivorne_run(table: *const u8, table_len: usize, scene: *const u8, scene_len: usize, out: *mut u8, out_len: usize, answer: *mut u64) -> u8;
    fn calcivorne_session_size() -> u64;
    fn calcivorne_fresh(session: *mut u8, session_len: usize) -> u8;
    fn calcivorne_step(
        table: *const u8,
        table_len: usize,
        scene: *const u8,
        scene_len: usize,
        session: *mut u8,
        session_len: usize,
        out: *mut u8,
        out_len: usize,
        answer: *mut u64,
    ) -> u8;
    fn calcivorne_advance(
        table: *const u8,
        table_len: usize,
        scene: *const u8,
        scene_len: usize,
        session: *mut u8,
        session_len: usize,
        most: u64,
        out: *mut u8,
        out_len: usize,
        answer: *mut u64,
    ) -> u8;
    fn calcivorne_uri(
        table: *const u8,
        table_len: usize,
        scene: *const u8,
        scene_len: usize,
        record_class: u8,
        uri_offset: u64,
        uri_len: u64,
        span: *mut u64,
    ) -> u8;
    fn calcivorne_forecast(table: *const u8, table_len: usize, scene: *const u8, scene_len: usize, figures: *mut u64) -> u8;
    fn calcivorne_offer_size() -> u64;
    fn calcivorne_ask(
        table: *const u8,
        table_len: usize,
        scene: *const u8,
        scene_len: usize,
        session: *const u8,
        session_len: usize,
        offer: *mut u8,
        offer_len: usize,
        answer: *mut u64,
    ) -> u8;
    fn calcivorne_commit(
        offer: *const u8,
        offer_len: usize,
        session: *mut u8,
        session_len: usize,
        table: *const u8,
        table_len: usize,
        scene: *const u8,
        scene_len: usize,
        out: *mut u8,
        out_len: usize,
        answer: *mut u64,
    ) -> u8;
}

/// A buffer to lend, with borders.
pub struct Lent {
    bytes: Vec<u8>,
}

impl Lent {
    pub fn new(content: &[u8]) -> Lent {
        let mut bytes: Vec<u8> = (0..BORDER).map(border).collect();
        bytes.extend(content);
        bytes.extend((0..BORDER).map(border));
        Lent { bytes }
    }

    /// Bytes of a pattern in which no zero, and no run of one byte, stands.
    pub fn patterned(len: usize) -> Lent {
        Lent::new(&pattern(len))
    }

    pub fn slice(&mut self) -> &mut [u8] {
        let len = self.bytes.len();
        &mut self.bytes[BORDER..len - BORDER]
    }

    /// The content after a call; a panic where a border was written.
    pub fn content(&self) -> &[u8] {
        let end = self.bytes.len() - BORDER;
        let kept = |bytes: &[u8]| bytes.iter().copied().eq((0..BORDER).map(border));
        assert!(
            kept(&self.bytes[..BORDER]) && kept(&self.bytes[end..]),
            "a byte outside a slice was written"
        );
        &self.bytes[BORDER..end]
    }
}

fn border(at: usize) -> u8 {
    0xC3 ^ at as u8
}

const BLOCK: usize = 251;

/// What an output holds before a call.
pub fn pattern(len: usize) -> Vec<u8> {
    let block: Vec<u8> = (5..=255).collect();
    let mut bytes = block.repeat(len / BLOCK + 1);
    bytes.truncate(len);
    bytes
}

/// Whether bytes from an offset on still hold the pattern.
pub fn keeps_pattern(bytes: &[u8], from: usize) -> bool {
    let block = pattern(2 * BLOCK);
    let start = &block[from % BLOCK..][..BLOCK];
    bytes[from..].chunks(BLOCK).all(|chunk| chunk == &start[..chunk.len()])
}

pub fn judge(table: &[u8]) -> (u8, Four) {
    let mut answer = NO_ANSWER;
    let number = unsafe { calcivorne_judge(table.as_ptr(), table.len(), answer.as_mut_ptr()) };
    (number, answer)
}

pub fn run(table: &[u8], scene: &[u8], out: &mut Lent) -> (u8, Four) {
    let mut answer = NO_ANSWER;
    let out = out.slice();
    let number = unsafe {
        calcivorne_run(
            table.as_ptr(),
            table.len(),
            scene.as_ptr(),
            scene.len(),
            out.as_mut_ptr(),
            out.len(),
            answer.as_mut_ptr(),
        )
    };
    (number, answer)
}

pub fn session_size() -> usize {
    unsafe { calcivorne_session_size() as usize }
}

pub fn fresh(session: &mut Lent) -> u8 {
    let session = session.slice();
    unsafe { calcivorne_fresh(session.as_mut_ptr(), session.len()) }
}

pub fn step(table: &[u8], scene: &[u8], session: &mut Lent, out: &mut Lent) -> (u8, Four) {
    let mut answer = NO_ANSWER;
    let (session, out) = (session.slice(), out.slice());
    let number = unsafe {
        calcivorne_step(
            table.as_ptr(),
            table.len(),
            scene.as_ptr(),
            scene.len(),
            session.as_mut_ptr(),
            session.len(),
            out.as_mut_ptr(),
            out.len(),
            answer.as_mut_ptr(),
        )
    };
    (number, answer)
}

pub fn advance(table: &[u8], scene: &[u8], session: &mut Lent, most: u64, out: &mut Lent) -> (u8, Four) {
    let mut answer = NO_ANSWER;
    let (session, out) = (session.slice(), out.slice());
    let number = unsafe {
        calcivorne_advance(
            table.as_ptr(),
            table.len(),
            scene.as_ptr(),
            scene.len(),
            session.as_mut_ptr(),
            session.len(),
            most,
            out.as_mut_ptr(),
            out.len(),
            answer.as_mut_ptr(),
        )
    };
    (number, answer)
}

/// What the call returns, and the three numbers of the span.
pub fn uri(table: &[u8], scene: &[u8], class: u8, at: u64, len: u64) -> (u8, [u64; 3]) {
    let mut span = [UNWRITTEN; 3];
    let number = unsafe {
        calcivorne_uri(
            table.as_ptr(),
            table.len(),
            scene.as_ptr(),
            scene.len(),
            class,
            at,
            len,
            span.as_mut_ptr(),
        )
    };
    (number, span)
}

/// What the call returns, and the six figures; a panic where a number beside them was written.
pub fn forecast(table: &[u8], scene: &[u8]) -> (u8, Six) {
    let mut lent = [UNWRITTEN; 8];
    let figures = lent[1..].as_mut_ptr();
    let number = unsafe { calcivorne_forecast(table.as_ptr(), table.len(), scene.as_ptr(), scene.len(), figures) };
    let [before, figures @ .., behind] = lent;
    assert_eq!([before, behind], [UNWRITTEN; 2], "a number beside the figures was written");
    (number, figures)
}

pub fn offer_size() -> usize {
    unsafe { calcivorne_offer_size() as usize }
}

pub fn ask(table: &[u8], scene: &[u8], session: &mut Lent, offer: &mut Lent) -> (u8, Four) {
    let mut answer = NO_ANSWER;
    let (session, offer) = (session.slice(), offer.slice());
    let number = unsafe {
        calcivorne_ask(
            table.as_ptr(),
            table.len(),
            scene.as_ptr(),
            scene.len(),
            session.as_mut_ptr(),
            session.len(),
            offer.as_mut_ptr(),
            offer.len(),
            answer.as_mut_ptr(),
        )
    };
    (number, answer)
}

pub fn commit(offer: &mut Lent, session: &mut Lent, table: &[u8], scene: &[u8], out: &mut Lent) -> (u8, Four) {
    let mut answer = NO_ANSWER;
    let (offer, session, out) = (offer.slice(), session.slice(), out.slice());
    let number = unsafe {
        calcivorne_commit(
            offer.as_mut_ptr(),
            offer.len(),
            session.as_mut_ptr(),
            session.len(),
            table.as_ptr(),
            table.len(),
            scene.as_ptr(),
            scene.len(),
            out.as_mut_ptr(),
            out.len(),
            answer.as_mut_ptr(),
        )
    };
    (number, answer)
}
