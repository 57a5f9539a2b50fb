//! Which questions are asked about a show.

use super::checker::Subjected;
use super::outcome::Call;
use super::outcome::Outcome;
use crate::gen::prng::Prng;
use crate::gen::{notes, waits};
use crate::limits::{GIVEN, PATH, WAIT, WORK};
use crate::plain;
use crate::question::{Answer, Input, Question};
use crate::subject;

/// Shows of at most this many cues are asked everything.
const SMALL: u32 = 24;
/// How many random numbers or pairs are asked about a larger show.
const SAMPLE: u32 = 60;
/// How many pairs, of cues that are linked and of others, are asked with notes and without.
const PAIRS: usize = 8;

impl Subjected<'_, '_> {
    /// Asks for the contents of a file, with room of several lengths, and goes its round.
    pub fn ask_file(&mut self, prng: &mut Prng) {
        self.ask_rooms(prng, Question::Read { room: 0 });
        self.ask_round();
    }

    /// Asks once for the contents of a file, and goes its round.
    pub fn ask_once(&mut self, room: usize) {
        self.ask(Question::Read { room });
        self.ask_round();
    }

    /// Asks everything about rows that can be unfolded.
    pub fn ask_rows(&mut self, prng: &mut Prng) {
        let count = self.known.as_ref().map_or(3, |show| show.count());
        self.ask_folded(prng);
        let (one, other) = (prng.within(0, count + 1), prng.within(0, count + 1));
        for question in on_cues(one, other).into_iter().chain(on_cues(0, 1)) {
            self.ask_rooms(prng, question);
        }
        for (s, t) in [(one, other), (one, one), (0, 1)] {
            let waits = some_waits(prng);
            self.ask_rooms(prng, Question::Quickest { s, t, waits, room: 0 });
        }
        if self.known.is_ok() {
            self.ask_cues(prng, count);
            self.ask_paths(prng);
            self.ask_lists(prng, count);
            self.ask_fewest(prng, count);
            self.ask_quickest(prng, count);
        }
    }

    /// Asks what the naive tool can answer without unfolding.
    pub fn ask_folded(&mut self, prng: &mut Prng) {
        self.ask_rooms(prng, Question::Count);
        self.ask_rooms(prng, Question::Write { room: 0 });
        self.ask_row(prng);
    }

    /// One question with output one too short, exact and longer, and with every `given`.
    fn ask_rooms(&mut self, prng: &mut Prng, question: Question) {
        let exact = self.room_needed(&question);
        let longer = exact + 1 + prng.below(20);
        for room in [exact.saturating_sub(1), exact, longer, prng.below(exact + 1)] {
            self.ask(question.clone().with_room(room));
        }
        let given = prng.below(GIVEN);
        for (room, given) in [(exact, given), (longer, GIVEN + 1), (exact / 2, given)] {
            self.ask_given(question.clone().with_room(room), given);
        }
    }

    /// All numbers of a small show with those around them, or some numbers.
    fn numbers(&self, prng: &mut Prng, count: u32) -> Vec<u32> {
        let mut numbers = vec![0, 1, count, count + 1, u32::MAX];
        if count <= 10 * SMALL {
            numbers.extend(2..count);
        } else {
            numbers.extend((0..SAMPLE).map(|_| prng.within(1, count)));
        }
        numbers
    }

    fn ask_cues(&mut self, prng: &mut Prng, count: u32) {
        for n in self.numbers(prng, count) {
            self.ask(Question::Locate { n, room: PATH + prng.below(2) });
        }
    }

    /// The path of every cue, and paths that lead nowhere.
    fn ask_paths(&mut self, prng: &mut Prng) {
        let Ok(show) = &self.known else { return };
        let mut asked: Vec<(Vec<u32>, u32)> = Vec::new();
        for _ in 0..SAMPLE.max(2 * SMALL) {
            let cue = prng.pick(&show.unfolding().cues);
            asked.push(bent(prng, cue.path.clone(), cue.own));
        }
        let cues = show.unfolding().cues.iter().take(10 * SMALL as usize);
        asked.extend(cues.map(|cue| (cue.path.clone(), cue.own)));
        asked.extend([PATH, PATH + 1, 200].map(|length| (vec![1; length], 1)));
        for (path, own) in asked {
            self.ask(Question::Number { path, own });
        }
    }

    /// Both lists of every cue, after every number, on pages of several lengths.
    fn ask_lists(&mut self, prng: &mut Prng, count: u32) {
        let small = count <= SMALL;
        let numbers = self.numbers(prng, count);
        for v in numbers.iter().copied() {
            let some = [0, prng.within(0, count), u32::MAX];
            let after: &[u32] = if small { &numbers } else { &some };
            for n in after {
                self.ask_pages(v, *n);
            }
        }
    }

    fn ask_pages(&mut self, v: u32, n: u32) {
        for outward in [true, false] {
            for room in [0, 1, 2, 300] {
                self.ask(Question::List { outward, v, n, room });
            }
        }
    }

    /// Every pair of a small show, or some pairs, under wait files that may be broken.
    fn ask_quickest(&mut self, prng: &mut Prng, count: u32) {
        let files = [(); 3].map(|()| some_waits(prng));
        for (s, t) in self.pairs(prng, count) {
            let (waits, room) = (prng.pick(&files).clone(), WORK + (t % 2) as usize);
            self.ask(Question::Quickest { s, t, waits, room });
        }
    }

    /// Every pair of a small show, or some pairs.
    fn ask_fewest(&mut self, prng: &mut Prng, count: u32) {
        for (s, t) in self.pairs(prng, count) {
            self.ask(Question::Fewest { s, t, room: WORK + (s % 2) as usize });
        }
    }

    /// Every pair of a small show, or some pairs; and pairs with numbers that are no cues.
    fn pairs(&self, prng: &mut Prng, count: u32) -> Vec<(u32, u32)> {
        let mut pairs: Vec<(u32, u32)> = vec![(0, 1), (1, 0), (count + 1, 1), (1, count + 1)];
        if count <= SMALL {
            pairs.extend((1..=count).flat_map(|s| (1..=count).map(move |t| (s, t))));
        } else {
            let random = |_| (prng.within(1, count), prng.within(1, count));
            pairs.extend((0..SAMPLE).map(random));
        }
        pairs
    }

    /// Every pair of a small show, or some pairs and some that are linked; and pairs with numbers
    /// that are no cues.
    fn ask_row(&mut self, prng: &mut Prng) {
        let (Ok(show), Input::Rows(rows)) = (&self.known, &self.input) else { return };
        let count = show.count();
        let numbers = self.numbers(prng, count);
        let some: &[u32] = if count <= SMALL { &numbers } else { &numbers[..10] };
        let mut pairs: Vec<(u32, u32)> =
            some.iter().flat_map(|s| some.iter().map(|t| (*s, *t))).collect();
        let linked = linked(prng, rows, &numbers);
        if count > SMALL {
            pairs.extend(&linked);
        }
        for (s, t) in pairs {
            self.ask(Question::Row { s, t, room: PATH + (s % 2) as usize });
        }
        if !linked.is_empty() {
            let (s, t) = *prng.pick(&linked);
            self.ask_rooms(prng, Question::Row { s, t, room: 0 });
        }
    }

    /// The fewest steps between some cues that are linked and some others, and all summaries, are
    /// the same on the rows without the notes. That needs no unfolding.
    pub fn ask_without_notes(&mut self, prng: &mut Prng) {
        let (Ok(show), Input::Rows(rows)) = (&self.known, &self.input) else { return };
        let numbers = self.numbers(prng, show.count());
        let mut pairs = linked(prng, rows, &numbers);
        prng.shuffle(&mut pairs);
        pairs.truncate(PAIRS);
        let cue = |prng: &mut Prng| prng.within(1, show.count());
        pairs.extend((0..PAIRS).map(|_| (cue(prng), cue(prng))));
        let without = Input::Rows(notes::left_out(rows));
        for (s, t) in pairs {
            let call = Call { question: Question::Fewest { s, t, room: WORK }, given: GIVEN };
            let fewest = self.checker.compare_with(&without, &self.input, call);
            let waits = waits::lawful(prng);
            let question = Question::Quickest { s, t, waits, room: WORK };
            let call = Call { question, given: GIVEN };
            self.checker.compare_with(&without, &self.input, call.clone());
            self.checker.compare_to(&subject::plain(), &self.input, call);
            self.ask_by_steps(prng, s, t, fewest);
        }
    }

    /// Where all labels wait alike, the quickest way is as many waits long as there are steps.
    fn ask_by_steps(&mut self, prng: &mut Prng, s: u32, t: u32, fewest: Option<Outcome>) {
        let Some(Outcome { returned: 0, given, .. }) = fewest else { return };
        let wait = *prng.pick(&[0, 1, 7, WAIT]);
        let tenths = u64::from(given[1]) * u64::from(wait);
        let given = [given[0], tenths as u32, (tenths >> 32) as u32];
        let question = Question::Quickest { s, t, waits: waits::every(wait), room: WORK + 1 };
        let answer = Answer { wide: vec![0; WORK], ..Answer::given(&given) };
        self.checker.compare(&self.input, Call { question, given: GIVEN }, &Ok(answer));
    }
}

/// Pairs of cues that are linked, some for each of these numbers that is a cue. What is asked about
/// them is chosen here, not what is right, so the plain implementation may list them.
fn linked(prng: &mut Prng, rows: &[u32], numbers: &[u32]) -> Vec<(u32, u32)> {
    let (mut page, mut given) = ([0; 2], [0; GIVEN]);
    let mut pairs = Vec::new();
    for v in numbers {
        let after = *prng.pick(&[0, 0, v / 2, *v]);
        if plain::list_out(rows, *v, after, &mut page, &mut given) == 0 {
            pairs.extend(page[..given[0] as usize].iter().map(|t| (*v, *t)));
        }
        if plain::list_in(rows, *v, after, &mut page, &mut given) == 0 {
            pairs.extend(page[..given[0] as usize].iter().map(|s| (*s, *v)));
        }
    }
    pairs
}

/// Each question on cues, with no room yet.
fn on_cues(one: u32, other: u32) -> [Question; 6] {
    let list = |outward: bool| Question::List { outward, v: one, n: other, room: 0 };
    [
        Question::Locate { n: one, room: 0 },
        Question::Number { path: vec![other], own: one },
        list(true),
        list(false),
        Question::Fewest { s: one, t: other, room: 0 },
        Question::Row { s: one, t: other, room: 0 },
    ]
}

/// A wait file: two in three are lawful.
fn some_waits(prng: &mut Prng) -> Vec<u8> {
    match prng.one_in(3) {
        true => waits::damaged(prng),
        false => waits::lawful(prng),
    }
}

/// A path and an own cue with something changed.
fn bent(prng: &mut Prng, mut path: Vec<u32>, mut own: u32) -> (Vec<u32>, u32) {
    let other = *prng.pick(&[0, 1, 2, 3, 255, 256, u32::MAX]);
    match prng.below(4) {
        0 => own = other,
        1 => path.push(other),
        2 if !path.is_empty() => {
            let place = prng.below(path.len());
            path[place] = other;
        }
        _ => {
            path.pop();
        }
    }
    (path, own)
}
