//! Random lists of calls from an empty box: every number and every byte after every call, and a bay's own calls beside
//! other traffic.
use crate::archive::{Archive, Call, Written};
use crate::draw::{request, suit, Request};
use crate::layout::{self, LEDGER};
use crate::ledgers::{self, Last, Met, Totals};
use crate::memory::Memory;
use crate::model::{Model, BAYS, POSITIONS, SHARED};
use crate::previews::Previews;
use crate::tally::Tally;
use common::generate::Random;
use common::reference::MOST_LITRES;
use tick::rewriting::Litres;

/// The longest box of another length is so much longer than a right one, or twice as long.
const LONGER: usize = 65_536;

/// A box of the archive beside the model of it.
pub struct Run {
    archive: Archive,
    lent: Memory,
    /// Memory for boxes of another length.
    other: Memory,
    pub model: Model,
    /// A box without machines: the bytes of its ledgers.
    ledgers: Vec<u8>,
    pub met: Met,
    /// What each ledger last had to do with.
    last: [Last; BAYS],
    /// Calls that are to be turned down find memory that can't be written.
    pub sealed: bool,
}

/// What a call gave and left: the number, what it wrote beside the box, and the bay's stretch.
#[derive(PartialEq)]
pub struct Seen {
    number: u8,
    written: Option<Written>,
    stretch: Vec<u8>,
}

impl Run {
    pub fn new() -> Self {
        let length = layout::box_length();
        let (archive, lent, other) = (Archive::new(), Memory::new(length), Memory::new(length + LONGER));
        let (model, ledgers) = (Model::new(length), vec![0; length]);
        let (met, last) = (Met::default(), [Last::Other; BAYS]);
        Run { archive, lent, other, model, ledgers, met, last, sealed: false }
    }

    /// An empty box, whose ledgers hold nothing, totals close to the limit, or bytes that no call has written.
    pub fn clear(&mut self, random: &mut Random) {
        self.ledgers.fill(0);
        let kind = random.below(4);
        for bay in 0..BAYS {
            invent(random, kind, &mut self.ledgers[layout::stretch(bay)][LEDGER..]);
        }
        let (at_end, around) = (random.chance(50), random.below(256) as u8);
        self.begin(at_end, around);
        self.sealed = random.chance(25);
    }

    /// An empty box with the ledgers as they are.
    fn begin(&mut self, at_end: bool, around: u8) {
        self.model = Model::new(self.model.length);
        self.model.ledgers = std::array::from_fn(|bay| layout::totals(&self.ledgers[layout::stretch(bay)]));
        self.last = [Last::Other; BAYS];
        self.lent.place(&self.ledgers, at_end, around);
    }

    pub fn bytes(&mut self) -> &[u8] {
        self.lent.bytes()
    }

    /// Makes a call, and compares the number and every byte with the model.
    pub fn step(&mut self, tally: &mut Tally, request: &Request) -> Seen {
        let Request { bay, length, call } = request;
        let right = self.model.length;
        let length = length.filter(|&length| length != right);
        let lent = length.unwrap_or(right);
        let before = self.model.ledgers;
        let delivered = self.delivered(request);
        let expected = match call {
            Call::Admit { sequence, read_back, service_only } => {
                self.model.admit(lent, *bay, sequence, [*read_back, *service_only]).map(nothing)
            }
            Call::Release => self.model.release(lent, *bay).map(nothing),
            Call::Tick { input, answer_length, record_length } => {
                self.model.tick(lent, *bay, *input, [*answer_length, *record_length])
            }
            Call::Save { name } => self.model.save(lent, *bay, *name).map(nothing),
            Call::Restore { name } => self.model.restore(lent, *bay, *name).map(nothing),
            Call::Forget { name } => self.model.forget(lent, *bay, *name).map(nothing),
            Call::Service { record, view_length } => {
                self.model.service(lent, *bay, record, *view_length).map(|view| [view, vec![]])
            }
            Call::Panel { record, view_length } => {
                self.model.panel(lent, *bay, record, *view_length).map(|view| [view, vec![]])
            }
            Call::Preview { input, unknown, preview_length } => {
                self.model.preview(lent, *bay, [*input, *unknown], *preview_length).map(|preview| [preview, vec![]])
            }
            Call::Ledger { totals_length } => {
                self.model.ledger(lent, *bay, *totals_length).map(|totals| [totals, vec![]])
            }
            Call::NewYear => self.model.new_year(lent, *bay).map(nothing),
        };
        self.enter(request, &before, &delivered, &expected);
        let sealed = self.sealed && expected.is_err();
        let given = match length {
            None => self.archive.call(&mut self.lent, *bay, call, sealed),
            Some(length) => {
                let content: Vec<u8> = self.lent.bytes().iter().copied().cycle().take(length).collect();
                self.other.place(&content, length % 2 == 0, 0xA5);
                let given = self.archive.call(&mut self.other, *bay, call, sealed);
                tally.counts.expect(self.other.holds(&content), || format!("box of {length}: {}", call.text(*bay)));
                given
            }
        };
        if let (Call::Ledger { .. }, 0) = (call, given.number) {
            let close = ledgers::close(&given.written[0], &self.model.ledgers[*bay as usize]);
            tally.counts.expect(close, || format!("{} is not close to the exact sum", call.text(*bay)));
        }
        let image = layout::image(&self.model, &self.ledgers, self.lent.bytes());
        let same = self.lent.holds(&image);
        tally.count(call, given.number);
        tally.counts.expect(same && given.is(&expected), || {
            let number = expected.as_ref().err().unwrap_or(&0);
            let text = call.text(*bay);
            format!("{} and not {number}, box as it should be: {same}, length {length:?}, {text}", given.number)
        });
        let own = layout::stretch((*bay as usize).min(BAYS - 1));
        let written = (given.number == 0).then_some(given.written);
        Seen { number: given.number, written, stretch: self.lent.bytes()[own].to_vec() }
    }

    /// What the next instant of a tick's bay delivers.
    fn delivered(&self, request: &Request) -> Litres {
        let bay = self.model.bays.get(request.bay as usize).and_then(Option::as_ref);
        match (&request.call, bay) {
            (Call::Tick { input, .. }, Some(bay)) => bay.litres(*input),
            _ => Litres::new(),
        }
    }

    /// Lets the bytes of the ledgers be what the model has made of them, and counts what was met.
    fn enter(
        &mut self,
        request: &Request,
        before: &[Totals; BAYS],
        delivered: &Litres,
        expected: &Result<Written, u8>,
    ) {
        let Some(own) = self.model.ledgers.get(request.bay as usize) else { return };
        let (bay, before) = (request.bay as usize, &before[request.bay as usize]);
        let stretch = &mut self.ledgers[layout::stretch(bay)];
        match (&request.call, expected) {
            (Call::NewYear, Ok(_)) => {
                stretch[LEDGER..].fill(0);
                self.last[bay] = Last::NewYear;
            }
            (Call::Ledger { .. }, Ok([totals, _])) => self.met.reading(totals, own),
            (Call::Tick { .. }, Ok(_)) => {
                layout::put_changed(stretch, before, own);
                self.met.instant(before, own, self.last[bay]);
                self.last[bay] = Last::Other;
            }
            (Call::Tick { .. }, Err(19)) => {
                self.met.refusal(before, delivered);
                self.last[bay] = Last::Refusal;
            }
            _ => {}
        }
    }

    /// Lets the instants of a filled bay be close to the greatest number, by the layout alone.
    fn near_the_last_number(&mut self, random: &mut Random) {
        let bay = random.below(BAYS);
        if let Some(own) = &mut self.model.bays[bay] {
            own.number = u32::MAX - random.below(4) as u32;
            layout::put_number(&mut self.lent.bytes()[layout::stretch(bay)], own.number);
        }
    }
}

/// The ledger of an empty box: by its kind nothing, totals close to the limit, any bytes, or some of each.
fn invent(random: &mut Random, kind: usize, ledger: &mut [u8]) {
    for bytes in ledger.chunks_exact_mut(4) {
        let near = MOST_LITRES - random.pick(&[0, 1, 2, 1000, 1_000_000, 8_388_608]);
        let any = random.below(1 << 32) as u32;
        match if kind == 3 { random.below(3) } else { kind } {
            1 => bytes.copy_from_slice(&ledgers::bytes(near - random.below(3).min(near as usize) as u64)),
            2 => bytes.copy_from_slice(&any.to_le_bytes()),
            _ => {}
        }
    }
}

/// What a call writes beside the box that is lent nothing else.
pub fn nothing((): ()) -> Written {
    Written::default()
}

/// Lists of 20 to 200 calls.
pub fn lists(tally: &mut Tally, random: &mut Random, count: usize) {
    let mut run = Run::new();
    let (mut full, mut exact, mut sixteen, mut last) = (0, 0, 0, 0);
    let mut previews = Previews::default();
    for _ in 0..count {
        run.clear(random);
        let (calls, ticks) = (20 + random.below(181), random.pick(&[20, 60, 80, 90]));
        let positions = random.pick(&[0, 10, 40, 70]);
        for _ in 0..calls {
            if random.chance(1) {
                run.near_the_last_number(random);
            }
            let request = request(random, &run.model, positions, ticks);
            let seen = run.step(tally, &request);
            let number = seen.written.as_ref().and_then(|[_, record]| record.get(..4).map(<[u8]>::to_vec));
            last += (number == Some(u32::MAX.to_le_bytes().to_vec())) as u64;
            if let (Call::Preview { .. }, Some([preview, _])) = (&request.call, &seen.written) {
                previews.add(preview);
            }
            full += run.model.bays.iter().all(Option::is_some) as u64;
            exact += (run.model.taken() == SHARED) as u64;
            sixteen += run.model.bays.iter().flatten().any(|bay| bay.positions.len() == POSITIONS) as u64;
        }
    }
    println!("{count} lists; after {full} calls all bays were filled, after {exact} the whole ceiling was taken");
    println!("after {sixteen} calls a bay kept {POSITIONS} positions, and {last} instants had the greatest number");
    println!("previews: {previews:?}");
    println!("ledgers: {:?}", run.met);
    tally.counts.expect(run.met.all(), || format!("too little of a ledger: {:?}", run.met));
    tally.counts.expect(previews.all(), || format!("too few previews of a kind: {previews:?}"));
    let all = full > 0 && exact > 0 && sixteen > 0 && last > 0;
    tally
        .counts
        .expect(all, || "a full box, the whole ceiling, all positions or the greatest number was not met".into());
}

/// 02, items 8 to 12: two lists with the same calls to one bay, and its admissions answered alike, give it the same
/// answers and the same bytes. The second list has other calls to the other bays.
pub fn isolation(tally: &mut Tally, random: &mut Random, count: usize) {
    let (mut one, mut two) = (Run::new(), Run::new());
    let (mut compared, mut parted) = (0, 0);
    for _ in 0..count {
        one.clear(random);
        two.clear(random);
        two.ledgers.copy_from_slice(&one.ledgers);
        two.begin(random.chance(50), 0x5A);
        let (own, ticks) = (random.below(BAYS) as u32, random.pick(&[40, 70, 90]));
        let positions = random.pick(&[0, 20, 50]);
        for _ in 0..20 + random.below(100) {
            let mut call = request(random, &one.model, positions, ticks);
            if random.chance(60) {
                call.bay = own;
                suit(random, &one.model, &mut call);
            }
            let seen = one.step(tally, &call);
            if call.bay != own {
                continue;
            }
            traffic(tally, random, &mut two, own);
            let beside = two.step(tally, &call);
            if matches!(call.call, Call::Admit { .. }) && seen.number != beside.number {
                parted += 1;
                break;
            }
            compared += 1;
            tally.counts.expect(seen == beside, || format!("beside other calls: {}", call.call.text(own)));
        }
    }
    println!("{count} pairs of lists, {compared} calls compared; {parted} pairs had an admission answered otherwise");
    tally.counts.expect(parted > 0 && compared > 10 * count, || "too few calls to one bay".into());
}

/// Up to six calls to other bays.
fn traffic(tally: &mut Tally, random: &mut Random, run: &mut Run, own: u32) {
    for _ in 0..random.below(7) {
        let request = request(random, &run.model, 20, 50);
        if request.bay != own {
            run.step(tally, &request);
        }
    }
}
