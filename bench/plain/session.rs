//! The replay of a trace, one line at a time.

use crate::chain::{Answer, Part, Setup};
use crate::driver::{ModelDriver, Policy};
use crate::out::{Line, Lines, Next, ReadFault, Reader, Source, LINE_BYTES};
use crate::table::*;
use crate::trace::{self, Arg, Args, Begin, Event, Fault, Version, MAX_NUMBER, NONE};
use crate::uses::{Overlaps, Use, ABOVE, BELOW};
use crate::words::SkipRule;
use crate::world::{World, SPREAD};
use std::rc::Rc;

const MAX_LINES: u64 = 16_777_216;

pub enum Stop {
    Fault(u64, Fault),
    Limit(&'static str, u64),
}

#[derive(Default)]
pub struct Tally {
    pub calls: u64,
    pub skipped: u64,
    pub reports: u64,
}

/// A name's type and, above it, one more than its object, or 0 before its birth.
#[derive(Clone, Copy)]
struct Name(u32);

impl Name {
    fn new(ty: Ty) -> Name {
        Name(ty as u32)
    }

    fn is(self, ty: Ty) -> bool {
        self.0 & 31 == ty as u32
    }

    fn object(self) -> u32 {
        (self.0 >> 5).wrapping_sub(1)
    }

    fn set(&mut self, object: u32) {
        self.0 = self.0 & 31 | (object + 1) << 5;
    }
}

#[derive(Default)]
struct Thread {
    open: bool,
    names: Vec<Name>,
    // The open call.
    call: u64,
    cmd: Cmd,
    code: Code,
    skipped: bool,
    /// The answer where it is skipped.
    refusal: Code,
    /// Places in `names`.
    first_result: u32,
    results: u32,
    /// The name of the argument from which the owner of the results comes.
    owner: (u16, u32),
    driver: u32,
    reply: Vec<u64>,
    key: Vec<u8>,
    uses: Vec<Use>,
    /// The classes of threads parts that it reached, as bits.
    reached: u8,
    /// Its uses stand among the overlaps.
    entered: bool,
}

/// The chain in force, sorted by what its parts see.
struct InForce {
    /// Places of the threads parts above the first lifetimes part.
    above: Vec<u32>,
    /// From the first lifetimes part on, without unique parts.
    rest: Vec<(Part, u32)>,
    threads: bool,
    below: bool,
}

impl InForce {
    fn of(parts: &[(Part, u32)]) -> InForce {
        let checking: Vec<(Part, u32)> = parts
            .iter()
            .enumerate()
            .filter(|(_, (part, _))| *part != Part::Unique)
            .map(|(i, (part, _))| (*part, i as u32 + 1))
            .collect();
        let split = checking.iter().position(|(p, _)| *p == Part::Lifetimes).unwrap_or(checking.len());
        let (above, rest) = checking.split_at(split);
        let below = rest.iter().any(|(p, _)| *p == Part::Threads);
        InForce {
            above: above.iter().map(|(_, place)| *place).collect(),
            rest: rest.to_vec(),
            threads: below || !above.is_empty(),
            below,
        }
    }
}

#[derive(Clone, Copy, PartialEq, Eq)]
enum Rule { Parameter, Parent, Children(u32), Overlap(u64) }

#[derive(Clone, Copy)]
struct Finding {
    place: u16,
    rule: Rule,
}

pub struct Session<'s> {
    setup: &'s Setup,
    rule: SkipRule,
    driver: ModelDriver,
    version: Version,
    pub tally: Tally,
    args: Args,
    threads: Vec<Thread>,
    names: u32,
    open: u32,
    /// The thread of a `vkCreateInstance` that began at the last event.
    creating: Option<u32>,
    /// A `vkCreateInstance` with `VK_SUCCESS` has begun.
    created: bool,
    chain: Option<Rc<InForce>>,
    pending: Option<Rc<InForce>>,
    world: World,
    overlaps: Overlaps,
    /// Open calls with uses, and the one of them that hasn't entered its own.
    in_flight: u32,
    lone: Option<u32>,
    findings: Vec<Finding>,
    values: Vec<u64>,
}

pub fn run<S, O, E>(session: &mut Session, source: S, out: &mut O, mut before_read: impl FnMut(&mut O) -> Result<(), E>) -> Result<(), E>
where
    S: Source,
    O: Lines,
    E: From<Stop> + From<ReadFault>,
{
    let mut reader = Reader::new(source);
    let mut n = 0;
    loop {
        if n == MAX_LINES && reader.has_more(|| before_read(out))? {
            return Err(Stop::Limit("Lines", MAX_LINES).into());
        }
        match reader.next(|| before_read(out))? {
            Next::Line(line) => {
                n += 1;
                if n == 1 {
                    session.header(line)?;
                } else {
                    session.line(n, line, out)?;
                }
            }
            Next::TooLong => return Err(Stop::Limit("LineBytes", LINE_BYTES as u64).into()),
            Next::End if n == 0 => return Err(Stop::Fault(1, Fault::Header).into()),
            Next::End if session.open > 0 => return Err(Stop::Fault(n + 1, Fault::OpenAtEnd).into()),
            Next::End => return Ok(()),
        }
    }
}

impl<'s> Session<'s> {
    pub fn new(setup: &'s Setup, policy: Policy, rule: SkipRule) -> Session<'s> {
        Session {
            setup,
            rule,
            driver: ModelDriver::new(policy, setup.drivers.len()),
            version: Version::One,
            tally: Tally::default(),
            args: Args::default(),
            threads: Vec::new(),
            names: 0,
            open: 0,
            creating: None,
            created: false,
            chain: None,
            pending: None,
            world: World::default(),
            overlaps: Overlaps::default(),
            in_flight: 0,
            lone: None,
            findings: Vec::new(),
            values: Vec::new(),
        }
    }

    fn header(&mut self, line: Line) -> Result<(), Stop> {
        self.version = match line.bytes {
            b"vktrace 1" => Version::One,
            b"vktrace 2" => Version::Two,
            _ => return Err(Stop::Fault(1, Fault::Header)),
        };
        Ok(())
    }

    fn line(&mut self, n: u64, line: Line, out: &mut impl Lines) -> Result<(), Stop> {
        let at = |fault| Stop::Fault(n, fault);
        match trace::parse(self.version, line, &mut self.args).map_err(at)? {
            Event::Comment => Ok(()),
            Event::Begin(event) => {
                self.accept_begin(&event).map_err(at)?;
                if self.names + event.results > MAX_NUMBER {
                    return Err(Stop::Limit("Names", u64::from(MAX_NUMBER)));
                }
                self.begin(n as u32, &event, out)
            }
            Event::Return(thread) => {
                self.accept_return(thread).map_err(at)?;
                self.finish(n as u32, thread, out);
                Ok(())
            }
        }
    }

    /// The faults of a begin that depend on the lines before it. Looks the arguments up.
    fn accept_begin(&mut self, event: &Begin) -> Result<(), Fault> {
        let t = event.thread as usize;
        if t >= self.threads.len() {
            self.threads.resize_with(t + 1, Thread::default);
        }
        if self.threads[t].open {
            return Err(Fault::Busy);
        }
        let (mut unknown, mut wrong) = (false, false);
        for (p, param) in ROWS[event.cmd as usize].params.iter().enumerate() {
            let range = self.args.range(p);
            for arg in &mut self.args.flat[range] {
                if arg.is_null() {
                    continue;
                }
                let names = self.threads.get(arg.thread as usize).map_or(&[][..], |t| &t.names);
                match names.get(arg.number as usize - 1) {
                    None => unknown = true,
                    Some(name) => {
                        wrong |= !name.is(param.ty);
                        arg.object = name.object();
                    }
                }
            }
        }
        if unknown {
            return Err(Fault::Unknown);
        }
        if wrong {
            return Err(Fault::WrongType);
        }
        let next = self.threads[t].names.len() as u32 + 1;
        if event.results > 0 && event.first_result != Some(next) {
            return Err(Fault::Sequence);
        }
        let again = self.created && event.cmd == CREATE_INSTANCE && event.code == VK_SUCCESS;
        if again || self.creating.is_some() {
            return Err(Fault::Instance);
        }
        Ok(())
    }

    fn accept_return(&self, thread: u32) -> Result<(), Fault> {
        if !self.threads.get(thread as usize).is_some_and(|t| t.open) {
            return Err(Fault::Idle);
        }
        if self.creating.is_some_and(|t| t != thread) {
            return Err(Fault::Instance);
        }
        Ok(())
    }

    fn begin(&mut self, line: u32, event: &Begin, out: &mut impl Lines) -> Result<(), Stop> {
        let row = &ROWS[event.cmd as usize];
        let call = self.tally.calls + 1;
        let mut skipped = false;
        let mut refusal = if row.returns { VK_ERROR_VALIDATION_FAILED_EXT } else { VOID };
        let mut reached = 0u8;
        let t = event.thread as usize;

        if event.cmd == CREATE_INSTANCE {
            // The payload is ASCII.
            let layers = std::str::from_utf8(event.payload).unwrap_or("");
            let answer = self.setup.build(layers).map_err(|_| Stop::Limit("Chain", 64))?;
            self.setup.chain_lines(call, &answer, out);
            skipped = true;
            match &answer {
                Answer::Chain { parts, .. } => {
                    skipped = false;
                    self.pending = Some(Rc::new(InForce::of(parts)));
                }
                Answer::LayerNotPresent(_) => refusal = VK_ERROR_LAYER_NOT_PRESENT,
                Answer::NoDriver => refusal = VK_ERROR_INCOMPATIBLE_DRIVER,
                Answer::Unguarded(_) => refusal = VK_ERROR_INITIALIZATION_FAILED,
            }
            self.creating = Some(event.thread);
            self.created |= event.code == VK_SUCCESS;
        } else if self.world.find(self.args.flat[0].object).is_none() {
            skipped = true;
            self.tally.reports += 1;
            let finding = Finding { place: 0, rule: Rule::Parameter };
            report(out, call, 0, row, &self.args, &finding);
        } else if let Some(chain) = self.chain.clone() {
            (skipped, reached) = self.check(&chain, call, t, row, out);
            if skipped && reached != 0 {
                self.note_skipped_ends(line, row);
            }
        }

        let thread = &mut self.threads[t];
        thread.reply.clear();
        if !skipped {
            thread.driver = call_drivers(&mut self.driver, &self.world, &mut self.values, &self.args, event, &mut thread.reply);
            self.apply_ends(row);
        }

        let thread = &mut self.threads[t];
        thread.open = true;
        thread.call = call;
        thread.cmd = event.cmd;
        thread.code = event.code;
        thread.skipped = skipped;
        thread.refusal = refusal;
        thread.reached = reached;
        thread.first_result = thread.names.len() as u32;
        thread.results = event.results;
        if let Effect::Create { ty, owner, .. } | Effect::Retrieve { ty, owner, .. } = row.effect {
            if let OwnerOf::Param(x) | OwnerOf::OwnerOfParam(x) = owner {
                let arg = self.args.flat[self.args.start(x as usize)];
                thread.owner = (arg.thread, arg.number);
            }
            if ty == Ty::Queue {
                thread.key.clear();
                thread.key.extend_from_slice(event.payload);
            }
            thread.names.extend(std::iter::repeat_n(Name::new(ty), event.results as usize));
            self.names += event.results;
        }
        self.open += 1;
        self.tally.calls = call;
        self.tally.skipped += u64::from(skipped);
        Ok(())
    }

    /// The parts of the chain in force: whether the call is skipped, and which classes of threads
    /// parts it reached.
    fn check(&mut self, chain: &InForce, call: u64, t: usize, row: &Row, out: &mut impl Lines) -> (bool, u8) {
        let mut reached = u8::from(!chain.above.is_empty()) << ABOVE;
        if chain.threads {
            gather_uses(&self.world, chain, row, &self.args, &mut self.threads[t].uses);
            if self.in_flight > 0 {
                self.enter_lone();
                self.overlap_findings(t, ABOVE);
                for place in &chain.above {
                    self.report_all(call, *place, row, out);
                }
            }
        }
        let mut skipped = false;
        if !chain.rest.is_empty() {
            let life = self.life_findings(row);
            let stops = match self.rule {
                SkipRule::All => !life.is_empty(),
                SkipRule::Dead => life.iter().any(|f| f.rule == Rule::Parameter),
            };
            let quiet = life.is_empty() && (!chain.below || self.in_flight == 0);
            for (part, place) in chain.rest.iter().filter(|_| !quiet) {
                match part {
                    Part::Lifetimes => {
                        self.findings.clear();
                        self.findings.extend_from_slice(&life);
                    }
                    _ => self.overlap_findings(t, BELOW),
                }
                self.report_all(call, *place, row, out);
                if stops {
                    break;
                }
            }
            skipped = stops;
        }
        if chain.below && !skipped {
            reached |= 1 << BELOW;
        }
        let thread = &mut self.threads[t];
        if reached != 0 && !thread.uses.is_empty() {
            self.in_flight += 1;
            thread.entered = self.in_flight > 1;
            if thread.entered {
                self.overlaps.enter(&mut self.world, call, &thread.uses, reached);
            } else {
                self.lone = Some(t as u32);
            }
        } else {
            thread.uses.clear();
        }
        (skipped, reached)
    }

    /// Enters the uses of the only open call, once there is another.
    fn enter_lone(&mut self) {
        if let Some(t) = self.lone.take() {
            let thread = &mut self.threads[t as usize];
            thread.entered = true;
            self.overlaps.enter(&mut self.world, thread.call, &thread.uses, thread.reached);
        }
    }

    /// The rule on overlaps, from the thread's uses, which stand in the order of its arguments.
    fn overlap_findings(&mut self, t: usize, class: usize) {
        self.findings.clear();
        for u in &self.threads[t].uses {
            let Some(with) = self.overlaps.least(&self.world, u, class) else { continue };
            match self.findings.last_mut() {
                Some(Finding { place, rule: Rule::Overlap(least) }) if *place == u.place => *least = with.min(*least),
                _ => self.findings.push(Finding { place: u.place, rule: Rule::Overlap(with) }),
            }
        }
    }

    /// The rules on parameters, parents and children. The first argument lives.
    fn life_findings(&self, row: &Row) -> Vec<Finding> {
        let mut found = Vec::new();
        let args = &self.args;
        let first_device = self.world.find(args.flat[0].object).map_or(NONE, |l| l.device);
        for (p, param) in row.params.iter().enumerate() {
            for place in args.range(p) {
                let arg = &args.flat[place];
                let mut fail = |rule| found.push(Finding { place: place as u16, rule });
                let Some(live) = self.world.find(arg.object) else {
                    if !(param.optional && arg.is_null()) {
                        fail(Rule::Parameter);
                    }
                    continue;
                };
                let fits = match param.owner {
                    OwnerMark::None => true,
                    OwnerMark::Device => live.device == first_device,
                    OwnerMark::Param(x) => live.owner == args.flat[args.start(x as usize)].object,
                };
                if !fits {
                    fail(Rule::Parent);
                }
                if row.ends_parent && live.children > 0 {
                    fail(Rule::Children(live.children));
                }
            }
        }
        found
    }

    fn report_all(&mut self, call: u64, place: u32, row: &Row, out: &mut impl Lines) {
        self.tally.reports += self.findings.len() as u64;
        for finding in &self.findings {
            report(out, call, place, row, &self.args, finding);
        }
    }

    /// What a skipped call would have ended: the threads parts above the lifetimes part take the
    /// sets that it names for ended.
    fn note_skipped_ends(&mut self, line: u32, row: &Row) {
        match row.effect {
            Effect::Free(x) if row.params[x as usize].ty == Ty::DescriptorSet => {
                for place in self.args.range(x as usize) {
                    if let Some(set) = self.world.find_mut(self.args.flat[place].object) {
                        set.seen_freed = true;
                    }
                }
            }
            Effect::Destroy(x) | Effect::Reset(x) => {
                if let Some(l) = self.world.find_mut(self.args.of(x as usize)[0].object) {
                    l.seen_ended = line;
                }
            }
            _ => {}
        }
    }

    fn apply_ends(&mut self, row: &Row) {
        match row.effect {
            Effect::Destroy(x) | Effect::Free(x) => {
                for place in self.args.range(x as usize) {
                    let object = self.args.flat[place].object;
                    if self.world.find(object).is_some_and(|l| l.created) {
                        self.world.end(object);
                    }
                }
            }
            Effect::Reset(x) => self.world.end_children(self.args.of(x as usize)[0].object),
            _ => {}
        }
    }

    fn finish(&mut self, line: u32, t: u32, out: &mut impl Lines) {
        self.open -= 1;
        self.creating = None;
        let owner = self.threads[t as usize].owner;
        let owner = self.threads[owner.0 as usize].names.get((owner.1 as usize).wrapping_sub(1)).map_or(NONE, |n| n.object());
        let thread = &mut self.threads[t as usize];
        thread.open = false;
        let row = &ROWS[thread.cmd as usize];
        let drivers = self.setup.drivers.len();

        if !thread.uses.is_empty() {
            self.in_flight -= 1;
            if thread.entered {
                self.overlaps.leave(&mut self.world, thread.call, &thread.uses);
            } else {
                self.lone = None;
            }
            thread.entered = false;
            thread.uses.clear();
        }

        let mut born = 0;
        let mut answer = if thread.skipped { thread.refusal } else { thread.code };
        if !thread.skipped && succeeds(row, thread.code) {
            let names = &mut thread.names[thread.first_result as usize..][..thread.results as usize];
            match row.effect {
                Effect::Create { ty, owner: whose, .. } => {
                    if let Some(owner) = living_owner(&self.world, whose, owner) {
                        for (name, value) in names.iter_mut().zip(&thread.reply) {
                            let spread = drivers > 1 && row.all_drivers;
                            let value = if spread { SPREAD } else { *value };
                            let object = self.world.add(ty, true, owner, thread.driver, value, line);
                            if spread {
                                self.world.values.insert(object, thread.reply.as_slice().into());
                            }
                            name.set(object);
                            born += 1;
                        }
                    }
                }
                Effect::Retrieve { ty, owner: whose, .. } => {
                    if let Some(owner) = living_owner(&self.world, whose, owner) {
                        for (place, (name, value)) in (0..).zip(names.iter_mut().zip(&thread.reply)) {
                            let known = match ty {
                                Ty::Queue => self.world.at_key(owner, &thread.key),
                                _ => self.world.at_place(owner, place),
                            };
                            let object = known.unwrap_or_else(|| {
                                let driver = if ty == Ty::PhysicalDevice { place } else { thread.driver };
                                let object = self.world.add(ty, false, owner, driver, *value, line);
                                match ty {
                                    Ty::Queue => self.world.keep_key(owner, &thread.key, object),
                                    _ => self.world.keep_place(owner, object),
                                }
                                object
                            });
                            self.world.objects[object as usize].value = *value;
                            name.set(object);
                            born += 1;
                        }
                    }
                }
                _ => {}
            }
            if thread.cmd == ENUMERATE_PHYSICAL_DEVICES {
                let some = thread.results > 0 && (thread.results as usize) < drivers;
                answer = if some { VK_INCOMPLETE } else { VK_SUCCESS };
            }
            if thread.cmd == CREATE_INSTANCE {
                self.chain = self.pending.take();
            }
        }

        let out = out.text("ret ").number(thread.call).text(" ").text(row.name).text(" ").text(code_name(answer));
        if row.results != Results::Zero {
            out.text(" born=").number(born);
        }
        out.end();
    }
}

fn succeeds(row: &Row, code: Code) -> bool {
    let gets_many = matches!(row.effect, Effect::Retrieve { many: true, .. });
    code == VOID || code == VK_SUCCESS || (gets_many && code == VK_INCOMPLETE)
}

/// The owner of a call's results where it lives; `NONE` for nobody.
fn living_owner(world: &World, whose: OwnerOf, named: u32) -> Option<u32> {
    match whose {
        OwnerOf::Nobody => Some(NONE),
        OwnerOf::Param(_) => world.find(named).map(|l| l.object),
        OwnerOf::OwnerOfParam(_) => world.find(named).map(|l| l.owner),
    }
}

fn gather_uses(world: &World, chain: &InForce, row: &Row, args: &Args, uses: &mut Vec<Use>) {
    uses.clear();
    for (p, param) in row.params.iter().enumerate() {
        for place in args.range(p) {
            let object = args.flat[place].object;
            if object == NONE {
                continue;
            }
            let mut add = |object, write, classes| uses.push(Use { object, place: place as u16, write, classes });
            add(object, param.sync, 3);
            match param.implied {
                Implied::None => {}
                Implied::Pool => {
                    if let Some(buffer) = world.find(object) {
                        add(buffer.owner, true, 3);
                    }
                }
                Implied::Queues => world.retrieved(object).iter().for_each(|queue| add(*queue, true, 3)),
                Implied::Sets => {
                    let Some(pool) = world.find(object) else { continue };
                    let mut ended = pool.seen_ended;
                    if let Some(device) = world.find(pool.device) {
                        ended = ended.max(device.seen_ended);
                        if let Some(instance) = world.find(device.owner) {
                            ended = ended.max(instance.seen_ended);
                        }
                    }
                    for set in world.children(pool) {
                        let above = !set.seen_freed && set.birth > ended;
                        if above || chain.below {
                            add(set.object, true, u8::from(above) << ABOVE | 1 << BELOW);
                        } else if set.birth <= ended {
                            // The children stand with the youngest first.
                            break;
                        }
                    }
                }
            }
        }
    }
}

/// Sends the call; the handles of several drivers follow each other. Gives the one driver called.
fn call_drivers(driver: &mut ModelDriver, world: &World, values: &mut Vec<u64>, args: &Args, event: &Begin, reply: &mut Vec<u64>) -> u32 {
    let row = &ROWS[event.cmd as usize];
    let asked = match event.cmd {
        _ if !succeeds(row, event.code) => 0,
        ENUMERATE_PHYSICAL_DEVICES => 1,
        _ => event.results,
    };
    let given_back = row.gives_back.map_or(0..0, |x| args.range(x as usize));
    let drivers = driver.drivers();
    let mut send = |target: u32| {
        values.clear();
        values.extend(args.flat.iter().map(|arg| match world.objects.get(arg.object as usize) {
            None => 0,
            Some(object) if object.value != SPREAD => object.value,
            Some(_) => world.values.get(&arg.object).map_or(0, |v| v[target as usize]),
        }));
        driver.call(target as usize, values, &values[given_back.clone()], asked, reply);
    };
    if row.all_drivers {
        (0..drivers).for_each(&mut send);
        0
    } else {
        let target = world.find(args.flat[0].object).map_or(0, |l| l.driver);
        send(target);
        target
    }
}

fn report(out: &mut impl Lines, call: u64, place: u32, row: &Row, args: &Args, finding: &Finding) {
    let flat = finding.place as usize;
    let p = args.param_of(flat);
    let param = &row.params[p];
    let (scheme, rule) = match finding.rule {
        Rule::Parameter => (" VUID-", "-parameter "),
        Rule::Parent => (" VUID-", "-parent "),
        Rule::Children(_) => (" VKR-", "-children "),
        Rule::Overlap(_) => (" VKR-", "-overlap "),
    };
    out.text("report ").number(call).text(" ").number(u64::from(place)).text(scheme);
    out.text(row.name).text("-").text(param.name).text(rule);
    let arg: &Arg = &args.flat[flat];
    if arg.is_null() {
        out.text("null");
    } else {
        out.text("%").number(u64::from(arg.thread)).text(".").number(u64::from(arg.number));
    }
    if param.many {
        out.text(" index=").number((flat - args.start(p)) as u64);
    }
    match finding.rule {
        Rule::Children(n) => out.text(" children=").number(u64::from(n)).end(),
        Rule::Overlap(with) => out.text(" with=").number(with).end(),
        _ => out.end(),
    }
}
