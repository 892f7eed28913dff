//! Random event files, each from a seed and its number. The generator runs the published Rust beside itself, so that it knows what could be asked next.

use std::{fs, path::Path};

use crate::{
    asyncio::{CallId, TaskId},
    compare::expected,
    records::Reader,
    session::{Moment, Notes, Rule, Session, with_session},
};

/// splitmix64.
struct Random(u64);

impl Random {
    fn next(&mut self) -> u64 {
        self.0 = self.0.wrapping_add(0x9E37_79B9_7F4A_7C15);
        let mut x = self.0;
        x = (x ^ (x >> 30)).wrapping_mul(0xBF58_476D_1CE4_E5B9);
        x = (x ^ (x >> 27)).wrapping_mul(0x94D0_49BB_1331_11EB);
        x ^ (x >> 31)
    }

    /// A number below `n`, which is not 0.
    fn below(&mut self, n: u64) -> u64 {
        self.next() % n
    }

    fn chance(&mut self, percent: u64) -> bool {
        self.below(100) < percent
    }

    /// A place in the list of weights, each as often as its weight says.
    fn weighted(&mut self, weights: &[u64]) -> usize {
        let mut at = self.below(weights.iter().sum());
        for (i, &weight) in weights.iter().enumerate() {
            if at < weight {
                return i;
            }
            at -= weight;
        }
        unreachable!("the weights are not all 0")
    }
}

#[derive(Clone, Copy, PartialEq)]
enum Style {
    /// what a script and its host would do, with few mistakes
    Sensible,
    /// any record at any time, numbers in and out of range
    Wild,
    /// gathers in gathers
    Deep,
    /// the limits of document 01's "Run:" line
    Limits,
    /// tasks below tasks, cancelled while the host waits
    Cancels,
    /// many tasks that wait for calls, and batches that wake several of them
    Batches,
}

/// A file in turn; the eighth is damaged, of any style.
const STYLES: [Style; 7] = [Style::Sensible, Style::Wild, Style::Deep, Style::Limits, Style::Cancels, Style::Batches, Style::Batches];

/// One file being made.
struct File<'s, 'h> {
    random: Random,
    session: &'s mut Session<'h>,
    bytes: Vec<u8>,
    records: u64,
    /// the task that the last cancel was of
    cancelled: u16,
    /// an external that has failed
    failed: Option<u16>,
    /// whether it begins with so many calls that their numbers need more than 16 bits, or soon will
    many_calls: bool,
    /// whether each batch is put into an order in which it wakes the lower task first
    in_order: bool,
}

impl File<'_, '_> {
    // ---- a record, appended and run ----

    fn record(&mut self, kind: u8, fields: &[u8]) {
        let from = self.bytes.len();
        self.bytes.extend([0xC3, 0x59, kind]);
        self.bytes.extend(fields);
        self.records += 1;
        if let Some(record) = (Reader { bytes: &self.bytes[from..] }).record() {
            let _ = self.session.answer(record);
        }
    }

    fn coroutine(&mut self) {
        let function = self.random.below(9) as u32;
        self.record(1, &function.to_le_bytes());
    }

    fn call(&mut self) {
        self.record(2, &[]);
    }

    fn pending(&mut self, call: u32) {
        let flag = u8::from(self.random.chance(25));
        let value = self.value();
        let mut fields = call.to_le_bytes().to_vec();
        fields.push(flag);
        fields.extend(value);
        self.record(3, &fields);
    }

    fn settled(&mut self) {
        let value = self.value();
        self.record(4, &value);
    }

    fn gather(&mut self, items: &[u16]) {
        let mut fields = vec![items.len() as u8];
        fields.extend(items.iter().flat_map(|item| item.to_le_bytes()));
        self.record(5, &fields);
    }

    fn await_object(&mut self, object: u16) {
        self.record(6, &object.to_le_bytes());
    }

    fn complete(&mut self) {
        let value = self.value();
        self.record(7, &value);
    }

    fn fail(&mut self) {
        let number = self.random.below(1000) as u32;
        self.record(8, &number.to_le_bytes());
    }

    fn results(&mut self, mut results: Vec<Vec<u8>>) {
        if self.in_order {
            // those that can wake one task come together, and so it is woken behind the lower and before the higher ones
            results.sort_by_key(|result| self.session.waiter(u32::from_le_bytes([result[0], result[1], result[2], result[3]])));
        }
        let mut fields = vec![results.len() as u8];
        fields.extend(results.concat());
        self.record(9, &fields);
    }

    fn resume(&mut self) {
        self.record(10, &[]);
    }

    fn cancel(&mut self, task: u16) {
        self.cancelled = task;
        self.record(11, &task.to_le_bytes());
    }

    fn show(&mut self, object: u16) {
        self.record(12, &object.to_le_bytes());
    }

    fn eager(&mut self) {
        self.record(13, &[]);
    }

    // ---- numbers and values ----

    fn made(&self) -> u64 {
        self.session.objects.len() as u64
    }

    fn value(&mut self) -> [u8; 9] {
        let mut tag = 0;
        let mut number = match self.random.below(10) {
            0 => self.random.next(),
            _ => self.random.below(100),
        };
        if self.random.chance(15) {
            let lists: Vec<u64> = (0..self.made()).filter(|&g| self.session.list(g).is_some()).collect();
            if !lists.is_empty() {
                tag = 1;
                number = lists[self.random.below(lists.len() as u64) as usize];
            }
        }
        let mut bytes = [0; 9];
        bytes[0] = tag;
        bytes[1..].copy_from_slice(&number.to_le_bytes());
        bytes
    }

    /// An object made, mostly one of the last; 0 if none is.
    fn object(&mut self) -> u16 {
        let made = self.made();
        if made == 0 {
            return 0;
        }
        let back = if self.random.chance(70) { made.min(8) } else { made };
        (made - 1 - self.random.below(back)) as u16
    }

    /// Mostly a gather, if there is one among the last.
    fn object_to_await(&mut self) -> u16 {
        let mut object = self.object();
        for _ in 0..4 {
            let is_gather = self.session.objects.get(usize::from(object)).is_some_and(|&id| self.session.is_pending_gather(id));
            if !is_gather {
                object = self.object();
            }
        }
        object
    }

    fn items(&mut self, most: u64) -> Vec<u16> {
        let count = self.random.below(most + 1);
        if self.made() == 0 { Vec::new() } else { (0..count).map(|_| self.object()).collect() }
    }

    fn pending_calls(&self) -> Vec<u32> {
        let mut calls: Vec<u32> = self.session.vm.scheduler.pending_call_ids().into_iter().map(CallId::raw).collect();
        calls.sort_unstable();
        calls
    }

    /// A call number handed out, or one of the `past` numbers behind them; 0 if there is none. In a file with many calls mostly one of the last, one at
    /// 65,536, or one 65,536 away from a pending call: the same to a reader of 16 bits.
    fn call_number(&mut self, past: u64) -> u32 {
        let limit = (u64::from(self.session.calls_handed_out) + past).max(1);
        if !self.many_calls {
            return self.random.below(limit) as u32;
        }
        let pending = self.pending_calls();
        match self.random.below(5) {
            0 => (limit - 1 - self.random.below(limit.min(8))) as u32,
            1 => (65_528 + self.random.below(16)) as u32,
            2 | 3 if !pending.is_empty() => pending[self.random.below(pending.len() as u64) as usize] ^ 0x1_0000,
            _ => self.random.below(limit) as u32,
        }
    }

    /// A result: mostly for a pending call, else for one answered, or never handed out.
    fn result(&mut self) -> Vec<u8> {
        let pending = self.pending_calls();
        let call = if !pending.is_empty() && self.random.chance(80) {
            pending[self.random.below(pending.len() as u64) as usize]
        } else {
            self.call_number(3)
        };
        self.result_of(call)
    }

    fn result_of(&mut self, call: u32) -> Vec<u8> {
        let kind = self.random.weighted(&[70, 15, 6, 5, 4]) as u8;
        let mut value = self.value();
        if kind == 1 {
            value[5..].fill(0);
        }
        let mut bytes = call.to_le_bytes().to_vec();
        bytes.push(kind);
        bytes.extend(value);
        bytes
    }

    // ---- styles ----

    fn sensible(&mut self) {
        match self.session.moment {
            Moment::Running => self.sensible_running(),
            Moment::Waiting => match self.random.weighted(&[45, 40, 8, 3, 4, 6]) {
                0 => self.some_results(4),
                1 => self.resume(),
                2 => self.some_show(),
                3 => self.eager(),
                4 => self.sensible_running(),
                _ => self.some_cancel(),
            },
            Moment::Ended => match self.random.weighted(&[30, 30, 30, 5]) {
                0 => self.some_show(),
                1 => self.eager(),
                2 => self.sensible_running(),
                _ => self.some_cancel(),
            },
        }
    }

    fn some_results(&mut self, most: u64) {
        let count = 1 + self.random.below(most);
        let results = (0..count).map(|_| self.result()).collect();
        self.results(results);
    }

    fn some_show(&mut self) {
        let object = self.object();
        self.show(object);
    }

    /// Mostly a live task, a lower one more often, which has more below it; else the last one again, main, a dead one, or a number that no task has.
    fn some_cancel(&mut self) {
        let tasks = self.session.spawned_tasks();
        let made = self.made();
        let task = match self.random.weighted(&[if tasks.is_empty() { 0 } else { 80 }, 6, 4, 6, 2, 2]) {
            0 => {
                let one = self.random.below(tasks.len() as u64);
                let other = self.random.below(tasks.len() as u64);
                tasks[if self.random.chance(40) { one.min(other) } else { one } as usize]
            }
            1 => self.cancelled,
            2 => 0,
            3 => self.random.below(made + 2) as u16,
            4 => (510 + self.random.below(6)) as u16,
            _ => self.random.next() as u16,
        };
        self.cancel(task);
    }

    fn sensible_running(&mut self) {
        let is_main = self.session.moment == Moment::Running && self.session.running().is_main();
        let ends = if is_main { [1, 0] } else { [160, 40] };
        match self.random.weighted(&[110, 90, 110, 30, 110, 260, ends[0], ends[1], 50, 60, 10, 5, 4]) {
            0 => self.coroutine(),
            1 => self.call(),
            2 => self.some_pending(),
            3 => self.settled(),
            4 => {
                let items = self.items(6);
                self.gather(&items);
            }
            5 => {
                let object = self.object_to_await();
                self.await_object(object);
            }
            6 => self.complete(),
            7 => self.fail(),
            8 => self.some_results(3),
            9 => self.some_show(),
            10 => self.eager(),
            11 => self.resume(),
            _ => self.some_cancel(),
        }
    }

    /// Mostly a call that is not pending, if there is one.
    fn some_pending(&mut self) {
        let pending = self.pending_calls();
        let handed_out = u64::from(self.session.calls_handed_out);
        if pending.len() as u64 == handed_out {
            self.call();
        }
        let mut call = self.call_number(0);
        for _ in 0..6 {
            if pending.contains(&call) {
                call = self.call_number(0);
            }
        }
        self.pending(call);
    }

    /// Any record; numbers just in, just out of and far out of range.
    fn wild(&mut self) {
        let near = |random: &mut Random, limit: u64| match random.below(12) {
            0 => limit,
            1 => limit + 1 + random.below(300),
            2 => random.next(),
            _ => random.below(limit.max(1)),
        };
        let made = self.made();
        let calls = u64::from(self.session.calls_handed_out);
        let object = near(&mut self.random, made) as u16;
        let call = near(&mut self.random, calls) as u32;
        let mut value = self.value();
        if self.random.chance(8) {
            value[0] = 1;
            value[1..].copy_from_slice(&near(&mut self.random, made).to_le_bytes());
        }
        match self.random.below(14) {
            0 => self.coroutine(),
            1 => self.call(),
            2 => {
                let mut fields = call.to_le_bytes().to_vec();
                fields.push(self.random.below(2) as u8);
                fields.extend(value);
                self.record(3, &fields);
            }
            3 => self.record(4, &value),
            4 => {
                let count = self.random.below(36);
                let items: Vec<u16> = (0..count)
                    .map(|_| if self.random.chance(97) { self.random.below(made.max(1)) } else { near(&mut self.random, made) } as u16)
                    .collect();
                self.gather(&items);
            }
            5 | 6 => self.await_object(object),
            7 if self.random.chance(60) => self.record(7, &value),
            8 if self.random.chance(30) => self.fail(),
            7..=9 => {
                let count = self.random.below(5);
                let results = (0..count)
                    .map(|_| {
                        let mut result = self.result();
                        match self.random.below(30) {
                            0 => result[4] = self.random.below(7) as u8,
                            1 => result[5] = self.random.below(3) as u8,
                            2 => result[..4].copy_from_slice(&(near(&mut self.random, calls) as u32).to_le_bytes()),
                            3 => result[6..].copy_from_slice(&near(&mut self.random, made).to_le_bytes()),
                            _ => {}
                        }
                        result
                    })
                    .collect();
                self.results(results);
            }
            10 => self.resume(),
            11 => self.show(object),
            12 => self.some_cancel(),
            _ => self.eager(),
        }
    }

    /// A tower of gathers over new leaves, awaited at its top; then sensible events.
    fn deep(&mut self, most: u64) {
        if self.session.moment == Moment::Running && self.made() < 250 && self.random.chance(12) {
            let leaves = 1 + self.random.below(4);
            for _ in 0..leaves {
                match self.random.weighted(&[50, 35, 15]) {
                    0 => self.coroutine(),
                    1 => self.some_pending(),
                    _ => self.settled(),
                }
            }
            let height = 1 + self.random.below(most);
            for _ in 0..height {
                let top = self.last();
                let mut items = vec![top];
                while self.random.chance(40) && items.len() < 6 {
                    let item = self.object();
                    items.push(if self.random.chance(30) { top } else { item });
                }
                if self.random.chance(50) {
                    items.reverse();
                }
                self.gather(&items);
            }
            self.await_last();
        } else {
            self.sensible();
        }
    }

    /// The object made last; 0 if none is.
    fn last(&self) -> u16 {
        (self.made().max(1) - 1) as u16
    }

    fn await_last(&mut self) {
        let top = self.last();
        self.await_object(top);
    }

    /// Tasks that wait for the tasks below them, or for a call; and while the host waits, cancels among replies. Main mostly waits for calls,
    /// so that it can go on after a cancel, and its tasks are orphans.
    fn cancels(&mut self) {
        match self.session.moment {
            Moment::Running if self.made() < 230 => {
                let is_main = self.session.running().is_main();
                match self.random.weighted(&if is_main { [40, 8, 45, 7] } else { [3, 17, 65, 15] }) {
                    0 => self.family(true),
                    1 => self.family(false),
                    2 => {
                        self.some_pending();
                        self.await_last();
                    }
                    _ => self.sensible_running(),
                }
            }
            Moment::Waiting => {
                let [one, woken] = if self.session.spawned_tasks().is_empty() { [5, 0] } else { [45, 20] };
                match self.random.weighted(&[25, 18, one, woken, 12]) {
                    0 => self.some_results(2),
                    1 => self.resume(),
                    2 => self.some_cancel(),
                    3 => self.wake_and_cancel(),
                    _ => self.sensible(),
                }
            }
            _ => self.sensible(),
        }
    }

    /// New coroutines and calls below a gather, or below gathers in gathers, each with a new item beside; awaited at the top. With `fails` a
    /// failed external stands last in the innermost gather: the await raises, and the tasks spawned are orphans.
    fn family(&mut self, fails: bool) {
        let failed = if fails { Some(self.failed_external()) } else { None };
        let first = self.made() as u16;
        let leaves = 1 + self.random.below(4);
        for _ in 0..leaves {
            if self.random.chance(80) { self.coroutine() } else { self.some_pending() }
        }
        let mut items: Vec<u16> = (first..self.made() as u16).collect();
        if self.random.chance(20) {
            items.extend(items.first().copied());
        }
        items.extend(failed);
        self.gather(&items);
        while self.random.chance(40) {
            let mut items = vec![self.last()];
            if self.random.chance(50) {
                self.coroutine();
                items.insert(self.random.below(2) as usize, self.last());
            }
            self.gather(&items);
        }
        self.await_last();
    }

    /// Returns to most of the pending calls, and cancels while the woken tasks stand in the ready queue: first of a task that is blocked still, which
    /// mostly waits for tasks below it, then of any.
    fn wake_and_cancel(&mut self) {
        let mut results = Vec::new();
        for call in self.pending_calls().into_iter().take(64) {
            if self.random.chance(85) {
                results.push([&call.to_le_bytes()[..], &[0], &self.value()[..]].concat());
            }
        }
        self.results(results);
        let mut blocked = self.session.spawned_tasks();
        blocked.retain(|&task| self.session.vm.scheduler.is_blocked(TaskId::new(u32::from(task))));
        if !blocked.is_empty() {
            let at = self.random.below(blocked.len() as u64);
            self.cancel(blocked[at as usize]);
        }
        for _ in 0..self.random.below(3) {
            self.some_cancel();
        }
    }

    /// Tasks that wait for calls, alone or through gathers; and batches that wake several of them, in any order, while one runs or the host waits.
    /// Main mostly has orphans, and waits for calls of its own.
    fn batches(&mut self) {
        match self.session.moment {
            Moment::Running if self.made() < 230 => {
                let is_main = self.session.running().is_main();
                match self.random.weighted(&if is_main { [35, 40, 15, 0, 10] } else { [4, 62, 10, 16, 8] }) {
                    0 => {
                        let fails = self.random.chance(70);
                        self.family(fails);
                    }
                    1 => self.wait_for_calls(),
                    2 => self.batch(70),
                    3 => self.complete(),
                    _ => self.sensible_running(),
                }
            }
            Moment::Waiting => match self.random.weighted(&[35, 15, 35, 5, 10]) {
                0 => self.batch(70),
                1 => (0..2 + self.random.below(2)).for_each(|_| self.batch(35)),
                2 => self.resume(),
                3 => self.some_cancel(),
                _ => self.sensible(),
            },
            _ => self.sensible(),
        }
    }

    /// An await of a new call; of a gather of new calls, at times with one of them twice; or of a gather in a gather with a call beside.
    fn wait_for_calls(&mut self) {
        let calls = self.random.weighted(&[0, 60, 25, 15]);
        let first = self.made() as u16;
        (0..calls).for_each(|_| self.some_pending());
        let mut items: Vec<u16> = (first..self.made() as u16).collect();
        if self.random.chance(10) {
            items.extend(items.first().copied());
        }
        if calls > 1 || self.random.chance(20) {
            self.gather(&items);
            while self.random.chance(30) {
                let inner = self.last();
                self.some_pending();
                let items = if self.random.chance(50) { [inner, self.last()] } else { [self.last(), inner] };
                self.gather(&items);
            }
        }
        self.await_last();
    }

    /// Results of so many percent of the pending calls, shuffled, or the last call first; at times one twice, or of a call that is not pending.
    fn batch(&mut self, percent: u64) {
        let mut calls = self.pending_calls();
        calls.retain(|_| self.random.chance(percent));
        if self.random.chance(25) {
            calls.reverse();
        } else {
            (1..calls.len()).for_each(|i| calls.swap(i, self.random.below(i as u64 + 1) as usize));
        }
        if self.random.chance(15) {
            let at = self.random.below(calls.len() as u64 + 1) as usize;
            let call = if self.random.chance(50) { calls.last().copied() } else { None };
            let call = call.unwrap_or_else(|| self.call_number(3));
            calls.insert(at, call);
        }
        calls.truncate(64);
        let results = calls.into_iter().map(|call| self.result_of(call)).collect();
        self.results(results);
    }

    /// A failed external: the first of this file, or a new one.
    fn failed_external(&mut self) -> u16 {
        if self.failed.is_none() {
            self.call();
            let call = self.session.calls_handed_out - 1;
            self.record(3, &[&call.to_le_bytes()[..], &[0; 10]].concat());
            self.failed = Some(self.last());
            self.results(vec![[&call.to_le_bytes()[..], &[1, 0, 9, 0, 0, 0, 0, 0, 0, 0]].concat()]);
        }
        self.failed.unwrap_or(0)
    }

    /// Steps towards a limit and one past it, then sensible events.
    fn limits(&mut self) {
        match self.random.below(60) {
            0 if self.made() > 0 => {
                // 31 to 34 items
                let count = 31 + self.random.below(4);
                let items: Vec<u16> = (0..count).map(|_| self.object()).collect();
                self.gather(&items);
            }
            1 => {
                // all objects
                let left = 257 - self.made().min(256) - self.random.below(2);
                (0..left).for_each(|_| self.coroutine());
            }
            2 if self.made() > 0 => {
                // all places
                while self.session.places + 32 <= 512 && self.made() < 256 && self.session.moment == Moment::Running {
                    let items: Vec<u16> = (0..32).map(|_| self.object()).collect();
                    self.gather(&items);
                }
                let left = 512 - self.session.places as u64 + self.random.below(2);
                let items: Vec<u16> = (0..left.min(33)).map(|_| self.object()).collect();
                self.gather(&items);
            }
            3 => {
                // 63 to 66 results
                let count = 63 + self.random.below(4);
                let results = (0..count).map(|_| self.result()).collect();
                self.results(results);
            }
            4 => {
                // as many results or items as a record can have
                if self.random.chance(50) {
                    let results = (0..255).map(|_| self.result()).collect();
                    self.results(results);
                } else if self.made() > 0 {
                    let items: Vec<u16> = (0..255).map(|_| self.object()).collect();
                    self.gather(&items);
                }
            }
            _ => self.sensible(),
        }
    }

    /// 65,530 to 70,000 calls handed out, half the times just about 65,536, and what can be done with the last and with the numbers that none has.
    fn calls(&mut self) {
        let most = if self.random.chance(50) { 12 } else { 4_471 };
        let calls = 65_530 + self.random.below(most) as u32;
        while self.session.calls_handed_out < calls {
            self.call();
        }
        let last = self.random.chance(50);
        if last { self.settled() } else { self.call() }
        for call in [calls, 65_535, 65_536, 0, calls - 65_530, calls + 1, u32::MAX - 1, u32::MAX] {
            self.pending(call);
        }
        let unknown = [65_536 + calls, u32::MAX - 1, u32::MAX].map(|call| [&call.to_le_bytes()[..], &[0; 10]].concat());
        self.results(unknown.to_vec());
        self.some_results(4);
        let top = self.object();
        self.await_object(top);
    }

    fn fill(&mut self, style: Style, length: u64) {
        let height = if self.random.chance(10) { 200 } else { 12 };
        while self.records < length {
            match style {
                Style::Sensible => self.sensible(),
                Style::Wild => self.wild(),
                Style::Deep => self.deep(height),
                Style::Limits => self.limits(),
                Style::Cancels => self.cancels(),
                Style::Batches => self.batches(),
            }
            if self.session.moment == Moment::Ended && self.random.chance(10) {
                break;
            }
            // what can still come is stalled: main waits for what a cancel took away
            if self.session.moment == Moment::Waiting && self.session.vm.scheduler.can_await_eagerly() && self.random.chance(20) {
                break;
            }
        }
    }

    /// A byte changed, taken out or put in, or the end cut off; mostly late in the file.
    fn damage(&mut self) {
        let length = self.bytes.len() as u64;
        let from = if self.random.chance(80) { length * 7 / 10 } else { 0 };
        let at = (from + self.random.below((length - from).max(1))) as usize;
        let byte = self.random.below(256) as u8;
        match self.random.below(5) {
            0 => self.bytes.truncate(at),
            1 => self.bytes[at] ^= 1 << self.random.below(8),
            2 => self.bytes[at] = byte,
            3 => self.bytes.insert(at, byte),
            _ => {
                self.bytes.remove(at);
            }
        }
    }
}

/// File `number` of `seed`. Every eighth is damaged; one in 97, from file 3 on, begins with 65,530 to 70,000 calls, and is not: the damage would mostly be
/// among these. Of each three rounds of eight the first has its batches in order. It is the amended Rust that runs beside: where batches are in order it
/// is the published one.
pub(crate) fn file(seed: u64, number: u64) -> Vec<u8> {
    with_session(|session| {
        let mut random = Random(seed.wrapping_mul(0x1000_0000_01B3) ^ number);
        random.next();
        let many_calls = number % 97 == 3;
        let damaged = number % 8 == 7 && !many_calls;
        let style = STYLES[(if number % 8 == 7 { random.below(7) } else { number % 8 }) as usize];
        let length = match style {
            Style::Wild => 40 + random.below(360),
            Style::Limits => 100 + random.below(600),
            Style::Cancels | Style::Batches => 100 + random.below(400),
            _ => 60 + random.below(240),
        };
        let mut file = File {
            random,
            session,
            bytes: Vec::new(),
            records: 0,
            cancelled: 1,
            failed: None,
            many_calls,
            in_order: number / 8 % 3 == 0,
        };
        file.session.rule = Rule::Amended;
        file.session.notes = file.in_order.then(Notes::default);
        if many_calls {
            file.calls();
        }
        let length = file.records + length;
        file.fill(style, length);
        assert!(file.session.notes.take().is_none_or(|notes| !notes.out_of_order), "the batches were put in order");
        if damaged {
            file.damage();
        }
        file.bytes
    })
}

/// Writes the files, and the lines of the Rust that each is held to.
pub(crate) fn files(seed: u64, from: u64, count: u64, folder: &Path) {
    for number in from..from + count {
        let bytes = file(seed, number);
        let expected = expected(&bytes);
        let name = format!("{}{number:04}", if expected.rule == Rule::Published { "" } else { "amended-" });
        fs::write(folder.join(format!("{name}.out")), expected.lines).expect("writing lines");
        fs::write(folder.join(format!("{name}.bin")), bytes).expect("writing a file");
    }
}
