//! Random programs, each by a seed: posts, delays, scopes, cancels, policies, main queues and jobs, from several threads, and a shutdown
//! amid them. What they check themselves is little: the recordings are for the judge. `TASKENV_SEEDS` says how many programs there are.

use crate::{Kept, SKIPS, open_as, small};
use std::collections::HashMap;
use std::sync::atomic::{AtomicU32, AtomicU64, Ordering::SeqCst};
use std::sync::{Arc, Mutex};
use std::thread;
use std::time::Duration;
use taskenv::{
    Behaviour, DelayedTask, Environment, FenceAt, Handle, JobHandle, JobReply, JobSlots, JobTraits, MainQueue, Policy,
};
use taskenv::{Priority, Refused, Runner, Scope, Sequence, Traits, Voter, blocking};

const PRIORITIES: [Priority; 3] = [Priority::BestEffort, Priority::UserVisible, Priority::UserBlocking];
const BEHAVIOURS: [Behaviour; 3] = [Behaviour::ContinueOnShutdown, Behaviour::SkipOnShutdown, Behaviour::BlockShutdown];
const POLICIES: [Policy; 4] = [Policy::All, Policy::All, Policy::Foreground, Policy::None];

/// Numbers by a seed (splitmix64).
struct Random(u64);

impl Random {
    fn next(&mut self) -> u64 {
        self.0 = self.0.wrapping_add(0x9e37_79b9_7f4a_7c15);
        let mixed = (self.0 ^ (self.0 >> 30)).wrapping_mul(0xbf58_476d_1ce4_e5b9);
        let mixed = (mixed ^ (mixed >> 27)).wrapping_mul(0x94d0_49bb_1331_11eb);
        mixed ^ (mixed >> 31)
    }
    fn below(&mut self, bound: u64) -> u64 {
        self.next() % bound
    }
    fn of<'a, T>(&mut self, all: &'a [T]) -> &'a T {
        &all[self.below(all.len() as u64) as usize]
    }
    fn traits(&mut self) -> Traits {
        let traits = Traits::new().priority(*self.of(&PRIORITIES)).behaviour(*self.of(&BEHAVIOURS));
        if self.below(2) == 0 { traits.may_block() } else { traits }
    }
    /// A job. Its sort has room for so many items, but maybe not for so few threads.
    fn job(&mut self) -> JobTraits {
        let Traits { priority, behaviour, .. } = self.traits();
        JobTraits { priority, behaviour, items: self.below(32) as u32, most_at_once: 1 + self.below(4) as u32 }
    }
    fn pause(&mut self) {
        thread::sleep(Duration::from_micros(self.below(300)));
    }
}

/// How often a task ran that was accepted, and whether it has to.
struct Told {
    must_run: bool,
    ran: AtomicU32,
}

/// A runner, and what its tasks may and must do: nothing is said of main tasks.
struct Place {
    runner: Runner,
    traits: Option<Traits>,
}

/// What the threads of a program share.
struct World {
    handle: Handle,
    places: Vec<Place>,
    /// Of each thread that posts, the last number that came from it.
    lists: Vec<Sequence<HashMap<u64, u64>>>,
    queues: Vec<MainQueue>,
    voters: Vec<Voter>,
    started: Mutex<Vec<JobHandle>>,
    delayed: Mutex<Vec<DelayedTask>>,
    told: Mutex<Vec<Arc<Told>>>,
    numbers: AtomicU64,
}

impl World {
    fn new(environment: &Environment, random: &mut Random) -> World {
        let queues: Vec<MainQueue> = (0..3)
            .map(|class| if class == 0 { environment.main_queue() } else { environment.make_main_queue(class * 2).unwrap() })
            .collect();
        let mut places: Vec<Place> = queues.iter().map(|queue| Place { runner: queue.runner(), traits: None }).collect();
        for number in 0..12 {
            let traits = random.traits();
            let runner = match number % 3 {
                0 => environment.runner(traits),
                1 => environment.sequenced_runner(traits).unwrap(),
                _ => environment.single_thread_runner(traits).unwrap_or_else(|_| environment.runner(traits)),
            };
            places.push(Place { runner, traits: Some(traits) });
        }
        World {
            handle: environment.handle().clone(),
            places,
            lists: (0..3).map(|_| environment.sequence(random.traits(), HashMap::new()).unwrap()).collect(),
            voters: queues.iter().map(|queue| queue.create_voter().unwrap()).collect(),
            queues,
            started: Mutex::default(),
            delayed: Mutex::default(),
            told: Mutex::default(),
            numbers: AtomicU64::new(0),
        }
    }

    /// Posts a task to a place, and notes it where it was accepted.
    fn post(self: &Arc<World>, random: &mut Random, depth: u32) {
        let place = random.of(&self.places);
        let delay = if random.below(4) == 0 { Duration::from_micros(random.below(3000)) } else { Duration::ZERO };
        let must_run = delay.is_zero() && place.traits.is_some_and(|traits| traits.behaviour == Behaviour::BlockShutdown);
        let told = Arc::new(Told { must_run, ran: AtomicU32::new(0) });
        let (world, tells, mut inner) = (Arc::clone(self), Arc::clone(&told), Random(random.next()));
        let may_block = place.traits.is_some_and(|traits| traits.may_block);
        let task = move || {
            tells.ran.fetch_add(1, SeqCst);
            world.perform(&mut inner, may_block, depth);
        };
        let posted = if delay.is_zero() {
            place.runner.post(task)
        } else {
            place.runner.post_delayed(task, delay).map(|task| self.delayed.lock().unwrap().push(task))
        };
        match posted {
            Ok(()) => self.told.lock().unwrap().push(told),
            Err(why) => assert!(place.traits.is_none() || why != Refused::QueueClosed),
        }
    }

    /// What a task does.
    fn perform(self: &Arc<World>, random: &mut Random, may_block: bool, depth: u32) {
        let scope = if random.below(2) == 0 { Scope::MayBlock } else { Scope::WillBlock };
        match random.below(4) {
            0 if may_block => blocking(scope, || self.perform(random, may_block, depth)),
            1 if depth < 3 => (0..random.below(3)).for_each(|_| self.act(random, None, depth + 1)),
            2 => random.pause(),
            _ => {}
        }
    }

    /// Does something, as a thread with this number, or as a task.
    fn act(self: &Arc<World>, random: &mut Random, thread: Option<u64>, depth: u32) {
        match random.below(24) {
            0..=8 => self.post(random, depth),
            9..=12 => self.post_in_order(random, thread),
            13 => _ = self.delayed.lock().unwrap().pop().map(|task| task.cancel()),
            14 => self.handle.set_policy(*random.of(&POLICIES)),
            15..=16 => self.reply(random),
            17 => self.use_new_runner(random),
            18..=19 => self.change_queue(random),
            20 => self.post_job(random),
            21 if random.below(3) == 0 => _ = self.started.lock().unwrap().pop().map(|job| job.cancel()),
            _ => random.pause(),
        }
    }

    /// Posts to a list. What a thread posted earlier runs earlier.
    fn post_in_order(self: &Arc<World>, random: &mut Random, thread: Option<u64>) {
        let number = self.numbers.fetch_add(1, SeqCst);
        let _ = random.of(&self.lists).post(move |last| {
            if let Some(before) = thread.and_then(|thread| last.insert(thread, number)) {
                assert!(before < number, "{number} came after {before}");
            }
        });
    }
    fn reply(self: &Arc<World>, random: &mut Random) {
        let (place, back, number) = (random.of(&self.places), random.of(&self.places), random.next());
        let _ = place.runner.post_and_reply(move || number, &back.runner, move |got| assert_eq!(got, number));
    }
    fn use_new_runner(self: &Arc<World>, random: &mut Random) {
        if let Ok(runner) = self.handle.sequenced_runner(random.traits()) {
            let _ = runner.post(|| {});
            runner.update_priority(*random.of(&PRIORITIES));
            let _ = runner.post(|| {});
        }
    }
    fn change_queue(self: &Arc<World>, random: &mut Random) {
        let at = random.below(3) as usize;
        let (queue, voter) = (&self.queues[at], &self.voters[at]);
        match random.below(12) {
            0 => queue.insert_fence(FenceAt::Now),
            1 => queue.insert_fence(FenceAt::Start),
            2..=4 => queue.remove_fence(),
            5 => voter.vote(false),
            6..=8 => voter.vote(true),
            9 if at == 2 => queue.close(),
            _ => queue.set_class(random.below(8) as u32),
        }
    }
    fn post_job(self: &Arc<World>, random: &mut Random) {
        let traits = random.job();
        let job = self.handle.post_job(traits, move |item| {
            assert!(item.index() < traits.items as usize);
            thread::sleep(Duration::from_micros(item.index() as u64 * 10));
        });
        if let Ok(job) = job {
            self.started.lock().unwrap().push(job);
        }
    }

    /// Once the environment is gone.
    fn check(&self) {
        for told in self.told.lock().unwrap().iter() {
            assert_eq!(Arc::strong_count(told), 1, "a closure is left");
            let ran = told.ran.load(SeqCst);
            assert!(ran == 1 || (ran == 0 && !told.must_run), "a task ran {ran} times");
        }
    }
}

/// What the main thread does.
fn drive(environment: &Kept, world: &Arc<World>, random: &mut Random, is_mock: bool) {
    for _ in 0..random.below(20) {
        match random.below(6) {
            0 => environment.flush(),
            1 if is_mock => environment.fast_forward_by(Duration::from_micros(random.below(5000))),
            2 => join(environment, world, random),
            3 => world.act(random, Some(9), 0),
            4 => random.pause(),
            _ => environment.run_until_idle(),
        }
    }
}

fn join(environment: &Kept, world: &Arc<World>, random: &mut Random) {
    if random.below(2) == 0 {
        let started = world.started.lock().unwrap().pop();
        _ = started.and_then(|job| job.join(environment));
        return;
    }
    let traits = random.job();
    let Ok(job) = environment.take_job(traits) else { return };
    let done: Vec<AtomicU32> = (0..traits.items).map(|_| AtomicU32::new(0)).collect();
    let reply = job.run(environment, |item| _ = done[item.index()].fetch_add(1, SeqCst));
    let all = u32::from(reply == JobReply::Done);
    assert!(done.iter().all(|count| count.load(SeqCst) == all));
}

fn play(seed: u64) {
    let mut random = Random(seed);
    let is_mock = random.below(2) == 0;
    let builder = small(1 + random.below(5) as u32).posts(700).may_block_threshold(Duration::from_millis(1));
    let builder = if is_mock { builder.mock_clock() } else { builder };
    let builder = if random.below(2) == 0 { builder.limits(2, 1).background(random.below(3) as u32) } else { builder };
    let sorts = PRIORITIES.iter().flat_map(|&priority| BEHAVIOURS.map(|behaviour| JobSlots::of(priority, behaviour)));
    let slots: Vec<JobSlots> = sorts
        .map(|slots| JobSlots {
            least: 1 + random.below(9) as u32,
            most: 31,
            of_each: 1,
            most_at_once: 1 + random.below(4) as u32,
            ..slots
        })
        .collect();
    let environment = open_as(builder.jobs(slots), &format!("random-{seed}"));
    let world = Arc::new(World::new(&environment, &mut random));
    thread::scope(|scope| {
        for thread in 0..3 {
            let (world, mut own) = (Arc::clone(&world), Random(random.next()));
            scope.spawn(move || (0..own.below(90)).for_each(|_| world.act(&mut own, Some(thread), 0)));
        }
        drive(&environment, &world, &mut random, is_mock);
        if random.below(2) == 0 {
            environment.shutdown(); // the others go on
        }
    });
    environment.run_until_idle();
    drop(environment);
    world.check();
    assert_eq!(world.handle.post(SKIPS, || {}), Err(Refused::ShutDown));
}

#[test]
fn random_programs() {
    let count = std::env::var("TASKENV_SEEDS").map_or(20, |count| count.parse().unwrap());
    (0..count).for_each(play);
}
