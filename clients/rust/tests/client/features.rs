//! One test for each feature.

use crate::{BLOCKS, Gate, Kept, SKIPS, Seen, open, open_as, panics, slots, small, until};
use std::rc::Rc;
use std::sync::atomic::{AtomicU64, AtomicUsize, Ordering::SeqCst};
use std::sync::{Arc, Mutex, OnceLock};
use std::thread;
use std::time::{Duration, Instant};
use taskenv::{
    Behaviour, Environment, FenceAt, Handle, JobReply, JobSlots, JobTraits, NoRoom, Policy, Priority, Record, Refused,
};
use taskenv::{RunLoop, Runner, Scope, Sequence, Traits, blocking};

const MILLISECOND: Duration = Duration::from_millis(1);
const SECOND: Duration = Duration::from_secs(1);

#[test]
fn parallel_tasks_all_run() {
    let environment = open(small(4));
    let ran = Arc::new(AtomicUsize::new(0));
    for _ in 0..500 {
        let ran = Arc::clone(&ran);
        environment.post(SKIPS, move || _ = ran.fetch_add(1, SeqCst)).unwrap();
    }
    environment.flush();
    assert_eq!((ran.load(SeqCst), environment.posts_left()), (500, 2048 - 500));
}

#[test]
fn parallel_tasks_overlap() {
    let environment = open(small(4));
    let (first, second) = (Gate::default(), Gate::default());
    let (one, two) = (first.clone(), second.clone());
    environment
        .post(SKIPS, move || {
            one.open();
            two.wait();
        })
        .unwrap();
    environment
        .post(SKIPS, move || {
            second.open();
            first.wait();
        })
        .unwrap();
    environment.flush();
}

#[test]
fn a_sequence_runs_in_order_on_its_state() {
    let environment = open(small(4));
    let sequence = environment.sequence(SKIPS, Vec::new()).unwrap();
    for number in 0..300 {
        sequence.post(move |list| list.push(number)).unwrap();
    }
    let ran = Seen::default();
    sequence.runner().post(ran.sees(1)).unwrap();
    sequence.post(|list| assert!(list.len() == 300 && list.is_sorted())).unwrap();
    environment.flush();
    assert_eq!(ran.take(), [1]);
}

#[test]
fn a_state_is_handed_from_thread_to_thread() {
    struct Counts {
        all: usize,
        of_threads: Vec<(thread::ThreadId, usize)>,
    }
    let environment = open(small(4));
    let sequence = environment.sequence(SKIPS, Counts { all: 0, of_threads: Vec::new() }).unwrap();
    let count = |counts: &mut Counts| {
        let here = thread::current().id();
        counts.all += 1;
        match counts.of_threads.iter_mut().find(|(id, _)| *id == here) {
            Some((_, count)) => *count += 1,
            None => counts.of_threads.push((here, 1)),
        }
    };
    thread::scope(|scope| {
        for _ in 0..4 {
            scope.spawn(|| (0..100).for_each(|_| sequence.post(count).unwrap()));
        }
    });
    let seen = Seen::default();
    let all = seen.clone();
    sequence
        .post(move |counts| all.see((counts.all + counts.of_threads.iter().map(|(_, count)| count).sum::<usize>()) as u64))
        .unwrap();
    environment.flush();
    assert_eq!(seen.take(), [800]);
}

#[test]
fn a_state_goes_with_its_sequence() {
    struct Owned(Seen);
    impl Drop for Owned {
        fn drop(&mut self) {
            self.0.see(9);
        }
    }
    let environment = open(small(2));
    let seen = Seen::default();
    let gate = Gate::default();
    let sequence = environment.sequence(SKIPS, Owned(seen.clone())).unwrap();
    let waits = gate.clone();
    sequence
        .post(move |owned| {
            waits.wait();
            owned.0.see(1);
        })
        .unwrap();
    drop(sequence);
    assert_eq!(seen.take(), []);
    gate.open();
    environment.flush();
    assert_eq!(seen.take(), [1, 9]);
}

#[test]
fn single_thread_tasks_share_a_thread() {
    let environment = open(small(4));
    let sequence = environment.single_thread_sequence(SKIPS, None).unwrap();
    for _ in 0..100 {
        sequence.post(|thread| assert_eq!(*thread.get_or_insert(thread::current().id()), thread::current().id())).unwrap();
        environment.post(SKIPS, || {}).unwrap();
    }
    environment.flush();
}

#[test]
fn runners_come_free() {
    let environment = open(small(2).sequenced_runners(1).single_thread_runners(1));
    let gate = Gate::default();
    let runner = environment.sequenced_runner(SKIPS).unwrap();
    assert_eq!(environment.sequenced_runner(SKIPS), Err(NoRoom::SequencedRunners));
    let waits = gate.clone();
    runner.post(move || waits.wait()).unwrap();
    drop(runner);
    assert_eq!(environment.sequenced_runner(SKIPS), Err(NoRoom::SequencedRunners)); // its task runs still
    assert!(environment.sequenced_runner(BLOCKS).is_ok());
    gate.open();
    until(|| environment.sequenced_runner(SKIPS).is_ok());
    let singles: Vec<Runner> = (0..2).map(|_| environment.single_thread_runner(SKIPS).unwrap()).collect();
    assert_ne!(singles[0], singles[1]);
    assert_eq!(environment.single_thread_runner(SKIPS), Err(NoRoom::SingleThreadRunners));
}

#[test]
fn priorities_go_first() {
    let environment = open(small(1));
    let (busy, gate, seen) = (Gate::default(), Gate::default(), Seen::default());
    let (is_busy, waits) = (busy.clone(), gate.clone());
    environment
        .post(SKIPS, move || {
            is_busy.open();
            waits.wait();
        })
        .unwrap();
    busy.wait();
    let raised = environment.sequenced_runner(Traits::new().priority(Priority::BestEffort)).unwrap();
    raised.post(seen.sees(3)).unwrap();
    for priority in [Priority::BestEffort, Priority::UserVisible, Priority::UserBlocking] {
        environment.post(Traits::new().priority(priority), seen.sees(priority as u64)).unwrap();
    }
    raised.update_priority(Priority::UserBlocking);
    gate.open();
    environment.flush();
    assert_eq!(seen.take(), [3, 2, 1, 0]);
}

#[test]
fn a_slot_has_the_priority_that_is_asked_for() {
    let environment = open(small(1).sequenced_runners(1));
    let (busy, gate, seen) = (Gate::default(), Gate::default(), Seen::default());
    let (is_busy, waits) = (busy.clone(), gate.clone());
    environment
        .post(SKIPS, move || {
            is_busy.open();
            waits.wait();
        })
        .unwrap();
    busy.wait();
    let best_effort = Traits::new().priority(Priority::BestEffort);
    environment.sequenced_runner(Traits::new()).unwrap(); // comes free at once
    environment.sequenced_runner(best_effort).unwrap().post(seen.sees(2)).unwrap();
    environment.post(SKIPS, seen.sees(1)).unwrap();
    gate.open();
    environment.flush();
    assert_eq!(seen.take(), [1, 2]);
}

#[test]
fn delays_pass_in_real_time() {
    let environment = open(small(4));
    let run_loop = RunLoop::new(&environment);
    thread::sleep(20 * MILLISECOND); // a delay is counted from its post, and not from what the core read last
    let start = Instant::now();
    environment.runner(SKIPS).post_delayed(move || assert!(start.elapsed() >= 30 * MILLISECOND), 30 * MILLISECOND).unwrap();
    environment.runner(SKIPS).post_delayed(|| {}, 15 * MILLISECOND).unwrap(); // the clock is read in between
    let quit = run_loop.quit();
    environment.main_runner().post_delayed(move || quit.quit(), 60 * MILLISECOND).unwrap();
    run_loop.run();
    assert!(start.elapsed() >= 60 * MILLISECOND);
}

#[test]
fn delayed_tasks_cancel() {
    let environment = open(small(2).mock_clock());
    let (seen, owned) = (Seen::default(), Arc::new(()));
    let held = Arc::clone(&owned);
    let task = environment.runner(SKIPS).post_delayed(move || drop(held), 10 * SECOND).unwrap();
    assert!(task.is_waiting() && Arc::strong_count(&owned) == 2);
    assert!(task.cancel() && !task.is_waiting() && Arc::strong_count(&owned) == 1 && !task.cancel());
    let late = environment.runner(SKIPS).post_delayed(seen.sees(1), SECOND).unwrap();
    environment.fast_forward_by(20 * SECOND);
    assert!(seen.take() == [1] && !late.is_waiting() && !late.cancel());
}

#[test]
fn a_mock_clock_moves_by_hand() {
    let environment = open(small(2).mock_clock());
    let seen = Seen::default();
    let sees = |which: u64| {
        let (seen, handle) = (seen.clone(), environment.handle().clone());
        move || seen.see(which * 10 + handle.now().as_secs())
    };
    let runner = environment.sequenced_runner(SKIPS).unwrap();
    runner.post_delayed(sees(3), 3 * SECOND).unwrap();
    runner.post_delayed(sees(1), SECOND).unwrap();
    environment.main_runner().post_delayed(sees(2), 2 * SECOND).unwrap();
    environment.main_runner().post(sees(0)).unwrap();
    environment.fast_forward_by(2500 * MILLISECOND);
    assert_eq!((environment.now(), seen.take()), (2500 * MILLISECOND, vec![0, 11, 22]));
    environment.fast_forward_by(10 * SECOND);
    assert_eq!((environment.now(), seen.take()), (12500 * MILLISECOND, vec![33]));
}

#[test]
fn delays_have_a_range() {
    let environment = open(small(2).mock_clock());
    let seen = Seen::default();
    environment.main_runner().post_delayed(seen.sees(1), Duration::MAX).unwrap();
    environment.main_runner().post_delayed(seen.sees(0), Duration::from_nanos(1)).unwrap();
    environment.run_until_idle();
    assert_eq!(seen.take(), []); // a delay is rounded up
    environment.fast_forward_by(12 * 24 * 3600 * SECOND);
    assert_eq!(seen.take(), [0, 1]);
}

#[test]
fn main_tasks_run_in_a_loop() {
    let environment = open(small(4));
    let (seen, here, run_loop) = (Seen::default(), thread::current().id(), RunLoop::new(&environment));
    environment.main_runner().post(seen.sees(0)).unwrap();
    let (sees, quit, main) = (seen.clone(), run_loop.quit(), environment.main_runner());
    let last = move || {
        assert_eq!(thread::current().id(), here);
        sees.see(1);
        quit.quit();
    };
    let posts = move || {
        thread::sleep(10 * MILLISECOND); // the main thread sleeps by now
        main.post(last).unwrap();
    };
    environment.post(SKIPS, posts).unwrap();
    run_loop.run();
    assert_eq!(seen.take(), [0, 1]);
    let foreign = RunLoop::new(&environment);
    let quit = foreign.quit();
    let other = thread::spawn(move || quit.quit());
    foreign.run();
    other.join().unwrap();
}

#[test]
fn main_queues_have_classes_fences_and_voters() {
    let environment = open(small(2).mock_clock());
    let seen = Seen::default();
    let (usual, urgent, idle) =
        (environment.main_queue(), environment.make_main_queue(0).unwrap(), environment.make_main_queue(7).unwrap());
    let ran = || {
        environment.run_until_idle();
        seen.take()
    };
    idle.runner().post(seen.sees(3)).unwrap();
    usual.runner().post(seen.sees(2)).unwrap();
    urgent.runner().post(seen.sees(1)).unwrap();
    assert_eq!(ran(), [1, 2, 3]);

    usual.runner().post(seen.sees(4)).unwrap();
    usual.insert_fence(FenceAt::Now);
    usual.runner().post(seen.sees(5)).unwrap();
    assert_eq!(ran(), [4]);
    usual.remove_fence();
    assert_eq!(ran(), [5]);
    usual.insert_fence(FenceAt::Start);
    usual.runner().post(seen.sees(6)).unwrap();
    assert_eq!(ran(), []);
    usual.remove_fence();
    let voter = usual.create_voter().unwrap();
    voter.vote(false);
    assert_eq!(ran(), []);
    voter.vote(true);
    voter.vote(false);
    drop(voter);
    assert_eq!(ran(), [6]);
    idle.set_class(1);
    usual.runner().post(seen.sees(8)).unwrap();
    idle.runner().post(seen.sees(7)).unwrap();
    assert_eq!(ran(), [7, 8]);
}

#[test]
fn a_queue_that_closes_drops_its_tasks() {
    let environment = open(small(2));
    let (queue, seen, owned) = (environment.make_main_queue(2).unwrap(), Seen::default(), Arc::new(()));
    let held = || {
        let (owned, seen) = (Arc::clone(&owned), seen.clone());
        move || {
            drop(owned);
            seen.see(0);
        }
    };
    queue.runner().post(held()).unwrap();
    queue.runner().post_delayed(held(), MILLISECOND).unwrap();
    assert_eq!(Arc::strong_count(&owned), 3);
    queue.close();
    assert_eq!((Arc::strong_count(&owned), queue.runner().post(held())), (1, Err(Refused::QueueClosed)));
    assert_eq!(Arc::strong_count(&owned), 1);
    environment.run_until_idle();
    assert_eq!(seen.take(), []);
}

#[test]
fn a_state_of_the_main_thread() {
    let environment = open(small(2));
    let state = environment.main_queue().sequence(Vec::new());
    let seen = Seen::default();
    let (numbers, sees) = (environment.sequence(SKIPS, 3_u64).unwrap(), seen.clone());
    let (inner, main) = (state.clone(), state.runner().clone());
    state.post(|list: &mut Vec<u64>| list.push(1)).unwrap();
    numbers
        .post_and_reply(|number| *number * 2, &main, move |double| inner.post(move |list| list.push(double)).unwrap())
        .unwrap();
    environment.run_until_idle();
    state.post_and_reply(|list| list.len() as u64 * 10 + list[1], &main, move |what| sees.see(what)).unwrap();
    environment.run_until_idle();
    assert_eq!(seen.take(), [26]);
}

#[test]
fn drivers_calls_of_main_tasks_are_kept() {
    let environment = open(small(4).mock_clock());
    let seen = Seen::default();
    let (queue, other) = (environment.main_queue(), environment.make_main_queue(5).unwrap().runner());
    let (main, handle, sees) = (queue.runner(), environment.handle().clone(), seen.clone());
    let fence = queue.clone();
    let first = move || {
        fence.insert_fence(FenceAt::Now); // is made at the end of this task: what it posts goes before the fence
        main.post(sees.sees(2)).unwrap();
        let (done, ends, holds) = (Gate::default(), Gate::default(), handle.clone());
        let end = ends.clone();
        handle
            .post(SKIPS, move || {
                holds.set_policy(Policy::None);
                end.open();
            })
            .unwrap();
        ends.wait();
        let sequence = handle.sequenced_runner(Traits::new().priority(Priority::BestEffort)).unwrap();
        sequence.post(move || done.open()).unwrap();
        sees.see(1);
    };
    queue.runner().post(first).unwrap();
    let (main, sees) = (queue.runner(), seen.clone());
    other
        .post(move || {
            main.post(sees.sees(4)).unwrap();
            sees.see(3);
        })
        .unwrap();
    environment.run_until_idle();
    assert_eq!(seen.take(), [1, 2, 3]);
    environment.set_policy(Policy::All);
    queue.remove_fence();
    environment.run_until_idle();
    assert_eq!(seen.take(), [4]);
}

#[test]
fn policies_hold_back() {
    let environment = open(small(4));
    let seen = Seen::default();
    environment.set_policy(Policy::None);
    environment.post(Traits::new(), seen.sees(1)).unwrap();
    environment.post(Traits::new().priority(Priority::BestEffort), seen.sees(2)).unwrap();
    environment.flush();
    assert_eq!(seen.take(), []);
    environment.set_policy(Policy::Foreground);
    environment.flush();
    assert_eq!(seen.take(), [1]);
    environment.set_policy(Policy::All);
    environment.flush();
    assert_eq!(seen.take(), [2]);
}

#[test]
fn replies_come_back() {
    let environment = open(small(4));
    let (run_loop, seen, here) = (RunLoop::new(&environment), Seen::default(), thread::current().id());
    let (sees, quit) = (seen.clone(), run_loop.quit());
    let reply = move |result: Box<u64>| {
        assert_eq!(thread::current().id(), here);
        sees.see(*result);
        quit.quit();
    };
    environment.runner(SKIPS).post_and_reply(|| Box::new(42), &environment.main_runner(), reply).unwrap();
    run_loop.run();
    assert_eq!(seen.take(), [42]);

    let sequence = environment.sequenced_runner(SKIPS).unwrap();
    let (handle, back, sees) = (environment.handle().clone(), sequence.clone(), seen.clone());
    let asks = move || {
        let here = Runner::current().unwrap();
        let reply = move |()| sees.see(u64::from(back.runs_tasks_in_current_sequence()));
        handle.runner(SKIPS).post_and_reply(|| {}, &here, reply).unwrap();
    };
    sequence.post(asks).unwrap();
    environment.flush();
    assert_eq!(seen.take(), [1]);
}

#[test]
fn one_knows_where_one_is() {
    let environment = open(small(4));
    let sequenced = [environment.sequenced_runner(SKIPS).unwrap(), environment.single_thread_runner(SKIPS).unwrap()];
    let all = Arc::new([sequenced[0].clone(), sequenced[1].clone(), environment.main_runner(), environment.runner(SKIPS)]);
    assert!(Runner::current().is_none() && environment.main_runner().runs_tasks_in_current_sequence());
    assert!(!sequenced[0].runs_tasks_in_current_sequence());
    let seen = Seen::default();
    for place in 0..3 {
        let (runners, seen) = (Arc::clone(&all), seen.clone());
        let looks = move || {
            for (at, runner) in runners.iter().enumerate() {
                assert_eq!(runner.runs_tasks_in_current_sequence(), at == place);
            }
            assert_eq!(Runner::current().as_ref(), Some(&runners[place]));
            seen.see(place as u64);
        };
        all[place].post(looks).unwrap();
    }
    let parallel = environment.runner(SKIPS);
    environment
        .runner(SKIPS)
        .post(move || assert!(Runner::current().is_none() && !parallel.runs_tasks_in_current_sequence()))
        .unwrap();
    environment.run_until_idle();
    assert_eq!(seen.take().len(), 3);
    let main = environment.main_runner();
    thread::spawn(move || assert!(Runner::current().is_none() && !main.runs_tasks_in_current_sequence())).join().unwrap();
}

#[test]
fn blocking_scopes_let_others_run() {
    let environment = open(small(3).limits(1, 1).may_block_threshold(3600 * SECOND));
    let (gate, waits) = (Gate::default(), Gate::default());
    let (opens, waited) = (gate.clone(), waits.clone());
    let blocked = move || {
        blocking(Scope::MayBlock, || blocking(Scope::WillBlock, || gate.wait())); // the outer one counts from the inner one on
        blocking(Scope::MayBlock, || waited.open());
    };
    environment.post(BLOCKS, blocked).unwrap();
    environment.post(BLOCKS, move || opens.open()).unwrap(); // there is room for one task only
    environment.flush();
    waits.wait();
    blocking(Scope::WillBlock, || {}); // has no effect
}

#[test]
fn a_scope_that_may_block_counts_after_its_threshold() {
    let environment = open(small(2).limits(1, 1).may_block_threshold(30 * MILLISECOND));
    let gate = Gate::default();
    let opens = gate.clone();
    environment.post(BLOCKS, move || blocking(Scope::MayBlock, || gate.wait())).unwrap();
    environment.post(BLOCKS, move || opens.open()).unwrap();
    environment.flush();
}

#[test]
fn scopes_answer_and_close() {
    let environment = open(small(2).on_panic(|_| {}));
    let seen = Seen::default();
    let sees = seen.clone();
    environment.post(BLOCKS, move || sees.see(blocking(Scope::WillBlock, || 5))).unwrap();
    environment.post(BLOCKS, || blocking(Scope::MayBlock, || panic!("in a scope"))).unwrap(); // the scope is closed on the way
    let sees = seen.clone();
    environment.post(SKIPS, move || sees.see(u64::from(panics(|| blocking(Scope::MayBlock, || {}))))).unwrap();
    environment.flush();
    let mut both = seen.take();
    both.sort_unstable();
    assert_eq!(both, [1, 5]);
}

#[test]
fn jobs_borrow_and_do_each_item_once() {
    let environment = open(small(4).jobs([slots(1000, 1000, 8)]));
    let job = environment.take_job(JobTraits::of_items(1000)).unwrap();
    assert_eq!(environment.take_job(JobTraits::of_items(1)).err(), Some(NoRoom::Jobs));
    drop(job); // it wasn't posted
    let job = environment.take_job(JobTraits::of_items(1000)).unwrap();
    let done: Vec<AtomicUsize> = (0..1000).map(|_| AtomicUsize::new(0)).collect();
    let not_shared = Rc::new(5); // what the caller has need not be `Send`
    let handle = environment.handle();
    let reply = job.run(&environment, |item| {
        assert!(item.worker() < 8 && !item.should_yield());
        done[item.index()].fetch_add(1, SeqCst);
        if item.index() % 250 == 0 {
            handle.post(SKIPS, || {}).unwrap(); // from within an item
        }
    });
    assert_eq!((reply, *not_shared), (JobReply::Done, 5));
    assert!(done.into_iter().all(|count| count.into_inner() == 1));
    environment.flush();
    assert_eq!(environment.take_job(JobTraits::of_items(1)).err(), Some(NoRoom::Jobs));
}

/// Runs a job of so many items, or finds no room: each item is done once, and there are no others.
fn does_all(environment: &Environment, items: u32) -> bool {
    let Ok(job) = environment.take_job(JobTraits::of_items(items)) else { return false };
    let done: Vec<AtomicUsize> = (0..items).map(|_| AtomicUsize::new(0)).collect();
    let reply = job.run(environment, |item| _ = done[item.index()].fetch_add(1, SeqCst));
    assert!(reply == JobReply::Done && done.into_iter().all(|count| count.into_inner() == 1));
    true
}

#[test]
fn jobs_have_any_number_of_items() {
    // Each list takes all of the jobs of 8, 16, 32 and 64 items.
    let lists = [[0, 1, 15, 63], [7, 8, 9, 17], [64, 32, 16, 8], [16, 8, 1, 0], [0, 0, 0, 0], [33, 17, 9, 8]];
    for counts in lists {
        let environment = open(small(4).jobs([slots(8, 64, 32)]));
        assert!(!does_all(&environment, 65) && counts.into_iter().all(|items| does_all(&environment, items)));
        assert!(!does_all(&environment, 0));
    }
    let environment = open(small(4).jobs([slots(65_536, 65_536, 32); 2])); // the largest ones
    assert!(!does_all(&environment, 65_537) && does_all(&environment, 65_536) && does_all(&environment, 65_535));
}

/// Which of the plan's jobs were posted, in order, as the log tells.
fn jobs_posted(environment: &Environment) -> Vec<u32> {
    let log = environment.recording().unwrap();
    log.lines()
        .filter_map(|line| line.split_once(" startjob "))
        .map(|(_, job)| job.split(' ').next().unwrap().parse().unwrap())
        .collect()
}

#[test]
fn a_job_is_the_smallest_that_fits() {
    let late = JobTraits { priority: Priority::BestEffort, behaviour: Behaviour::BlockShutdown, items: 5, most_at_once: 1 };
    let late_ones = JobSlots { least: 5, most: 5, of_each: 2, most_at_once: 1, ..JobSlots::of(late.priority, late.behaviour) };
    // Jobs 0 to 3 have 3, 6, 12 and 20 items; 4 has 10, two at once; 5 and 6 have 5, one at once.
    let environment = small(4).jobs([slots(3, 20, 64), slots(10, 10, 2), late_ones]).record(Record::All).open().unwrap();
    let post = |traits: JobTraits| {
        let (inside, seen) = (AtomicUsize::new(0), AtomicUsize::new(0));
        let reply = environment.take_job(traits)?.run(&environment, |item| {
            let now = inside.fetch_add(1, SeqCst) + 1;
            assert!(now <= traits.most_at_once as usize && item.worker() < traits.most_at_once as usize);
            thread::sleep(Duration::from_micros(100));
            inside.fetch_sub(1, SeqCst);
            seen.fetch_add(1, SeqCst);
        });
        assert_eq!((reply, seen.into_inner()), (JobReply::Done, traits.items as usize));
        Ok::<(), NoRoom>(())
    };
    let usual = |items, most_at_once| JobTraits { most_at_once, ..JobTraits::of_items(items) };
    for traits in [usual(7, 32), usual(6, 100), usual(6, 31)] {
        post(traits).unwrap();
    }
    assert_eq!(jobs_posted(&environment), [2, 1, 4]);
    assert_eq!(post(usual(1, 31)), Err(NoRoom::Jobs)); // no other job is one of 31 at most
    for traits in [late, JobTraits { items: 0, most_at_once: 32, ..late }, usual(4, 32), usual(0, 32)] {
        post(traits).unwrap();
    }
    assert_eq!(jobs_posted(&environment), [2, 1, 4, 5, 6, 3, 0]);
    for traits in [usual(0, 32), late, JobTraits { priority: Priority::UserBlocking, ..usual(0, 32) }] {
        assert_eq!(post(traits), Err(NoRoom::Jobs));
    }
}

#[test]
fn a_plan_has_usual_jobs() {
    let (environment, done) = (open(small(4)), Arc::new(AtomicUsize::new(0)));
    let mut jobs = Vec::new();
    for priority in [Priority::BestEffort, Priority::UserVisible, Priority::UserBlocking] {
        for behaviour in [Behaviour::ContinueOnShutdown, Behaviour::SkipOnShutdown, Behaviour::BlockShutdown] {
            for items in [1, 16, 17, 4096] {
                let (traits, done) = (JobTraits { priority, behaviour, ..JobTraits::of_items(items) }, Arc::clone(&done));
                jobs.push(environment.post_job(traits, move |_| _ = done.fetch_add(1, SeqCst)).unwrap());
            }
        }
    }
    environment.flush(); // which waits for jobs, too
    assert_eq!(done.load(SeqCst), 9 * (1 + 16 + 17 + 4096));
    assert!(jobs.iter().all(|job| job.join(&environment) == Some(JobReply::Done)));
}

#[test]
fn jobs_are_posted_from_everywhere() {
    let (environment, done) = (open(small(4)), Arc::new(AtomicUsize::new(0)));
    let (handle, counts) = (environment.handle().clone(), Arc::clone(&done));
    let post = move |items: u32| {
        let counts = Arc::clone(&counts);
        handle.post_job(JobTraits::of_items(items), move |_| _ = counts.fetch_add(1, SeqCst)).unwrap()
    };
    let (one, two, three) = (post.clone(), post.clone(), post.clone());
    environment.main_runner().post(move || drop(one(10))).unwrap(); // is posted at the end of this task
    environment.post(SKIPS, move || drop(two(20))).unwrap();
    thread::scope(|scope| _ = scope.spawn(|| drop(post(30))));
    environment.post_job(JobTraits::of_items(3), move |item| drop(three(item.index() as u32))).unwrap().join(&environment);
    environment.run_until_idle();
    assert_eq!(done.load(SeqCst), 10 + 20 + 30 + 1 + 2);
}

#[test]
fn jobs_let_go_of_their_work() {
    let owned = Arc::new(());
    let environment = open(small(4).jobs([slots(10, 10, 32), slots(10, 10, 32), slots(10, 10, 32), slots(60_000, 60_000, 32)]));
    let post = |items| {
        let held = Arc::clone(&owned);
        environment.post_job(JobTraits::of_items(items), move |_| _ = &held).unwrap()
    };
    drop(post(10));
    until(|| Arc::strong_count(&owned) == 1); // after its last item's end
    post(3).join(&environment);
    until(|| Arc::strong_count(&owned) == 1);
    environment.set_policy(Policy::None);
    post(60_000).cancel_and_wait(&environment);
    assert_eq!(Arc::strong_count(&owned), 1);
    drop(post(10));
    drop(environment);
    assert_eq!(Arc::strong_count(&owned), 1);
}

#[test]
fn jobs_cancel() {
    let environment = open(small(4).jobs([slots(60_000, 60_000, 3), slots(8, 8, 3)]));
    let counts = Arc::new((AtomicUsize::new(0), AtomicUsize::new(0)));
    let (inside, begun) = (Arc::clone(&counts), Arc::clone(&counts));
    let work = move |item: &taskenv::JobItem<'_>| {
        inside.0.fetch_add(1, SeqCst);
        inside.1.fetch_add(1, SeqCst);
        while !item.should_yield() {
            thread::yield_now();
        }
        inside.0.fetch_sub(1, SeqCst);
    };
    let job = environment.post_job(JobTraits::of_items(50_000), work).unwrap();
    until(|| begun.1.load(SeqCst) == 3);
    job.cancel_and_wait(&environment);
    assert_eq!((counts.0.load(SeqCst), job.join(&environment)), (0, Some(JobReply::Cancelled)));
    assert_eq!(counts.1.load(SeqCst), 3);
    environment.set_policy(Policy::None);
    let other = environment.post_job(JobTraits::of_items(5), |_| unreachable!()).unwrap();
    other.cancel();
    assert_eq!(other.join(&environment), Some(JobReply::Cancelled));
}

#[test]
fn the_joining_thread_works_too() {
    let environment = open(small(2).jobs([slots(16, 16, 4)]));
    environment.set_policy(Policy::None); // no worker may help
    let (here, items, handle) = (thread::current().id(), Mutex::new(Vec::new()), environment.handle());
    let reply = environment.take_job(JobTraits::of_items(10)).unwrap().run(&environment, |item| {
        assert_eq!(thread::current().id(), here);
        items.lock().unwrap().push(item.index());
        handle.set_policy(Policy::None); // kept until the job's last item
    });
    assert_eq!((reply, items.into_inner().unwrap()), (JobReply::Done, (0..10).collect()));
}

/// Shuts down amid a job of 150 items. Answers how many were begun.
fn shut_down_amid_a_job(environment: Kept, traits: JobTraits, owned: &Arc<()>) -> usize {
    let counts = Arc::new([AtomicUsize::new(0), AtomicUsize::new(0)]);
    let both = || [counts[0].load(SeqCst), counts[1].load(SeqCst)];
    let (work, held, must_end) = (Arc::clone(&counts), Arc::clone(owned), traits.behaviour == Behaviour::BlockShutdown);
    let begin = move |item: &taskenv::JobItem<'_>| {
        assert!(item.index() < 150 && Arc::strong_count(&held) > 1);
        work[0].fetch_add(1, SeqCst);
        thread::sleep(MILLISECOND);
        while !must_end && !item.should_yield() {
            thread::sleep(MILLISECOND);
        }
        assert_eq!(item.should_yield(), !must_end);
        work[1].fetch_add(1, SeqCst);
    };
    environment.post_job(traits, begin).unwrap();
    until(|| both()[0] >= 3);
    let (handle, held) = (environment.handle().clone(), Arc::clone(owned));
    let late = move || {
        until(|| handle.has_shutdown_started());
        let refused = handle.post_job(JobTraits::of_items(3), move |_| unreachable!("{held:?}")); // though there is room
        assert!(refused.is_ok());
    };
    environment.post(BLOCKS.priority(Priority::UserBlocking), late).unwrap();
    assert!(!environment.has_shutdown_started());
    environment.shutdown();
    assert!(environment.has_shutdown_started());
    assert!(both()[0] == both()[1] || traits.behaviour == Behaviour::ContinueOnShutdown);
    assert_eq!(environment.post_job(traits, |_| unreachable!()).unwrap().join(&environment), None);
    drop(environment);
    assert_eq!(both()[0], both()[1]);
    both()[0]
}

#[test]
fn shutdown_comes_amid_jobs() {
    let owned = Arc::new(());
    for behaviour in [Behaviour::ContinueOnShutdown, Behaviour::SkipOnShutdown, Behaviour::BlockShutdown] {
        let traits = JobTraits { behaviour, ..JobTraits::of_items(150) };
        let some = JobSlots { least: 200, most: 200, of_each: 2, ..JobSlots::of(traits.priority, behaviour) };
        let name = format!("shutdown_comes_amid_jobs-{behaviour:?}");
        let environment = open_as(small(3).jobs([some, slots(8, 8, 32)]), &name);
        let begun = shut_down_amid_a_job(environment, traits, &owned);
        assert_eq!(begun < 150, behaviour != Behaviour::BlockShutdown);
        assert_eq!(Arc::strong_count(&owned), 1);
    }
}

#[test]
fn shutdown_waits_skips_and_refuses() {
    let environment = open(small(2));
    let (seen, owned, busy, gate) = (Seen::default(), Arc::new(()), Gate::default(), Gate::default());
    let never = || {
        let (owned, seen) = (Arc::clone(&owned), seen.clone());
        move || {
            drop(owned);
            seen.see(0);
        }
    };
    let continues = SKIPS.behaviour(Behaviour::ContinueOnShutdown);
    let (is_busy, waits) = (busy.clone(), gate.clone());
    environment
        .post(continues, move || {
            is_busy.open();
            waits.wait();
        })
        .unwrap();
    busy.wait();
    environment.set_policy(Policy::None);
    environment.post(SKIPS, never()).unwrap();
    environment.post(continues, never()).unwrap();
    environment.runner(BLOCKS).post_delayed(never(), 3600 * SECOND).unwrap();
    environment.main_runner().post(never()).unwrap();
    let (handle, refused, sees) = (environment.handle().clone(), never(), seen.clone());
    let last = move || {
        thread::sleep(5 * MILLISECOND);
        assert_eq!(handle.post(SKIPS, refused), Err(Refused::ShutDown));
        handle.post(BLOCKS, sees.sees(2)).unwrap();
        sees.see(1);
    };
    environment.post(BLOCKS, last).unwrap();
    environment.shutdown();
    let mut ran = seen.take();
    ran.sort_unstable();
    assert_eq!((ran, Arc::strong_count(&owned)), (vec![1, 2], 1));
    environment.shutdown(); // once more is nothing
    RunLoop::new(&environment).run();
    gate.open();
}

#[test]
fn panics_go_to_the_handler() {
    let (seen, caught) = (Seen::default(), Seen::default());
    let catches = caught.clone();
    let handler = move |panic: Box<dyn std::any::Any + Send>| catches.see(u64::from(panic.downcast_ref() == Some(&"mine")));
    let environment = open(small(2).on_panic(handler));
    let sequence = environment.sequence(SKIPS, 0).unwrap();
    sequence
        .post(|state| {
            *state = 7;
            panic!("mine")
        })
        .unwrap();
    let sees = seen.clone();
    sequence.post(move |state| sees.see(*state)).unwrap();
    environment.main_runner().post(|| panic!("mine")).unwrap();
    environment.run_until_idle();
    assert_eq!((caught.take(), seen.take()), (vec![1, 1], vec![7]));
    let reply = environment.take_job(JobTraits::of_items(3)).unwrap().run(&environment, |_| panic!("mine"));
    assert_eq!((reply, caught.take()), (JobReply::Done, vec![1, 1, 1]));
}

#[test]
fn what_happens_is_recorded() {
    let builder = Environment::builder().worker_threads(1).posts(2).jobs([slots(5, 9, 4)]).mock_clock();
    let environment = builder.record(Record::All).open().unwrap();
    let handle: Handle = environment.handle().clone();
    environment.sequenced_runner(SKIPS).unwrap().post(|| {}).unwrap();
    environment.flush();
    drop(environment);
    let recording = handle.recording().unwrap();
    let (plan, log) = recording.split_once("%%\n").unwrap();
    assert!(plan.starts_with("workers 2\ngroups 1 1 0\nthreshold 1000000\nrunner 0 parallel best_effort continue\n"));
    assert!(
        plan.ends_with("queue 8 3 4\ntask 0 add 1\ntask 1 add 1\njob 0 user_visible skip 5 4\njob 1 user_visible skip 9 4\n")
    );
    let places: Vec<&str> = log.lines().filter(|line| !line.starts_with("0 ")).collect();
    assert!(log.starts_with("taskenv log 2\n0 0 post 0 ") && log.contains(" 1 take 0 ") && log.contains(" 1 end 0 1\n"), "{log}");
    assert!(
        log.contains(" 0 idle\n")
            && log.ends_with(&format!(" 0 shutdown\n{} 0 done\ntotal {}\n", places.len() - 2, places.len() - 1))
    );
    assert!(small(1).open().unwrap().recording().is_none());
}

#[test]
fn each_entry_is_recorded_by_its_seat() {
    let environment = small(1).mock_clock().record(Record::All).open().unwrap();
    environment.set_policy(Policy::None);
    let handle = environment.handle();
    thread::scope(|scope| {
        scope.spawn(|| {
            handle.runner(BLOCKS).post(|| blocking(Scope::MayBlock, || {})).unwrap(); // by the guest
            handle.set_policy(Policy::All); // for the driver
        });
    });
    environment.flush();
    let (main, runner) = (environment.main_runner(), environment.runner(SKIPS.behaviour(Behaviour::ContinueOnShutdown)));
    let inner = environment.main_runner();
    runner.post(move || inner.post(|| {}).unwrap()).unwrap(); // by a worker
    environment.flush();
    main.post_delayed(|| {}, Duration::from_micros(5)).unwrap();
    environment.fast_forward_by(2 * SECOND);
    environment.shutdown();
    let expected = "policy none|2 post 0 11 0 ok|policy all|1 take 0 11 0|tick 0|1 block 0 may|1 unblock 0|1 end 0 1|idle|\
        post 1 6 0 ok|1 take 1 6 0|1 main 2 0 0 ok|1 end 1 1|idle|tick 0|main 3 0 5 ok|maintake 2 0 0|mainend 2 1|mainnone|idle|\
        tick 5|maintake 3 0 1|mainend 3 2|mainnone|idle|tick 2000000|mainnone|idle|shutdown|done|";
    let recording = environment.recording().unwrap();
    let entries =
        recording.lines().skip_while(|line| *line != "taskenv log 2").skip(1).take_while(|line| !line.starts_with("total "));
    let told: String = entries
        .map(|line| line.split_once(' ').unwrap().1)
        .map(|line| format!("{}|", line.strip_prefix("0 ").unwrap_or(line)))
        .collect();
    assert_eq!(told, expected);
}

/// A run that is the same each time: its one worker is at work only while the main thread waits.
fn recording_of_a_run(record: Record) -> String {
    let environment = small(1).posts(16).mock_clock().record(record).open().unwrap();
    let handle = environment.handle().clone();
    let sequence = environment.sequenced_runner(SKIPS).unwrap();
    for _ in 0..3 {
        let main = environment.main_runner();
        sequence.post(move || _ = main.post_delayed(|| {}, MILLISECOND).unwrap()).unwrap();
        environment.flush();
    }
    environment.run_until_idle();
    drop(environment);
    handle.recording().unwrap()
}

#[test]
fn the_last_entries_are_kept() {
    let whole = recording_of_a_run(Record::All);
    let (plan, log) = whole.split_once("%%\n").unwrap();
    let lines: Vec<&str> = log.lines().collect();
    let entries = &lines[1..lines.len() - 1];
    let count = entries.len();
    assert_eq!(lines[count + 1], format!("total {count}"));
    for last in [0, 1, 7, count - 1, count, count + 1, 1000] {
        let told = recording_of_a_run(Record::Last(last));
        let mut tail = format!("{plan}%%\ntaskenv last {last} of {count} entries\n");
        entries[count - last.min(count)..].iter().for_each(|line| tail += &format!("{line}\n"));
        assert_eq!(told, if last < count { tail } else { whole.clone() });
        if let Some(folder) = std::env::var_os("TASKENV_LOGS") {
            let ending = if last < count { "refused" } else { "open" };
            std::fs::write(std::path::Path::new(&folder).join(format!("last-{last}.{ending}")), told).unwrap();
        }
    }
}

#[test]
fn the_last_entries_tell_of_a_panic() {
    let (handle, told) = (Arc::new(OnceLock::<Handle>::new()), Arc::new(Mutex::new(String::new())));
    let (asks, tells) = (Arc::clone(&handle), Arc::clone(&told));
    let handler = move |_| *tells.lock().unwrap() = asks.get().unwrap().recording().unwrap(); // the lock is free
    let environment = small(1).record(Record::Last(4)).on_panic(handler).open().unwrap();
    handle.set(environment.handle().clone()).ok().unwrap();
    for number in 0..6 {
        environment.post(SKIPS, move || assert!(number < 5)).unwrap();
        environment.flush();
    }
    // The fifth task, what the main thread waited for, and the sixth: it was taken, and had not ended.
    let told = told.lock().unwrap();
    let (_, log) = told.split_once("%%\n").unwrap();
    assert_eq!(log, "taskenv last 4 of 22 entries\n18 1 end 4 1\n19 0 idle\n20 0 post 5 8 0 ok\n21 1 take 5 8 0\n");
}

#[test]
fn two_environments_live_side_by_side() {
    let (one, two) = (open(small(2)), open(small(2)));
    let (ran, first, second) = (Arc::new(AtomicU64::new(0)), one.runner(SKIPS), two.sequenced_runner(SKIPS).unwrap());
    let counts = || {
        let ran = Arc::clone(&ran);
        move || _ = ran.fetch_add(1, SeqCst)
    };
    let (back, last, middle) = (first.clone(), counts(), counts());
    let bounce = move || {
        back.post(last).unwrap();
        middle();
    };
    let start = counts();
    first
        .post(move || {
            second.post(bounce).unwrap();
            start();
        })
        .unwrap();
    until(|| ran.load(SeqCst) == 3);
    let (there, inner) = (two.main_runner(), counts());
    one.main_runner().post(move || there.post(inner).unwrap()).unwrap();
    one.run_until_idle();
    two.run_until_idle();
    assert_eq!(ran.load(SeqCst), 4);
}

#[test]
fn handles_may_be_sent() {
    fn may_be_sent<T: Send + Sync>() {}
    may_be_sent::<Handle>();
    may_be_sent::<Runner>();
    may_be_sent::<Sequence<std::cell::Cell<u32>>>(); // the state is sent, and never shared
    may_be_sent::<taskenv::MainQueue>();
    may_be_sent::<taskenv::Voter>();
    may_be_sent::<taskenv::Job>();
    may_be_sent::<JobSlots>();
    may_be_sent::<taskenv::JobHandle>();
    may_be_sent::<taskenv::DelayedTask>();
    may_be_sent::<taskenv::Quit>();
}
