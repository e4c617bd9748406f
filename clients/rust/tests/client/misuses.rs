//! Misuse: what types can't refuse is refused, or has no effect, and breaks nothing.

use crate::{BLOCKS, SKIPS, Seen, open, panics, slots, small, until};
use std::cell::RefCell;
use std::process::{Command, Output};
use std::rc::Rc;
use std::sync::Arc;
use std::sync::atomic::{AtomicUsize, Ordering::SeqCst};
use std::thread;
use std::time::Duration;
use taskenv::{
    Behaviour, Environment, FenceAt, Handle, JobReply, JobSlots, JobTraits, NoRoom, OpenError, Policy, Priority, Record, Refused,
};
use taskenv::{RunLoop, Runner, Traits};

const SECOND: Duration = Duration::from_secs(1);
const HOUR: Duration = Duration::from_secs(3600);

/// Whether the runner refuses all posts for this reason, and destroys what was posted.
fn refuses(runner: &Runner, why: Refused) -> bool {
    let owned = Arc::new(());
    let (one, two, three) = (Arc::clone(&owned), Arc::clone(&owned), Arc::clone(&owned));
    let posts = [
        runner.post(move || drop(one)).err(),
        runner.post_delayed(move || drop(two), SECOND).err(),
        runner.post_and_reply(|| (), runner, move |()| drop(three)).err(),
    ];
    posts == [Some(why); 3] && Arc::strong_count(&owned) == 1
}

#[test]
fn posts_after_shutdown() {
    let (environment, three) = (open(small(2)), JobTraits::of_items(3));
    let handle: Handle = environment.handle().clone();
    let sequence = handle.sequence(BLOCKS, 0).unwrap();
    let runners = [handle.runner(BLOCKS), sequence.runner().clone(), handle.main_runner()];
    let (queue, owned) = (handle.make_main_queue(1).unwrap(), Arc::new(()));
    let held = Arc::clone(&owned);
    let delayed = runners[0].post_delayed(move || drop(held), HOUR).unwrap();
    let quit = RunLoop::new(&environment).quit();
    environment.shutdown();
    let all_refuse = || runners.iter().all(|runner| refuses(runner, Refused::ShutDown));
    assert!(all_refuse() && Arc::strong_count(&owned) == 1 && !delayed.cancel() && !delayed.is_waiting());
    thread::scope(|scope| scope.spawn(|| assert!(all_refuse())).join()).unwrap();

    let reply = handle.take_job(three).unwrap().run(&environment, |_| unreachable!());
    assert_eq!(reply, JobReply::Refused);
    let job = handle.post_job(three, |_| unreachable!()).unwrap();
    assert_eq!(job.join(&environment), None);
    job.cancel_and_wait(&environment);
    quit.quit();
    environment.flush();
    environment.run_until_idle(); // though it was poked
    handle.sequenced_runner(Traits::new().priority(Priority::BestEffort)).unwrap();
    drop(environment);

    // The environment is gone, and its handles are still there.
    assert!(all_refuse() && !delayed.cancel() && sequence.post(|state| *state += 1) == Err(Refused::ShutDown));
    assert_eq!(handle.post(SKIPS, || {}), Err(Refused::ShutDown));
    queue.insert_fence(FenceAt::Now);
    queue.close();
    queue.create_voter().unwrap().vote(false);
    handle.make_main_queue(0).unwrap().set_class(3);
    handle.set_policy(Policy::None);
    sequence.runner().update_priority(Priority::BestEffort);
    handle.post_job(three, |_| unreachable!()).unwrap().cancel();
    drop(handle.take_job(three));
    job.cancel();
    quit.quit();
    assert!(!sequence.runner().runs_tasks_in_current_sequence());
}

#[test]
fn time_ends_with_shutdown() {
    let environment = open(small(1).mock_clock());
    environment.runner(SKIPS).post_delayed(|| {}, SECOND).unwrap();
    environment.main_runner().post(|| {}).unwrap();
    environment.shutdown();
    environment.fast_forward_by(10 * SECOND);
    environment.run_until_idle();
    assert_eq!(environment.now(), 10 * SECOND);
}

/// Posts when it is dropped, and counts what comes of it.
struct Poster(Runner, Arc<[AtomicUsize; 2]>);

impl Drop for Poster {
    fn drop(&mut self) {
        let refused = self.0.post(|| {}).is_err();
        self.1[usize::from(refused)].fetch_add(1, SeqCst);
    }
}

/// A closure that has one, and drops it with its own end.
fn posts_last(runner: &Runner, counts: &Arc<[AtomicUsize; 2]>) -> impl FnOnce() + Send + 'static {
    let owned = Poster(runner.clone(), Arc::clone(counts));
    move || drop(owned)
}

#[test]
fn posts_from_drop() {
    let counts = Arc::new([AtomicUsize::new(0), AtomicUsize::new(0)]);
    let both = || [counts[0].load(SeqCst), counts[1].load(SeqCst)];
    let environment = open(small(2));
    for runner in [environment.sequenced_runner(SKIPS).unwrap(), environment.main_runner(), environment.runner(SKIPS)] {
        runner.post(posts_last(&runner, &counts)).unwrap(); // at the end of its task
        environment.run_until_idle();
        assert!(runner.post_delayed(posts_last(&runner, &counts), HOUR).unwrap().cancel()); // where it is cancelled
        runner.post_delayed(posts_last(&runner, &counts), HOUR).unwrap(); // where shutdown drops it
    }
    let queue = environment.make_main_queue(1).unwrap();
    queue.runner().post(posts_last(&queue.runner(), &counts)).unwrap();
    queue.close(); // where its queue drops it
    assert_eq!(both(), [6, 1]);
    environment.run_until_idle();
    let late = posts_last(&queue.runner(), &counts);
    drop(environment);
    assert_eq!(both(), [6, 4]);
    drop(late); // where the environment is gone
    assert_eq!(both(), [6, 5]);
}

#[test]
fn posts_from_a_threads_last_drops() {
    thread_local!(static LAST: RefCell<Option<Poster>> = const { RefCell::new(None) });
    let counts = Arc::new([AtomicUsize::new(0), AtomicUsize::new(0)]);
    let environment = open(small(2));
    let runner = environment.sequenced_runner(SKIPS).unwrap();
    let (of_thread, of_worker) = (Poster(runner.clone(), Arc::clone(&counts)), Poster(runner.clone(), Arc::clone(&counts)));
    thread::spawn(move || LAST.set(Some(of_thread))).join().unwrap();
    assert_eq!(counts[0].load(SeqCst), 1);
    runner.post(move || LAST.set(Some(of_worker))).unwrap();
    environment.flush();
    drop(environment); // the worker ends after shutdown
    assert_eq!([counts[0].load(SeqCst), counts[1].load(SeqCst)], [1, 1]);
}

#[test]
fn runners_of_another_environment() {
    let (one, two, seen) = (open(small(2)), open(small(2)), Seen::default());
    let there = one.sequenced_runner(SKIPS).unwrap();
    let (runner, sees) = (there.clone(), seen.clone());
    let crosses = move || {
        assert!(!runner.runs_tasks_in_current_sequence());
        let here = runner.clone();
        runner.post(move || sees.see(u64::from(here.runs_tasks_in_current_sequence()))).unwrap();
    };
    two.post(SKIPS, crosses).unwrap();
    let sees = seen.clone();
    two.runner(SKIPS).post_and_reply(|| 2, &there, move |what| sees.see(what)).unwrap();
    two.flush();
    drop(two);
    one.flush();
    let mut all = seen.take();
    all.sort_unstable();
    assert_eq!(all, [1, 2]);
}

#[test]
fn a_task_posts_to_itself_while_shutting_down() {
    fn again(runner: &Runner, left: &Arc<AtomicUsize>) {
        if left.fetch_sub(1, SeqCst) > 1 {
            let (next, count) = (runner.clone(), Arc::clone(left));
            let _ = runner.post(move || again(&next, &count));
        }
    }
    for behaviour in [Behaviour::SkipOnShutdown, Behaviour::BlockShutdown, Behaviour::ContinueOnShutdown] {
        let environment = open(small(2));
        let runner = environment.sequenced_runner(SKIPS.behaviour(behaviour)).unwrap();
        let left = Arc::new(AtomicUsize::new(300));
        again(&runner, &left);
        until(|| left.load(SeqCst) <= 250);
        environment.shutdown();
        assert!(behaviour != Behaviour::BlockShutdown || left.load(SeqCst) == 0);
    }
}

#[test]
fn a_thousand_threads_post() {
    let environment = open(small(4).posts(10_000));
    let (ran, runners) =
        (Arc::new(AtomicUsize::new(0)), [environment.runner(SKIPS), environment.sequenced_runner(SKIPS).unwrap()]);
    thread::scope(|scope| {
        for _ in 0..1000 {
            scope.spawn(|| {
                for runner in runners.iter().cycle().take(10) {
                    let ran = Arc::clone(&ran);
                    runner.post(move || _ = ran.fetch_add(1, SeqCst)).unwrap();
                }
            });
        }
    });
    environment.flush();
    assert_eq!(ran.load(SeqCst), 10_000);
    assert!(refuses(&runners[0], Refused::NoNumberLeft));
}

#[test]
fn more_than_there_is() {
    let environment = open(small(1).posts(10).main_queues(1).voters(1));
    let seen = Seen::default();
    for number in 0..20 {
        assert_eq!(environment.post(BLOCKS, seen.sees(number)).is_ok(), number < 10);
    }
    assert!(environment.posts_left() == 0 && refuses(&environment.main_runner(), Refused::NoNumberLeft));
    environment.make_main_queue(1).unwrap();
    assert_eq!(environment.make_main_queue(1).err(), Some(NoRoom::MainQueues));
    let voter = environment.main_queue().create_voter().unwrap();
    assert_eq!(environment.main_queue().create_voter().err(), Some(NoRoom::Voters));
    drop(voter);
    environment.main_queue().create_voter().unwrap();
    environment.flush();
    assert_eq!(seen.take(), (0..10).collect::<Vec<u64>>());
}

#[test]
fn options_that_are_no_plan() {
    assert!(matches!(small(0).open(), Err(OpenError::NoWorkers)));
    let out_of_range = [
        small(64),
        small(u32::MAX),
        small(2).limits(0, 1),
        small(2).limits(2, 3),
        small(2).background(65),
        small(2).voters(17),
        small(2).jobs([slots(1, 65_537, 32)]),
        small(2).jobs([slots(1, u32::MAX, 32)]),
        small(2).jobs([slots(1, 1, 65)]),
        small(2).jobs([slots(1, 1, 0)]),
    ];
    let too_many = [
        small(2).posts(65_537),
        small(2).posts(u32::MAX),
        small(2).sequenced_runners(u32::MAX),
        small(2).single_thread_runners(u32::MAX),
        small(2).main_queues(256),
        small(2).main_queues(u32::MAX),
        small(2).jobs([JobSlots { of_each: 257, ..slots(1, 1, 1) }]),
        small(2).jobs([JobSlots { of_each: u32::MAX, ..slots(1, 1, 1) }]),
        small(2).jobs([slots(65_536, 65_536, 1); 5]),
    ];
    for (reason, all) in [(5, Vec::from(out_of_range)), (14, Vec::from(too_many))] {
        for builder in all {
            let refusal = builder.open().err().unwrap();
            assert!(
                matches!(&refusal, OpenError::NoPlan { reason: why, line } if *why == reason && !line.is_empty()),
                "{refusal}"
            );
        }
    }
}

#[test]
fn there_is_no_memory_for_a_ring() {
    for entries in [usize::MAX, usize::MAX / 128] {
        assert!(matches!(small(2).record(Record::Last(entries)).open(), Err(OpenError::OutOfMemory)));
    }
}

#[test]
fn calls_that_panic() {
    let (one, two, job) = (open(small(2)), open(small(2)), JobTraits::of_items(1));
    let (first, second) = (one.take_job(job).unwrap(), one.post_job(job, |_| {}).unwrap());
    assert!(panics(|| _ = first.run(&two, |_| {})));
    assert!(panics(|| _ = second.join(&two)));
    assert!(panics(|| second.cancel_and_wait(&two)));
    assert!(panics(|| one.fast_forward_by(SECOND))); // its clock is real
    assert!(panics(|| one.runner(SKIPS).update_priority(Priority::BestEffort)));
    assert!(panics(|| one.main_runner().update_priority(Priority::BestEffort)));
    assert!(panics(|| one.main_queue().set_class(8)));
    assert!(panics(|| _ = one.make_main_queue(8)));
    assert_eq!(second.join(&one), Some(JobReply::Done)); // nothing was changed
}

#[test]
fn main_tasks_do_not_wait_for_themselves() {
    thread_local!(static HERE: RefCell<Option<Rc<Environment>>> = const { RefCell::new(None) });
    let job = JobTraits::of_items(1);
    let environment = Rc::new(small(2).mock_clock().on_panic(|_| unreachable!()).open().unwrap());
    HERE.set(Some(Rc::clone(&environment)));
    let seen = Seen::default();
    let sees = seen.clone();
    let misuses = move || {
        let here = HERE.with_borrow(|here| here.clone().unwrap());
        assert!(panics(|| here.flush()));
        assert!(panics(|| here.run_until_idle()));
        assert!(panics(|| here.fast_forward_by(SECOND)));
        assert!(panics(|| here.shutdown()));
        assert!(panics(|| RunLoop::new(&here).run()));
        assert!(panics(|| _ = here.take_job(job).unwrap().run(&here, |_| unreachable!())));
        let job = here.post_job(job, |_| {}).unwrap(); // kept to the end of this task
        assert!(panics(|| _ = job.join(&here)));
        assert!(panics(|| job.cancel_and_wait(&here)));
        sees.see(1);
    };
    environment.main_runner().post(misuses).unwrap();
    environment.run_until_idle();
    assert_eq!(seen.take(), [1]);
    HERE.set(None);
}

#[test]
fn a_drop_that_panics_goes_to_the_handler() {
    struct Bad;
    impl Drop for Bad {
        fn drop(&mut self) {
            panic!("at its end");
        }
    }
    let caught = Arc::new(AtomicUsize::new(0));
    let counts = Arc::clone(&caught);
    let environment = open(small(2).on_panic(move |_| _ = counts.fetch_add(1, SeqCst)));
    for _ in 0..3 {
        let bad = Bad;
        environment.runner(SKIPS).post_delayed(move || _ = &bad, HOUR).unwrap(); // shutdown drops it
    }
    let bad = Bad;
    environment.post(SKIPS, move || _ = &bad).unwrap();
    environment.flush();
    assert_eq!(caught.load(SeqCst), 1);
    drop(environment);
    assert_eq!(caught.load(SeqCst), 4);
}

/// Has this program run one of the tests below, alone.
fn child(test: &str, before: &str) -> Output {
    let program = std::env::current_exe().unwrap();
    let line = format!("{before} exec \"$0\" --exact misuses::children::{test} --ignored --nocapture --test-threads 1");
    Command::new("sh").arg("-c").arg(line).arg(program).env("RUST_BACKTRACE", "0").output().unwrap()
}

#[test]
fn panics_without_a_handler_end_the_process() {
    assert!(child("nothing_panics", "").status.success());
    let all = ["a_task_panics", "a_main_task_panics", "an_item_panics", "a_handler_panics", "a_main_task_drops_its_environment"];
    for test in all {
        let output = child(test, "");
        let said = String::from_utf8_lossy(&output.stderr).into_owned();
        assert!(output.status.code().is_none() && said.contains(&format!("of {test}")), "{test}: {:?} {said}", output.status);
    }
}

#[test]
fn no_memory_to_open() {
    let mut refused = 0;
    for megabytes in (32..2048).step_by(16) {
        let output = child("opens_or_says_why", &format!("ulimit -v {};", megabytes * 1024));
        match String::from_utf8_lossy(&output.stdout) {
            said if said.contains("it is open") => {
                assert!(refused > 0, "no limit was too low for the core alone");
                return;
            }
            said => refused += usize::from(said.contains("there is no memory for the plan")),
        }
    }
    panic!("no limit is high enough");
}

/// What ends its process, in a process of its own.
mod children {
    use super::*;

    #[test]
    #[ignore = "run by another test"]
    fn nothing_panics() {
        let environment = small(2).open().unwrap();
        environment.post(SKIPS, || {}).unwrap();
        environment.run_until_idle();
    }
    #[test]
    #[ignore = "run by another test"]
    fn a_task_panics() {
        let environment = small(2).open().unwrap();
        environment.post(SKIPS, || panic!("of a_task_panics")).unwrap();
        environment.run_until_idle();
    }
    #[test]
    #[ignore = "run by another test"]
    fn a_main_task_panics() {
        let environment = small(2).open().unwrap();
        environment.main_runner().post(|| panic!("of a_main_task_panics")).unwrap();
        environment.run_until_idle();
    }
    #[test]
    #[ignore = "run by another test"]
    fn an_item_panics() {
        let environment = small(2).open().unwrap();
        environment.take_job(JobTraits::of_items(1)).unwrap().run(&environment, |_| panic!("of an_item_panics"));
    }
    #[test]
    #[ignore = "run by another test"]
    fn a_handler_panics() {
        let environment = small(2).on_panic(|_| panic!("of a_handler_panics")).open().unwrap();
        environment.post(SKIPS, || panic!("first")).unwrap();
        environment.run_until_idle();
    }
    #[test]
    #[ignore = "run by another test"]
    fn a_main_task_drops_its_environment() {
        thread_local!(static HERE: RefCell<Option<Environment>> = const { RefCell::new(None) });
        eprintln!("of a_main_task_drops_its_environment");
        let environment = small(2).on_panic(|_| {}).open().unwrap();
        environment.main_runner().post(|| drop(HERE.take())).unwrap();
        HERE.set(Some(environment));
        // The loop is that of an environment which stays where it is meanwhile.
        HERE.with(|here| {
            let environment: *const Environment = here.borrow().as_ref().unwrap();
            // SAFETY: the process ends before what it points to is gone.
            unsafe { (*environment).run_until_idle() };
        });
    }
    #[test]
    #[ignore = "run by another test"]
    fn opens_or_says_why() {
        match Environment::builder().worker_threads(1).open() {
            Ok(environment) => {
                environment.flush();
                println!("it is open");
            }
            Err(error) => println!("{error}"),
        }
    }
}
