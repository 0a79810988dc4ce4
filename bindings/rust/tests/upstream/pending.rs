//! The registry of durability debt.
use crate::block_on;
use blobcrash::{Error, Generation, Pending};
use std::pin::pin;
use std::task::{Context, Poll, Waker};
use std::thread;

const NEW: bool = false;
const EXISTING: bool = true;

/// An open of the one name of these tests, and whether it owes.
fn admitted(pending: &Pending, existing: bool) -> Result<(Generation, bool), Error> {
    let (generation, _, owes) = pending.admit("a", b"1", existing)?;
    Ok((generation, owes))
}

fn is_open(pending: &Pending) -> bool {
    match admitted(pending, EXISTING) {
        Err(Error::BlobAlreadyOpen(partition, name)) => partition == "a" && name == "31",
        _ => false,
    }
}

/// The counterparts pause a thread while the registry is locked and the last owner of an open drops it. Here the two threads race.
fn check_last_generation_drop(settles: bool) {
    for _ in 0..64 {
        let pending = Pending::new().unwrap();
        let (generation, _) = admitted(&pending, NEW).unwrap();
        assert!(is_open(&pending));
        let sender = settles.then(|| generation.release().unwrap().unwrap());
        let observer = {
            let pending = pending.clone();
            thread::spawn(move || match sender {
                Some(sender) => pending.settle(sender, false, None),
                None => while is_open(&pending) {},
            })
        };
        let dropper = thread::spawn(move || drop(generation));
        drop(pending.admit("independent", b"2", NEW).unwrap());
        observer.join().unwrap();
        dropper.join().unwrap();
        assert!(!pending.keeps("a", b"1") && !pending.keeps("independent", b"2"));
    }
}

#[test]
fn test_last_generation_drop_during_settle() {
    check_last_generation_drop(true);
}

#[test]
fn test_last_generation_drop_during_admit() {
    check_last_generation_drop(false);
}

#[test]
fn test_wait_observes_settling_predecessor() {
    let pending = Pending::new().unwrap();
    let (generation, predecessor, owes) = pending.admit("a", b"1", NEW).unwrap();
    assert!(!owes && predecessor.is_none());
    let sender = generation.release().unwrap().unwrap();
    drop(generation);
    let (generation, predecessor, owes) = pending.admit("a", b"1", EXISTING).unwrap();
    assert!(owes);
    let predecessor = predecessor.unwrap();
    let mut waiter = pin!(predecessor.clone());
    let mut context = Context::from_waker(Waker::noop());
    assert_eq!(waiter.as_mut().poll(&mut context), Poll::Pending);
    pending.settle(sender, false, None);
    assert_eq!(waiter.as_mut().poll(&mut context), Poll::Ready(()));
    block_on(predecessor);
    assert_eq!(generation.debt(), Ok(false));
    drop(generation);
    assert!(!pending.keeps("a", b"1"));
}

/// A thread that waits is woken.
#[test]
fn a_settlement_wakes_a_waiting_thread() {
    struct Unpark(thread::Thread);
    impl std::task::Wake for Unpark {
        fn wake(self: std::sync::Arc<Self>) {
            self.0.unpark();
        }
    }
    let pending = Pending::new().unwrap();
    let (first, _) = admitted(&pending, NEW).unwrap();
    let sender = first.release().unwrap().unwrap();
    drop(first);
    let (_second, predecessor, _) = pending.admit("a", b"1", EXISTING).unwrap();
    let waiting = thread::spawn(move || {
        let waker = Waker::from(std::sync::Arc::new(Unpark(thread::current())));
        let mut waiter = pin!(predecessor.unwrap());
        let mut context = Context::from_waker(&waker);
        while waiter.as_mut().poll(&mut context).is_pending() {
            thread::park();
        }
    });
    pending.settle(sender, false, None);
    waiting.join().unwrap();
}

#[test]
fn test_debt_is_established_by_the_next_open() {
    let pending = Pending::new().unwrap();
    let (first, _) = admitted(&pending, NEW).unwrap();
    let sender = first.release().unwrap().unwrap();
    drop(first);
    pending.settle(sender, true, None);
    assert!(pending.keeps("a", b"1"));

    let (second, predecessor, owes) = pending.admit("a", b"1", EXISTING).unwrap();
    assert!(predecessor.is_none() && owes);
    assert_eq!(second.debt(), Ok(true));
    let sender = second.release().unwrap().unwrap();
    drop(second);
    pending.settle(sender, false, None);
    let (third, owes) = admitted(&pending, EXISTING).unwrap();
    assert!(owes);
    assert_eq!(third.debt(), Ok(true));
    third.clear(Ok(()));
    assert_eq!(third.debt(), Ok(false));
    drop(third);
    assert!(!pending.keeps("a", b"1"));
}

#[test]
fn test_failures_stay_until_forgotten() {
    let pending = Pending::new().unwrap();

    // One that a settlement leaves refuses later opens.
    let (generation, _) = admitted(&pending, NEW).unwrap();
    let sender = generation.release().unwrap().unwrap();
    pending.settle(sender, false, Some(Error::Closed));
    drop(generation);
    for _ in 0..2 {
        assert_eq!(admitted(&pending, EXISTING).err(), Some(Error::Closed));
    }
    pending.forget("a", Some(b"1"));

    // One of the establishment of debt too, and a success doesn't end it.
    let (generation, _) = admitted(&pending, NEW).unwrap();
    generation.clear(Err(Error::ReadFailed));
    assert_eq!(generation.debt(), Err(Error::ReadFailed));
    generation.clear(Ok(()));
    assert_eq!(generation.debt(), Err(Error::ReadFailed));
    drop(generation);
    assert_eq!(admitted(&pending, EXISTING).err(), Some(Error::ReadFailed));

    // And one of a creation.
    pending.forget("a", Some(b"1"));
    let (generation, _) = admitted(&pending, NEW).unwrap();
    generation.fail(Error::WriteFailed);
    drop(generation);
    assert_eq!(admitted(&pending, EXISTING).err(), Some(Error::WriteFailed));
    pending.forget("a", Some(b"1"));
    drop(admitted(&pending, NEW).unwrap());
    assert!(!pending.keeps("a", b"1"));
}

#[test]
fn test_stale_settlement_leaves_a_recreated_name_alone() {
    let pending = Pending::new().unwrap();
    let (old, _) = admitted(&pending, NEW).unwrap();
    let stale = old.release().unwrap().unwrap();
    pending.forget("a", Some(b"1"));
    let (current, owes) = admitted(&pending, NEW).unwrap();
    assert!(!owes);

    pending.settle(stale, true, Some(Error::Closed));
    assert!(old.release().unwrap().is_none());
    old.clear(Err(Error::Closed));
    assert_eq!(current.debt(), Ok(false));
    drop(old);
    let sender = current.release().unwrap().unwrap();
    drop(current);
    pending.settle(sender, false, None);
    assert!(!pending.keeps("a", b"1"));
}

#[test]
fn test_live_open_refuses_a_second_admit() {
    let pending = Pending::new().unwrap();
    let first = admitted(&pending, NEW).unwrap();
    assert!(is_open(&pending));
    drop(first);
    drop(admitted(&pending, EXISTING).unwrap());
}

#[test]
fn test_generations_retire_and_release_clean_entries() {
    let pending = Pending::new().unwrap();
    let (first, _) = admitted(&pending, NEW).unwrap();
    let sender = first.release().unwrap().unwrap();
    drop(first);
    assert!(pending.keeps("a", b"1"));
    pending.settle(sender, false, None);
    assert!(!pending.keeps("a", b"1"));

    for name in 0..128_u64 {
        let name = name.to_be_bytes();
        drop(pending.admit("clean", &name, NEW).unwrap());
        assert!(!pending.keeps("clean", &name));
    }
}
