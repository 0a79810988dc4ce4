//! Pushed words, and the record of all calls.
use blobcrash::{
    Config, Error, PartialWriteMode, Probability, ResizeConfig, Store, WriteConfig, WriteOptions,
    run_script,
};

const TRUE: u64 = 0;
const FALSE: u64 = u64::MAX;

fn half() -> Probability {
    Probability::new(1, 2).unwrap()
}

fn scans_fail(store: &Store) -> bool {
    store.scan("p") == Err(Error::Injected)
}

#[test]
fn pushed_words_come_before_the_others() {
    let scans = Config::default().scan(half());
    let store = Store::builder().config(scans).pushed().open().unwrap();
    assert_eq!(store.words_left(), Some(1));
    store.push_words(&[FALSE, TRUE]).unwrap();
    assert_eq!(store.words_left(), Some(3));
    assert!(!scans_fail(&store));
    store.push_words(&[FALSE, FALSE]).unwrap();
    assert!(!scans_fail(&store) && !scans_fail(&store) && scans_fail(&store));
    store.push_words(&[]).unwrap();
    let script = store.script();
    let expected = format!("words {FALSE} {FALSE} {FALSE} 0 1\nconfig scan 1 2\n");
    assert_eq!(script, expected + &"scan p\n".repeat(4));
    let replies = String::from_utf8(run_script(script.as_bytes()).unwrap()).unwrap();
    let refusals: Vec<bool> = replies
        .lines()
        .skip(1)
        .map(|line| line == "error Injected")
        .collect();
    assert_eq!(refusals, [false, false, false, true]);
    // The last word is true for a rate of 1/2, and then no word is left.
    assert!(scans_fail(&store));
    assert!(matches!(store.push_words(&[TRUE]), Err(Error::Argument(_))));
}

#[test]
fn many_words_are_pushed_before_the_others() {
    let scans = Config::default().scan(half());
    let store = Store::builder().config(scans).pushed().open().unwrap();
    for word in 1..1000 {
        store.push_words(&[word, FALSE]).unwrap();
    }
    assert!(scans_fail(&store) && !scans_fail(&store));
    store.push_words(&[5]).unwrap();
    let left: String = (1..999)
        .rev()
        .map(|word| format!("{word} {FALSE} "))
        .collect();
    let words = format!("words 999 {FALSE} 5 {left}1\n");
    assert_eq!(store.script(), words + "config scan 1 2\nscan p\nscan p\n");
}

#[test]
fn words_are_pushed_into_a_store_that_is_made_for_it() {
    for builder in [
        Store::builder(),
        Store::builder().seed(7),
        Store::builder().words(&[1]),
    ] {
        let store = builder.open().unwrap();
        assert!(matches!(store.push_words(&[TRUE]), Err(Error::Argument(_))));
    }
    for builder in [Store::builder().seed(7), Store::builder().words(&[1])] {
        let refused = builder.pushed().open();
        assert!(matches!(refused, Err(Error::Argument(_))), "{refused:?}");
    }
    assert_eq!(Store::builder().seed(7).open().unwrap().words_left(), None);
    let given = Store::builder().words(&[0, 5, 0]).open().unwrap();
    assert_eq!(given.words_left(), Some(2));
    let unrecorded = Store::builder().pushed().unrecorded().open().unwrap();
    assert_eq!(unrecorded.push_words(&[TRUE]), Ok(()));
    assert_eq!(
        (unrecorded.words_left(), unrecorded.script().as_str()),
        (Some(2), "")
    );
}

#[test]
fn a_configuration_follows_lines() {
    let store = Store::builder().seed(7).open().unwrap();
    let all = Config::default()
        .open(half())
        .read(half())
        .sync(half())
        .remove(half())
        .scan(half())
        .write(WriteConfig {
            failure_rate: Probability::ZERO,
            retention_rate: half(),
            mode: PartialWriteMode::Sectors(9),
        })
        .resize(ResizeConfig {
            failure_rate: half(),
            partial_rate: Probability::ONE,
        });
    store.configure(all).unwrap();
    let lines = "config clear\nconfig open 1 2\nconfig read 1 2\nconfig sync 1 2\nconfig remove 1 2\nconfig scan 1 2\n\
                 config write 0 1 1 2 sectors 9\nconfig resize 1 2 1 1\n";
    assert_eq!(store.script(), format!("seed 7\n{lines}"));
    let refused = all.write(WriteConfig {
        failure_rate: Probability::ONE,
        retention_rate: Probability::ONE,
        mode: PartialWriteMode::Sectors(0),
    });
    assert!(matches!(store.configure(refused), Err(Error::Argument(_))));
    assert_eq!(store.script(), format!("seed 7\n{lines}"));
}

const CALLS: &str = "image p 69 4357494300000005726177\nseed 7\nconfig scan 1 1\nopen p 62 0 0\nopen p 69 3 5\nloose p 69 0 9\n\
    open ! 62 0 0\nadmit p 69\nwrite 0 0 616263\nwrites 0 3 -\nread 0 1 2\nread 0 1 3\nread 0 0 3\nresize 0 2\nsize 0\n\
    sync 0\nstartsync 0\nfinish 0\nclose 2\nscan p\nconfig clear\nremove p 69\nscan p\n size  0 \n# a note\ncrash\n\
    close 0\nclose 1\nreopen\nremove p\ncrash\nreopen\n";

const REPLIES: &str = "ok\nopened 0 0 0\nopened 1 3 5\nopened 2 3 5\nerror PartitionNameInvalid !\nok\nok\nok\nbytes 6263\n\
    error BlobInsufficientLength\nbytes 616263\nok\nsize 2\nok\nstarted 0\nok\nok\nerror Injected\nok\nok\nnames 62\nsize 2\n\
    crashed\nok\nok\nok\nok\ncrashed\nok\n";

/// Every call of the crate is a line, with the reply of the call, in the order of the calls.
#[test]
fn the_script_has_every_call() {
    let scans = Config::default().scan(Probability::ONE);
    let image = b"CWIC\0\0\0\x05raw";
    let builder = Store::builder().image("p", b"i", image).config(scans);
    let store = builder.seed(7).open().unwrap();
    let (blob, _) = store.open("p", b"b").unwrap();
    let (image, _) = store.open_versioned("p", b"i", 3..=5).unwrap();
    let (loose, _) = store.open_loose("p", b"i", 0..=9).unwrap();
    assert!(store.open("p!", b"b").is_err());
    store.admit("p", b"i").unwrap();
    blob.write_at(0, b"abc", WriteOptions::default()).unwrap();
    blob.write_at(3, b"", WriteOptions::SYNC).unwrap();
    assert_eq!(blob.read_at(1, 2).unwrap(), b"bc");
    assert!(blob.read_at(1, 3).is_err());
    blob.read_at_buf(0, &mut [0; 3]).unwrap();
    blob.resize(2).unwrap();
    assert_eq!(blob.size(), Ok(2));
    blob.sync().unwrap();
    blob.start_sync().unwrap().finish().unwrap();
    drop(loose);
    assert!(scans_fail(&store));
    store.configure(Config::default()).unwrap();
    store.remove("p", Some(b"i")).unwrap();
    assert_eq!(store.scan("p").unwrap(), [b"b"]);
    assert_eq!(store.call(" size  0 ").unwrap(), "size 2");
    store.note("a note");
    store.restart().unwrap();
    store.remove("p", None).unwrap();
    store.crash().unwrap();
    store.reopen().unwrap();
    drop((blob, image));
    assert_eq!(store.script(), CALLS);
    let replies = String::from_utf8(run_script(CALLS.as_bytes()).unwrap()).unwrap();
    assert_eq!(replies, REPLIES);
}
