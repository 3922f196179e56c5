//! The listings were worked out by hand from docs/FORMAT.md.

use super::*;

const DOCUMENT: &[u8] =
    br#"{"texts":[{"name":"T","text":"abc"}],"statements":[{"text":"T","pattern":"'b'","object":"'X'"}]}"#;
const LISTING: &[u8] =
    b"texts 1\nT 1 |aXc|\nentries 1\n0 statement 1 T 0 matched 1 2\n  -> |aXc|\nrefused 0\n";

fn listed(document: &[u8], options: &Options) -> (String, u8) {
    let listing = rewrite(document, options).expect("a listing");
    let status = listing.status();
    (String::from_utf8(listing.bytes).expect("UTF-8"), status)
}

#[test]
fn lists_a_document() {
    let (text, status) = listed(DOCUMENT, &Options::default());
    assert_eq!((text.as_bytes(), status), (LISTING, 0));
}

#[test]
fn shows_a_listing() {
    let listing = rewrite(DOCUMENT, &Options::default()).expect("a listing");
    assert_eq!(listing.to_string().as_bytes(), LISTING);
}

#[test]
fn lists_as_json() {
    let options = Options {
        json: true,
        ..Options::default()
    };
    let wanted = concat!(
        r#"{"entries":[{"after":"aXc","bindings":[],"end":2,"entry":0,"matched":true,"start":1,"statement":1,"#,
        r#""text":"T","version":0}],"refused":[],"texts":[{"name":"T","text":"aXc","version":1}]}"#,
        "\n"
    );
    assert_eq!(listed(DOCUMENT, &options), (wanted.to_owned(), 0));
}

#[test]
fn anchors() {
    let options = Options {
        anchor: true,
        ..Options::default()
    };
    let wanted = "texts 1\nT 0 |abc|\nentries 1\n0 statement 1 T 0 failed\nrefused 0\n";
    assert_eq!(listed(DOCUMENT, &options), (wanted.to_owned(), 0));
}

#[test]
fn lists_refused_statements() {
    let options = Options {
        trials: 1,
        ..Options::default()
    };
    let wanted = "texts 1\nT 0 |abc|\nentries 0\nrefused 1\nstatement 1 too many trials\n";
    assert_eq!(listed(DOCUMENT, &options), (wanted.to_owned(), 1));
}

#[test]
fn takes_a_second_run_for_a_longer_listing() {
    for room in [0, 1, LISTING.len() - 1, LISTING.len(), LISTING.len() + 1] {
        let listing = rewrite_with_room(DOCUMENT, &Options::default(), room).expect("a listing");
        assert_eq!(listing.bytes, LISTING, "room {room}");
    }
}

#[test]
fn leaves_a_buffer_that_is_too_short() {
    let mut buffer = vec![b'#'; LISTING.len()];
    let room = LISTING.len() - 1;
    let reported = call(DOCUMENT, &Options::default(), &mut buffer[..room]);
    assert_eq!(reported, (TOO_SHORT, LISTING.len()));
    assert_eq!(buffer, vec![b'#'; LISTING.len()]);
}

#[test]
fn reports_the_line_of_a_fault() {
    for document in [b"[".as_slice(), b""] {
        let fault = rewrite(document, &Options::default()).expect_err("a fault");
        assert_eq!(fault, Error::NoDocument("input: not JSON".to_owned()));
        assert_eq!(
            (fault.to_string().as_str(), fault.status()),
            ("input: not JSON", 2)
        );
    }
}

#[test]
fn reports_a_bad_limit() {
    for trials in [0, 1_000_000_001, u32::MAX] {
        let options = Options {
            trials,
            ..Options::default()
        };
        let fault = rewrite(DOCUMENT, &options).expect_err("a fault");
        assert_eq!(
            (fault.clone(), fault.status()),
            (Error::BadLimit(trials), 3)
        );
        assert!(fault.to_string().ends_with(&trials.to_string()));
    }
}

#[test]
fn a_stack_of_two_mebibytes_is_enough_for_a_deep_pattern() {
    // 100 open parentheses and a tree that is 1,000 deep, which are the limits.
    let pattern = format!(
        "{}A{}",
        format!("({}", "A | ".repeat(9)).repeat(100),
        ")".repeat(100)
    );
    let statement = format!(r#"{{"text":"T","pattern":"{pattern}"}}"#);
    let document = format!(
        r#"{{"texts":[{{"name":"T","text":"a"}}],"patterns":[{{"name":"A","pattern":"'a'"}}],"statements":[{statement}]}}"#
    );
    let wanted = "texts 1\nT 0 |a|\nentries 1\n0 statement 1 T 0 matched 0 1\nrefused 0\n";
    let thread = std::thread::Builder::new()
        .stack_size(2 << 20)
        .spawn(move || listed(document.as_bytes(), &Options::default()));
    let found = thread.expect("a thread").join().expect("a listing");
    assert_eq!(found, (wanted.to_owned(), 0));
}

#[test]
fn runs_in_several_threads() {
    std::thread::scope(|scope| {
        for _ in 0..4 {
            scope.spawn(|| {
                for _ in 0..200 {
                    assert_eq!(
                        rewrite(DOCUMENT, &Options::default())
                            .expect("a listing")
                            .bytes,
                        LISTING
                    );
                }
            });
        }
    });
}
