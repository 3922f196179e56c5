//! Books. What is wanted was worked out by hand from docs/SERVE.md.

use crate::{Book, Error, Options};

const DOCUMENT: &[u8] =
    br#"{"texts":[{"name":"T","text":"abc"}],"statements":[{"text":"T","pattern":"'b'","object":"'X'"}]}"#;

fn opened() -> Book {
    Book::new(DOCUMENT, &Options::default()).expect("a book")
}

fn text_of(bytes: Result<Vec<u8>, Error>) -> String {
    String::from_utf8(bytes.expect("a reply")).expect("UTF-8")
}

#[test]
fn replies_to_lines() {
    let mut book = opened();
    let line = br#"{"id":7,"text":"T","pattern":"'Xc'","object":"'Y'","if_version":1}"#;
    let entry = r#"{"after":"aY","bindings":[],"end":3,"entry":1,"id":7,"matched":true,"start":1,"statement":2,"text":"T","version":1}"#;
    assert_eq!(text_of(book.line(line)), format!("{entry}\n"));
    let changed = "{\"id\":7,\"reason\":\"changed\",\"version\":2}\n";
    assert_eq!(text_of(book.line(line)), changed);
    let read = "{\"name\":\"T\",\"text\":\"aY\",\"version\":2}\n";
    assert_eq!(text_of(book.line(b"{\"read\":\"T\"}\n")), read);
    assert_eq!(text_of(book.line(b"")), "{\"error\":\"not JSON\"}\n");
    let longer = "{\"error\":\"longer than 16777216 bytes\"}\n";
    assert_eq!(text_of(book.line(&vec![b' '; 16_777_217])), longer);
}

#[test]
fn lists_texts_entries_and_refusals() {
    let mut book = opened();
    assert_eq!(
        text_of(book.line(br#"{"text":"U","pattern":"'a'"}"#)),
        "{\"reason\":\"no text\"}\n"
    );
    let entries = r#""entries":[{"after":"aXc","bindings":[],"end":2,"entry":0,"matched":true,"start":1,"statement":1,"text":"T","version":0}]"#;
    let refused = r#""refused":[{"reason":"no text","statement":2}]"#;
    let texts = r#""texts":[{"name":"T","text":"aXc","version":1}]"#;
    let listing = format!("{{{entries},{refused},{texts}}}\n");
    assert_eq!(text_of(book.listing()), listing);
}

#[test]
fn does_a_line_with_a_long_reply_once() {
    let mut book = opened();
    let many = "z".repeat(60_000);
    let line = format!(r#"{{"text":"T","pattern":"'X'","object":"Z","bind":{{"Z":"{many}"}}}}"#);
    assert!(book.line(line.as_bytes()).expect("a reply").len() > 60_000);
    assert!(book.listing().expect("a listing").len() > 120_000);
    let rest = book.line(br#"{"since":2}"#);
    assert_eq!(text_of(rest), "{\"entries\":[]}\n");
}

#[test]
fn refuses_documents_and_limits() {
    let limited = |trials| Options {
        trials,
        ..Options::default()
    };
    for trials in [0, 1_000_000_001] {
        let refused = Book::new(DOCUMENT, &limited(trials)).err();
        assert_eq!(refused, Some(Error::BadLimit(trials)));
    }
    let refused = Book::new(b"[", &Options::default()).err();
    assert_eq!(refused, Some(Error::NoDocument("input: not JSON".into())));
    let mut book = Book::new(DOCUMENT, &limited(2)).expect("a book");
    let refused = "{\"reason\":\"too many trials\"}\n";
    assert_eq!(
        text_of(book.line(br#"{"text":"T","pattern":"'c'"}"#)),
        refused
    );
}

#[test]
fn goes_to_other_threads() {
    let threads: Vec<_> = (0..8)
        .map(|number: usize| {
            let mut book = opened();
            std::thread::spawn(move || {
                for _ in 0..200 {
                    let line =
                        format!(r#"{{"text":"T","pattern":"RPOS(0)","object":"'{number}'"}}"#);
                    book.line(line.as_bytes()).expect("a reply");
                }
                book
            })
        })
        .collect();
    for (number, thread) in threads.into_iter().enumerate() {
        let mut book = thread.join().expect("a thread");
        let text = number.to_string().repeat(200);
        let wanted = format!("{{\"name\":\"T\",\"text\":\"aXc{text}\",\"version\":201}}\n");
        assert_eq!(text_of(book.line(br#"{"read":"T"}"#)), wanted);
    }
}
