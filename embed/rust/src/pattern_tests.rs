//! What is wanted was worked out by hand from docs/LANGUAGE.md.

use super::*;

const BRACKETS: &str = "SPAN('0123456789') . N = '<' N '>'";

fn spans(pattern: &mut Pattern, bytes: &[u8]) -> Vec<(usize, usize)> {
    let mut text = Text::new(bytes).expect("a text");
    pattern
        .matches(&mut text)
        .map(|found| found.map(|found| (found.start, found.end)))
        .collect::<Result<_, _>>()
        .expect("matches")
}

#[test]
fn finds_all_matches() {
    let mut pattern = Pattern::new(BRACKETS).expect("a pattern");
    assert_eq!(spans(&mut pattern, b"a12b345"), [(1, 3), (4, 7)]);
    assert_eq!(spans(&mut pattern, b"abc"), []);
    assert_eq!(spans(&mut pattern, b""), []);
}

/// The first match is sought alone, and 32 after it at once.
const COUNTS: [usize; 10] = [0, 1, 2, 32, 33, 34, 64, 65, 66, 130];

fn repeated(part: &str, count: usize) -> Vec<u8> {
    part.repeat(count).into_bytes()
}

#[test]
fn finds_many_matches() {
    for count in COUNTS {
        let mut pattern = Pattern::new(BRACKETS).expect("a pattern");
        for rest in ["", "...."] {
            let mut bytes = repeated("7-", count);
            bytes.extend_from_slice(rest.as_bytes());
            let wanted: Vec<_> = (0..count)
                .map(|number| (2 * number, 2 * number + 1))
                .collect();
            assert_eq!(spans(&mut pattern, &bytes), wanted);
            // A pass that is broken off leaves nothing to the next one.
            let mut text = Text::new(&bytes).expect("a text");
            let few = pattern.matches(&mut text).take(3).count();
            assert_eq!(few, count.min(3));
            assert_eq!(spans(&mut pattern, b"a12b345"), [(1, 3), (4, 7)]);
        }
        let mut pattern = Pattern::new("''").expect("a pattern");
        let wanted: Vec<_> = (0..=count).map(|place| (place, place)).collect();
        assert_eq!(spans(&mut pattern, &repeated("-", count)), wanted);
    }
}

#[test]
fn has_the_assignments_of_each_match() {
    let mut pattern = Pattern::new("'a' . A | 'b' . B @C").expect("a pattern");
    let mut text = Text::new(&repeated("ab", 50)).expect("a text");
    let mut places = 0..100;
    for found in pattern.matches(&mut text) {
        let (found, place) = (found.expect("a match"), places.next().expect("a place"));
        let span = Some(Value::Span(place, place + 1));
        let (a, b, cursor) = if place % 2 == 0 {
            (span, None, None)
        } else {
            (None, span, Some(Value::Cursor(place + 1)))
        };
        assert_eq!(found.value("A"), a);
        assert_eq!(found.value("B"), b);
        assert_eq!(found.value("C"), cursor);
    }
    assert!(places.is_empty());
}

#[test]
fn limits_each_search() {
    // For `'b'` a search takes as many trials as there are characters up to the end of the match.
    for (trials, gap) in [(100, 99), (100, 60), (1000, 999)] {
        for count in COUNTS {
            let mut bytes = repeated("b", count);
            for _ in 0..3 {
                bytes.extend(repeated("a", gap));
                bytes.extend(repeated("b", 40));
            }
            let places = (0..bytes.len()).filter(|&place| bytes[place] == b'b');
            let wanted: Vec<_> = places.map(|place| (place, place + 1)).collect();
            let pattern = Pattern::new("'b'").expect("a pattern");
            assert_eq!(spans(&mut pattern.limited(trials), &bytes), wanted);
        }
    }
}

#[test]
fn refuses_the_search_that_takes_too_many_trials() {
    for count in COUNTS {
        let mut bytes = repeated("b", count);
        bytes.extend(repeated("a", 100));
        bytes.extend(repeated("b", 40));
        let mut pattern = Pattern::new("'b'").expect("a pattern").limited(100);
        let mut text = Text::new(&bytes).expect("a text");
        let mut matches = pattern.matches(&mut text);
        for place in 0..count {
            let found = matches.next().expect("a search").expect("a match");
            assert_eq!(found.start, place);
        }
        assert_eq!(matches.next(), Some(Err(Error::TooManyTrials(100))));
        assert_eq!(matches.next(), None);
    }
}

#[test]
fn counts_null_strings() {
    let mut pattern = Pattern::new("SPAN('a') | ''").expect("a pattern");
    assert_eq!(spans(&mut pattern, b"aabab"), [(0, 2), (3, 4), (5, 5)]);
}

#[test]
fn reads_definitions() {
    let definitions = "WORD = SPAN(LETTER)\nPAIR = *WORD '=' *WORD\n";
    let mut pattern = Pattern::with_definitions("*PAIR", definitions).expect("a pattern");
    assert_eq!(spans(&mut pattern, b"a=b 1=2 cc=d"), [(0, 3), (8, 12)]);
}

#[test]
fn has_assignments() {
    let mut pattern = Pattern::new("'a' . FIRST @C 'a' $ SECOND").expect("a pattern");
    let mut text = Text::new(b"aab").expect("a text");
    let found = pattern
        .find_from(&mut text, 0)
        .expect("a search")
        .expect("a match");
    let names: Vec<_> = found
        .assignments
        .iter()
        .map(|one| one.name.as_str())
        .collect();
    assert_eq!(names, ["C", "SECOND", "FIRST"]);
    assert_eq!(found.value("C"), Some(Value::Cursor(1)));
    assert_eq!(found.value("SECOND"), Some(Value::Span(1, 2)));
    assert_eq!(found.value("FIRST"), Some(Value::Span(0, 1)));
    assert_eq!(found.value("THIRD"), None);
}

#[test]
fn seeks_from_a_cursor() {
    let mut pattern = Pattern::new(BRACKETS).expect("a pattern");
    let mut text = Text::new(b"a12b345").expect("a text");
    let found = pattern
        .find_from(&mut text, 5)
        .expect("a search")
        .expect("a match");
    assert_eq!((found.start, found.end, found.next), (5, 7, 7));
    assert_eq!(pattern.find_from(&mut text, 7), Ok(None));
    assert_eq!(pattern.find_from(&mut text, 8), Err(Error::PastEnd));
}

#[test]
fn replaces() {
    let mut pattern = Pattern::new(BRACKETS).expect("a pattern");
    let mut text = Text::new(b"a12b345").expect("a text");
    let wanted = Replaced {
        bytes: b"a<12>b<345>".to_vec(),
        matches: 2,
    };
    assert_eq!(pattern.replace(&mut text), Ok(Some(wanted)));
    assert_eq!(
        pattern.replace(&mut Text::new(b"abc").expect("a text")),
        Ok(None)
    );
    let many = vec![b'7'; 100_000];
    let replaced = pattern.replace(&mut Text::new(&many).expect("a text"));
    let bytes = replaced.expect("a rule").expect("a match").bytes;
    assert_eq!(bytes.len(), 100_002);
}

#[test]
fn refuses() {
    let fault = Pattern::new("LEN(x)").err().expect("a fault");
    assert_eq!(fault.status(), 2);
    assert!(fault
        .to_string()
        .starts_with("statement 1: pattern: bad number at 4\n"));
    let mut text = Text::new(b"aaab").expect("a text");
    for (trials, wanted) in [
        (0, Error::BadLimit(0)),
        (1_000_000_001, Error::BadLimit(1_000_000_001)),
        (3, Error::TooManyTrials(3)),
    ] {
        let mut pattern = Pattern::new("'b' = 'c'")
            .expect("a pattern")
            .limited(trials);
        assert_eq!(pattern.find_from(&mut text, 0), Err(wanted.clone()));
        assert_eq!(pattern.replace(&mut text), Err(wanted.clone()));
        let all: Vec<_> = pattern.matches(&mut text).collect();
        assert_eq!(all, [Err(wanted)]);
    }
    assert_eq!(
        Text::new(&vec![b'a'; 16_777_217]).err(),
        Some(Error::TooLong)
    );
}

#[test]
fn goes_to_other_threads() {
    let threads: Vec<_> = (0..8)
        .map(|number: usize| {
            let mut pattern = Pattern::new(BRACKETS).expect("a pattern");
            std::thread::spawn(move || {
                for turn in 0..200 {
                    let bytes = format!("x{number}y{turn}");
                    assert_eq!(spans(&mut pattern, bytes.as_bytes()).len(), 2);
                }
                pattern
            })
        })
        .collect();
    for thread in threads {
        let mut pattern = thread.join().expect("a thread");
        assert_eq!(spans(&mut pattern, b"1"), [(0, 1)]);
    }
}
