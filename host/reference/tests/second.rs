//! The second engine against the steps: on any code that passes the check the same answer, a count
//! of at most 2n for each position, and a workspace within its bound.

use reference::generate::{code, text, Random};
use reference::second::{self, workspace};
use reference::steps::{run, Entry, Lent};

const LENT: Lent = Lent { registers: 64, workspace: usize::MAX / 64 };

#[test]
fn random_code() {
    let mut found = 0;
    for seed in 0..60_000 {
        let random = &mut Random::new(seed);
        let code = code(random);
        let text = text(random, b"ab");
        let start = random.below(text.len() + 1);
        for entry in [Entry::MatchAt, Entry::Search] {
            let main = run(&code, &text, start, LENT, entry).expect("code that passes");
            let second = second::run(&code, &text, start, LENT, entry).expect("code that passes");
            assert_eq!(second.spans, main.spans, "seed {seed}");
            assert!(second.count <= 2 * u64::from(code[0]) * (text.len() - start + 1) as u64);
            found += u32::from(second.spans.is_some());
        }
    }
    assert!(found > 10_000);
}

#[test]
fn both_limits() {
    let code = reference::compile::compile(b"a", 640, 640).expect("a pattern").words();
    let ask = |length: usize, words: usize| {
        let lent = Lent { registers: 2, workspace: words };
        second::run(&code, &vec![b'b'; length], 0, lent, Entry::Search)
            .map_or_else(|e| e.number, |_| 0)
    };
    assert_eq!((ask(4_096, usize::MAX), ask(4_097, usize::MAX)), (0, 21));
    assert_eq!((ask(1, 181), ask(1, 182)), (24, 0));
}

#[test]
fn the_workspace_is_within_its_bound() {
    for n in [8, 9, 100, 1_024] {
        for g in 0..=15 {
            for length in [0, 1, 2, 100, 4_096] {
                assert!(workspace(n, g, length) <= 16 * n * (g + 2) * (length + 1));
            }
        }
    }
}
