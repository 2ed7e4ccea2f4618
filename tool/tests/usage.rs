//! Command lines that can't be understood, in words and as JSON.

mod common;

use common::qstore;

/// What is wrong, for each line.
const WRONG: [(&[&str], &str); 11] = [
    (&["frob"], "there is no command 'frob'"),
    (&["check"], "check: IMAGE is missing"),
    (&["check", "a", "--frob"], "there is no option '--frob' here"),
    (&["check", "a", "--entries", "1"], "check: --entries is about the check that the file of --s"),
    (&["check", "a", "--state", "s", "--entries", "ten"], "--entries: 'ten' is no number"),
    (&["check", "a", "--state", "s", "--state", "s"], "--state: one file alone can keep a check"),
    (&["map", "a", "--state", "s"], "there is no option '--state' here"),
    (&["read", "a", "ten", "1"], "read: OFFSET: 'ten' is no number"),
    (&["write", "a", "0", "1"], "write: '1' is one operand too many"),
    (&["extend", "a"], "extend: BYTES is missing"),
    (&["extend", "a", "+1M"], "extend: BYTES: '+1M' is no number"),
];

#[test]
fn words() {
    for (line, fault) in WRONG {
        let answer = qstore(line, &[]);
        assert!(answer.exit == 1 && answer.text.is_empty(), "{line:?}");
        assert!(answer.error.starts_with(&format!("qstore: {fault}")), "{}", answer.error);
        assert!(answer.error.ends_with("\nTry 'qstore --help' or 'qstore COMMAND --help'.\n"));
    }
}

#[test]
fn json_whether_it_is_asked_for_before_or_after_the_wrong_word() {
    for (line, fault) in WRONG {
        for at in [0, 1, line.len()] {
            // Before the command there are no options.
            let fault = if at == 0 { "there is no command '--json'" } else { fault };
            let mut line = line.to_vec();
            line.insert(at, "--json");
            let answer = qstore(&line, &[]);
            assert!(answer.exit == 1 && answer.error.is_empty(), "{line:?}");
            assert!(
                answer.text.starts_with(&format!("{{\"failed\": \"{fault}")),
                "{}",
                answer.text
            );
            assert!(answer.text.ends_with("\", \"usage\": true}\n"), "{}", answer.text);
        }
    }
}

#[test]
fn json_as_an_operand_asks_for_nothing() {
    let answer = qstore(&["check", "--", "--json", "b"], &[]);
    assert!(answer.exit == 1 && answer.text.is_empty());
    assert!(answer.error.starts_with("qstore: check: 'b' is one operand too many"));
}
