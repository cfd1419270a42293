//! Sessions whose answers are worked out by hand from document 01.

use session::session::answers;

#[track_caller]
fn assert_answers(input: &str, expected: &str) {
    let answers = answers(input.as_bytes());
    assert_eq!(String::from_utf8(answers).expect("text"), expected);
}

/// After an opening that is accepted, lines of `LINE = ANSWER`.
#[track_caller]
fn assert_session(opening: &str, lines: &str) {
    let mut input = format!("{opening}\n");
    let mut expected = String::new();
    for pair in lines.split_terminator('\n') {
        let (line, answer) = pair.split_once(" = ").expect("LINE = ANSWER");
        input += &format!("{line}\n");
        expected += &format!("{answer}\n");
    }
    assert_answers(&input, &expected);
}

#[test]
fn the_example_of_document_01() {
    assert_answers(
        "\
(book 2 4 0)
(at 1000 (put 7 70 (ttl 2 0)))
(at 3000 (get 7))
(at 3000 (due))
",
        "\
(none (thrown 0) (heap 1) (held 1))
(none (thrown 0) (heap 1) (held 0))
(none (thrown 1) (heap 0) (held 0))
",
    );
}

#[test]
fn every_call_and_every_answer() {
    assert_session(
        "(book 3 4 0)",
        "\
(at 0 (put 1 10)) = (none (thrown 0) (heap 0) (held 0))
(at 0 (put 1 11)) = ((value 10) (thrown 0) (heap 0) (held 0))
(at 0 (put 2 20 (ttl 1 500000000))) = (none (thrown 0) (heap 1) (held 1))
(at 0 (get 1)) = ((value 11) (thrown 0) (heap 1) (held 1))
(at 0 (get 9)) = (none (thrown 0) (heap 1) (held 1))
(at 0 (peek 2)) = ((value 20) (thrown 0) (heap 1) (held 1))
(at 1500 (peek 2)) = (none (thrown 0) (heap 1) (held 1))
(at 1499 (has 2)) = (yes (thrown 0) (heap 1) (held 1))
(at 1500 (has 2)) = (no (thrown 0) (heap 1) (held 1))
(at 0 (status 1)) = (immortal (thrown 0) (heap 1) (held 1))
(at 1 (status 2)) = ((live 1499 1500) (thrown 0) (heap 1) (held 1))
(at 1500 (status 2)) = (expired (thrown 0) (heap 1) (held 1))
(at 0 (status 9)) = (missing (thrown 0) (heap 1) (held 1))
(at 0 (ttl 9 1 0)) = (no (thrown 0) (heap 1) (held 1))
(at 0 (ttl 1 1 0)) = (yes (thrown 0) (heap 2) (held 2))
(at 1000 (live)) = ((count 1) (thrown 0) (heap 2) (held 2))
(at 0 (due)) = ((due 1 1000) (thrown 0) (heap 2) (held 2))
(at 999 (drop 1)) = ((value 11) (thrown 0) (heap 2) (held 1))
(at 999 (drop 1)) = (none (thrown 0) (heap 2) (held 1))
(at 0 (due)) = ((due 2 1500) (thrown 1) (heap 1) (held 1))
(at 1500 (purge)) = ((count 1) (thrown 1) (heap 0) (held 0))
(at 1500 (purge)) = ((count 0) (thrown 0) (heap 0) (held 0))
(at 1500 (put 3 30 (ttl 1 0))) = (none (thrown 0) (heap 1) (held 1))
(at 1500 (drop 3)) = ((value 30) (thrown 0) (heap 1) (held 0))
(at 1500 (put 4 40 (ttl 1 0))) = (none (thrown 0) (heap 2) (held 1))
(at 1500 (clear)) = (done (thrown 1) (heap 0) (held 0))
(at 1500 (live)) = ((count 0) (thrown 0) (heap 0) (held 0))
",
    );
}

#[test]
fn b1_to_b5() {
    assert_session(
        "(book 2 4 0)",
        "\
(at 0 (get 7)) = (none (thrown 0) (heap 0) (held 0))
(at 0 (purge)) = ((count 0) (thrown 0) (heap 0) (held 0))
(at 0 (due)) = (none (thrown 0) (heap 0) (held 0))
",
    );
    assert_session(
        "(book 2 4 0)",
        "\
(at 1000 (put 7 70 (ttl 2 0))) = (none (thrown 0) (heap 1) (held 1))
(at 2999 (status 7)) = ((live 1 3000) (thrown 0) (heap 1) (held 1))
(at 3000 (status 7)) = (expired (thrown 0) (heap 1) (held 1))
(at 500 (status 7)) = ((live 2500 3000) (thrown 0) (heap 1) (held 1))
(at 3000 (get 7)) = (none (thrown 0) (heap 1) (held 0))
(at 3000 (status 7)) = (missing (thrown 0) (heap 1) (held 0))
",
    );
    assert_session(
        "(book 2 4 0)",
        "\
(at 0 (put 7 0 (ttl 3 0))) = (none (thrown 0) (heap 1) (held 1))
(at 0 (put 8 0 (ttl 3 0))) = (none (thrown 0) (heap 2) (held 2))
(at 0 (ttl 7 3 0)) = (yes (thrown 0) (heap 3) (held 2))
(at 0 (due)) = ((due 8 3000) (thrown 1) (heap 2) (held 2))
",
    );
    assert_session(
        "(book 2 4 0)",
        "\
(at 0 (put 7 1 (ttl 1 0))) = (none (thrown 0) (heap 1) (held 1))
(at 0 (put 7 2 (ttl 2 0))) = ((value 1) (thrown 0) (heap 2) (held 1))
(at 0 (put 7 3 (ttl 3 0))) = ((value 2) (thrown 2) (heap 1) (held 1))
",
    );
}

#[test]
fn b6_to_b11() {
    // A key pushed off the deck keeps its deadline.
    assert_session(
        "(book 1 4 0)",
        "\
(at 0 (put 7 0 (ttl 0 5000000))) = (none (thrown 0) (heap 1) (held 1))
(at 0 (put 8 0 (ttl 0 100000000))) = (none (thrown 0) (heap 2) (held 2))
(at 10 (live)) = ((count 0) (thrown 0) (heap 2) (held 2))
(at 10 (purge)) = ((count 1) (thrown 1) (heap 1) (held 1))
(at 10 (live)) = ((count 1) (thrown 0) (heap 1) (held 1))
",
    );
    // The third setting renumbers.
    assert_session(
        "(book 3 4 18446744073709551613)",
        "\
(at 0 (put 7 0 (ttl 0 100000000))) = (none (thrown 0) (heap 1) (held 1))
(at 0 (put 8 0 (ttl 0 100000000))) = (none (thrown 0) (heap 2) (held 2))
(at 0 (put 9 0 (ttl 0 100000000))) = (none (thrown 0) (heap 3) (held 3))
(at 0 (due)) = ((due 7 100) (thrown 0) (heap 3) (held 3))
",
    );
    // Below a tick, and yet no zero.
    assert_session(
        "(book 2 4 0)",
        "\
(at 50 (put 7 70 (ttl 0 999999))) = (none (thrown 0) (heap 1) (held 1))
(at 50 (status 7)) = (expired (thrown 0) (heap 1) (held 1))
(at 50 (put 8 80)) = (none (thrown 0) (heap 1) (held 1))
(at 50 (ttl 8 0 999999)) = (no (thrown 0) (heap 1) (held 1))
(at 50 (status 8)) = (missing (thrown 0) (heap 1) (held 1))
",
    );
    assert_session(
        "(book 0 4 0 (ttl 0 5000000))",
        "\
(at 0 (put 7 70)) = (none (thrown 0) (heap 1) (held 1))
(at 0 (status 7)) = (missing (thrown 0) (heap 1) (held 1))
(at 0 (due)) = ((due 7 5) (thrown 0) (heap 1) (held 1))
",
    );
    assert_session(
        "(book 2 4 0)",
        "\
(at 0 (put 7 0 (ttl 18446744073709551 615000000))) = (none (thrown 0) (heap 1) (held 1))
(at 0 (due)) = ((due 7 18446744073709551614) (thrown 0) (heap 1) (held 1))
(at 0 (put 8 0 (ttl 18446744073709551 616000000))) = (none (thrown 0) (heap 2) (held 2))
(at 1 (status 8)) = ((live 18446744073709551613 18446744073709551614) (thrown 0) (heap 2) (held 2))
",
    );
    assert_session(
        "(book 2 1 0)",
        "\
(at 0 (put 7 70 (ttl 1 0))) = (none (thrown 0) (heap 1) (held 1))
(at 0 (put 8 80 (ttl 1 0))) = ((refused 4) (thrown 0) (heap 1) (held 1))
(at 0 (put 7 71 (ttl 1 0))) = ((value 70) (thrown 0) (heap 2) (held 1))
(at 0 (drop 7)) = ((value 71) (thrown 0) (heap 2) (held 0))
(at 0 (put 8 80 (ttl 1 0))) = (none (thrown 2) (heap 1) (held 1))
",
    );
}

/// A default of no ticks is a default: every insert sets a deadline, and is expired at once.
#[test]
fn a_default_lifetime_of_no_ticks() {
    for nanos in [0, 999_999] {
        assert_session(
            &format!("(book 2 1 0 (ttl 0 {nanos}))"),
            "\
(at 9 (put 7 70)) = (none (thrown 0) (heap 1) (held 1))
(at 9 (status 7)) = (expired (thrown 0) (heap 1) (held 1))
(at 9 (put 8 80)) = ((refused 4) (thrown 0) (heap 1) (held 1))
(at 9 (put 7 71)) = (none (thrown 0) (heap 2) (held 1))
(at 9 (get 7)) = (none (thrown 0) (heap 2) (held 0))
",
        );
    }
}

#[test]
fn refusal_1_ends_the_session() {
    for opening in [
        "(book 129 4 0)",
        "(book 18446744073709551615 4 0)",
        "(book 2 0 0)",
        "(book 2 129 0)",
        "(book 2 18446744073709551615 0)",
        "(book 129 129 0)",
        // Before refusal 3.
        "(book 2 0 0 (ttl 0 1000000000))",
    ] {
        let answer = "((refused 1) (thrown 0) (heap 0) (held 0))\n";
        assert_answers(opening, answer);
        assert_answers(&format!("{opening}\n(book 2 4 0)\n(at 0 (due))\n"), answer);
    }
    for opening in ["(book 128 128 0)", "(book 0 1 0)"] {
        assert_session(
            opening,
            "\
(at 0 (live)) = ((count 0) (thrown 0) (heap 0) (held 0))
",
        );
    }
}

#[test]
fn refusal_3() {
    for nanos in ["1000000000", "4294967296", "18446744073709551615"] {
        assert_answers(
            &format!("(book 2 4 0 (ttl 0 {nanos}))\n(at 0 (due))\n"),
            "((refused 3) (thrown 0) (heap 0) (held 0))\n",
        );
        // Also where the lifetime would set no deadline, and before refusal 4.
        assert_session(
            "(book 2 1 0)",
            &format!(
                "\
(at 0 (put 7 70 (ttl 1 0))) = (none (thrown 0) (heap 1) (held 1))
(at 0 (put 8 80 (ttl 0 {nanos}))) = ((refused 3) (thrown 0) (heap 1) (held 1))
(at 0 (ttl 7 0 {nanos})) = ((refused 3) (thrown 0) (heap 1) (held 1))
(at 0 (ttl 9 0 {nanos})) = ((refused 3) (thrown 0) (heap 1) (held 1))
(at 0 (ttl 7 0 999999999)) = (yes (thrown 0) (heap 2) (held 1))
"
            ),
        );
    }
}

/// It is due only where the call would set a deadline.
#[test]
fn refusal_4() {
    assert_session(
        "(book 2 1 0)",
        "\
(at 0 (put 7 70 (ttl 1 0))) = (none (thrown 0) (heap 1) (held 1))
(at 0 (put 8 80)) = (none (thrown 0) (heap 1) (held 1))
(at 0 (ttl 8 1 0)) = ((refused 4) (thrown 0) (heap 1) (held 1))
(at 0 (ttl 8 0 1000000)) = ((refused 4) (thrown 0) (heap 1) (held 1))
(at 0 (ttl 9 1 0)) = (no (thrown 0) (heap 1) (held 1))
(at 0 (put 8 81 (ttl 0 1))) = ((refused 4) (thrown 0) (heap 1) (held 1))
(at 0 (peek 8)) = ((value 80) (thrown 0) (heap 1) (held 1))
(at 0 (put 8 81 (ttl 0 0))) = ((value 80) (thrown 0) (heap 1) (held 1))
(at 0 (status 8)) = (missing (thrown 0) (heap 1) (held 1))
(at 0 (put 8 82)) = (none (thrown 0) (heap 1) (held 1))
(at 0 (ttl 8 0 999999)) = (no (thrown 0) (heap 1) (held 1))
(at 1000 (ttl 7 1 0)) = (no (thrown 0) (heap 1) (held 0))
",
    );
    // An expired deadline is held until something drops it.
    assert_session(
        "(book 2 1 0 (ttl 1 0))",
        "\
(at 0 (put 7 70)) = (none (thrown 0) (heap 1) (held 1))
(at 9999 (put 8 80)) = ((refused 4) (thrown 0) (heap 1) (held 1))
(at 9999 (purge)) = ((count 1) (thrown 1) (heap 0) (held 0))
(at 9999 (put 8 80)) = (none (thrown 0) (heap 1) (held 1))
",
    );
}

/// A line that is no form is refused, and the session goes on with its book.
#[test]
fn refusal_6_within_a_session() {
    let long = format!("(at 0 (put 7 70)){}", " ".repeat(184));
    assert_eq!(long.len(), 201);
    for line in [
        "",
        " ",
        "(book 2 4 0)",
        "(at 0 (put 7 70)",
        "(at 0 (put 7 70)))",
        "at 0 (put 7 70))",
        " (at 0 (put 7 70))",
        "(at 0 (put 7 70)) ",
        "(at 0 (put 7 70))\r",
        "(at 0 (put 7 70))\0",
        "(at 0  (put 7 70))",
        "(at 0 (put 7\t70))",
        "(at 00 (put 7 70))",
        "(at 0 (put 07 70))",
        "(at 0 (put +7 70))",
        "(at 0 (put 7))",
        "(at 0 (put 7 70 71))",
        "(at 0 (put 18446744073709551616 70))",
        "(at 0 (put 7 70 (ttl 1)))",
        "(at 0 (put 7 70 ttl 1 0))",
        "(at 0 (put 7 70 (ttl 1 0) ))",
        "(at 0 (PUT 7 70))",
        "(AT 0 (put 7 70))",
        "(at 0 (touch 7))",
        "(at 0 (expirations))",
        "(at 0 (purge 1))",
        "(at (put 7 70))",
        "(at 0 put 7 70)",
        "(at 0 (put 7 70))(at 0 (put 7 70))",
        "(at 0 (put 7 ７))",
        &long[..200],
        &long,
    ] {
        assert_session(
            "(book 2 4 0)",
            &format!(
                "\
(at 0 (put 5 50 (ttl 1 0))) = (none (thrown 0) (heap 1) (held 1))
{line} = ((refused 6) (thrown 0) (heap 1) (held 1))
(at 0 (live)) = ((count 1) (thrown 0) (heap 1) (held 1))
"
            ),
        );
    }
}

#[test]
fn refusal_6_as_the_first_line_ends_the_session() {
    for line in [
        "",
        "(at 0 (due))",
        "(book 2 4)",
        "(book 2 4 0 0)",
        "(book 2 4 0 (ttl 1))",
        "(book 2 4 0 ttl 1 0)",
        "(book 2 4 0)\r",
        "(book 02 4 0)",
        "(book 2 4 18446744073709551616)",
        "(Book 2 4 0)",
        "# a day at the bench",
    ] {
        assert_answers(
            &format!("{line}\n(book 2 4 0)\n(at 0 (due))\n"),
            "((refused 6) (thrown 0) (heap 0) (held 0))\n",
        );
    }
}

/// Its end, which by itself would be a call, is no line of its own.
#[test]
fn a_line_that_is_too_long_is_one_line() {
    for length in [121, 199, 200, 201, 202, 4096, 65_536, 200_000] {
        let line = format!("{}(at 0 (put 7 70))", "0".repeat(length - 17));
        assert_session(
            "(book 2 4 0)",
            &format!(
                "\
{line} = ((refused 6) (thrown 0) (heap 0) (held 0))
(at 0 (live)) = ((count 0) (thrown 0) (heap 0) (held 0))
"
            ),
        );
    }
}

/// The longest has 121 bytes, though it can only be refused.
#[test]
fn the_longest_forms() {
    let max = u64::MAX;
    let longest = format!("(at {max} (put {max} {max} (ttl {max} {max})))");
    assert_eq!(longest.len(), 121);
    assert_session(
        &format!("(book 128 128 {max})"),
        &format!(
            "\
{longest} = ((refused 3) (thrown 0) (heap 0) (held 0))
(at {max} (put {max} {max} (ttl {max} 999999999))) = (none (thrown 0) (heap 1) (held 1))
(at 0 (due)) = ((due 18446744073709551615 18446744073709551614) (thrown 0) (heap 1) (held 1))
"
        ),
    );
}

#[test]
fn the_last_newline_may_be_missing() {
    assert_answers("", "");
    assert_answers("(book 2 4 0)", "");
    assert_answers("(book 2 4 0)\n", "");
    assert_answers(
        "(book 2 4 0)\n(at 0 (due))",
        "(none (thrown 0) (heap 0) (held 0))\n",
    );
    assert_answers(
        "(book 2 4 0)\n(at 0 (due)",
        "((refused 6) (thrown 0) (heap 0) (held 0))\n",
    );
    assert_answers(
        "(book 2 4 0",
        "((refused 6) (thrown 0) (heap 0) (held 0))\n",
    );
    assert_answers("\n", "((refused 6) (thrown 0) (heap 0) (held 0))\n");
}
