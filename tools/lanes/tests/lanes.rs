//! The answers are the step program's; the pictures show every call, every box and the holder.

use lanes::last::{holder, Last};
use lanes::picture::picture;
use lanes::replay::{answers, Run};
use std::collections::BTreeSet;
use std::fs;
use std::path::PathBuf;
use std::process::{Command, Output};

fn root() -> PathBuf {
    PathBuf::from(concat!(env!("CARGO_MANIFEST_DIR"), "/../.."))
}

fn bytes(path: &str) -> Vec<u8> {
    fs::read(root().join(path)).unwrap_or_else(|error| panic!("{path}: {error}"))
}

fn read(path: &str) -> String {
    String::from_utf8(bytes(path)).unwrap_or_else(|error| panic!("{path}: {error}"))
}

/// The names of the examples, without ".txt".
fn examples() -> Vec<String> {
    let files = fs::read_dir(root().join("examples")).expect("there are examples");
    let names = files.map(|file| file.expect("readable").file_name().into_string().expect("text"));
    let scripts = names.filter_map(|name| name.strip_suffix(".txt").map(str::to_string));
    scripts.collect()
}

fn example(name: &str) -> String {
    read(&format!("examples/{name}.txt"))
}

/// The first lines of a text.
fn head(text: &str, lines: usize) -> String {
    text.split_inclusive('\n').take(lines).collect()
}

/// The picture of the last calls of a script, well formed.
fn drawn(script: &str, last: usize) -> String {
    let svg = picture("script.txt", &Run::of(script.as_bytes(), last));
    assert!(svg.starts_with("<svg "));
    assert_eq!(fault(&svg), None);
    svg
}

fn whole(script: &str) -> String {
    drawn(script, usize::MAX)
}

/// How many elements of a class there are.
fn count(svg: &str, class: &str) -> usize {
    svg.matches(&format!("class=\"{class}\"")).count()
}

/// The group of a call.
fn call(svg: &str, number: usize) -> &str {
    let start = svg.find(&format!("<title>call {number}: ")).expect("the call is drawn");
    let end = svg[start..].find("</g>").expect("the group ends");
    &svg[start..start + end]
}

fn headline(script: &str) -> Option<String> {
    let last = Last::of(&Run::of(script.as_bytes(), 0));
    holder(&last).map(Last::sentence)
}

/// The first piece of an XML text, a tag and the text behind it, that has a fault; or an element
/// that is never closed.
fn fault(xml: &str) -> Option<&str> {
    let mut open = Vec::new();
    let mut pieces = xml.trim_end().split('<');
    let before = pieces.next().filter(|text| !text.is_empty());
    let wrong = pieces.find(|piece| !fits(piece, &mut open));
    before.or(wrong).or(open.pop())
}

/// A tag that closes what was opened last, with quotes in pairs, and a text inside an element.
fn fits<'a>(piece: &'a str, open: &mut Vec<&'a str>) -> bool {
    let Some((tag, text)) = piece.split_once('>') else { return false };
    let nested = match tag.strip_prefix('/') {
        Some(closed) => open.pop() == Some(closed),
        None => {
            open.extend(tag.split(' ').next().filter(|_| !tag.ends_with('/')));
            true
        }
    };
    let paired = tag.matches('"').count().is_multiple_of(2);
    nested && paired && is_text(text) && (text.is_empty() || !open.is_empty())
}

/// No bare bracket, and no ampersand but those of entities.
fn is_text(text: &str) -> bool {
    let is_entity =
        |part: &str| ["amp;", "lt;", "gt;", "quot;"].iter().any(|e| part.starts_with(e));
    !text.contains('>') && text.split('&').skip(1).all(is_entity)
}

#[test]
fn the_checker_of_xml_sees_faults() {
    assert_eq!(fault("<a b=\"c\"><d/><e>x &amp; y</e></a>\n"), None);
    let crossed = "<a><b></a></b>";
    for bad in
        ["<a>", "<a></b>", crossed, "<a b=\"c></a>", "<a>&</a>", "<a>></a>", "<a", "<a/>x", "x"]
    {
        assert!(fault(bad).is_some(), "{bad}");
    }
}

#[test]
fn answers_are_those_of_the_step_program() {
    let names = examples();
    assert!(names.len() >= 10);
    for name in names {
        assert_eq!(
            answers(example(&name).as_bytes()),
            read(&format!("examples/{name}.out")),
            "{name}"
        );
    }
    assert_eq!(answers(&bytes("crates/step/stdin")), read("crates/step/stdout"));
}

#[test]
fn no_other_line_is_a_form() {
    let digits = "000102030405060708090a0b0c0d0e0f";
    let others = [
        String::new(),
        " ".repeat(81),
        "()".to_string(),
        "(line)".to_string(),
        "begin 0".to_string(),
        "(begin)".to_string(),
        "(begin )".to_string(),
        "(begin 00)".to_string(),
        "(begin +1)".to_string(),
        "(begin -1)".to_string(),
        "(begin 4294967296)".to_string(),
        "(begin 0 1)".to_string(),
        "(begin  0)".to_string(),
        "(begin 0 )".to_string(),
        "(begin 0))".to_string(),
        "(begin 0) ".to_string(),
        " (begin 0)".to_string(),
        "(begin 0)\r".to_string(),
        "(begin\t0)".to_string(),
        "(Begin 0)".to_string(),
        "(trim )".to_string(),
        "(free 0)".to_string(),
        "(set-up 1 1)".to_string(),
        format!("(write 0 1 {})", &digits[1..]),
        format!("(write 0 1 {digits}0)"),
        format!("(write 0 1 {})", digits.to_uppercase()),
    ];
    let script = others.join("\n") + "\n";
    assert_eq!(answers(script.as_bytes()), "(line (refused 13))\n".repeat(others.len()));
    assert_eq!(
        answers(b"\xff\n(trim)\n\n(begin 4294967295)"),
        [
            "(line (refused 13))\n",
            "(trim (refused 2))\n",
            "(line (refused 13))\n",
            "(begin 4294967295 (refused 2))\n",
        ]
        .concat()
    );
}

#[test]
fn a_refused_set_up_keeps_the_store() {
    let script =
        "(set-up 2 1 0)\n(begin 0)\n(set-up 0 1 0)\n(set-up 1025 1 0)\n(set-up 4294967295 1 0)\n\
                  (set-up 2 0 0)\n(set-up 2 1 65)\n(begin 0)\n";
    let refused = "(set-up (refused 1))\n".repeat(5);
    let printed = format!(
        "(set-up (free 2))\n(begin 0 (number 1) (snapshot 0))\n{refused}(begin 0 (refused 5))\n"
    );
    assert_eq!(answers(script.as_bytes()), printed);
}

#[test]
fn every_call_has_a_column_and_every_box_a_lane() {
    for name in examples() {
        let script = example(&name);
        let svg = whole(&script);
        assert_eq!(count(&svg, "call"), script.lines().count(), "{name}");
        let calls = script.lines().filter(|line| !line.starts_with("(set-up"));
        let boxes: BTreeSet<u32> = calls.filter_map(client).filter(|&client| client < 64).collect();
        assert_eq!(count(&svg, "lane"), boxes.len(), "{name}");
        for client in boxes {
            assert!(
                svg.contains(&format!("<g class=\"lane\"><title>box {client}</title>")),
                "{name}"
            );
        }
    }
}

/// The number that a line names first.
fn client(line: &str) -> Option<u32> {
    line.trim_end_matches(')').split(' ').nth(1)?.parse().ok()
}

/// How many boxes are open after each answer, all added up.
fn open_columns(printed: &str) -> usize {
    let mut open = BTreeSet::new();
    let mut sum = 0;
    for line in printed.lines() {
        if line.starts_with("(set-up (free ") {
            open.clear();
        } else if line.contains("(number ") {
            open.extend(client(line));
        } else if ["(done ", "(conflict "].iter().any(|end| line.contains(end))
            || line.starts_with("(abandon ") && line.contains("(free ")
        {
            open.retain(|&one| Some(one) != client(line));
        }
        sum += open.len();
    }
    sum
}

#[test]
fn bars_are_as_long_as_boxes_are_open() {
    for name in examples() {
        let svg = whole(&example(&name));
        let bars = svg.lines().filter(|line| line.starts_with("<rect class=\"pale "));
        let width =
            |line: &str| line.split_once("width=\"")?.1.split('"').next()?.parse::<usize>().ok();
        let sum: usize = bars.filter_map(width).sum();
        assert_eq!(sum, 18 * open_columns(&read(&format!("examples/{name}.out"))), "{name}");
    }
}

#[test]
fn bars_show_the_phase_of_each_stage() {
    let svg = whole(&example("hang"));
    // box 0 goes from stage 1 to stage 13, a stage a call but for a read of box 63
    let calls = (5..19).filter(|&number| number != 13);
    let phases = [("requests", 4), ("checked", 1), ("commits", 5), ("making", 1), ("made", 2)];
    let phases = phases.iter().flat_map(|&(phase, stages)| [phase].repeat(stages));
    for (number, phase) in calls.zip(phases) {
        assert_eq!(count(call(&svg, number), phase), 1, "{number}: {phase}");
    }
}

#[test]
fn arrows_are_as_many_as_the_answers_say() {
    let legend = count(&whole(""), "tip");
    for name in examples() {
        let printed = read(&format!("examples/{name}.out"));
        let figure = |line: &str| {
            line.split_once("(waiting ")?.1.trim_end_matches(')').parse::<usize>().ok()
        };
        let waited: usize = printed.lines().filter_map(figure).sum();
        let conflicts = printed.matches("(conflict ").count();
        assert_eq!(count(&whole(&example(&name)), "tip") - legend, waited + conflicts, "{name}");
    }
}

#[test]
fn calls_are_marked_by_their_answers() {
    let svg = whole(&example("counting"));
    assert_eq!(count(call(&svg, 14), "wait"), 1);
    assert!(call(&svg, 22).contains(">box 0: cell 40</text>"));
    assert_eq!(count(call(&svg, 22), "commit"), 1);
    assert_eq!(count(call(&svg, 24), "check"), 1);
    assert_eq!(count(call(&svg, 26), "cross"), 1);
    let svg = whole(&example("silent"));
    assert_eq!(count(call(&svg, 14), "gone"), 2);
    assert_eq!(count(call(&svg, 53), "stop"), 1);
    assert!(call(&svg, 53).contains(">7</text>"));
    let svg = whole(&example("limit"));
    assert!(call(&svg, 47).contains(">box 63: cells 0 to 15</text>"));
}

#[test]
fn a_conflict_leads_to_the_commit_that_won() {
    let script = example("counting");
    let svg = whole(&script);
    let (_, circle) = call(&svg, 22).split_once("class=\"commit\" cx=\"").expect("its commit");
    let x: i32 = circle[..circle.find('"').expect("a number")].parse().expect("a number");
    assert!(call(&svg, 26).contains(&format!("H{}\"", x + 4)), "a little beside its middle");
    let svg = drawn(&script, 2);
    assert_eq!((count(call(&svg, 26), "lost"), count(call(&svg, 26), "tip")), (1, 0));
}

#[test]
fn the_holder_is_named() {
    let script = example("hang");
    let sentence = "box 2 holds up 0, 1, 3; silent for 30 calls";
    assert_eq!(headline(&script).as_deref(), Some(sentence));
    let svg = whole(&script);
    for said in
        [sentence, "stage 8: holds up 0, 1, 3", "stage 4: waits for 2", "stage 10: waits for 2"]
    {
        assert!(svg.contains(&format!(">{said}</text>")), "{said}");
    }
    assert_eq!(count(&svg, "frame"), 2, "one in its lane, one in the legend");
    // the desk abandons it
    let script = script + "(abandon 2)\n(advance 0)\n(advance 1)\n(advance 3)\n";
    assert_eq!(headline(&script), None);
    assert!(whole(&script).contains(">nobody waits</text>"));
}

#[test]
fn who_waits_for_one_who_waits_is_held_up_too() {
    // box 5 shares a cell with box 1 alone, and box 1 waits for box 2
    let script = head(&example("hang"), 46)
        + "(begin 5)\n(write 5 42 00000000000000000000000000000000)\n"
        + &"(advance 5)\n".repeat(5);
    assert_eq!(headline(&script).as_deref(), Some("box 2 holds up 1, 5; silent for 23 calls"));
}

#[test]
fn who_would_go_on_does_not_wait() {
    // each of the two stands on the other's list; box 40's next look strikes box 63
    let script = head(&example("lanes"), 15);
    assert_eq!(headline(&script).as_deref(), Some("box 40 holds up 63; silent for 4 calls"));
}

#[test]
fn a_window_shows_the_last_calls_of_a_long_script() {
    let script = example("hang") + &"(free)\n".repeat(940);
    let svg = drawn(&script, 120);
    assert!(svg.contains(">script.txt: calls 881 to 1,000 of 1,000</text>"));
    assert_eq!(count(&svg, "call"), 120);
    assert!(svg.contains("<title>call 881: (free (free 26))</title>"));
    assert!(svg.contains("<title>call 1,000: (free (free 26))</title>"));
    // open before the window, named in none of its calls
    assert_eq!(count(&svg, "lane"), 5);
    assert!(svg.contains(">box 2 holds up 0, 1, 3; silent for 970 calls</text>"));
    for (last, window) in [
        (0, "none of 1,000 calls"),
        (1, "call 1,000 of 1,000"),
        (2_000, "calls 1 to 1,000 of 1,000"),
    ] {
        let svg = drawn(&script, last);
        assert!(svg.contains(&format!(">script.txt: {window}</text>")), "{last}");
        assert_eq!((count(&svg, "call"), count(&svg, "lane")), (last.min(1_000), 5));
    }
}

#[test]
fn an_empty_script_and_bad_lines_are_drawn() {
    let svg = whole("");
    assert!(svg.contains(">script.txt: no calls</text>"));
    assert_eq!((count(&svg, "call"), count(&svg, "lane")), (0, 0));
    let svg = whole("<&>\n\n(begin 64)\n(begin 0) \n");
    assert_eq!((count(&svg, "call"), count(&svg, "lane")), (4, 0));
    for (number, refusal) in [(1, 13), (2, 13), (3, 2), (4, 13)] {
        assert!(call(&svg, number).contains(&format!(">{refusal}</text>")), "{number}");
    }
    assert!(call(&svg, 3).contains(">begin 64</text>"));
}

#[test]
fn any_name_may_be_a_title() {
    let svg = picture("<a> & \"b\"\u{1}.txt", &Run::of(b"(free)\n", 1));
    assert_eq!(fault(&svg), None);
    assert!(svg.contains(">&lt;a&gt; &amp; &quot;b&quot;?.txt: call 1 of 1</text>"));
}

fn run(arguments: &[&str]) -> Output {
    let mut program = Command::new(env!("CARGO_BIN_EXE_lanes"));
    program.current_dir(root()).args(arguments).output().expect("the program runs")
}

#[test]
fn the_stored_picture_is_what_the_program_makes() {
    let made = run(&["examples/hang.txt"]);
    assert!(made.status.success());
    assert!(made.stdout == read("docs/hang.svg").as_bytes(), "docs/hang.svg: make it anew");
}

#[test]
fn the_program_takes_its_arguments() {
    let made = run(&["examples/hang.txt", "--answers", "--last", "3"]);
    assert_eq!(String::from_utf8_lossy(&made.stdout), read("examples/hang.out"));
    let made = run(&["--last", "3", "examples/hang.txt"]);
    assert!(
        String::from_utf8_lossy(&made.stdout).contains(">hang.txt: calls 58 to 60 of 60</text>")
    );
    let wrong: [&[&str]; 5] =
        [&[], &["a", "b"], &["a", "--last"], &["a", "--last", "x"], &["--other", "a"]];
    for arguments in wrong {
        let made = run(arguments);
        assert_eq!((made.status.code(), made.stdout.len()), (Some(2), 0), "{arguments:?}");
    }
    assert_eq!(run(&["examples/no-such-script.txt"]).status.code(), Some(1));
}
