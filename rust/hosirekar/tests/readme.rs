//! The program that the README shows is the example `heightmap`, line by line but for its first comment
//! and the mark that keeps its lines as they are. What it says that the example `why` prints is printed.

#[allow(dead_code)]
#[path = "../examples/why.rs"]
mod why;

const README: &str = include_str!("../../../README.md");
const EXAMPLE: &str = include_str!("../examples/heightmap.rs");

/// The indented lines of a block, from the first that starts so to the brace that ends it.
fn shown(first: &str) -> String {
    let lines = README
        .lines()
        .map(|line| line.strip_prefix("    ").unwrap_or(line));
    let block = lines.skip_while(|line| !line.starts_with(first));
    let mut program = String::new();
    for line in block {
        program.push_str(line);
        program.push('\n');
        if line == "}" {
            break;
        }
    }
    program
}

#[test]
fn the_readme_shows_the_example() {
    let from = EXAMPLE.find("use ").unwrap_or_default();
    let program = EXAMPLE[from..].replace("#[rustfmt::skip]\n", "");
    assert_eq!(shown("use hosirekar::"), program);
    assert!(program.lines().count() <= 15);
}

#[test]
fn the_readme_has_what_is_told_of_walls() {
    let lines = why::told().unwrap();
    let quoted = lines
        .iter()
        .filter(|line| README.contains(&format!("`{line}`")));
    let quoted: Vec<&str> = quoted.map(String::as_str).collect();
    let [first, second, .., last] = quoted[..] else {
        panic!("the README has {quoted:?} alone");
    };
    assert_eq!([first, second], [&lines[0][..], &lines[1]]);
    assert_eq!(last, "cell 1, side 3: the neighbour is as high: 2.0");
}
