//! Pages of days.

use desk::page::html;
use runner::examples::example;
use runner::generate::{large_cases, small_cases};

use crate::blocks::{adding, of_example};
use crate::xml::elements;

const P_MOVES: &str =
    "b 0 0\ns 0\ns 0\ns 0\ns 0\nb 1 1\ns 1\ns 1\ns 1\ns 1\nb 0 2\ns 0\ns 0\ns 0\ns 0\n";

/// The page of a day, tested for its form.
fn page(title: &str, block: &[u8], moves: &[u8]) -> String {
    let page = html(title, block, moves);
    let elements = elements(&page).expect("it is well-formed");
    assert_eq!(elements[..2], ["html", "head"]);
    loads_and_runs_nothing(&page, &elements);
    assert_eq!(html(title, block, moves), page);
    page
}

fn loads_and_runs_nothing(page: &str, elements: &[String]) {
    let outside = [
        "script", "link", "img", "iframe", "object", "embed", "base", "form",
    ];
    for name in elements {
        assert!(!outside.contains(&name.as_str()), "{name}");
    }
    let addresses = page.split("http").skip(1);
    for address in addresses {
        assert!(address.starts_with("://www.w3.org/"), "{address:.40}");
    }
    assert!(!page.contains("@import") && !page.contains("url(http"));
}

/// How many rows of a table's body begin with a cell of this text.
fn rows(page: &str, first: &str) -> usize {
    page.matches(&format!("<tr>\n{first}")).count()
}

#[test]
fn a_finished_day_has_its_sheet() {
    let page = page("Block P", &of_example("p"), P_MOVES.as_bytes());
    for words in [
        "<h1>Block P</h1>",
        "No line is refused.",
        "balance of account 7",
        "balance of contract 32768",
        "field 1 of contract 32768 (0, 0)",
        "balance of account 5 (opened with 2)",
        "2 of 8",
    ] {
        assert!(page.contains(words), "{words}");
    }
    assert_eq!(page.matches("<svg ").count(), 2);
}

#[test]
fn an_unfinished_day_says_why_it_has_no_sheet() {
    let page = page("Early", &of_example("p"), b"b 1 1\nb 0 0\n");
    assert!(page.contains("There is no closing sheet."));
    assert!(page.contains("<p>27: "));
    assert!(page.contains("b 1 1</td>"));
    assert!(page.contains("<td class=\"text\">running</td>"));
}

#[test]
fn a_refused_block_has_a_page_that_says_why() {
    let page = page("Keys", &of_example("keys25"), b"b 0 0\n");
    let printed = example("keys25")
        .expect("the example is in the list")
        .output;
    assert!(page.contains("The block is refused"));
    assert!(page.contains(&format!("one line: {}<", printed.trim_end())));
    assert!(page.contains("not answered: 1."));
    assert!(!page.contains("<svg "));
}

#[test]
fn a_block_of_an_end_alone_has_a_page() {
    let page = page("End", &of_example("no_calls"), b"");
    assert!(page.contains("The block has no calls."));
    assert!(page.contains("There are no moves."));
}

#[test]
fn everything_that_was_read_is_escaped() {
    let hostile = b"<script>alert(\"1\")</script>\n&amp;\n\x00\x1b\xff\xfe\r\n";
    let page = page("</title><script>&", &of_example("p"), hostile);
    assert!(page.contains("&lt;script&gt;alert("));
    assert!(!page.contains("<script"));
    assert!(page.contains("&amp;amp;"));
    assert!(page.contains("<h1>&lt;/title&gt;&lt;script&gt;&amp;</h1>"));
}

#[test]
fn many_refused_lines_are_counted_and_long_ones_cut() {
    let long = "x".repeat(10_000) + "\n";
    let page = page("Many", &adding([0]), long.repeat(503).as_bytes());
    assert!(page.contains("Refused lines that are not shown: 3."));
    assert_eq!(
        page.matches(&format!(">{}\u{2026}</td>", "x".repeat(60)))
            .count(),
        500
    );
    assert!(page.len() < 400_000);
}

#[test]
fn every_call_and_cell_has_its_row() {
    let page = page("Rows", &of_example("p"), P_MOVES.as_bytes());
    let receipts =
        (0..3).map(|call| format!("<td class=\"number\">{call}</td>\n<td class=\"number\">0"));
    let receipts = receipts.map(|first| rows(&page, &first)).sum::<usize>();
    assert_eq!(receipts, 3);
    assert_eq!(rows(&page, "<td class=\"text\">balance of"), 2);
}

#[test]
fn every_generated_day_has_a_page() {
    let cases = small_cases(6, 200).into_iter().chain(large_cases(9, 9));
    for case in cases {
        page("Generated", &case.block, &case.input);
    }
}
