//! Escaping and elements.

use desk::markup::{escaped, Markup};
use desk::svg::Tenths;

use crate::xml::elements;

#[test]
fn what_has_a_meaning_is_escaped() {
    assert_eq!(escaped("a<b>&\"'"), "a&lt;b&gt;&amp;&quot;&#39;");
    assert_eq!(
        escaped("line\nand\ttab, \u{2192}"),
        "line\nand\ttab, \u{2192}"
    );
}

#[test]
fn what_xml_cannot_hold_is_replaced() {
    assert_eq!(escaped("\0\r\u{1b}\u{7f}\u{ffff}"), "\u{fffd}".repeat(5));
}

#[test]
fn texts_and_values_of_elements_are_escaped() {
    let hostile = "</a><script>\"'&\0";
    let mut markup = Markup::new();
    markup.element("a", &[("b", &hostile)], |inside| {
        inside.leaf("c", &[], hostile);
        inside.empty("d", &[("e", &hostile)]);
    });
    let text = markup.into_string();
    assert_eq!(elements(&text).expect("it is well-formed"), ["a", "c", "d"]);
}

#[test]
fn lengths_are_printed_with_a_tenth_if_they_have_one() {
    let printed = [
        Tenths(0),
        Tenths(125),
        Tenths(-5),
        Tenths(-20),
        Tenths::pixels(7),
    ];
    let printed = printed.map(|length| length.to_string());
    assert_eq!(printed, ["0", "12.5", "-0.5", "-2", "7"]);
}
