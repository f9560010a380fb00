//! The text form of blocks.

use runner::assemble::assemble;

use crate::block;

#[test]
fn records_in_bytes() {
    assert_eq!(block("end # comment\n\n# comment\n"), [0, 0, 4, 0]);
    assert_eq!(block("raw 0a0B ff"), [10, 11, 255]);
    let function = block("function 32769 258\nset r1 -2");
    assert_eq!(
        function,
        [12, 0, 1, 0, 1, 128, 2, 1, 2, 1, 0, 0, 254, 255, 255, 255]
    );
    let cell = block("cell 32768 1 2 3 -1");
    assert_eq!(cell[..4], [20, 0, 2, 0]);
    assert_eq!(cell[4..16], [0, 128, 1, 0, 2, 0, 0, 0, 3, 0, 0, 0]);
    assert_eq!(cell[16..], [255; 8]);
    let call = block("call 5 32768 7 9 1 2");
    assert_eq!(call[..4], [32, 0, 3, 0]);
    assert_eq!(call[4..18], [5, 0, 0, 128, 7, 0, 9, 0, 0, 0, 0, 0, 0, 0]);
    assert_eq!(
        call[18..34],
        [1, 0, 0, 0, 2, 0, 0, 0, 0, 0, 0, 0, 0, 0, 0, 0]
    );
    assert_eq!(call[34..], [64, 0]);
}

#[test]
fn fuel_stands_behind_the_arguments() {
    for (text, arguments, fuel) in [
        ("", [0; 4], 64),
        ("fuel 1", [0; 4], 1),
        ("7 8 9 10", [7, 8, 9, 10], 64),
        ("7 8 fuel 258", [7, 8, 0, 0], 258),
        ("7 8 9 10 fuel 65535", [7, 8, 9, 10], 65_535),
        ("fuel 0", [0; 4], 0),
    ] {
        let call = block(&format!("call 5 32768 7 9 {text}"));
        let bytes: Vec<u8> = arguments
            .iter()
            .flat_map(|n: &u32| n.to_le_bytes())
            .collect();
        assert_eq!(call[18..34], bytes, "{text}");
        assert_eq!(call[34..], u16::to_le_bytes(fuel), "{text}");
    }
    fails("call 5 32768 7 9 fuel", "1:22: fuel is missing");
    fails("call 5 32768 7 9 fuel 1 2", "1:25: word 2: one too many");
    fails("call 5 32768 7 9 1 2 3 4 5", "1:26: word 5: one too many");
    fails(
        "call 5 32768 7 9 fuel 65536",
        "1:23: fuel 65536: not a number from 0 to 65535",
    );
}

#[test]
fn instructions_in_bytes() {
    let pairs: [(&str, [u8; 8]); 11] = [
        ("stop", [0, 0, 0, 0, 0, 0, 0, 0]),
        ("throw", [1, 0, 0, 0, 0, 0, 0, 0]),
        ("arg r2 arg4", [3, 2, 4, 0, 0, 0, 0, 0]),
        ("sender r7", [4, 7, 0, 0, 0, 0, 0, 0]),
        ("div r1 r2 r3", [9, 1, 2, 3, 0, 0, 0, 0]),
        ("get r0 1 arg2 sender", [10, 0, 2, 5, 1, 0, 0, 0]),
        ("put r1 258 zero const 3", [11, 1, 0, 6, 2, 1, 3, 0]),
        ("get r0 1 const 9 const 9", [10, 0, 6, 6, 1, 0, 9, 0]),
        ("pay r3 const 513", [13, 3, 6, 0, 0, 0, 1, 2]),
        ("jlt r1 r2 9", [15, 1, 2, 0, 9, 0, 0, 0]),
        ("word 255 1 2 3 4", [255, 1, 2, 3, 4, 0, 0, 0]),
    ];
    for (line, bytes) in pairs {
        let function = block(&format!("function 32768 0\n{line}"));
        assert_eq!(function[8..], bytes, "{line}");
    }
}

#[test]
fn labels_are_places_of_their_function() {
    let text =
        "function 32768 0\njeq r0 r1 last\nstop\nlast:\nfunction 32768 1\njeq r0 r1 last\nlast:";
    let bytes = block(text);
    assert_eq!(bytes[12], 2);
    assert_eq!(bytes[24 + 12], 1);
}

/// Asserts where and how a text is refused: `LINE:COLUMN: MESSAGE`.
fn fails(text: impl AsRef<[u8]>, error: &str) {
    assert_eq!(assemble(text).unwrap_err().to_string(), error);
}

/// Asserts how an instruction is refused, in the second line of a text.
fn instruction_fails(line: &str, error: &str) {
    fails(
        format!("function 32768 0\n{line}\nend"),
        &format!("2:{error}"),
    );
}

#[test]
fn unknown_words_and_misplaced_lines() {
    fails("end\nfoo", "2:1: word foo: no item and no instruction");
    fails("End", "1:1: word End: no item and no instruction");
    fails(
        "\u{feff}end",
        "1:1: word \\u{feff}end: no item and no instruction",
    );
    fails(
        "end\u{a0}",
        "1:1: word end\\u{a0}: no item and no instruction",
    );
    fails("  stop", "1:3: instruction stop: outside a function");
    fails("place:", "1:1: label place: outside a function");
}

#[test]
fn registers_arguments_and_sources() {
    instruction_fails("set r8 1", "5: register r8: there are r0 to r7");
    instruction_fails("add r0 r1 r01", "11: register r01: there are r0 to r7");
    instruction_fails("arg r0 arg0", "8: argument arg0: there are arg1 to arg4");
    instruction_fails("arg r0 1", "8: argument 1: there are arg1 to arg4");
    let sources = "there are zero, arg1 to arg4, sender and const NUMBER";
    instruction_fails("get r0 1 arg5 zero", &format!("10: source arg5: {sources}"));
    instruction_fails("pay r0 7", &format!("8: source 7: {sources}"));
    instruction_fails(
        "get r0 1 const 1 const 2",
        "18: constant 2: an instruction has one, here 1",
    );
}

#[test]
fn numbers_outside_their_range() {
    fails(
        "cell 65536 0 0 0 1",
        "1:6: address 65536: not a number from 0 to 65535",
    );
    fails(
        "cell 1 0 0 4294967296 1",
        "1:12: b 4294967296: not a number from 0 to 4294967295",
    );
    let signed = "not a number from -9223372036854775808 to 9223372036854775807";
    fails(
        "call 1 2 3 9223372036854775808",
        &format!("1:12: value 9223372036854775808: {signed}"),
    );
    let beyond = "1".repeat(60);
    fails(
        format!("cell 1 0 0 0 {beyond}"),
        &format!("1:14: value {beyond}: {signed}"),
    );
    instruction_fails(
        "set r0 2147483648",
        "8: constant 2147483648: not a number from -2147483648 to 2147483647",
    );
    instruction_fails("word 256 0 0 0 0", "6: op 256: not a number from 0 to 255");
    instruction_fails(
        "jeq r0 r0 4294967296",
        "11: target 4294967296: not a number from 0 to 4294967295",
    );
    instruction_fails(
        "jeq r0 r0 -1",
        "11: target -1: not a number from 0 to 4294967295",
    );
    for word in ["+1", "-", "1.0", "0x1", "1_000", "one", "\u{0663}"] {
        let shown = word.escape_debug();
        fails(
            format!("cell {word} 0 0 0 1"),
            &format!("1:6: address {shown}: not a number from 0 to 65535"),
        );
    }
}

#[test]
fn missing_parts_are_due_behind_the_word_before() {
    fails("call 1 2 3", "1:11: value is missing");
    fails("call 1 2 3   # 4", "1:11: value is missing");
    fails("cell", "1:5: address is missing");
    fails("function 32768", "1:15: function is missing");
    instruction_fails("get r0 1 zero", "14: source is missing");
    instruction_fails("get r0 1 zero const", "20: constant is missing");
    instruction_fails("jeq r0 r1", "10: target is missing");
    instruction_fails("\tset", "5: register is missing");
}

#[test]
fn one_part_too_many() {
    fails("end now", "1:5: word now: one too many");
    fails("call 1 2 3 4 5 6 7 8 9", "1:22: word 9: one too many");
    instruction_fails("stop r0", "6: word r0: one too many");
    instruction_fails("here: stop", "7: word stop: one too many");
}

#[test]
fn labels_undefined_twice_or_without_a_name() {
    instruction_fails(
        "jeq r0 r0 nowhere",
        "11: label nowhere: not in this function",
    );
    let two = "function 32768 0\nhere:\nfunction 32768 1\njeq r0 r0 here";
    fails(two, "4:11: label here: not in this function");
    fails(
        "function 32768 0\na:\nstop\n a:",
        "4:2: label a: line 2 has it too",
    );
    instruction_fails(":", "1: a label without a name");
    instruction_fails("3:", "1: label 3: a name does not begin with a digit or -");
}

#[test]
fn hexadecimal_bytes() {
    fails("raw 0", "1:6: the second digit of a byte is missing");
    fails("raw 00 1 22", "1:12: the second digit of a byte is missing");
    fails("raw 00 0g", "1:9: digit g: not hexadecimal");
    assert_eq!(block("raw"), []);
}

#[test]
fn columns_count_characters_and_a_tab_is_one() {
    fails("\t\t end  now", "1:9: word now: one too many");
    fails(
        "cell 5 0 0 0 1 # \u{e4}\nend \u{e4} x",
        "2:5: word \u{e4}: one too many",
    );
    fails(
        "function 32768 0\n\u{e4} r0",
        "2:1: word \u{e4}: no item and no instruction",
    );
}

#[test]
fn comments_and_last_lines() {
    assert_eq!(block("end#now"), block("end"));
    assert_eq!(block("# \u{e4}\n\t # x\nend"), block("end\n\n"));
    assert_eq!(block(""), []);
    fails(
        "end\n# comment\nend x # comment",
        "3:5: word x: one too many",
    );
    fails("end\nend x", "2:5: word x: one too many");
}

#[test]
fn bytes_that_are_no_characters() {
    fails(b"end\nend \xff", "2:5: byte 0xff: the text is not UTF-8");
    fails(b"# \xc3\xa4\xc3", "1:4: byte 0xc3: the text is not UTF-8");
    fails(
        b"\xff\xfee\0n\0d\0",
        "1:1: byte 0xff: the text is not UTF-8",
    );
}

#[test]
fn carriage_returns() {
    let message = "carriage return: a line ends in a line feed alone";
    fails("end\r\n", &format!("1:4: {message}"));
    fails("# comment\r\nend\r\n", &format!("1:10: {message}"));
    fails("end\rend", &format!("1:4: {message}"));
    fails("end\n\r", &format!("2:1: {message}"));
}

#[test]
fn the_most_instructions_of_a_record() {
    let most = (usize::from(u16::MAX) - 4) / 8;
    let text = |instructions: usize| format!("function 32768 0\n{}", "stop\n".repeat(instructions));
    assert_eq!(block(&text(most)).len(), 8 + 8 * most);
    let line = most + 2;
    fails(
        text(most + 1),
        &format!("{line}:1: instruction stop: a record has room for {most}"),
    );
}
