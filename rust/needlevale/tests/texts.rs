//! The text form's faults, each with its line and column; and drafts that no file can hold.

use needlevale::{text, Draft, Function, Refusal, Row, Sort};

const HEAD: &str = "needlevale table 1\nsort M eq a b\nsort I base\nfunction F (M I) -> M cost 3\n";

#[track_caller]
fn fault(more: &str, wanted: &str) {
    let said = text::parse(&format!("{HEAD}{more}")).map(|_| ()).unwrap_err().to_string();
    assert_eq!(said, wanted);
}

#[test]
fn faults_have_their_line_and_column() {
    fault("row a = (F b 7", "5:15: ')' or a cell is missing");
    fault("row a = (F b 7   ; open", "5:15: ')' or a cell is missing");
    fault("row a = (F b)", "5:10: F takes 2 arguments, and here is 1");
    fault("row a = (F b 7 8)", "5:16: F takes 2 arguments, and here are 3");
    fault("row a = (G b 7)", "5:10: there is no function G above");
    fault("row a = (F c 7)", "5:12: class c, but M has 2 classes and none of that name");
    fault("\n\n row 2 = (F 0 7)", "7:6: class 2, but M has 2 classes");
    fault("row a = (F b x)", "5:14: a literal is a whole number from -2^63 to 2^63-1 or '#' and an index, not 'x'");
    fault("row a = (F b #0)", "5:14: literal #0, but there are 0 above");
    fault("row a (F b 7)", "5:7: '=' must stand here, not '('");
    fault("row a = (F b 7) gone", "5:17: 'gone' is one word too many");
    fault("rows", "5:1: a line begins with sort, class, literal, function, row or root, not 'rows'");
    fault("sort M base", "5:6: there is a sort M already");
    fault("sort 7 base", "5:6: a sort's name is no number, as '7' is");
    fault("sort N other", "5:8: a sort is 'eq' or 'base', not 'other'");
    fault("sort N eq x x", "5:13: there is a class x already");
    fault("class I x", "5:7: I is a base sort and has no classes");
    fault("sort N eq 3\nclass N x", "6:7: the classes of N go by number");
    fault("function F () -> M", "5:10: there is a function F already");
    fault("function G () -> I", "5:18: the output's sort is an eq sort, and I is not");
    fault("function G () -> M cost -1", "5:25: a cost is a whole number from 0 to 2^64-1, not '-1'");
    fault(
        "function G () -> M cost 18446744073709551616",
        "5:25: a cost is a whole number from 0 to 2^64-1, not '18446744073709551616'",
    );
    fault("function G () -> M hidden hidden", "5:27: 'hidden' must not stand here");
    fault("function G (X) -> M", "5:13: there is no sort X above");
    fault("function é () -> M", "5:10: the character 'é' stands in no word; words are of ASCII, without quotes");
    fault("sort N eq 511", "5:6: 513 classes in all, but there are at most 512");
    fault(
        &format!("function {} () -> M", "x".repeat(32)),
        "5:10: function 1, name length: 32, but a name has 1 to 31 bytes",
    );
    fault(
        "function G (M M M M M M M M M) -> M",
        "5:10: function 1, arity: 9, but a function takes at most 8 arguments",
    );
    let rows = "row a = (F b 7)\n".repeat(1025);
    fault(&rows, "1029:5: row count: 1025, but there are at most 1,024");
    let sorts: String = (0..30).map(|n| format!("sort s{n} base\n")).collect();
    fault(&sorts, "34:6: sort count: 32, but there are at most 31");
    let literals: String = (0..512).map(|n| format!("literal {n}\n")).collect();
    fault(&literals, "516:9: literal count: 512, but there are at most 511");
    let functions: String = (0..127).map(|n| format!("function f{n} () -> M\n")).collect();
    fault(&functions, "131:10: function count: 128, but there are at most 127");
    assert_eq!(text::parse("").unwrap_err().to_string(), "1:1: the first line must be 'needlevale table 1'");
    assert_eq!(
        text::parse("\n sort M eq 1").unwrap_err().to_string(),
        "2:2: the first line must be 'needlevale table 1'"
    );
}

#[test]
fn names_and_flags_survive_the_text() {
    let more = "class M c ; one more\nfunction ;comment\n";
    assert!(text::parse(&format!("{HEAD}{more}")).is_err());
    let more = "class M c ; one more\nfunction -> () -> M unextractable hidden\nliteral 7 7 -9223372036854775808\n\
                row c = (->) subsumed\nrow c = (F a #1)\nrow 2 = (F b 7)\nrow a = (F 0 #0)\nroot M c\nroot I 7\n";
    let named = text::parse(&format!("{HEAD}{more}")).unwrap();
    let parts = named.table.clone().into_draft();
    assert!(parts.rows[0].subsumed && parts.functions[1].hidden && parts.functions[1].unextractable);
    assert_eq!(parts.rows[1].arguments, [0, 1]);
    assert_eq!(parts.rows[2].output, 2);
    assert_eq!(parts.literals, [7, 7, i64::MIN]);
    assert_eq!(named.names.roots.len(), 2);
    let written = text::write(&parts, &named.names);
    assert_eq!(text::parse(&written).unwrap(), named);
    assert!(written.contains("row c = (F a #1)\n") && written.contains("row c = (->) subsumed\n"), "{written}");
}

#[test]
fn drafts_that_no_file_can_hold_are_faults() {
    let leaf = Function { name: "Leaf".into(), ..Function::default() };
    let mut draft = Draft { sorts: vec![Sort::Eq(1)], functions: vec![leaf], ..Draft::default() };
    assert!(draft.clone().build().is_ok());
    draft.rows = vec![Row { arguments: vec![0], ..Row::default() }];
    let fault = draft.clone().build().unwrap_err();
    assert_eq!((fault.refusal, fault.what.as_str()), (None, "the row has 1 argument cell, but 'Leaf' takes 0"));
    draft.rows = vec![Row { output: 100_000, ..Row::default() }];
    assert_eq!(draft.clone().build().unwrap_err().refusal, Some(Refusal::BadValue));
    draft.rows = vec![Row { function: 128, ..Row::default() }];
    assert_eq!(draft.clone().build().unwrap_err().refusal, Some(Refusal::BadFunction));
    draft.rows.clear();
    draft.functions[0].output = 32;
    assert_eq!(draft.clone().build().unwrap_err().refusal, Some(Refusal::BadSort));
    draft.functions[0].output = 0;
    draft.functions[0].name = String::new();
    assert_eq!(draft.clone().build().unwrap_err().refusal, Some(Refusal::BadName));
    draft.functions.clear();
    draft.sorts = vec![Sort::Eq(usize::MAX)];
    assert_eq!(draft.clone().build().unwrap_err().refusal, Some(Refusal::BadSize));
    draft.sorts = vec![Sort::Base; 32];
    assert_eq!(draft.build().unwrap_err().refusal, None);
}
