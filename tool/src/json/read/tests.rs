//! What is JSON, and what is not.

use super::*;

#[test]
fn values() {
    let value = read(" {\"a\" : [1, -2.5e1, true,null], \"b\":\"x\\n\\u00e9\\ud83d\\ude00é\"} ");
    let value = value.unwrap();
    let list = value.field("a").and_then(Value::list).unwrap();
    assert_eq!(list, [Value::Number(1.0), Value::Number(-25.0), Value::Bool(true), Value::Null]);
    assert_eq!((list[0].count(), list[1].count()), (Some(1), None));
    assert_eq!(value.field("b").and_then(Value::text), Some("x\né😀é"));
    assert_eq!(value.field("c"), None);
    assert_eq!(read("[]"), Some(Value::List(Vec::new())));
    assert_eq!(read("{}"), Some(Value::Object(Vec::new())));
}

#[test]
fn what_is_no_json() {
    for wrong in [
        "",
        " ",
        "{",
        "[",
        "[1",
        "[1,]",
        "{\"a\"}",
        "{\"a\":}",
        "{a:1}",
        "{\"a\":1,}",
        "\"",
        "\"\\",
        "\"\\x\"",
        "\"\\u12\"",
        "\"\\ud800\"",
        "\"\\ud800\\u0041\"",
        "\"\\udc00\"",
        "\"\n\"",
        "01",
        "-",
        "1.",
        "1e",
        "+1",
        "tru",
        "nul",
        "1 2",
        "[1]]",
        "{\"a\":1,\"a\":2}",
        "\"\\u+123\"",
        "\u{e9}",
    ] {
        assert_eq!(read(wrong), None, "{wrong:?}");
    }
}

#[test]
fn deep_and_long() {
    assert!(read(&"[".repeat(1 << 20)).is_none());
    assert!(read(&format!("{}{}", "[".repeat(33), "]".repeat(33))).is_none());
    assert!(read(&format!("{}{}", "[".repeat(32), "]".repeat(32))).is_some());
    let long = "a".repeat(1 << 20);
    assert_eq!(read(&format!("\"{long}\"")).unwrap().text(), Some(long.as_str()));
    assert_eq!(read(&"9".repeat(400)).unwrap().count(), None);
}
