//! What the examples print is what stands beside them. `cargo run --example panel | diff - examples/panel.txt` asks the
//! same.

#![allow(dead_code)]

#[path = "../examples/head.rs"]
mod head;
#[path = "../examples/panel.rs"]
mod panel;
#[path = "../examples/shift.rs"]
mod shift;
#[path = "../examples/slots.rs"]
mod slots;

fn text(example: fn(&mut String) -> Result<(), Box<dyn std::error::Error>>) -> String {
    let mut text = String::new();
    example(&mut text).expect("nothing of it is refused");
    text
}

#[test]
fn head_prints() {
    assert_eq!(text(head::head), include_str!("../examples/head.txt"));
}

#[test]
fn panel_prints() {
    assert_eq!(text(panel::panel), include_str!("../examples/panel.txt"));
}

#[test]
fn shift_prints() {
    assert_eq!(text(shift::shift), include_str!("../examples/shift.txt"));
}

#[test]
fn slots_prints() {
    assert_eq!(text(slots::slots), include_str!("../examples/slots.txt"));
}
