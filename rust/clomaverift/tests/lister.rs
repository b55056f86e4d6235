//! The event lister's worked example, by this crate: the input and the output that the program events is held to.

use clomaverift::{Machine, Packet, Ran};

const INPUT: &[u8] = include_bytes!(concat!(env!("CARGO_MANIFEST_DIR"), "/../../crates/lister/stdin"));
const OUTPUT: &str = include_str!(concat!(env!("CARGO_MANIFEST_DIR"), "/../../crates/lister/stdout"));

#[test]
fn the_worked_example() {
    let mut machine = Machine::new();
    let mut log = vec![0; 16 * INPUT.len() / Packet::SIZE];
    let packets = (INPUT.len() / Packet::SIZE) as u32;
    assert_eq!(machine.run(INPUT, &mut log), Ok(Ran::new(packets, None)));
    let mut lines = vec!["packet event place length".to_string()];
    lines.extend(machine.events(&log).map(|event| event.unwrap().to_string()));
    lines.push(format!("packets {}", machine.taken()));
    assert_eq!(lines, OUTPUT.lines().collect::<Vec<_>>());
}
