//! The generated facts.

use crate::facts;
use crate::mesi::Mesi;
use crate::neat::Neat;
use crate::protocol::{self, Kind, Protocol};
use crate::step::Step;

fn after<P: Protocol>(mut protocol: P, steps: &[Step]) -> P {
    for &step in steps {
        protocol::step(&mut protocol, step);
    }
    protocol
}

#[test]
fn due_is_that_of_the_messages() {
    let mut kinds = Vec::new();
    for ending in facts::neat_dues(1) {
        assert!((8..=24).contains(&ending.steps.len()));
        let neat = after(Neat::new(), &ending.steps);
        let open = protocol::open_places(&neat).into_iter();
        let messages: Vec<Kind> = open.filter_map(|place| neat.message(place)).collect();
        let to_core = |kind: &&Kind| matches!(kind, Kind::Data | Kind::PutAck | Kind::PutAllAck);
        let answers = messages.iter().filter(to_core).count();
        let held_back = neat.held_back_behind().len();
        assert_eq!(ending.known, [2 * (messages.len() + held_back) - answers]);
        kinds.extend(messages);
    }
    for kind in [
        Kind::GetLine,
        Kind::Data,
        Kind::Put,
        Kind::PutAck,
        Kind::Commit,
        Kind::Close,
        Kind::PutAllAck,
    ] {
        assert!(kinds.contains(&kind), "{kind:?}");
    }
}

#[test]
fn an_owner_is_alone() {
    for ending in facts::mesi_copies(1) {
        assert!((6..=16).contains(&ending.steps.len()));
        let mesi = after(Mesi::new(), &ending.steps);
        assert_eq!(ending.known.len(), 64);
        for (line, copies) in ending.known.chunks(8).enumerate() {
            let held = copies.iter().filter(|&&copy| copy > 0).count();
            assert!(held <= 1 || copies.iter().all(|&copy| copy <= 1));
            for (core, &copy) in copies.iter().enumerate() {
                let letter = mesi.copy(core, line * 8).map_or('I', |(letter, _)| letter);
                assert_eq!(letter, ['I', 'S', 'E', 'M'][copy]);
            }
        }
    }
}

#[test]
fn the_text_has_its_form() {
    let text = facts::text(1);
    assert_eq!(text, facts::text(1));
    assert_ne!(text, facts::text(2));
    assert_eq!(text.matches("ending (").count(), 48);
    assert!(text.ends_with("\nreaches = 5 ∷ 95 ∷ 30 ∷ 480 ∷ []\n"));
    assert!(text.lines().all(|line| line.chars().count() <= 140));
    let first = text.split_once("neat_dues =\n").expect("the first list").1;
    assert!(first.starts_with("    ending ("));
}
