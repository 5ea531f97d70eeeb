//! The figures of include/hub.h, from its own lines, so that each is said once.

const HEADER: &str = include_str!("../../../include/hub.h");

/// The figure that the header defines by this name: `#define NAME FIGURE`.
///
/// # Panics
/// If the header has no such line.
pub fn figure(name: &str) -> usize {
    let line = HEADER.lines().find_map(|line| {
        let mut words = line.split_ascii_whitespace();
        (words.next() == Some("#define") && words.next() == Some(name)).then(|| words.next())
    });
    let figure = line.flatten().and_then(|figure| figure.parse().ok());
    figure.unwrap_or_else(|| panic!("include/hub.h defines no figure {name}"))
}

#[cfg(test)]
mod tests {
    use super::*;
    use reference::{message, state};

    #[test]
    fn the_figures_are_those_of_the_independent_program() {
        assert_eq!(figure("HUB_STATE_LEN"), state::BYTES);
        assert_eq!(figure("HUB_SLOTS"), state::SLOTS);
        assert_eq!(figure("HUB_MESSAGE_LEN"), message::MAX_LENGTH);
    }

    #[test]
    #[should_panic(expected = "no figure HUB_COUNT")]
    fn a_macro_is_no_figure() {
        figure("HUB_COUNT");
    }
}
