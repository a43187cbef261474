//! The cubes of the first levels of a build, for what is counted of them.

use paper::bounds::{self, Interval};
use paper::colour::{self, State, State::Mixed, RULES};
use paper::root::{Cube, Root};
use paper::sheet::Sheet;

/// Deeper cubes are not looked at, to save time.
const DEEPEST: u8 = 2;

/// Looks at the bounds and the states of all records over a cube.
pub type Look<'a> = dyn FnMut(&[Option<Interval>], &[Option<State>]) + 'a;

/// Shows each cube of the first levels of a build within the limit.
pub fn show(sheet: &Sheet, root: &Root, look: &mut Look) {
    show_below(sheet, root.d.min(DEEPEST), &root.cube(), look);
}

fn show_below(sheet: &Sheet, d: u8, cube: &Cube, look: &mut Look) {
    let bounds = bounds::over(sheet, cube);
    let states = colour::states(&RULES, sheet, &bounds);
    look(&bounds, &states);
    if cube.level < d && states.last() == Some(&Some(Mixed)) {
        for child in cube.children() {
            show_below(sheet, d, &child, look);
        }
    }
}

/// The names of those that were met.
pub fn names<const N: usize>(all: [&'static str; N], met: [bool; N]) -> Vec<&'static str> {
    let named = all.into_iter().zip(met);
    named
        .filter_map(|(name, met)| met.then_some(name))
        .collect()
}
