//! The lists of lists/, answered by the library.

use crate::text::files::all;
use crate::text::report::output;

fn by_library(text: &[u8]) -> Vec<u8> {
    let mut out = vec![0; sholakpite::LONGEST_OUTPUT];
    let length = sholakpite::answer(text, &mut out).expect("every output fits");
    out.truncate(length);
    out
}

#[test]
fn the_library_prints_what_is_expected() {
    for file in all().expect("lists/ is read") {
        let printed = by_library(&file.text);
        assert!(file.allows(&printed), "{}", file.name);
        let second = output(&file.text).bytes;
        assert!(printed == second, "the programs differ on {}", file.name);
    }
}
