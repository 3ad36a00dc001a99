//! Measures the library against the plain checkers, on the same lists and buffers, and its logs against a plain copy.

mod measure;

fn main() {
    measure::all();
}
