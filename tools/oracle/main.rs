//! Starts the comparison that stands inside the original's crate.
extern crate embed_avl;

unsafe extern "C" {
    safe fn compare_original();
}

fn main() {
    compare_original();
}
