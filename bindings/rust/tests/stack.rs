//! Check and encode on the deepest files, with the stack that the crate's documentation names.
mod cases;

use cases::{deep, typed};
use std::thread::Builder;

#[test]
fn the_deepest_files_need_no_more_stack_than_is_said() {
    for (name, file) in deep::files().into_iter().flat_map(|(name, file)| [(name, typed(&file)), (name, file)]) {
        // Where the stack is too short the process ends, and says this thread's name.
        let run = move || (sakyelbo::check(&file), sakyelbo::encode(&file).map(|script| script.len()));
        let thread = Builder::new().name(name.to_string()).stack_size(sakyelbo::STACK).spawn(run).unwrap();
        let (checked, encoded) = thread.join().unwrap();
        assert_eq!((checked, encoded.is_ok()), (Ok(()), true), "{name}");
    }
}
