//! Names the two libraries that `./benchmark` builds before this: the planner's, and that of `fast.c`.

fn main() {
    let root = concat!(env!("CARGO_MANIFEST_DIR"), "/../../target");
    for (folder, name) in [("staticlib", "planner"), ("benchmark", "fast")] {
        println!("cargo:rustc-link-search=native={root}/{folder}");
        println!("cargo:rustc-link-lib=static={name}");
        println!("cargo:rerun-if-changed={root}/{folder}/lib{name}.a");
    }
}
