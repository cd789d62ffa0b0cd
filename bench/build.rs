// Links the archive that `rt lib` writes in crates/bench_calls.
fn main() {
    let root = std::path::Path::new(env!("CARGO_MANIFEST_DIR")).parent().unwrap();
    println!("cargo:rustc-link-search=native={}", root.join("crates/bench_calls/out").display());
    println!("cargo:rustc-link-lib=static=bench_calls");
    println!("cargo:rerun-if-changed={}", root.join("crates/bench_calls/out/libbench_calls.a").display());
}
