//! Links the port's static library, whose folder compare.sh names.
fn main() {
    println!("cargo::rerun-if-env-changed=PORT_LIBRARIES");
    let folder = std::env::var("PORT_LIBRARIES").expect("PORT_LIBRARIES names its folder");
    println!("cargo::rustc-link-search=native={folder}");
    println!("cargo::rerun-if-changed={folder}/libhost_c.a");
    println!("cargo::rustc-link-lib=static=host_c");
}
