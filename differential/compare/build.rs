//! Links the port's static libraries, whose folder compare.sh names.
fn main() {
    println!("cargo::rerun-if-env-changed=PORT_LIBRARIES");
    let folder = std::env::var("PORT_LIBRARIES").expect("PORT_LIBRARIES names their folder");
    println!("cargo::rustc-link-search=native={folder}");
    for library in ["leaves", "host_c"] {
        println!("cargo::rerun-if-changed={folder}/lib{library}.a");
        println!("cargo::rustc-link-lib=static={library}");
    }
}
