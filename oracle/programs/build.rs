//! Links the library named by PLATE_LIB.
fn main() {
    let library = std::env::var("PLATE_LIB").expect("PLATE_LIB names libplate.a");
    println!("cargo:rerun-if-env-changed=PLATE_LIB");
    println!("cargo:rerun-if-changed={library}");
    println!("cargo:rustc-link-arg-bins={library}");
}
