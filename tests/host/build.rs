//! Tells the tests which archive they are linked with, for the hosts in C that they compile.

fn main() {
    let folder = std::env::var("DEP_CHELBUGAN_LIB_DIR")
        .expect("the wrapper's build script names the folder");
    println!("cargo:rustc-env=CHELBUGAN_ARCHIVE={folder}/libchelbugan.a");
}
