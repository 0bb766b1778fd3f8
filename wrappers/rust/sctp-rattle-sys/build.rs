//! Says where the archive libsctp-rattle.a is: in the folder SCTP_RATTLE_LIB_DIR, else where pkg-config finds `sctp-rattle`, else where the
//! linker looks anyway.
use std::env;
use std::process::Command;

fn main() {
    println!("cargo:rerun-if-env-changed=SCTP_RATTLE_LIB_DIR");
    println!("cargo:rerun-if-env-changed=PKG_CONFIG_PATH");
    let told = env::var("SCTP_RATTLE_LIB_DIR").ok();
    if let Some(folder) = told.or_else(folder_of_pkg_config) {
        println!("cargo:rustc-link-search=native={}", folder);
        println!("cargo:rerun-if-changed={}/libsctp-rattle.a", folder);
    }
    println!("cargo:rustc-link-lib=static=sctp-rattle");
}

fn folder_of_pkg_config() -> Option<String> {
    let output = Command::new("pkg-config").args(["--variable=libdir", "sctp-rattle"]).output().ok()?;
    let folder = String::from_utf8(output.stdout).ok()?.trim().to_string();
    (output.status.success() && !folder.is_empty()).then_some(folder)
}
