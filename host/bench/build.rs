//! Compiles the readers in C with `cc -O3` (or the compiler that CC names) and tells whether the gateway library is there.

use std::env;
use std::path::PathBuf;
use std::process::Command;

fn main() {
    println!("cargo:rustc-check-cfg=cfg(gateway_linked)");
    println!("cargo:rerun-if-env-changed=VQ_LIB_DIR");
    println!("cargo:rerun-if-env-changed=CC");
    if env::var_os("VQ_LIB_DIR").is_some() {
        println!("cargo:rustc-cfg=gateway_linked");
    }
    let out = PathBuf::from(env::var_os("OUT_DIR").expect("cargo sets OUT_DIR"));
    let compiler = env::var("CC").unwrap_or_else(|_| "cc".to_owned());
    let mut objects = Vec::new();
    for name in ["reader", "line", "close", "measure"] {
        println!("cargo:rerun-if-changed={name}.c");
        let object = out.join(format!("{name}.o"));
        let flags = ["-std=c11", "-pedantic", "-Wall", "-Wextra", "-Werror", "-O3", "-fPIC", "-c"];
        run(Command::new(&compiler).args(flags).arg(format!("{name}.c")).arg("-o").arg(&object));
        objects.push(object);
    }
    for header in ["reader.h", "judge.h", "packet.h", "millimetres.h"] {
        println!("cargo:rerun-if-changed={header}");
    }
    run(Command::new("ar").arg("crs").arg(out.join("libpeers.a")).args(&objects));
    println!("cargo:rustc-link-search=native={}", out.display());
    println!("cargo:rustc-link-lib=static=peers");
    let version = Command::new(&compiler).arg("--version").output().expect("a C compiler");
    let version = String::from_utf8_lossy(&version.stdout);
    println!("cargo:rustc-env=C_COMPILER={}", version.lines().next().unwrap_or(&compiler));
}

fn run(command: &mut Command) {
    let status = command.status().unwrap_or_else(|problem| panic!("{command:?}: {problem}"));
    assert!(status.success(), "{command:?}");
}
