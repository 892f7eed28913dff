//! Names the three published files to the compiler: below MONTY_SRC, or below ../../shared/docs/src as the papers are handed out.

use std::{env, fs, path::PathBuf};

fn main() {
    println!("cargo:rerun-if-env-changed=MONTY_SRC");
    let here = PathBuf::from(env::var("CARGO_MANIFEST_DIR").expect("cargo names the folder"));
    let given = env::var_os("MONTY_SRC").map_or_else(|| here.join("../../shared/docs/src"), PathBuf::from);
    let source = fs::canonicalize(&given)
        .unwrap_or_else(|error| panic!("the published Rust is not in {}: {error}; set MONTY_SRC", given.display()))
        .join("crates/monty/src");
    let out = PathBuf::from(env::var("OUT_DIR").expect("cargo names the output"));
    let module = |file: &str, name: &str| {
        let path = source.join(file);
        println!("cargo:rerun-if-changed={}", path.display());
        format!("#[allow(dead_code)]\n#[path = {:?}]\nmod {name};\n", path.display().to_string())
    };
    let vm = module("bytecode/vm/async_exec.rs", "async_exec") + &module("bytecode/vm/scheduler.rs", "scheduler");
    fs::write(out.join("root.rs"), module("asyncio.rs", "asyncio")).expect("writing root.rs");
    fs::write(out.join("vm.rs"), vm).expect("writing vm.rs");
}
