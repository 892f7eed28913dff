//! The published Rust of pydantic/monty beside `drive`: see README.md.

// the published asyncio.rs
include!(concat!(env!("OUT_DIR"), "/root.rs"));
mod bytecode {
    pub mod vm;
}
mod compare;
mod exception_private;
mod generate;
mod heap;
mod records;
mod session;
mod value;

use std::io::{self, Read, Write};

use heap::{defer_drop, defer_drop_mut};
use session::Rule;

mod intern {
    //! Shim: function and string numbers; every function has the same empty code.

    #[derive(Debug, Clone, Copy, PartialEq, Eq)]
    pub(crate) struct FunctionId(pub u32);

    #[derive(Debug, Clone, Copy)]
    pub(crate) struct StringId;

    #[derive(Debug, Default)]
    pub(crate) struct Code;

    impl Code {
        pub fn bytecode(&self) -> &[u8] {
            &[]
        }
    }

    #[derive(Debug, Default)]
    pub(crate) struct Function {
        pub code: Code,
    }

    #[derive(Debug, Default)]
    pub(crate) struct Interns {
        function: Function,
    }

    impl Interns {
        pub fn get_function(&self, _: FunctionId) -> &Function {
            &self.function
        }
    }
}

mod types {
    //! Shim: the list that a completed gather caches.

    use crate::value::Value;

    #[derive(Debug)]
    pub(crate) struct List(Vec<Value>);

    impl List {
        pub fn new(items: Vec<Value>) -> Self {
            Self(items)
        }

        pub fn items(&self) -> &[Value] {
            &self.0
        }
    }
}

mod object_bridge {
    //! Shim: a host's value is already one of ours, so bridging cannot fail.

    use monty_types::InvalidInputError;

    use crate::{bytecode::vm::VM, value::Value};

    #[derive(Debug)]
    pub(crate) struct MontyObject(pub Value);

    pub(crate) trait MontyObjectExt {
        fn to_value(self, vm: &mut VM<'_>) -> Result<Value, InvalidInputError>;
    }

    impl MontyObjectExt for MontyObject {
        fn to_value(self, _: &mut VM<'_>) -> Result<Value, InvalidInputError> {
            Ok(self.0)
        }
    }
}

mod run_progress {
    //! Shim: the host's answer to a call.

    use monty_types::{ExcType, MontyException};

    use crate::{
        exception_private::{RunError, SimpleException},
        object_bridge::MontyObject,
    };

    #[derive(Debug)]
    #[allow(dead_code)]
    pub(crate) enum ExtFunctionResult {
        Return(MontyObject),
        Error(MontyException),
        Future(u32),
        NotFound(String),
        ModuleFile(String),
    }

    pub(crate) trait ExtFunctionResultExt {
        fn not_found_exc(function_name: &str) -> RunError {
            SimpleException::new_msg(ExcType::NameError, format!("name '{function_name}' is not defined")).into()
        }
    }

    impl ExtFunctionResultExt for ExtFunctionResult {}
}

const USAGE: &str = "usage: harness lines < RECORDS            the lines of the Rust as published
       harness amended-lines < RECORDS          those of the amended Rust: document 02, No. 7 behind each batch of results
       harness files SEED FROM COUNT FOLDER     random event files, NNNN.bin, and the lines of the Rust as published, NNNN.out;
                                                amended-NNNN.bin and .out where a batch wakes its tasks out of order: those of the amended Rust
       harness compare DRIVE SEED COUNT FOLDER  the same files through DRIVE; a differing one is cut down into FOLDER";

/// Standard input's records to lines.
fn lines(rule: Rule) {
    let mut bytes = Vec::new();
    io::stdin().lock().read_to_end(&mut bytes).expect("reading standard input");
    io::stdout().lock().write_all(session::lines(&bytes, rule).as_bytes()).expect("writing standard output");
}

fn main() {
    let words: Vec<String> = std::env::args().skip(1).collect();
    let words: Vec<&str> = words.iter().map(String::as_str).collect();
    let number = |word: &str| word.parse::<u64>().unwrap_or_else(|_| panic!("{word} is no number"));
    match *words {
        ["lines"] => lines(Rule::Published),
        ["amended-lines"] => lines(Rule::Amended),
        ["files", seed, from, count, folder] => generate::files(number(seed), number(from), number(count), folder.as_ref()),
        ["compare", drive, seed, count, folder] => {
            std::process::exit(i32::from(!compare::compare(drive.as_ref(), number(seed), number(count), folder.as_ref())));
        }
        _ => {
            eprintln!("{USAGE}");
            std::process::exit(2);
        }
    }
}
