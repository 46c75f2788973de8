//! Reads predicates, one a line, from the first file, and prints for each other file, which has what rustc prints for a
//! platform, a line with a letter a predicate: y where it holds there, n where it doesn't, ? where cfg-expr doesn't read
//! it.

use cfg_expr::{Expression, Predicate, TargetPredicate};
use std::collections::HashSet;
use std::{env, fs};

fn pair(key: &str, value: impl ToString) -> String {
    format!("{key}=\"{}\"", value.to_string())
}

/// The line by which rustc says that this is set.
fn line(asked: &Predicate) -> String {
    match asked {
        Predicate::Target(target) => match target {
            TargetPredicate::Arch(value) => pair("target_arch", value),
            TargetPredicate::Endian(value) => pair("target_endian", format!("{value:?}")),
            TargetPredicate::Env(value) => pair("target_env", value),
            TargetPredicate::Family(value) => pair("target_family", value),
            TargetPredicate::HasAtomic(value) => pair("target_has_atomic", value),
            TargetPredicate::Os(value) => pair("target_os", value),
            TargetPredicate::Panic(value) => pair("panic", value),
            TargetPredicate::PointerWidth(value) => pair("target_pointer_width", value),
            TargetPredicate::Vendor(value) => pair("target_vendor", value),
        },
        Predicate::Test => "test".to_string(),
        Predicate::DebugAssertions => "debug_assertions".to_string(),
        Predicate::ProcMacro => "proc_macro".to_string(),
        Predicate::Feature(value) => pair("feature", value),
        Predicate::TargetFeature(value) => pair("target_feature", value),
        Predicate::Flag(name) => name.to_string(),
        Predicate::KeyValue { key, val } => pair(key, val),
    }
}

fn main() {
    let files: Vec<String> = env::args().skip(1).collect();
    let texts = fs::read_to_string(&files[0]).unwrap();
    let read: Vec<_> = texts.lines().map(|text| Expression::parse(text).ok()).collect();
    for file in &files[1..] {
        let text = fs::read_to_string(file).unwrap();
        let set: HashSet<&str> = text.lines().collect();
        let letter = |holds| if holds { 'y' } else { 'n' };
        let holds = |it: &Expression| letter(it.eval(|asked| set.contains(line(asked).as_str())));
        println!("{}", read.iter().map(|it| it.as_ref().map_or('?', holds)).collect::<String>());
    }
}
