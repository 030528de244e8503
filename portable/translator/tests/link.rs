//! The first step on small libraries, as the toolchain writes their MIR: what is called at types and at
//! dictionaries is taken at those, and the C that comes of it is compiled and run.
use std::path::PathBuf;
use std::process::{Command, Output};

// ---- MIR, as a library's mir.json has it

fn int(w: u64) -> String {
    format!("{{\"Int\":{w}}}")
}

fn number(w: u64, n: u64) -> String {
    format!("{{\"Int\":{{\"width\":{w},\"value\":{n}}}}}")
}

fn place(local: usize, steps: &str) -> String {
    format!("{{\"local\":{local},\"steps\":[{steps}]}}")
}

fn copy(local: usize) -> String {
    format!("{{\"Copy\":{}}}", place(local, ""))
}

fn set(local: usize, value: &str) -> String {
    format!("{{\"Assign\":[{},{value}]}}", place(local, ""))
}

fn of(operand: &str) -> String {
    format!("{{\"Opd\":{operand}}}")
}

fn op2(op: &str, x: &str, y: &str) -> String {
    format!("{{\"Op2\":[{op},{x},{y}]}}")
}

fn call(callee: &str, xs: &[String], to: usize) -> String {
    format!("{{\"Call\":[{callee},[{}],{}]}}", xs.join(","), place(to, ""))
}

fn function_at(name: &str, types: &[&str], dicts: &[&str]) -> String {
    format!("{{\"Fn\":[\"{name}\",{{\"types\":[{}],\"dicts\":[{}]}}]}}", types.join(","), dicts.join(","))
}

/// A statement behind each of these, and a return behind the last.
fn body(parts: &[String]) -> String {
    parts.iter().map(|part| format!("\"Seq\",{part},")).collect::<String>() + "\"Return\""
}

/// A function of some parameters; its locals, and the types that are declared, with impls that it names.
fn function(name: &str, params: usize, locals: &[String], types: &str, impls: &str, body: &str) -> String {
    let locals: Vec<String> = locals.iter().map(|t| format!("{{\"ty\":{t},\"home\":\"ValueLocal\"}}")).collect();
    format!(
        "[\"{name}\",{{\"params\":{params},\"generics\":{{\"impls\":[{impls}]}},\"types\":[{types}],\"locals\":[{}],\"body\":[{body}]}}]",
        locals.join(",")
    )
}

const U32: &str = "{\"Int\":32}";
const PARAM: &str = "{\"Param\":0}";

fn library() -> String {
    let (u32, param) = (U32.to_string(), PARAM.to_string());
    let (x, y) = (copy(1), copy(2));
    let unsigned = |op: &str| format!("{{\"{op}\":\"Unsigned\"}}");
    let given = "{\"Method\":[{\"Given\":0},1,{\"types\":[],\"dicts\":[]}]}";
    let counts =
        |of: &str| format!("{{\"name\":\"small::Counts{of}\",\"methods\":[\"small::Counts{of}::none\",\"small::Counts{of}::one\"]}}");
    let named = |of: &str, args: &str| format!("{{\"Named\":[{{\"name\":\"{of}\",\"lifetimes\":[]}},[{args}]]}}");
    let pair = "{\"name\":\"small::Pair\",\"shape\":{\"Fields\":[{\"Param\":0},{\"Int\":8}]}}";
    let two = "{\"name\":\"small::Two\",\"shape\":{\"Variants\":[[],[{\"Param\":0}]]}}";
    let text = "{\"Struct\":[\"&[]\",[{\"Ref\":[\"Erased\",\"Imm\",{\"Int\":8}]},{\"Int\":64}]]}";
    let array = "{\"Array\":[{\"Int\":32},{\"Param\":0}]}";
    let functions = [
        // at two widths a call through a dictionary is of two functions, and a type's size is of two numbers
        function("small::CountsA::none", 0, &[u32.clone()], "", "", &body(&[set(0, &of(&number(32, 1)))])),
        function("small::CountsA::one", 0, &[u32.clone()], "", "", &body(&[set(0, &of(&number(32, 10)))])),
        function("small::CountsB::none", 0, &[u32.clone()], "", "", &body(&[set(0, &of(&number(32, 100)))])),
        function("small::CountsB::one", 0, &[u32.clone()], "", "", &body(&[set(0, &of(&number(32, 1000)))])),
        function(
            "small::counted",
            1,
            &[u32.clone(), param.clone(), u32.clone(), int(64), u32.clone()],
            pair,
            "",
            &body(&[
                call(given, &[], 2),
                set(3, &of(&format!("{{\"SizeOf\":{}}}", named("small::Pair", PARAM)))),
                set(4, &format!("{{\"Op1\":[{{\"Cast\":[\"Unsigned\",\"Unsigned\",32]}},{}]}}", copy(3))),
                set(0, &op2(&unsigned("Add"), &copy(2), &copy(4))),
            ]),
        ),
        function(
            "small::dictionaries",
            2,
            &[u32.clone(), u32.clone(), u32.clone(), u32.clone(), u32.clone(), int(64), u32.clone(), u32.clone(), u32.clone()],
            "",
            &format!("{},{}", counts("A"), counts("B")),
            &body(&[
                call(&function_at("small::counted", &[U32], &["{\"Impl\":[\"small::CountsA\",[],[]]}"]), &[x.clone()], 3),
                set(5, &of(&number(64, 7))),
                call(&function_at("small::counted", &[&int(64)], &["{\"Impl\":[\"small::CountsB\",[],[]]}"]), &[copy(5)], 4),
                call(&function_at("small::counted", &[U32], &["{\"Impl\":[\"small::CountsB\",[],[]]}"]), &[x.clone()], 7),
                // 10 + 8, 1000 + 16, and 1000 + 8
                set(6, &op2(&unsigned("Add"), &copy(3), &copy(4))),
                set(8, &op2(&unsigned("Add"), &copy(6), &copy(7))),
                set(0, &op2(&unsigned("Add"), &copy(8), &y)),
            ]),
        ),
        // an enum at a type, and what is in it
        function(
            "small::wrapped",
            1,
            &[named("small::Two", PARAM), param.clone()],
            two,
            "",
            &body(&[set(0, &format!("{{\"Aggregate\":[{},{x}]}}", number(8, 1)))]),
        ),
        function(
            "small::variants",
            2,
            &[u32.clone(), u32.clone(), u32.clone(), named("small::Two", U32)],
            two,
            "",
            &body(&[
                call(&function_at("small::wrapped", &[U32], &[]), &[y.clone()], 3),
                format!(
                    "{{\"Switch\":[{{\"Copy\":{}}},[[1],[0]],false]}},{},{}",
                    place(3, "{\"Variant\":0},{\"Field\":0}"),
                    set(0, &of(&format!("{{\"Copy\":{}}}", place(3, "{\"Variant\":1},{\"Field\":1}")))),
                    set(0, &of(&x))
                ),
            ]),
        ),
        // a list in memory of its own, behind the pointer to it
        function(
            "small::constants",
            2,
            &[
                u32.clone(),
                u32.clone(),
                u32.clone(),
                format!("{{\"Ref\":[\"Erased\",\"Imm\",{text}]}}"),
                text.to_string(),
                "\"Ptr\"".into(),
                int(8),
                u32.clone(),
                int(64),
                u32.clone(),
            ],
            "",
            "",
            &body(&[
                format!(
                    "{{\"LendStatic\":[{},{{\"Struct\":[\"\",[{text},{{\"Array\":[{{\"Int\":8}},{{\"Lit\":3}}]}}]]}},{{\"Parts\":[{{\"Parts\":[{{\"Here\":16}},{}]}},{{\"Ints\":{{\"width\":8,\"values\":[50,60,70]}}}}]}}]}}",
                    place(3, ""),
                    number(64, 3)
                ),
                set(4, &of(&format!("{{\"Copy\":{}}}", place(3, &format!("{{\"Deref\":{text}}}"))))),
                set(5, &op2("\"Offset\"", &format!("{{\"Copy\":{}}}", place(4, "{\"Field\":0}")), &number(64, 2))),
                set(6, &of(&format!("{{\"Copy\":{}}}", place(5, "{\"Deref\":{\"Int\":8}}")))),
                set(7, &format!("{{\"Op1\":[{{\"Cast\":[\"Unsigned\",\"Unsigned\",32]}},{}]}}", copy(6))),
                set(8, &of(&format!("{{\"Copy\":{}}}", place(4, "{\"Field\":1}")))),
                set(9, &format!("{{\"Op1\":[{{\"Cast\":[\"Unsigned\",\"Unsigned\",32]}},{}]}}", copy(8))),
                set(0, &op2(&unsigned("Add"), &copy(7), &copy(9))),
            ]),
        ),
        // an array as long as a parameter says
        function(
            "small::filled",
            1,
            &[u32.clone(), u32.clone(), array.into(), int(64), u32.clone()],
            "",
            "",
            &body(&[
                set(2, &format!("{{\"Repeat\":[{x},{{\"Param\":0}}]}}")),
                set(3, &of("{\"NumOf\":[64,{\"Param\":0}]}")),
                set(4, &format!("{{\"Op1\":[{{\"Cast\":[\"Unsigned\",\"Unsigned\",32]}},{}]}}", copy(3))),
                set(0, &op2(&unsigned("Mul"), &copy(4), &x)),
            ]),
        ),
        function(
            "small::lengths",
            2,
            &[u32.clone(), u32.clone(), u32.clone(), u32.clone(), u32],
            "",
            "",
            &body(&[
                call(&function_at("small::filled", &["{\"Const\":5}"], &[]), &[x], 3),
                call(&function_at("small::filled", &["{\"Const\":7}"], &[]), &[y], 4),
                set(0, &op2(&unsigned("Add"), &copy(3), &copy(4))),
            ]),
        ),
    ];
    format!("[{}]", functions.join(","))
}

const ASKED: [(&str, u32, u32, u32); 4] =
    [("dictionaries", 0, 3, 2045), ("variants", 5, 9, 9), ("constants", 0, 0, 73), ("lengths", 2, 3, 31)];

fn translator(folder: &PathBuf, words: &[&str]) -> Output {
    Command::new(env!("CARGO_BIN_EXE_translator")).args(words).current_dir(folder).output().unwrap()
}

fn room(name: &str) -> PathBuf {
    let folder = PathBuf::from(env!("CARGO_TARGET_TMPDIR")).join(name);
    std::fs::create_dir_all(&folder).unwrap();
    folder
}

#[test]
fn what_is_reached_is_taken_at_its_types_and_dictionaries() {
    let folder = room("linked");
    let declared: String = ASKED.iter().map(|a| format!("uint32_t {}(uint32_t x, uint32_t y);\n", a.0)).collect();
    std::fs::write(folder.join("small.h"), format!("#include <stdint.h>\n{declared}")).unwrap();
    std::fs::write(folder.join("mir.json"), library()).unwrap();
    let own = ["--header", "small.h", "--crate", "small"];
    let linked = translator(&folder, &[&["link", "--library", "mir.json"], &own[..]].concat());
    assert!(linked.status.success(), "{}", String::from_utf8_lossy(&linked.stderr));
    std::fs::write(folder.join("small.mir"), &linked.stdout).unwrap();
    let written = translator(&folder, &[&["small.mir", "--sum", "none"], &own[..]].concat());
    assert!(written.status.success(), "{}", String::from_utf8_lossy(&written.stderr));
    std::fs::write(folder.join("small.c"), &written.stdout).unwrap();
    let calls: String = ASKED.iter().map(|a| format!("    printf(\"%lu\\n\", (unsigned long){}({}u, {}u));\n", a.0, a.1, a.2)).collect();
    std::fs::write(
        folder.join("main.c"),
        format!("#include <stdio.h>\n#include \"small.h\"\nint main(void)\n{{\n{calls}    return 0;\n}}\n"),
    )
    .unwrap();
    let compiler = std::env::var("CC").unwrap_or("cc".into());
    let flags = ["-std=c11", "-O2", "-Wall", "-Wextra", "-Werror", "small.c", "main.c", "-o", "small"];
    assert!(Command::new(compiler).args(flags).current_dir(&folder).status().unwrap().success());
    let printed = String::from_utf8(Command::new(folder.join("small")).output().unwrap().stdout).unwrap();
    let wanted: Vec<String> = ASKED.iter().map(|a| a.3.to_string()).collect();
    assert_eq!(printed.lines().collect::<Vec<_>>(), wanted);
}

#[test]
fn what_is_in_no_library_is_refused_by_name() {
    let folder = room("lacking");
    let lacking = function(
        "small::lacking",
        2,
        &[U32.into(), U32.into(), U32.into()],
        "",
        "",
        &body(&[call(&function_at("small::gone", &[], &[]), &[], 0)]),
    );
    std::fs::write(folder.join("small.h"), "uint32_t lacking(uint32_t x, uint32_t y);\n").unwrap();
    std::fs::write(folder.join("mir.json"), format!("[{lacking}]")).unwrap();
    let linked = translator(&folder, &["link", "--library", "mir.json", "--header", "small.h", "--crate", "small"]);
    assert_eq!(linked.status.code(), Some(1));
    assert!(linked.stdout.is_empty());
    assert!(String::from_utf8(linked.stderr).unwrap().contains("small::gone"));
}
