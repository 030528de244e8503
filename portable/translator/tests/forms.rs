//! The translator on small terms whose answers are plain from the logic's Mir/Val.antt and Prog/Machine.antt:
//! what the library's own questions would not tell from a wrong translation, each a function of two numbers
//! that is written as C, compiled and run. And forms that it does not know, which it has to refuse by name.
use std::path::{Path, PathBuf};
use std::process::{Command, Output, Stdio};
use std::thread::sleep;
use std::time::Duration;

// ---- terms, as `rt mir` prints them

fn list(parts: &[String]) -> String {
    parts.iter().rev().fold("lnil".into(), |rest, part| format!("(lcons {part} {rest})"))
}

fn seq(parts: &[String]) -> String {
    parts.iter().rev().cloned().reduce(|rest, part| format!("(seq {part} {rest})")).unwrap_or("skip".into())
}

fn set(local: usize, value: &str) -> String {
    format!("(assign (place {local} lnil) {value})")
}

/// What a pointer points to.
fn at(pointer: usize, of: &str) -> String {
    format!("(place {pointer} (lcons (deref {of}) lnil))")
}

fn copy(local: usize) -> String {
    format!("(copy (place {local} lnil))")
}

fn of(operand: &str) -> String {
    format!("(rvOpd {operand})")
}

fn op2(op: &str, x: &str, y: &str) -> String {
    format!("(op2 {op} {x} {y})")
}

const U32: &str = "(tyInt 32)";
const U64: &str = "(tyInt 64)";
const MUT: &str = "(tyRef erased mut (tyInt 32))";
const FIVE: &str = "(tyArray (tyInt 32) (lenLit 5))";

/// A function of two numbers of 32 bits, which are its locals 1 and 2: its other locals, a star before one in
/// memory, and its statements, behind which local 0 is returned.
fn function(name: &str, locals: &[&str], body: &[String]) -> String {
    let home = |t: &&str| match t.strip_prefix('*') {
        Some(t) => format!("(local {t} memorySlot)"),
        None => format!("(local {t} valueLocal)"),
    };
    let all: Vec<String> = [U32, U32, U32].iter().chain(locals).map(home).collect();
    let body = seq(&[seq(body), "return".into()]);
    format!("(fn-def \"small::{name}\" (fnItem 0 lnil 2 {} {body}))", list(&all))
}

fn room(name: &str) -> PathBuf {
    let folder = PathBuf::from(env!("CARGO_TARGET_TMPDIR")).join(name);
    std::fs::create_dir_all(&folder).unwrap();
    folder
}

fn translated(name: &str, functions: &[String], header: &str) -> (PathBuf, Output) {
    let folder = room(name);
    std::fs::write(folder.join("small.mir"), format!("program {} (fnRef \"none\")\n", list(functions))).unwrap();
    std::fs::write(folder.join("small.h"), header).unwrap();
    let output = Command::new(env!("CARGO_BIN_EXE_translator"))
        .args(["small.mir", "--sum", "none", "--header", "small.h", "--crate", "small"])
        .current_dir(&folder)
        .output()
        .unwrap();
    (folder, output)
}

struct Case {
    name: &'static str,
    locals: Vec<&'static str>,
    body: Vec<String>,
    asked: (u32, u32),
    wanted: u32,
}

fn cases() -> Vec<Case> {
    let (x, y) = (copy(1), copy(2));
    let numbers = |n: [u32; 5]| format!("(aggregate {})", list(&n.map(|n| format!("(int 32 {n})"))));
    let element = |pointer: usize, to: usize, i: usize| {
        vec![
            set(pointer, &format!("(addrOf (place {to} lnil))")),
            set(pointer + 1, &op2("offset", &copy(pointer), &format!("(int 64 {})", 4 * i))),
        ]
    };
    let case =
        |name, locals: &[&'static str], body: Vec<String>, asked, wanted| Case { name, locals: locals.to_vec(), body, asked, wanted };
    let exits = |k: usize| {
        // out of an inner loop in a block in an outer loop in a block: 0 turns the inner one, 1 leaves it, 2
        // turns the outer one, 3 leaves both
        let inner = seq(&[
            set(0, &op2("(add unsigned)", &copy(0), "(int 32 1)")),
            set(3, &op2("(lt unsigned)", &copy(0), &x)),
            format!("(if {} (exit 0) skip)", copy(3)),
            format!("(exit {k})"),
        ]);
        let outer = seq(&[
            set(0, &op2("(add unsigned)", &copy(0), "(int 32 100)")),
            set(3, &op2("(lt unsigned)", "(int 32 300)", &copy(0))),
            format!("(if {} (exit 1) skip)", copy(3)),
            format!("(block (loop {inner}))"),
        ]);
        vec![set(0, &of("(int 32 0)")), format!("(block (loop {outer}))")]
    };
    let less = |local: usize, a: &str, b: &str| set(local, &op2("(lt unsigned)", a, b));
    let plus = |n: u32| set(0, &op2("(add unsigned)", &copy(0), &format!("(int 32 {n})")));
    // whether a test holds of x / x and itself
    let quotient = ["(tyFloat 64)", "(tyFloat 64)", "tyBool"];
    let by_itself = |test: &str| {
        vec![
            set(3, &format!("(op1 (intToFloat unsigned 64) {x})")),
            set(4, &op2("floatDiv", &copy(3), &copy(3))),
            set(5, &op2(test, &copy(4), &copy(4))),
            format!("(if {} {} {})", copy(5), set(0, &of("(int 32 1)")), set(0, &of("(int 32 0)"))),
        ]
    };
    let truths = |op: &str| {
        let is = |local: usize, a: &str| set(local, &op2("eq", a, "(int 32 1)"));
        vec![
            is(3, &x),
            is(4, &y),
            set(5, &op2(op, &copy(3), &copy(4))),
            format!("(if {} {} {})", copy(5), set(0, &of("(int 32 1)")), set(0, &of("(int 32 0)"))),
        ]
    };
    let two_blocks = || {
        let inner = seq(&[less(3, &x, &y), format!("(if {} (exit 1) skip)", copy(3)), plus(10)]);
        vec![set(0, &of("(int 32 1)")), format!("(block {})", seq(&[format!("(block {inner})"), plus(100)]))]
    };
    let one_or_other = || {
        let one = seq(&[plus(7), "(exit 0)".into()]);
        let block = seq(&[less(3, &x, &y), format!("(if {} {one} skip)", copy(3)), plus(20)]);
        vec![set(0, &of("(int 32 0)")), format!("(block {block})")]
    };
    let both_tests = || {
        let both = seq(&[plus(1), "(exit 0)".into()]);
        let second = seq(&[less(4, &y, "(int 32 7)"), format!("(if {} {both} skip)", copy(4))]);
        let first = seq(&[less(3, &x, "(int 32 5)"), format!("(if {} {second} skip)", copy(3)), plus(100)]);
        vec![set(0, &of("(int 32 0)")), format!("(block {first})")]
    };
    vec![
        // a copy in memory that is written through its address: what is read behind that is not what was
        // copied
        case(
            "slot_is_a_copy",
            &["*(tyInt 32)", MUT],
            vec![
                set(3, &of(&x)),
                set(4, "(addrOf (place 3 lnil))"),
                format!("(assign {} {})", at(4, U32), of(&y)),
                set(0, &op2("(add unsigned)", &copy(3), &x)),
            ],
            (5, 70),
            75,
        ),
        // the same where nothing but its address is ever asked for: what it is a copy of stays
        case(
            "slot_is_no_parameter",
            &["*(tyInt 32)", MUT, U32],
            vec![
                set(1, &op2("(add unsigned)", &x, "(int 32 1)")),
                set(3, &of(&x)),
                set(4, "(addrOf (place 3 lnil))"),
                format!("(assign {} {})", at(4, U32), of(&y)),
                set(5, &of(&format!("(copy {})", at(4, U32)))),
                set(0, &op2("(add unsigned)", &copy(5), &x)),
            ],
            (5, 70),
            76,
        ),
        // a copy that is read behind a write of what it is a copy of
        case("copy_before_a_write", &[U32], vec![set(3, &of(&x)), set(1, &of(&y)), set(0, &of(&copy(3)))], (5, 70), 5),
        // the same through memory
        case(
            "copy_before_a_store",
            &["*(tyInt 32)", MUT, U32],
            vec![
                set(3, &of(&x)),
                set(4, "(addrOf (place 3 lnil))"),
                set(5, &of(&format!("(copy {})", at(4, U32)))),
                format!("(assign {} {})", at(4, U32), of(&y)),
                set(0, &of(&copy(5))),
            ],
            (5, 70),
            5,
        ),
        // below 32 bits a product is cut, where C's int would overflow
        case(
            "narrow_product",
            &["(tyInt 16)", "(tyInt 16)"],
            vec![
                set(3, &format!("(op1 (cast unsigned unsigned 16) {x})")),
                set(4, &op2("(mul unsigned)", &copy(3), &copy(3))),
                set(0, &format!("(op1 (cast unsigned unsigned 32) {})", copy(4))),
            ],
            (65535, 0),
            1,
        ),
        case(
            "narrow_difference",
            &["(tyInt 8)", "(tyInt 8)"],
            vec![
                set(3, &format!("(op1 (cast unsigned unsigned 8) {x})")),
                set(4, &op2("(sub unsigned)", "(int 8 1)", &copy(3))),
                set(0, &format!("(op1 (cast unsigned unsigned 32) {})", copy(4))),
            ],
            (2, 0),
            255,
        ),
        // a wider number of a signed one repeats its sign, one of an unsigned one does not
        case(
            "signed_cast",
            &["(tyInt 16)"],
            vec![set(3, &format!("(op1 (cast unsigned signed 16) {x})")), set(0, &format!("(op1 (cast signed signed 32) {})", copy(3)))],
            (65534, 0),
            4294967294,
        ),
        case(
            "unsigned_cast",
            &["(tyInt 16)"],
            vec![
                set(3, &format!("(op1 (cast unsigned unsigned 16) {x})")),
                set(0, &format!("(op1 (cast unsigned unsigned 32) {})", copy(3))),
            ],
            (65534, 0),
            65534,
        ),
        case(
            "signed_less",
            &["tyBool"],
            vec![
                set(3, &op2("(lt signed)", &x, &y)),
                format!("(if {} {} {})", copy(3), set(0, &of("(int 32 1)")), set(0, &of("(int 32 0)"))),
            ],
            (4294967295, 0),
            1,
        ),
        case(
            "unsigned_at_most",
            &["tyBool"],
            vec![
                set(3, &op2("(le unsigned)", &x, &y)),
                format!("(if {} {} {})", copy(3), set(0, &of("(int 32 1)")), set(0, &of("(int 32 0)"))),
            ],
            (7, 7),
            1,
        ),
        // below 0 and above the top it goes round
        case("wrapped_sum", &[], vec![set(0, &op2("wrapAdd", &x, &y))], (u32::MAX, 5), 4),
        case("wrapped_difference", &[], vec![set(0, &op2("wrapSub", &x, &y))], (3, 5), u32::MAX - 1),
        case("wrapped_product", &[], vec![set(0, &op2("wrapMul", &x, &y))], (u32::MAX, 3), u32::MAX - 2),
        // bit by bit, of numbers and of truths
        case("bits_of_both", &[], vec![set(0, &op2("and", &x, &y))], (12, 10), 8),
        case("bits_of_either", &[], vec![set(0, &op2("or", &x, &y))], (12, 10), 14),
        case("both_truths", &["tyBool", "tyBool", "tyBool"], truths("and"), (0, 1), 0),
        case("either_truth", &["tyBool", "tyBool", "tyBool"], truths("or"), (0, 1), 1),
        case("trailing_zeros", &[], vec![set(0, &format!("(op1 trailingZeros {x})"))], (24, 0), 3),
        case("trailing_zeros_of_none", &[], vec![set(0, &format!("(op1 trailingZeros {x})"))], (0, 0), 32),
        // 0 / 0 differs from itself, and is not equal to it; 7 / 7 is
        case("not_a_number", &quotient, by_itself("floatNe"), (0, 0), 1),
        case("not_equal_to_itself", &quotient, by_itself("floatEq"), (0, 0), 0),
        case("equal_to_itself", &quotient, by_itself("floatEq"), (7, 7), 1),
        // where no key is the number, the arm without keys; the last arm where there is none
        case(
            "switch_with_a_default",
            &[],
            vec![format!(
                "(switch {x} (arm (lcons 1 (lcons 3 lnil)) {} (arm (lcons 2 lnil) {} (default {}))))",
                set(0, &of("(int 32 10)")),
                set(0, &of("(int 32 20)")),
                set(0, &of("(int 32 30)"))
            )],
            (3, 0),
            10,
        ),
        // to 150 one by one, then by 101 to 251 and by 100 to 351; and where both are left, at 150
        case("leave_the_inner_loop", &["tyBool"], exits(1), (150, 0), 351),
        case("turn_the_outer_loop", &["tyBool"], exits(2), (150, 0), 351),
        case("leave_both_loops", &["tyBool"], exits(3), (150, 0), 150),
        // out of two blocks at once, past what is behind the inner one; and not
        case("leave_two_blocks", &["tyBool"], two_blocks(), (3, 4), 1),
        case("leave_no_block", &["tyBool"], two_blocks(), (4, 3), 111),
        // what is behind a test that leaves the block is for the other answer
        case("one_answer", &["tyBool"], one_or_other(), (3, 4), 7),
        case("the_other_answer", &["tyBool"], one_or_other(), (4, 3), 20),
        // the second test is made where the first holds, and both have to
        case("both_tests", &["tyBool", "tyBool"], both_tests(), (4, 6), 1),
        case("only_the_first_test", &["tyBool", "tyBool"], both_tests(), (4, 7), 100),
        case("only_the_second_test", &["tyBool", "tyBool"], both_tests(), (5, 6), 100),
        // an array of constants that is only read may be a table of the file
        case(
            "table",
            &["*(tyArray (tyInt 32) (lenLit 5))", "tyPtr", "tyPtr"],
            [vec![set(3, &numbers([11, 12, 13, 14, 15]))], element(4, 3, 3), vec![set(0, &of(&format!("(copy {})", at(5, U32))))]].concat(),
            (0, 0),
            14,
        ),
        // one that is written to may not
        case(
            "no_table_where_it_is_written",
            &["*(tyArray (tyInt 32) (lenLit 5))", "tyPtr", "tyPtr"],
            [
                vec![set(3, &numbers([11, 12, 13, 14, 15]))],
                element(4, 3, 3),
                vec![format!("(assign {} {})", at(5, U32), of(&x)), set(0, &of(&format!("(copy {})", at(5, U32))))],
            ]
            .concat(),
            (9, 0),
            9,
        ),
        case(
            "repeated_once",
            &["*(tyArray (tyInt 32) (lenLit 5))", "tyPtr", "tyPtr", FIVE],
            [
                vec![set(3, &numbers([11, 12, 13, 14, 15]))],
                element(4, 3, 1),
                vec![format!("(assign (place 3 lnil) (repeat (copy {}) 5))", at(5, U32))],
                element(4, 3, 4),
                vec![set(0, &of(&format!("(copy {})", at(5, U32))))],
            ]
            .concat(),
            (0, 0),
            12,
        ),
    ]
}

/// What a program prints. A wrong loop may have no end: after ten seconds the program is ended.
fn printed_in_time(program: &Path) -> String {
    let mut run = Command::new(program).stdout(Stdio::piped()).spawn().unwrap();
    for _ in 0..1000 {
        if run.try_wait().unwrap().is_some() {
            return String::from_utf8(run.wait_with_output().unwrap().stdout).unwrap();
        }
        sleep(Duration::from_millis(10));
    }
    run.kill().unwrap();
    panic!("a loop has no end")
}

#[test]
fn small_terms_as_c_give_the_logics_answers() {
    let cases = cases();
    let functions: Vec<String> = cases.iter().map(|c| function(c.name, &c.locals, &c.body)).collect();
    let declared: String = cases.iter().map(|c| format!("uint32_t {}(uint32_t x, uint32_t y);\n", c.name)).collect();
    let (folder, output) = translated("answers", &functions, &format!("#include <stdint.h>\n{declared}"));
    assert!(output.status.success(), "{}", String::from_utf8_lossy(&output.stderr));
    std::fs::write(folder.join("small.c"), &output.stdout).unwrap();
    let calls: String =
        cases.iter().map(|c| format!("    printf(\"%lu\\n\", (unsigned long){}({}u, {}u));\n", c.name, c.asked.0, c.asked.1)).collect();
    std::fs::write(
        folder.join("main.c"),
        format!("#include <stdio.h>\n#include \"small.h\"\nint main(void)\n{{\n{calls}    return 0;\n}}\n"),
    )
    .unwrap();
    let compiler = std::env::var("CC").unwrap_or("cc".into());
    let flags = ["-std=c11", "-O2", "-Wall", "-Wextra", "-Werror", "small.c", "main.c", "-o", "small"];
    assert!(Command::new(compiler).args(flags).current_dir(&folder).status().unwrap().success());
    let printed = printed_in_time(&folder.join("small"));
    for (case, line) in cases.iter().zip(printed.lines()) {
        assert_eq!(line, case.wanted.to_string(), "{}", case.name);
    }
    assert_eq!(printed.lines().count(), cases.len());
    let c = String::from_utf8(output.stdout).unwrap();
    assert_eq!(c.matches("static const").count(), 1, "one array is only read");
}

#[test]
fn a_form_that_no_crate_uses_is_refused_by_name() {
    let (x, y) = (copy(1), copy(2));
    for (form, value) in [
        ("(div signed)", op2("(div signed)", &x, &y)),
        ("(shr unsigned)", op2("(shr unsigned)", &x, &y)),
        ("countOnes", format!("(op1 countOnes {x})")),
        ("(withAddr", format!("(op2 (withAddr {x}) {x} {y})")),
    ] {
        let (_, output) =
            translated("refused", &[function("refused", &[U64], &[set(0, &value)])], "uint32_t refused(uint32_t x, uint32_t y);\n");
        assert_eq!(output.status.code(), Some(1), "{form}");
        assert!(output.stdout.is_empty(), "{form}");
        let said = String::from_utf8(output.stderr).unwrap();
        assert!(said.contains(form), "{said}");
    }
}
