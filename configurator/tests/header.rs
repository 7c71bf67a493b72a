//! The C header: a C program that knows the library by `include/spardimple.h` alone is compiled with
//! every warning an error, linked with the archive, and run.

mod common;

use common::command::{folder, text};
use std::env;
use std::process::Command;

/// What `tests/c/calls.c` prints. Of K7: its verdict, that of the second piece alone, the refusal 8, two
/// refusals that write nothing, the reasons with the byte behind them, the demand from 9 to 12 and
/// beyond the sizes, and the refusal 3. Of a sheet: its listing with the byte behind it, two refusals
/// that write nothing, three more, and the reasons of its core with the byte behind them. Of two sheets
/// side by side: three refusals that write nothing, and the text with the byte behind it.
const CALLS: &str = "\
K7\t1\t11
the second alone\t0\t0
27 bytes\t108\t0
why, a short buffer\t110\t78
why, 35 bytes\t108\t0
........
why\t0\t78
why\toverloaded\t11\t4
piece\t1\twhole\t1\t8\t0
piece\t2\twhole\t0\t0\t0
total\t12
slack\t-1
.
demand\t0\t4
demand\t0\t12
demand\t0\t12
demand\t0\t9
demand, too long\t0\t0
another kind\t103\t2
a sheet\t0\t33
plan\t1\t1
piece\t1\tt\twhole\t1\t2\t0\t1
.
a short buffer\t110\t33
a cut sheet\t108\t4
........
no such core\t101\t0
why, a cut sheet\t108\t4
why, a short buffer\t110\t51
........
why\t0\t51
why\tpasses\t2\t0
piece\tt\twhole\t1\t1\t0
total\t1
slack\t1
.
diff, both cut\t108\t4
diff, the second cut\t1108\t4
diff, a short buffer\t110\t61
........
diff\t0\t61
diff\t1\t1
was\tt\t1\twhole\t1\t2\t2\t0\t0\t0
now\tt\t1\twhole\t1\t2\t3\t0\t0\t0
.
";

#[test]
fn a_c_program_calls_the_library_by_its_header() {
    let package = env!("CARGO_MANIFEST_DIR");
    let archive = env::var("SPARDIMPLE_ARCHIVE")
        .unwrap_or_else(|_| format!("{package}/../target/staticlib/libspardimple.a"));
    let compiler = env::var("CARGO_TARGET_X86_64_UNKNOWN_LINUX_GNU_LINKER")
        .unwrap_or_else(|_| "cc".to_owned());
    let program = folder("header").join("calls");
    let compiled = Command::new(compiler)
        .args(["-std=c99", "-Wall", "-Wextra", "-pedantic", "-Werror"])
        .arg("-static")
        .args(["-I", &format!("{package}/../include")])
        .arg(format!("{package}/tests/c/calls.c"))
        .arg(archive)
        .arg("-o")
        .arg(&program)
        .output()
        .expect("there is a C compiler");
    assert!(compiled.status.success(), "{}", text(&compiled.stderr));
    let called = match env::var("CARGO_TARGET_X86_64_UNKNOWN_LINUX_GNU_RUNNER") {
        Ok(runner) => Command::new(runner).arg(&program).output(),
        Err(_) => Command::new(&program).output(),
    }
    .expect("the program runs");
    assert!(called.status.success());
    assert_eq!(text(&called.stdout), CALLS);
}
