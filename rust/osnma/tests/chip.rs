//! `examples/chip.c`: the specification's published signature, verified by OpenSSL from what the core hands out. Where
//! OpenSSL is not there the tests say so and do nothing.

mod compiled;

use compiled::{cpp_compilers, run, skipped, top, Program, C99, CPP17};
use std::io::Write;
use std::process::{Command, Stdio};

const PRINTED: &str = "\
message of 29 bytes, signature of 64, key 0 of 33
a changed message: no
a changed signature: no
the message with the zeros behind it: no
the message: yes
verdict: done
chain in force: 1
";

/// A source with a library behind it, fed to the compiler.
fn compiles(source: &str) -> bool {
    let mut words = Command::new("cc");
    words.args(["-x", "c", "-", "-lcrypto", "-o", "/dev/null"]);
    let child = words.stdin(Stdio::piped()).stderr(Stdio::null()).spawn();
    let mut child = child.expect("a C compiler");
    let mut to = child.stdin.take().expect("a pipe");
    to.write_all(source.as_bytes()).expect("it reads");
    drop(to);
    child.wait().expect("it ends").success()
}

#[test]
fn published_signature() {
    let openssl_3 = "#include <openssl/core_names.h>\n#include <openssl/evp.h>\n\
         int main(void) { return EVP_PKEY_CTX_new_from_name(0, \"EC\", 0) == 0; }\n";
    if !compiles(openssl_3) {
        skipped("OpenSSL 3 is not there to compile examples/chip.c with (Debian: libssl-dev)");
        return;
    }
    let cpp = cpp_compilers()
        .into_iter()
        .map(|compiler| (compiler, CPP17));
    for (compiler, language) in std::iter::once(("cc", C99)).chain(cpp) {
        let program = Program {
            compiler,
            language,
            source: "examples/chip.c",
            include: Some(&top().join("include")),
            archives: &["osnma"],
            libraries: &["-lcrypto"],
        };
        let program = program.built(&format!("chip_{compiler}"));
        assert_eq!(run(&program.expect("it compiles"), &[], &[]), PRINTED);
    }
}

/// Whether the openssl program takes this as a public key.
fn is_point(base64: &str) -> Option<bool> {
    let mut openssl = Command::new("openssl");
    openssl.args(["pkey", "-pubin", "-noout"]);
    let pipes = openssl.stdin(Stdio::piped()).stderr(Stdio::null());
    let mut child = pipes.stdout(Stdio::null()).spawn().ok()?;
    let mut to = child.stdin.take()?;
    writeln!(
        to,
        "-----BEGIN PUBLIC KEY-----\n{base64}\n-----END PUBLIC KEY-----"
    )
    .ok()?;
    drop(to);
    child.wait().ok().map(|status| status.success())
}

// A.1.4's key as our copy prints it has three digits 1 among its coordinates. Of the eight ways to read each as 1 or l,
// one is a point of the curve.
#[test]
fn letters_of_the_key() {
    let found: Vec<(usize, bool)> = (0..8)
        .filter_map(|way| {
            let letter = |bit: usize| if way >> bit & 1 == 1 { 'l' } else { '1' };
            let (a, b, c) = (letter(0), letter(1), letter(2));
            let base64 = format!(
                "MFkwEwYHKoZIzj0CAQYIKoZIzj0DAQcDQgAEc7RAsKw8qkRfv{a}Vvn4p4{b}a{c}XX0K0\n\
                 rTSveYwqGMW8OovntszzLiy4dTGcSkvwo0gejSbRjkRnMpQBta/RDLnWOA=="
            );
            Some((way, is_point(&base64)?))
        })
        .collect();
    if found.is_empty() {
        skipped("the openssl program is not there to look at the annex's key");
        return;
    }
    let right: Vec<usize> = found.iter().filter(|f| f.1).map(|f| f.0).collect();
    assert_eq!((found.len(), right), (8, vec![0b011]));
}
