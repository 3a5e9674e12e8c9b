//! Finds OpenSSL and BearSSL by compiling and linking a small program with each; the benchmark is
//! built without those that are not there.

use std::path::{Path, PathBuf};
use std::process::{Command, Stdio};

const OPENSSL: &str = "
#include <openssl/cmac.h>
#include <openssl/evp.h>
#include <openssl/hmac.h>
#include <openssl/sha.h>
_Static_assert(sizeof(SHA256_CTX) == 112, \"the context in src/openssl.rs\");
int main(void) { return HMAC_CTX_new() == 0 || EVP_sha256() == 0 || EVP_MD_fetch(0, \"SHA3-256\", 0) == 0 || CMAC_CTX_new() == 0; }
";

const BEARSSL: &str = "
#include <bearssl.h>
_Static_assert(sizeof(br_hmac_key_context) <= 1024, \"the contexts in src/bearssl.rs\");
_Static_assert(sizeof(br_hmac_context) <= 1024, \"the contexts in src/bearssl.rs\");
_Static_assert(sizeof(br_aes_ct64_ctrcbc_keys) <= 512, \"the contexts in src/bearssl_mac.rs\");
_Static_assert(sizeof(br_aes_big_ctrcbc_keys) <= 512, \"the contexts in src/bearssl_mac.rs\");
void br_sha2small_round(const unsigned char *block, uint32_t *value);
int main(void) { uint32_t v[8] = {0}; unsigned char b[64] = {0}; br_sha2small_round(b, v); return 0; }
";

fn builds(folder: &Path, name: &str, source: &str, library: &str) -> bool {
    let file: PathBuf = folder.join(format!("{name}.c"));
    std::fs::write(&file, source).is_ok()
        && Command::new("cc")
            .arg(&file)
            .arg("-o")
            .arg(folder.join(name))
            .arg(library)
            .args(["-Wno-deprecated-declarations"])
            .stderr(Stdio::null())
            .status()
            .is_ok_and(|status| status.success())
}

fn main() {
    println!("cargo:rustc-check-cfg=cfg(has_openssl, has_bearssl)");
    // A header that is missing is looked for again at each build.
    println!("cargo:rerun-if-changed=build.rs");
    println!("cargo:rerun-if-changed=/usr/include/openssl/hmac.h");
    println!("cargo:rerun-if-changed=/usr/include/bearssl.h");
    let folder = PathBuf::from(std::env::var_os("OUT_DIR").unwrap_or_default());
    if builds(&folder, "openssl", OPENSSL, "-lcrypto") {
        println!("cargo:rustc-cfg=has_openssl");
        println!("cargo:rustc-link-lib=dylib=crypto");
    }
    if builds(&folder, "bearssl", BEARSSL, "-l:libbearssl.a") {
        println!("cargo:rustc-cfg=has_bearssl");
        println!("cargo:rustc-link-search=native=/usr/lib/x86_64-linux-gnu");
        println!("cargo:rustc-link-lib=static=bearssl");
    }
}
