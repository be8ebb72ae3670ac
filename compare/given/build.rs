//! Takes the given files from the folder `ROSSI_SRC`, checks that they are the expected ones byte
//! for byte, copies them to OUT_DIR and writes the module tree that lib.rs includes.
//! Where the folder is not there, the crate builds without them, under `cfg(rossi_absent)`.

use std::path::{Path, PathBuf};
use std::{env, fs};

/// From the crate's folder.
const DEFAULT_SOURCE: &str = "../../../shared/docs/src";
const INNER: &str = "crates/rossi-prove/src";
const FLAT: &str = "src--crates--rossi-prove--src--";

/// A given file and the SHA-256 of the only text that may stand behind its name.
const GIVEN: [(&str, &str); 10] = [
    ("sequent.rs", "1a4f3d544289f0dcc22394eb665a0190cda574c4f8759128a1cc1b984d5ddb66"),
    ("variations.rs", "835af583ed46322f9b0855b1756fb111dda853af4d6ca961c59c061c669d5eb7"),
    ("reasoners/genmp.rs", "01b757fae195ce68798fca6088f66dec6f2eaf9929b8d58d2ad509143aacc684"),
    ("reasoners/one_point.rs", "5b4f5a5c69cc66e6a9dbef6265be77c04f12425a9a0fd78bf3f3d196dbdc1e3a"),
    ("reasoners/mod.rs", "b7ff27a33e733721fe6c77191c20765126a0f2e62cda1c667ad533ce355e2919"),
    ("hyp_action.rs", "7be95c38a254fb3ca8a0fcbbe7c96ff177dc4e91400eee5ffd2bd452f230ae80"),
    ("rule.rs", "861189ca1d0b8ad1c721ba970c577abf6db5b7604b9c55aa8b3bfc2e8960f4df"),
    ("confidence.rs", "ac8a3b1252530aa2919cf34e4e652ea589378fc9c3b7ec35ed5df9c76dd6540f"),
    ("skeleton.rs", "8ede65b56cfdd36f024d2f9e027a45969fbe7d4deca6b45a215854a0b516c013"),
    ("registry.rs", "24b391137bf7157e67d0e9c98d08785588d1c0dd96a1fae9c81c4b0b95eebbf5"),
];

/// The files that stand at the crate's root, with the module that holds each. The given variations
/// get a name of their own, because `crate::variations` is the switch between them and the cut ones.
const AT_ROOT: [(&str, &str); 7] = [
    ("sequent.rs", "sequent"),
    ("variations.rs", "given_variations"),
    ("hyp_action.rs", "hyp_action"),
    ("rule.rs", "rule"),
    ("confidence.rs", "confidence"),
    ("skeleton.rs", "skeleton"),
    ("registry.rs", "registry"),
];

fn main() {
    println!("cargo::rustc-check-cfg=cfg(rossi_absent)");
    println!("cargo::rerun-if-env-changed=ROSSI_SRC");
    println!("cargo::rerun-if-changed=build.rs");
    let out = PathBuf::from(env::var("OUT_DIR").expect("cargo names OUT_DIR"));
    let source = source_folder();
    println!("cargo::rustc-env=ROSSI_SRC_ASKED={}", source.display());
    if !source.is_dir() {
        println!("cargo::rerun-if-changed={}", source.display());
        println!("cargo::rustc-cfg=rossi_absent");
        return;
    }
    for (name, digest) in GIVEN {
        copy_checked(&source, &out, name, digest);
    }
    write_as_literal(&out);
    fs::write(out.join("given_tree.rs"), module_tree(&out)).expect("OUT_DIR can be written");
}

fn source_folder() -> PathBuf {
    let asked = env::var("ROSSI_SRC").ok().filter(|folder| !folder.is_empty());
    let base = PathBuf::from(env::var("CARGO_MANIFEST_DIR").expect("cargo names the folder"));
    base.join(asked.unwrap_or_else(|| DEFAULT_SOURCE.to_string()))
}

/// A repository's layout, its `src` folder alone, or the flat names of the published index.
fn locate(source: &Path, name: &str) -> Option<PathBuf> {
    let flat = format!("{FLAT}{}.txt", name.replace('/', "--"));
    [source.join(INNER).join(name), source.join(name), source.join(flat)].into_iter().find(|path| path.is_file())
}

/// A changed oracle must not pass for the given one, so both failures stop the build.
fn copy_checked(source: &Path, out: &Path, name: &str, digest: &str) {
    let Some(path) = locate(source, name) else {
        panic!("{name} is not in {}", source.display());
    };
    println!("cargo::rerun-if-changed={}", path.display());
    let text = fs::read(&path).expect("a given file can be read");
    let found = hex(&sha256(&text));
    assert!(found == digest, "{} is not the expected file: SHA-256 {found}, expected {digest}", path.display());
    let target = out.join("given").join(name);
    fs::create_dir_all(target.parent().expect("a file has a folder")).expect("OUT_DIR can be written");
    fs::write(target, text).expect("OUT_DIR can be written");
}

/// Of reasoners/mod.rs only this function is needed; the rest names modules that are not given.
fn write_as_literal(out: &Path) {
    let text = fs::read_to_string(out.join("given/reasoners/mod.rs")).expect("a given file is text");
    let mut function = String::new();
    for line in text.lines().skip_while(|line| !line.starts_with("pub(crate) fn as_literal(")) {
        function.push_str(line);
        function.push('\n');
        if line == "}" {
            break;
        }
    }
    assert!(!function.is_empty(), "reasoners/mod.rs has no as_literal");
    fs::write(out.join("as_literal.rs"), function).expect("OUT_DIR can be written");
}

/// `#[path]` with a full path compiles the copies as they are, leading `//!` lines included.
fn module_tree(out: &Path) -> String {
    let module = |name: &str, file: &str| {
        let path = out.join("given").join(file);
        format!(
            "#[allow(dead_code, unused_imports)]\n#[path = {:?}]\npub(crate) mod {name};\n",
            path.display().to_string()
        )
    };
    let mut tree: String = AT_ROOT.iter().map(|(file, name)| module(name, file)).collect();
    let as_literal = out.join("as_literal.rs").display().to_string();
    tree.push_str("pub(crate) mod reasoners {\n");
    tree.push_str("use rossi::formula::Expression;\n");
    tree.push_str(&format!("include!({as_literal:?});\n"));
    tree.push_str(&module("genmp", "reasoners/genmp.rs"));
    tree.push_str(&module("one_point", "reasoners/one_point.rs"));
    tree.push_str("}\n");
    tree
}

fn hex(bytes: &[u8]) -> String {
    bytes.iter().map(|b| format!("{b:02x}")).collect()
}

/// SHA-256 as FIPS 180-4 defines it.
fn sha256(message: &[u8]) -> Vec<u8> {
    let mut state: [u32; 8] = std::array::from_fn(|i| fraction_of_root(prime(i), 2));
    let rounds: [u32; 64] = std::array::from_fn(|i| fraction_of_root(prime(i), 3));
    let mut padded = message.to_vec();
    padded.push(0x80);
    while padded.len() % 64 != 56 {
        padded.push(0);
    }
    padded.extend_from_slice(&(message.len() as u64 * 8).to_be_bytes());
    for block in padded.chunks(64) {
        compress(&mut state, block, &rounds);
    }
    state.iter().flat_map(|word| word.to_be_bytes()).collect()
}

fn compress(state: &mut [u32; 8], block: &[u8], rounds: &[u32; 64]) {
    let mut w = [0u32; 64];
    for (i, word) in block.chunks(4).enumerate() {
        w[i] = u32::from_be_bytes([word[0], word[1], word[2], word[3]]);
    }
    for i in 16..64 {
        let small0 = w[i - 15].rotate_right(7) ^ w[i - 15].rotate_right(18) ^ (w[i - 15] >> 3);
        let small1 = w[i - 2].rotate_right(17) ^ w[i - 2].rotate_right(19) ^ (w[i - 2] >> 10);
        w[i] = w[i - 16].wrapping_add(small0).wrapping_add(w[i - 7]).wrapping_add(small1);
    }
    let [mut a, mut b, mut c, mut d, mut e, mut f, mut g, mut h] = *state;
    for i in 0..64 {
        let big1 = e.rotate_right(6) ^ e.rotate_right(11) ^ e.rotate_right(25);
        let choice = (e & f) ^ (!e & g);
        let t1 = h.wrapping_add(big1).wrapping_add(choice).wrapping_add(rounds[i]).wrapping_add(w[i]);
        let big0 = a.rotate_right(2) ^ a.rotate_right(13) ^ a.rotate_right(22);
        let majority = (a & b) ^ (a & c) ^ (b & c);
        (h, g, f, e) = (g, f, e, d.wrapping_add(t1));
        (d, c, b, a) = (c, b, a, t1.wrapping_add(big0.wrapping_add(majority)));
    }
    for (word, add) in state.iter_mut().zip([a, b, c, d, e, f, g, h]) {
        *word = word.wrapping_add(add);
    }
}

/// The nth prime, from 0.
fn prime(n: usize) -> u128 {
    (2u128..).filter(|p| (2..*p).take_while(|d| d * d <= *p).all(|d| p % d != 0)).nth(n).expect("primes never end")
}

/// The first 32 bits after the point of the square or cube root: the root of p·2^(32·degree), by
/// bisection, cut to its low 32 bits.
fn fraction_of_root(p: u128, degree: u32) -> u32 {
    let (mut low, mut high) = (0u128, 1u128 << 40);
    let scaled = p << (32 * degree);
    while high - low > 1 {
        let middle = (low + high) / 2;
        if middle.pow(degree) <= scaled {
            low = middle;
        } else {
            high = middle;
        }
    }
    low as u32
}
