//! Lays out the module tree in OUT_DIR: the supplied sources, byte for byte, under their module
//! names, and the stand-ins beside them. The sources are found through OSML_SRC.

use std::path::{Path, PathBuf};
use std::{env, fs};

/// The supplied sources and the FNV-1a sums of their bytes.
const SOURCES: [(&str, u64); 7] = [
    ("error.rs", 0x21d1_4794_631a_45ce),
    ("owned_buffer.rs", 0x58cc_71c7_498c_f997),
    ("jbp/image/types.rs", 0xd93f_6ba8_1eb4_d4b8),
    ("jbp/image/interleave.rs", 0x2fa7_3acd_342d_6517),
    ("jbp/image/mask.rs", 0xb1e6_ba87_6cc4_7faf),
    ("jbp/image/nc_decoder.rs", 0xd850_9032_c531_83dc),
    ("jbp/image/nc_encoder.rs", 0x3d72_162c_587a_0fc5),
];

/// The stand-ins and the module that each stands for.
const STAND_INS: [(&str, &str); 5] = [
    ("remote.rs", "remote.rs"),
    ("types.rs", "types.rs"),
    ("facade.rs", "jbp/image/facade.rs"),
    ("decoder.rs", "jbp/image/decoder.rs"),
    ("encoder.rs", "jbp/image/encoder.rs"),
];

fn main() {
    println!("cargo:rerun-if-env-changed=OSML_SRC");
    let sources =
        env::var("OSML_SRC").expect("set OSML_SRC to the absolute path of the directory that holds src/error.rs.txt");
    let out = PathBuf::from(env::var("OUT_DIR").expect("cargo sets OUT_DIR"));
    fs::create_dir_all(out.join("jbp/image")).expect("OUT_DIR can be written");

    for (name, sum) in SOURCES {
        let from = Path::new(&sources).join("src").join(format!("{name}.txt"));
        let bytes = place(&from, &out.join(name));
        assert_eq!(fnv(&bytes), sum, "{} is another version", from.display());
    }
    for (from, name) in STAND_INS {
        place(&Path::new("../stand-ins/modules").join(from), &out.join(name));
    }
    place(Path::new("tree.rs"), &out.join("tree.rs"));
}

/// Copies one file, and gives its bytes.
fn place(from: &Path, to: &Path) -> Vec<u8> {
    println!("cargo:rerun-if-changed={}", from.display());
    let bytes = fs::read(from).unwrap_or_else(|e| panic!("{}: {e}", from.display()));
    fs::write(to, &bytes).unwrap_or_else(|e| panic!("{}: {e}", to.display()));
    bytes
}

fn fnv(bytes: &[u8]) -> u64 {
    bytes.iter().fold(0xcbf2_9ce4_8422_2325, |sum, &byte| (sum ^ u64::from(byte)).wrapping_mul(0x0000_0100_0000_01b3))
}
