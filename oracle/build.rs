// Names the published files to the compiler. They are compiled where they stand and never copied:
// for each of them OUT_DIR gets two lines that say `#[path = ".."] pub mod ..;`.

use std::path::{Path, PathBuf};
use std::{env, fs, process};

/// Each file's place in the folder, the module that it becomes, the wrapper in OUT_DIR, and the mark of its text.
const PUBLISHED: [(&str, &str, &str, u64); 3] = [
    ("kalman/unscented.rs", "unscented", "kalman.rs", 0xf1e5_c3ab_34fe_bde3),
    ("observations/unscented.rs", "unscented", "observations.rs", 0x6dad_f865_736e_443d),
    ("angles.rs", "angles", "angles.rs", 0xae60_a171_a8c3_9140),
];

fn main() {
    println!("cargo:rerun-if-env-changed=MINIKALMAN_SRC");
    println!("cargo:rerun-if-changed=build.rs");
    let Some(folder) = env::var_os("MINIKALMAN_SRC") else {
        stop("set MINIKALMAN_SRC to the folder `src` of minikalman 0.8.1, which holds kalman/unscented.rs".into());
    };
    let out = PathBuf::from(env::var_os("OUT_DIR").expect("cargo names OUT_DIR"));
    for (file, module, wrapper, wanted) in PUBLISHED {
        let path = found(Path::new(&folder), file);
        println!("cargo:rerun-if-changed={}", path.display());
        let seen = mark(&fs::read(&path).expect("a file that was found can be read"));
        if seen != wanted {
            stop(format!("{}: not the text of minikalman 0.8.1 (mark {seen:016x}, wanted {wanted:016x})", path.display()));
        }
        fs::write(out.join(wrapper), format!("#[path = {path:?}]\npub mod {module};\n")).expect("OUT_DIR can be written");
    }
}

/// The file under its own name, or under the flat name of a listing (`src--src--angles.rs.txt`).
fn found(folder: &Path, file: &str) -> PathBuf {
    let flat = format!("src--src--{}.txt", file.replace('/', "--"));
    for name in [file, &flat] {
        if let Ok(path) = fs::canonicalize(folder.join(name)) {
            return path;
        }
    }
    stop(format!("MINIKALMAN_SRC: {} holds no {file}", folder.display()))
}

/// FNV-1a over the text without the white space at its end: guards against an edited file or another version's.
fn mark(text: &[u8]) -> u64 {
    text.trim_ascii_end().iter().fold(0xcbf2_9ce4_8422_2325, |h, b| (h ^ u64::from(*b)).wrapping_mul(0x0000_0100_0000_01b3))
}

fn stop(why: String) -> ! {
    eprintln!("{why}");
    process::exit(1)
}
