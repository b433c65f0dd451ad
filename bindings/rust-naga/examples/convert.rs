//! Reads a shader in WGSL, SPIR-V or GLSL by naga's front ends, and prints it as WGSL; or, with `json` for the second word,
//! as the JSON that Yorwethul's program and its calls from C and Python read:
//!
//!     cargo run --features convert --example convert -- shader.frag
//!     cargo run --features convert --example convert -- shader.spv json > shader.json
//!
//! What kind of shader a file holds is told by its ending: `.wgsl`, `.spv`, or for GLSL the stage, `.vert`, `.frag` or
//! `.comp`.

use naga::front::{glsl, spv, wgsl};
use naga::{Module, ShaderStage};
use std::path::Path;
use std::{env, fs, process};
use yorwethul_naga::{module_json, write_module, Flags};

type Failure = Box<dyn std::error::Error>;

fn main() {
    if let Err(why) = run() {
        eprintln!("{why}");
        process::exit(1);
    }
}

fn run() -> Result<(), Failure> {
    let mut words = env::args().skip(1);
    let file = words.next().ok_or("which file?")?;
    let module = read(Path::new(&file))?;
    match words.next().as_deref() {
        None => print!("{}", write_module(&module, Flags::default())?),
        Some("json") => print!("{}", module_json(&module)?),
        Some(other) => return Err(format!("no word {other}").into()),
    }
    Ok(())
}

fn read(file: &Path) -> Result<Module, Failure> {
    let ending = file.extension().and_then(|ending| ending.to_str());
    match ending {
        Some("wgsl") => {
            let source = fs::read_to_string(file)?;
            wgsl::parse_str(&source).map_err(|error| error.emit_to_string(&source).into())
        }
        Some("spv") => Ok(spv::parse_u8_slice(
            &fs::read(file)?,
            &spv::Options::default(),
        )?),
        Some("vert") => read_glsl(file, ShaderStage::Vertex),
        Some("frag") => read_glsl(file, ShaderStage::Fragment),
        Some("comp") => read_glsl(file, ShaderStage::Compute),
        _ => Err("the file ends in none of .wgsl, .spv, .vert, .frag and .comp".into()),
    }
}

fn read_glsl(file: &Path, stage: ShaderStage) -> Result<Module, Failure> {
    let source = fs::read_to_string(file)?;
    let options = glsl::Options::from(stage);
    glsl::Frontend::default()
        .parse(&options, &source)
        .map_err(|errors| errors.emit_to_string(&source).into())
}
