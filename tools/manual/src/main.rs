//! Writes what is installed beside the command: `manual FOLDER`, run at the root, puts into
//! FOLDER, which is to become PREFIX/share, the manual pages and the completions for bash, zsh
//! and fish. The pages of the command are made from its own declarations, hverolda(3) from
//! include/hverolda.h and hverolda-refusals(7) from the crate's words, so that none can fall
//! behind.

mod command;
mod header;
mod page;
mod refusals;

use std::error::Error;
use std::path::{Path, PathBuf};
use std::{env, fs, process};

use clap_complete::{generate, Shell};

/// What is written where, under the folder.
pub struct Written {
    pub name: String,
    pub bytes: Vec<u8>,
}

fn main() {
    let folder = match env::args_os().skip(1).collect::<Vec<_>>() {
        words if words.len() == 1 => PathBuf::from(&words[0]),
        _ => {
            eprintln!("usage: manual FOLDER");
            process::exit(2);
        }
    };
    if let Err(error) = run(&folder) {
        eprintln!("manual: {error}");
        process::exit(1);
    }
}

fn run(folder: &Path) -> Result<(), Box<dyn Error>> {
    let mut all = command::pages(hverolda_cli::command());
    all.push(header::page(&fs::read_to_string("include/hverolda.h")?)?);
    all.push(refusals::page());
    all.extend(completions());
    for Written { name, bytes } in all {
        let path = folder.join(name);
        fs::create_dir_all(path.parent().expect("a file stands in a folder"))?;
        fs::write(path, bytes)?;
    }
    Ok(())
}

fn completions() -> impl Iterator<Item = Written> {
    let shells = [
        (Shell::Bash, "bash-completion/completions/hverolda"),
        (Shell::Zsh, "zsh/site-functions/_hverolda"),
        (Shell::Fish, "fish/vendor_completions.d/hverolda.fish"),
    ];
    shells.into_iter().map(|(shell, name)| {
        let mut bytes = Vec::new();
        generate(shell, &mut hverolda_cli::command(), "hverolda", &mut bytes);
        Written { name: name.to_string(), bytes }
    })
}
