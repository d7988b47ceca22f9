//! A store for a test, which goes with it.

use std::fs;
use std::os::unix::fs::PermissionsExt;
use std::path::Path;
use std::process::{Command, Output};

use tempfile::TempDir;

pub struct Store {
    pub folder: TempDir,
    cluster: bool,
    place: String,
}

/// Declares each test twice: with an SQLite file and with a PostgreSQL server.
macro_rules! on_both {
    ($($name:ident)*) => {
        mod sqlite {
            $(#[test] fn $name() { super::$name(&super::Store::sqlite()); })*
        }
        mod postgresql {
            $(#[test] fn $name() { super::$name(&super::Store::postgresql()); })*
        }
    };
}
pub(crate) use on_both;

/// What the script of this name in the tree's tests prints.
pub fn cluster(words: &[&str]) -> String {
    let output = script(words);
    assert!(output.status.success(), "{words:?}: {}", String::from_utf8_lossy(&output.stderr));
    String::from_utf8(output.stdout).unwrap().trim().to_string()
}

fn script(words: &[&str]) -> Output {
    let script = Path::new(env!("CARGO_MANIFEST_DIR")).join("../../tests/postgresql/cluster");
    Command::new(script).args(words).output().unwrap()
}

fn folder() -> TempDir {
    let folder = tempfile::tempdir().unwrap();
    // the server's user has to get through it
    fs::set_permissions(folder.path(), fs::Permissions::from_mode(0o755)).unwrap();
    folder
}

impl Store {
    pub fn sqlite() -> Store {
        let folder = folder();
        let place = folder.path().join("mailbox.db").to_string_lossy().into_owned();
        Store { folder, cluster: false, place }
    }

    pub fn postgresql() -> Store {
        let folder = folder();
        let place = cluster(&["start", &folder.path().join("pg").to_string_lossy()]);
        Store { folder, cluster: true, place }
    }

    pub fn place(&self) -> &str {
        &self.place
    }

    /// Ends the server, where there is one, and starts it again.
    pub fn kill_server(&self) {
        let folder = self.folder.path().join("pg").to_string_lossy().into_owned();
        cluster(&["kill", &folder]);
        cluster(&["start", &folder]);
    }
}

impl Drop for Store {
    fn drop(&mut self) {
        if self.cluster {
            // a server that a test has killed is not there to be stopped
            let _ = script(&["stop", &self.folder.path().join("pg").to_string_lossy()]);
        }
    }
}
