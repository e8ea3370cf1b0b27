//! A folder for a test, and runs of the program in it.

use std::fs;
use std::io::Write;
use std::path::PathBuf;
use std::process::{self, Command, Stdio};

/// The worked picture, and its file.
pub const PICTURE: &[u8] = b"P5\n3 2\n255\n\x0a\x0a\x28\x0a\x32\x28";
pub const FILE: &[u8] = b"(multi\n(size 3 2 grey)\n(range 2 1)\n(energy edge)\n\
    (row 10 10 40)\n(row 10 50 40)\n(map 1 0 2)\n(map 1 0 2)\n)\n";
/// Its file by flat.
pub const FLAT: &[u8] = b"(multi\n(size 3 2 grey)\n(range 2 1)\n(energy flat)\n\
    (row 10 10 40)\n(row 10 50 40)\n(map 2 0 1)\n(map 0 2 1)\n)\n";
/// Its file by forward.
pub const FORWARD: &[u8] = b"(multi\n(size 3 2 grey)\n(range 2 1)\n(energy forward)\n\
    (row 10 10 40)\n(row 10 50 40)\n(map 1 2 0)\n(map 2 1 0)\n)\n";
/// The file, but with seam 1 at columns 0 and 2: it isn't connected.
pub const BROKEN: &[u8] = b"(multi\n(size 3 2 grey)\n(range 2 1)\n(energy edge)\n\
    (row 10 10 40)\n(row 10 50 40)\n(map 1 0 2)\n(map 0 2 1)\n)\n";

/// What a run gave.
pub struct Ran {
    pub status: i32,
    pub out: Vec<u8>,
    pub error: String,
}

/// A folder of a test's own, removed when the test ends.
pub struct Folder(PathBuf);

impl Folder {
    pub fn new(test: &str) -> Folder {
        let name = format!("multisize-{}-{test}", process::id());
        let folder = std::env::temp_dir().join(name);
        fs::create_dir_all(&folder).unwrap();
        Folder(folder)
    }

    /// With the worked picture and its file in it.
    pub fn worked(test: &str) -> Folder {
        let folder = Folder::new(test);
        folder.put("picture.pgm", PICTURE);
        folder.put("picture.multi", FILE);
        folder
    }

    pub fn put(&self, name: &str, bytes: &[u8]) {
        fs::write(self.0.join(name), bytes).unwrap();
    }

    pub fn get(&self, name: &str) -> Vec<u8> {
        fs::read(self.0.join(name)).unwrap()
    }

    /// The names of all files, in order.
    pub fn names(&self) -> Vec<String> {
        let entries = fs::read_dir(&self.0).unwrap();
        let name = |entry: fs::DirEntry| entry.file_name().into_string().unwrap();
        let mut names: Vec<String> = entries.map(|entry| name(entry.unwrap())).collect();
        names.sort();
        names
    }

    pub fn path(&self, name: &str) -> PathBuf {
        self.0.join(name)
    }

    /// Runs the program with the words of a line.
    pub fn run(&self, line: &str) -> Ran {
        self.run_with(line, b"")
    }

    /// The same with this on standard input.
    pub fn run_with(&self, line: &str, input: &[u8]) -> Ran {
        let mut child = Command::new(env!("CARGO_BIN_EXE_multisize"))
            .args(line.split_whitespace())
            .current_dir(&self.0)
            .stdin(Stdio::piped())
            .stdout(Stdio::piped())
            .stderr(Stdio::piped())
            .spawn()
            .unwrap();
        // A program that doesn't read its input may have ended before.
        let _ = child.stdin.take().unwrap().write_all(input);
        let ran = child.wait_with_output().unwrap();
        Ran {
            status: ran.status.code().unwrap(),
            out: ran.stdout,
            error: String::from_utf8(ran.stderr).unwrap(),
        }
    }

    /// Wrong use ends with status 2 and this text.
    pub fn misused(&self, line: &str, text: &str) {
        let ran = self.run(line);
        let told = format!("multisize: {text} (multisize --help says more)\n");
        assert_eq!((ran.status, ran.error), (2, told), "{line}");
    }

    /// What the program writes, where nothing is to go wrong.
    pub fn served(&self, line: &str) -> String {
        let ran = self.run(line);
        assert_eq!((ran.status, ran.error.as_str()), (0, ""), "{line}");
        String::from_utf8(ran.out).unwrap()
    }
}

impl Drop for Folder {
    fn drop(&mut self) {
        let _ = fs::remove_dir_all(&self.0);
    }
}
