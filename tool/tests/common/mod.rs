//! What the tests share: a folder of its own for each test, and the program run in it.
#![allow(dead_code)]

use std::ffi::OsStr;
use std::fs::{self, File};
use std::io::Write;
use std::path::{Path, PathBuf};
use std::process::{Command, Output, Stdio};

/// The constraint text whose table document 01 writes out, and that table.
pub const SMALLEST: &str = "A matches {*}";
pub const SMALLEST_TABLE: &str = "C0AD0000 00000002 00000001 00000001 00000000 00000000 \
                                  C0AD0100 00000000 00000001 00000000 00000000 00000000 41";

/// A folder for one test, empty at first.
pub struct Folder(PathBuf);

impl Folder {
    /// Makes the folder anew.
    pub fn new(name: &str) -> Folder {
        let path = Path::new(env!("CARGO_TARGET_TMPDIR")).join(name);
        let _ = fs::remove_dir_all(&path);
        fs::create_dir_all(&path).expect("a folder");
        Folder(path)
    }

    /// The path of a file in it.
    pub fn path(&self, name: &str) -> PathBuf {
        self.0.join(name)
    }

    /// Writes a file.
    pub fn put(&self, name: &str, bytes: impl AsRef<[u8]>) {
        fs::write(self.path(name), bytes).expect("a file written");
    }

    /// Writes a file of so many bytes, this beginning and then zeros.
    pub fn put_long(&self, name: &str, beginning: impl AsRef<[u8]>, length: u64) {
        let mut file = File::create(self.path(name)).expect("a file");
        file.write_all(beginning.as_ref()).expect("a file written");
        file.set_len(length).expect("a long file");
    }

    /// Reads a file.
    pub fn get(&self, name: &str) -> Vec<u8> {
        fs::read(self.path(name)).expect("a file read")
    }

    /// The names of all files in it, in order.
    pub fn files(&self) -> Vec<String> {
        let entries = fs::read_dir(&self.0).expect("a folder read");
        let mut names: Vec<String> =
            entries.map(|entry| entry.expect("an entry").file_name().to_string_lossy().into_owned()).collect();
        names.sort();
        names
    }

    /// The program, to be run here without input.
    pub fn program(&self) -> Command {
        let mut program = Command::new(env!("CARGO_BIN_EXE_dubrakosh"));
        program.current_dir(&self.0).stdin(Stdio::null());
        program
    }

    /// Runs the program with arguments, written as a line.
    pub fn run(&self, line: &str) -> Ran {
        self.run_with(line.split_whitespace())
    }

    /// Runs the program with arguments.
    pub fn run_with(&self, arguments: impl IntoIterator<Item = impl AsRef<OsStr>>) -> Ran {
        Ran::new(self.program().args(arguments).output().expect("the program run"))
    }

    /// Runs the program with these bytes as standard input.
    pub fn run_on(&self, line: &str, input: &[u8]) -> Ran {
        let mut program = self.program();
        program.args(line.split_whitespace()).stdin(Stdio::piped()).stdout(Stdio::piped()).stderr(Stdio::piped());
        let mut child = program.spawn().expect("the program run");
        // the program may stop reading before the end
        let _ = child.stdin.take().expect("its input").write_all(input);
        Ran::new(child.wait_with_output().expect("the program run"))
    }

    /// Compiles a text that is accepted.
    pub fn compile(&self, name: &str, text: &str, order: &str) {
        self.put(&format!("{name}.cadl"), text);
        let ran = self.run(&format!("compile --order {order} {name}.cadl -o {name}.table"));
        assert_eq!((ran.status, ran.err.as_str()), (0, ""), "{}", ran.out);
    }
}

/// What a run of the program gave.
pub struct Ran {
    pub status: i32,
    pub bytes: Vec<u8>,
    pub out: String,
    pub err: String,
}

impl Ran {
    /// Takes the outcome of a process that ended by itself.
    fn new(output: Output) -> Ran {
        let status = output.status.code().expect("a status");
        let out = String::from_utf8_lossy(&output.stdout).into_owned();
        let err = String::from_utf8_lossy(&output.stderr).into_owned();
        Ran { status, bytes: output.stdout, out, err }
    }

    /// The answer is this, on standard output alone.
    #[track_caller]
    pub fn answers(&self, status: i32, out: &str) {
        assert_eq!((self.status, self.out.as_str(), self.err.as_str()), (status, out, ""));
    }

    /// There is trouble: this on standard error alone, and status 2.
    #[track_caller]
    pub fn troubles(&self, err: &str) {
        assert_eq!((self.status, self.out.as_str(), self.err.as_str()), (2, "", err));
    }
}

/// Bytes from hex, blanks between.
pub fn hex(text: &str) -> Vec<u8> {
    let digits: Vec<u32> = text.chars().filter_map(|character| character.to_digit(16)).collect();
    digits.chunks(2).map(|pair| u8::try_from(pair[0] * 16 + pair[1]).expect("two digits")).collect()
}

/// A record of a table, big-endian.
pub fn record(kind: u8, flag: u8, numbers: [u32; 5]) -> Vec<u8> {
    let mut bytes = vec![0xC0, 0xAD, kind, flag];
    numbers.iter().for_each(|number| bytes.extend(number.to_be_bytes()));
    bytes
}

/// A table of these records behind its header, big-endian, with root 1.
pub fn table(records: &[Vec<u8>], pool: &[u8]) -> Vec<u8> {
    let count = u32::try_from(records.len() + 1).expect("a count");
    let header = record(0, 0, [count, u32::try_from(pool.len()).expect("a length"), 1, 0, 0]);
    [header, records.concat(), pool.to_vec()].concat()
}

/// A text whose table has 2,048 records, the most there may be.
pub fn widest() -> String {
    let mut text = "A matches {".to_string();
    for index in 0..120u8 {
        let name = [b'a' + index / 26, b'a' + index % 26];
        text += std::str::from_utf8(&name).expect("a name");
        text += " matches {0,1,2,3,4,5,6,7,8,9,-1,-2,-3,-4,-5,-6}\n";
    }
    text + "z matches {1,2,3,4,5}}"
}
