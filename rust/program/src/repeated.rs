//! The program run again and again in one process: a run takes a tenth of the time that a process takes.

use crate::{built, found};
use std::io::{Read, Result, Write};
use std::path::{Path, PathBuf};
use std::process::{Child, ChildStdin, ChildStdout, Command, ExitStatus, Stdio};

/// Builds the server (server.c) in a folder, over the object file that the program was linked from.
pub fn build(folder: &Path) -> PathBuf {
    let object = found(built("backbones.o"));
    let (renamed, server) = (folder.join("program.o"), folder.join("server"));
    succeed(Command::new("objcopy").arg("--redefine-sym=main=program").args([&object, &renamed]));
    let source = Path::new(env!("CARGO_MANIFEST_DIR")).join("src/server.c");
    let warnings = ["-std=c11", "-D_POSIX_C_SOURCE=200809L", "-Wall", "-Wextra", "-Wpedantic", "-Werror"];
    succeed(Command::new("gcc").args(warnings).args(["-O2", "-static", "-o"]).args([&server, &source, &renamed]));
    server
}

fn succeed(command: &mut Command) {
    let status = command.status().unwrap_or_else(|error| panic!("{command:?}: {error}"));
    assert!(status.success(), "{command:?}: {status}");
}

/// A server that runs; it ends with its standard input.
pub struct Server {
    process: Child,
    requests: ChildStdin,
    replies: ChildStdout,
}

impl Server {
    pub fn start(server: &Path) -> Result<Server> {
        let mut process = Command::new(server).stdin(Stdio::piped()).stdout(Stdio::piped()).spawn()?;
        let requests = process.stdin.take().expect("stdin is piped");
        let replies = process.stdout.take().expect("stdout is piped");
        Ok(Server { process, requests, replies })
    }

    /// What the program prints, or how it failed.
    pub fn run(&mut self, input: &[u8]) -> std::result::Result<String, String> {
        let (status, text) = self.exchange(input).map_err(|error| self.ended().unwrap_or(error.to_string()))?;
        if status != 0 {
            return Err(format!("returned {status}"));
        }
        String::from_utf8(text).map_err(|error| error.to_string())
    }

    /// How the process ended, if it has: on a crash, or by its alarm where a run hangs.
    fn ended(&mut self) -> Option<String> {
        self.process.wait().ok().map(|status| status.to_string())
    }

    fn exchange(&mut self, input: &[u8]) -> Result<(u32, Vec<u8>)> {
        let length = u32::try_from(input.len()).expect("an input is short");
        self.requests.write_all(&[&length.to_le_bytes(), input].concat())?;
        let status = self.number()?;
        let mut text = vec![0; self.number()? as usize];
        self.replies.read_exact(&mut text)?;
        Ok((status, text))
    }

    fn number(&mut self) -> Result<u32> {
        let mut four = [0; 4];
        self.replies.read_exact(&mut four)?;
        Ok(u32::from_le_bytes(four))
    }

    /// Ends the server, which has to have nothing left to say.
    pub fn end(mut self) -> Result<ExitStatus> {
        drop(self.requests);
        self.process.wait()
    }
}
