//! The program `flowlist` as a side: bytes in, printed text out.

use std::io::Write;
use std::path::PathBuf;
use std::process::{Command, Stdio};
use std::thread;

use crate::answers::*;

pub struct Flowlist {
    pub program: PathBuf,
}

impl Flowlist {
    fn print(&self, bytes: &[u8]) -> std::io::Result<(Option<i32>, Vec<u8>)> {
        let mut child =
            Command::new(&self.program).stdin(Stdio::piped()).stdout(Stdio::piped()).spawn()?;
        let mut input = child.stdin.take().expect("a piped input");
        thread::scope(|scope| {
            // A program that refuses early may not read to the end.
            scope.spawn(move || input.write_all(bytes).ok());
            child.wait_with_output()
        })
        .map(|output| (output.status.code(), output.stdout))
    }
}

impl Side for Flowlist {
    fn name(&self) -> String {
        "flowlist".to_owned()
    }

    fn difference(&mut self, case: &Case, expected: &Answers) -> Option<String> {
        match self.print(&case.bytes()) {
            Ok((Some(_), text)) => text_difference(&expected.text, &text),
            Ok((None, _)) => Some("the program was stopped by a signal".to_owned()),
            Err(fault) => Some(format!("the program did not run: {fault}")),
        }
    }
}
