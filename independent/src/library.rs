//! The only door to the library under check: a program that has it linked and answers on a pipe.

use std::io::{BufReader, BufWriter, Read, Write};
use std::process::{Child, ChildStdin, ChildStdout, Command, Stdio};

pub struct Library {
    child: Child,
    requests: BufWriter<ChildStdin>,
    answers: BufReader<ChildStdout>,
}

impl Library {
    /// Starts the program that `command` names, with its arguments.
    pub fn start(command: &[&str]) -> Library {
        let mut child = Command::new(command[0])
            .args(&command[1..])
            .stdin(Stdio::piped())
            .stdout(Stdio::piped())
            .spawn()
            .expect("the library's program starts");
        let requests = BufWriter::new(child.stdin.take().expect("a pipe to it"));
        let answers = BufReader::new(child.stdout.take().expect("a pipe from it"));
        Library {
            child,
            requests,
            answers,
        }
    }

    /// Sends the requests and reads all answers, which have so many bytes together.
    pub fn ask(&mut self, requests: &[Vec<u8>], answer_bytes: usize) -> Vec<u8> {
        for request in requests {
            self.send(request);
        }
        self.send(b".");
        self.requests.flush().expect("the library's program reads");
        let mut answers = vec![0xff; answer_bytes];
        self.answers
            .read_exact(&mut answers)
            .expect("an answer to each request");
        answers
    }

    /// Ends the program; it must have been content to the last.
    pub fn end(self) -> bool {
        let Library {
            mut child,
            requests,
            answers,
        } = self;
        drop(requests);
        drop(answers);
        child.wait().map_or(false, |status| status.success())
    }

    fn send(&mut self, bytes: &[u8]) {
        self.requests
            .write_all(bytes)
            .expect("the library's program reads");
    }
}

/// A call's name, and each buffer behind its length.
pub fn request(call: u8, buffers: &[&[u8]]) -> Vec<u8> {
    let mut request = vec![call];
    for buffer in buffers {
        let length = u32::try_from(buffer.len()).expect("a buffer of less than 4 GiB");
        request.extend(length.to_be_bytes());
        request.extend(*buffer);
    }
    request
}
