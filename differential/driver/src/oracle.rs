//! The oracle, run as a process of its own: see the oracle's `main.rs` for what goes over the pipe.

use std::io::{self, BufReader, Read, Write};
use std::process::{Child, ChildStdin, ChildStdout, Command, Stdio};

pub struct Oracle {
    child: Child,
    requests: ChildStdin,
    answers: BufReader<ChildStdout>,
}

impl Oracle {
    /// Starts the oracle that was built at this path.
    pub fn start(path: &str) -> io::Result<Oracle> {
        let mut child = Command::new(path).stdin(Stdio::piped()).stdout(Stdio::piped()).spawn()?;
        let requests = child.stdin.take().expect("a pipe");
        let answers = BufReader::new(child.stdout.take().expect("a pipe"));
        Ok(Oracle { child, requests, answers })
    }

    /// For each file of an accepted tree the reduced file, empty if the tree is removable.
    pub fn reduce(&mut self, files: &[Vec<u8>]) -> io::Result<Vec<Vec<u8>>> {
        self.send(&reduce_request(files))?;
        files.iter().map(|_| self.reduced_file()).collect()
    }

    fn reduced_file(&mut self) -> io::Result<Vec<u8>> {
        let mut length = [0; 4];
        self.answers.read_exact(&mut length)?;
        let mut file = vec![0; u32::from_le_bytes(length) as usize];
        self.answers.read_exact(&mut file)?;
        Ok(file)
    }

    /// For each group of so many files the nanoseconds that the oracle takes, by its own clock, to
    /// read them into trees, to run the published handlers on them, and to write the answers.
    pub fn time(&mut self, files: &[Vec<u8>], group: usize) -> io::Result<Vec<[f64; 3]>> {
        self.send(&[b"T", &(group as u32).to_le_bytes()[..], &framed(files)].concat())?;
        files.chunks(group).map(|_| self.three_times()).collect()
    }

    fn three_times(&mut self) -> io::Result<[f64; 3]> {
        let mut times = [0.0; 3];
        for time in &mut times {
            let mut nanoseconds = [0; 8];
            self.answers.read_exact(&mut nanoseconds)?;
            *time = u64::from_le_bytes(nanoseconds) as f64;
        }
        Ok(times)
    }

    /// The Derived question for each pair of scopes and ancestors, none with a refused byte.
    pub fn derived(&mut self, questions: &[(Vec<u8>, Vec<u8>)]) -> io::Result<Vec<bool>> {
        let mut request = vec![b'D'];
        request.extend((questions.len() as u32).to_le_bytes());
        for (scopes, ancestors) in questions {
            for list in [scopes, ancestors] {
                request.push(list.len() as u8);
                request.extend(list);
            }
        }
        self.send(&request)?;
        let mut answers = vec![0; questions.len()];
        self.answers.read_exact(&mut answers)?;
        Ok(answers.into_iter().map(|answer| answer == 1).collect())
    }

    fn send(&mut self, request: &[u8]) -> io::Result<()> {
        self.requests.write_all(request)?;
        self.requests.flush()
    }

    /// What an oracle says when it fails on this file; an error if it does not fail.
    pub fn failure(path: &str, file: &[u8]) -> io::Result<String> {
        let mut child = Command::new(path)
            .stdin(Stdio::piped())
            .stdout(Stdio::null())
            .stderr(Stdio::piped())
            .spawn()?;
        let mut requests = child.stdin.take().expect("a pipe");
        requests.write_all(&reduce_request(&[file.to_vec()]))?;
        drop(requests);
        let output = child.wait_with_output()?;
        if output.status.success() {
            return Err(io::Error::other("the oracle did not fail"));
        }
        Ok(String::from_utf8_lossy(&output.stderr).into_owned())
    }

    /// Ends the oracle; an error if it did not end well.
    pub fn stop(mut self) -> io::Result<()> {
        drop(self.requests);
        let status = self.child.wait()?;
        if status.success() { Ok(()) } else { Err(io::Error::other("the oracle failed")) }
    }
}

fn reduce_request(files: &[Vec<u8>]) -> Vec<u8> {
    [b"R", &framed(files)[..]].concat()
}

/// The number of the files, then each behind its length.
fn framed(files: &[Vec<u8>]) -> Vec<u8> {
    let mut framed = (files.len() as u32).to_le_bytes().to_vec();
    for file in files {
        framed.extend((file.len() as u32).to_le_bytes());
        framed.extend(file);
    }
    framed
}
