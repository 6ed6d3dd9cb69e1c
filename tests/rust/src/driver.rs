//! A driver as a process of its own, asked over its standard input and output.

use crate::protocol::{read_answer, write_request, Asked};
use std::io::{self, BufReader, BufWriter, Write};
use std::process::{Child, ChildStdin, ChildStdout, Command, ExitStatus, Stdio};
use std::thread;

/// None where the driver ended instead of answering.
pub type Answer<C> = Option<(u32, C)>;

pub struct Driver {
    command: Vec<String>,
    running: Running,
    restarts: usize,
}

/// How many ends of the driver are told of.
const TOLD: usize = 12;

struct Running {
    child: Child,
    input: BufWriter<ChildStdin>,
    output: BufReader<ChildStdout>,
}

impl Running {
    fn start(command: &[String]) -> io::Result<Running> {
        let (program, arguments) = command.split_first().ok_or(io::ErrorKind::InvalidInput)?;
        let mut child = Command::new(program).args(arguments).stdin(Stdio::piped()).stdout(Stdio::piped()).spawn()?;
        let input = child.stdin.take().ok_or(io::ErrorKind::BrokenPipe)?;
        let output = child.stdout.take().ok_or(io::ErrorKind::BrokenPipe)?;
        Ok(Running { child, input: BufWriter::new(input), output: BufReader::new(output) })
    }

    /// Shuts the driver's input and waits for its end; what could not be written any more does not matter.
    fn stop(mut self) -> io::Result<ExitStatus> {
        drop(self.input.into_parts());
        drop(self.output);
        self.child.wait()
    }
}

impl Driver {
    /// A command with its arguments, parted by blanks.
    pub fn start(command: &str) -> io::Result<Driver> {
        let command: Vec<String> = command.split_whitespace().map(String::from).collect();
        let running = Running::start(&command)?;
        Ok(Driver { command, running, restarts: 0 })
    }

    /// Asks all calls one after the other. A driver that ends at one is started again for those after it.
    pub fn ask<C: Asked>(&mut self, calls: &[C]) -> io::Result<Vec<Answer<C>>> {
        let mut answers: Vec<Answer<C>> = Vec::new();
        while answers.len() < calls.len() {
            let rest = &calls[answers.len()..];
            let found = self.ask_while_running(rest);
            let ended = found.len() < rest.len();
            answers.extend(found.into_iter().map(Some));
            if ended {
                answers.push(None);
                self.restart()?;
            }
        }
        Ok(answers)
    }

    /// The answers, and what `expect` makes of the calls in the meantime.
    pub fn ask_beside<C: Asked, R: Send>(&mut self, calls: &[C], expect: impl FnOnce() -> R) -> io::Result<(Vec<Answer<C>>, R)> {
        thread::scope(|scope| {
            let asking = scope.spawn(|| self.ask(calls));
            let expected = expect();
            let answers = asking.join().unwrap_or_else(|_| Err(io::Error::from(io::ErrorKind::Other)))?;
            Ok((answers, expected))
        })
    }

    fn ask_while_running<C: Asked>(&mut self, calls: &[C]) -> Vec<(u32, C)> {
        let Running { input, output, .. } = &mut self.running;
        thread::scope(|scope| {
            // Written beside the reading: neither side may wait for the other with a full pipe.
            scope.spawn(|| {
                let written = calls.iter().try_for_each(|call| write_request(input, call));
                written.and_then(|()| input.flush()).unwrap_or(());
            });
            let mut answers = Vec::new();
            for call in calls {
                match read_answer(output, call) {
                    Ok(answer) => answers.push(answer),
                    Err(_) => break,
                }
            }
            answers
        })
    }

    fn restart(&mut self) -> io::Result<()> {
        let fresh = Running::start(&self.command)?;
        let ended = std::mem::replace(&mut self.running, fresh);
        self.restarts += 1;
        let told = match ended.stop() {
            Ok(status) => status.to_string(),
            Err(error) => error.to_string(),
        };
        if self.restarts <= TOLD {
            println!("the driver ended: {}", told);
        }
        Ok(())
    }

    pub fn stop(self) -> io::Result<ExitStatus> {
        self.running.stop()
    }
}
