// SPDX-License-Identifier: Apache-2.0
//! With words: as the command `tw`. Without: what the calls give, also from eight threads side by side.

use std::io::{Read, Write};
use std::process::ExitCode;
use std::thread;

fn main() -> ExitCode {
    let words: Vec<String> = std::env::args().skip(1).collect();
    if !words.is_empty() {
        let words: Vec<&str> = words.iter().map(String::as_str).collect();
        let mut reply = yuglemit::session(&words, b"");
        // If tw reads an input, an empty one is refused by status 1 or gives an empty text.
        if reply.status == 1 || reply.text.is_empty() {
            let mut input = Vec::new();
            std::io::stdin().read_to_end(&mut input).expect("standard input can be read");
            reply = yuglemit::session(&words, &input);
        }
        std::io::stdout().write_all(&reply.text).expect("standard output takes the text");
        return ExitCode::from(reply.status);
    }
    let seven = b"proc control write int\nregs int\nINT v0 7\nSTORE d0 v0\nRET\n";
    let run = yuglemit::session(&["run", "--text"], seven);
    println!("{}status {}", String::from_utf8_lossy(&run.text), run.status);
    println!("{:?}", yuglemit::verify(b"TWB"));
    // A thread has little stack, and each call needs some of it.
    let calls = || (0..1000).map(|_| yuglemit::session(&["run", "--text"], seven)).collect::<Vec<_>>();
    let threads: Vec<_> = (0..8).map(|_| thread::Builder::new().stack_size(128 << 10).spawn(calls).expect("a thread starts")).collect();
    let all: Vec<_> = threads.into_iter().flat_map(|thread| thread.join().expect("a thread ends")).collect();
    println!("{} calls in 8 threads, all the same: {}", all.len(), all.iter().all(|reply| *reply == run));
    ExitCode::SUCCESS
}
