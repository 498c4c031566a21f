// rounds REPS INPUT OUTPUT NAME=COMMAND..   runs each command REPS times, in turn, with its
// standard input from INPUT and its standard output to OUTPUT. Prints one line a run:
//   NAME TAB wall-ms TAB user-ms TAB sys-ms TAB peak-KiB TAB status
// Commands run through `sh -c`. Peak is that of the largest single process, not the sum over a
// pipeline. Rounds are interleaved, so that a busy time of the machine affects all commands.

use std::fs::File;
use std::process::{Command, Stdio};
use std::time::Instant;

extern "C" {
    fn wait4(pid: i32, status: *mut i32, options: i32, usage: *mut [i64; 18]) -> i32;
}

fn main() {
    let words: Vec<String> = std::env::args().skip(1).collect();
    let reps: usize = words[0].parse().expect("REPS");
    for _ in 0..reps {
        for word in &words[3..] {
            let (name, command) = word.split_once('=').expect("NAME=COMMAND");
            let input = File::open(&words[1]).expect("INPUT");
            let output = File::create(&words[2]).expect("OUTPUT");
            let start = Instant::now();
            let child = Command::new("sh")
                .args(["-c", &format!("exec {command}")])
                .stdin(Stdio::from(input))
                .stdout(Stdio::from(output))
                .spawn()
                .expect("sh");
            let (mut status, mut usage) = (0i32, [0i64; 18]);
            // struct rusage on 64-bit Linux: user and system time as (s, us), then the peak
            unsafe { wait4(child.id() as i32, &mut status, 0, &mut usage) };
            let wall = start.elapsed().as_secs_f64() * 1e3;
            let user = usage[0] as f64 * 1e3 + usage[1] as f64 / 1e3;
            let sys = usage[2] as f64 * 1e3 + usage[3] as f64 / 1e3;
            println!("{name}\t{wall:.2}\t{user:.2}\t{sys:.2}\t{}\t{status}", usage[4]);
        }
    }
}
