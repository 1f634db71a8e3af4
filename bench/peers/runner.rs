//! Runs a command and prints the seconds that it takes and its peak memory in KiB. It is small itself, since a process
//! begins with the peak of the one that starts it.

extern "C" {
    fn wait4(process: i32, status: *mut i32, options: i32, usage: *mut [i64; 18]) -> i32;
}

fn main() {
    let words: Vec<String> = std::env::args().skip(1).collect();
    let began = std::time::Instant::now();
    let quiet = std::process::Stdio::null();
    let child = std::process::Command::new(&words[0]).args(&words[1..]).stdout(quiet).spawn().expect("a program");
    let (mut status, mut usage) = (0, [0; 18]);
    unsafe { wait4(child.id() as i32, &mut status, 0, &mut usage) };
    assert_eq!(status, 0, "{} fails", words[0]);
    println!("{} {}", began.elapsed().as_secs_f64(), usage[4]);
}
