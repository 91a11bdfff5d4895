//! Runs the four Rust lints beside other programs over tree files; see README.md.
mod against;
mod batch;
mod command;
mod coverage;
mod damage;
mod features;
mod file;
mod hand;
mod judge;
mod kinds;
mod listing;
mod make;
mod noticed;
mod random;
mod recorded;
mod reduce;
mod rules;
mod show;
mod tree;

fn main() {
    listing::hush_the_rust();
    let words: Vec<String> = std::env::args().skip(1).collect();
    // A tree 48 deep on a small stack would be a fault of ours.
    let worker = std::thread::Builder::new().stack_size(256 << 20).spawn(move || command::run(&words));
    match worker.expect("a thread").join() {
        Ok(Ok(true)) => {}
        Ok(Ok(false)) => std::process::exit(1),
        Ok(Err(message)) => {
            eprintln!("compare: {message}");
            std::process::exit(2)
        }
        Err(_) => {
            eprintln!("compare: a fault of its own");
            std::process::exit(3)
        }
    }
}
