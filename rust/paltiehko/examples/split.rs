//! `cargo run --example split -- FILE [K]`: the report of a file, and with K also whether some division has fewer than K cables across.

use std::error::Error;

fn run(words: &[String]) -> Result<(), Box<dyn Error>> {
    let path = words.first().ok_or("usage: split FILE [K]")?;
    let file = std::fs::read(path)?;
    print!("{}", paltiehko::report(&file));
    let Some(k) = words.get(1) else {
        return Ok(());
    };
    let list = paltiehko::read(&file)?;
    match paltiehko::fewer(list.links(), k.parse()?)? {
        Some(split) => println!("fewer than {k}: {} across, {} nodes on one side", split.value, split.size),
        None => println!("every division has {k} or more across"),
    }
    Ok(())
}

fn main() {
    let words: Vec<String> = std::env::args().skip(1).collect();
    if let Err(error) = run(&words) {
        eprintln!("{error}");
        std::process::exit(1);
    }
}
