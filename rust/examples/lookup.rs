//! Looks a name up in a file that holds one directory block: lookup FILE NAME. Exit status: 0 found, 1 refused, 2
//! no such call or file.

use std::{env, fs, process};

fn main() {
    let args: Vec<String> = env::args().collect();
    let [_, file, name] = &args[..] else {
        fail("usage: lookup FILE NAME");
    };
    let block = match fs::read(file) {
        Ok(block) => block,
        Err(error) => fail(&format!("lookup: {file}: {error}")),
    };
    match pelunziwa::block::lookup(&block, name.as_bytes()) {
        Ok(found) => println!(
            "number {}, tag {}, names compared: {}",
            found.number, found.tag, found.compared
        ),
        Err(refused) => {
            println!("{refused}");
            process::exit(1);
        }
    }
}

fn fail(message: &str) -> ! {
    eprintln!("{message}");
    process::exit(2);
}
