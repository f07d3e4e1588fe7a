//! Prints which library there is, or why there is none.

fn main() {
    match palqytun::library() {
        Ok(it) => println!("{}", it.build),
        Err(error) => {
            eprintln!("{}", error);
            std::process::exit(1);
        }
    }
}
