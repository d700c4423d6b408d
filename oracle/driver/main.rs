use wellen::oracle::Wanted;

fn main() {
    let arguments: Vec<String> = std::env::args().skip(1).collect();
    let arguments: Vec<&str> = arguments.iter().map(String::as_str).collect();
    match arguments[..] {
        ["values"] => wellen::oracle::values(),
        ["recordings"] => wellen::oracle::recordings(Wanted::Answers),
        ["blocks"] => wellen::oracle::recordings(Wanted::Blocks),
        ["loads"] => wellen::oracle::recordings(Wanted::Loads),
        ["selftest"] => wellen::oracle::selftest(),
        _ => {
            eprintln!(
                "usage: oracle values <QUESTIONS >ANSWERS\n       \
                oracle recordings <CALLS >ANSWERS\n       \
                oracle blocks <CALLS >BLOCKS\n       \
                oracle loads <CALLS >LOADS\n       \
                oracle selftest"
            );
            std::process::exit(2);
        }
    }
}
