//! Grades the text on standard input and says in words what comes of it.

use ikhzorvan::ANSWER_LEN;
use std::io::Read;

const GRADES: [&str; 5] = ["const", "mover", "atomic", "cmpd", "error"];

fn main() -> std::io::Result<()> {
    let mut text = Vec::new();
    std::io::stdin().read_to_end(&mut text)?;
    let mut answer = [0; ANSWER_LEN];
    match ikhzorvan::grade(&text, &mut answer) {
        Ok(accepted) => {
            println!("accepted: {} methods, {} rounds", accepted.methods, accepted.rounds);
            for method in 0..usize::from(accepted.methods) {
                println!("method {method}, no lock held: {}", GRADES[usize::from(answer[16 * method])]);
            }
        }
        Err(refusal) => println!("refused by {}: {refusal}", refusal.number()),
    }
    Ok(())
}
