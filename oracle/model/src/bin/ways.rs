//! Prints the names of the ways in which the model can be told to err, one a line.

fn main() {
    for (name, _) in model::Wrong::ALL {
        println!("{name}");
    }
}
