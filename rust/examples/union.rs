//! Prints the union of the book on standard input, then every atom with its relation and terms.

use std::io::Read;

fn main() -> Result<(), Box<dyn std::error::Error>> {
    let mut book = Vec::new();
    std::io::stdin().read_to_end(&mut book)?;
    let union = rauntiko::rewrite(&book).map_err(|refusal| refusal.to_string())?;
    print!("{union}");
    for atom in union.members().flat_map(|member| member.atoms()) {
        println!(
            "relation {}: {:?}",
            atom.relation(),
            Vec::from_iter(atom.terms())
        );
    }
    Ok(())
}
