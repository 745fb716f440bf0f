use nunbirdstand::{Prefix, Store};

fn main() -> Result<(), Box<dyn std::error::Error>> {
    let mut words = std::env::args().skip(1);
    let store = Store::open(words.next().ok_or("no path")?, None)?;
    let prefixes = words.map(|word| word.parse()).collect::<Result<Vec<Prefix>, _>>()?;
    for found in store.find_many(prefixes)? {
        let (prefix, ids) = found?;
        for id in ids {
            let short = store.abbreviate(&id, 7)?;
            for place in store.locate(&id.into())? {
                let offset = place.offset.map(|offset| offset.to_string());
                let path = place.path.display();
                println!("{prefix} {short} {path} {}", offset.unwrap_or_default());
            }
        }
    }
    Ok(())
}
