use nunbirdstand::{Id, Kind, SortedDigests};

fn main() -> Result<(), nunbirdstand::Error> {
    let mut ids = [b"1", b"2", b"3"].map(|text| Id::digest(Kind::Sha1, text));
    ids.sort();
    let table: Vec<u8> = ids.iter().flat_map(|id| id.as_bytes().to_vec()).collect();
    for at in SortedDigests::new(Kind::Sha1, &table)?.find(&"da4".parse()?)? {
        println!("{}", ids[at]); // da4b9237bacccdf19c0760cab7aec4a8359010b0
    }
    Ok(())
}
