//! Values of FIPS 180-4, of Git, and of comparisons of texts.

use nunbirdstand::{Code, Error, Hasher, Id, Kind, ObjectType, PackIndex, Prefix, SortedDigests};
use std::io::Write;
use std::path::Path;
use std::process::{Command, Stdio};

const EMPTY: &str = "e3b0c44298fc1c149afbf4c8996fb92427ae41e4649b934ca495991b7852b855";

/// The output of git, from a directory, with some input. The user's own variables and configuration do not reach it.
fn git(directory: &Path, words: &[&str], input: &[u8]) -> Vec<u8> {
    let mut git = Command::new("git");
    git.env_clear().env("PATH", std::env::var_os("PATH").unwrap());
    git.envs([("GIT_CONFIG_GLOBAL", "/dev/null"), ("GIT_CONFIG_NOSYSTEM", "1")]);
    git.current_dir(directory).args(words).stdin(Stdio::piped()).stdout(Stdio::piped());
    let mut child = git.spawn().unwrap();
    child.stdin.take().unwrap().write_all(input).unwrap();
    let output = child.wait_with_output().unwrap();
    assert!(output.status.success(), "git {words:?}: {}", output.status);
    output.stdout
}

/// A pack index that git makes of 300 blobs. Offsets above 2,000 are long ones.
fn index_of(kind: Kind, test: &str) -> Vec<u8> {
    let directory = Path::new(env!("CARGO_TARGET_TMPDIR")).join(format!("{test}-{kind}"));
    let _ = std::fs::remove_dir_all(&directory);
    std::fs::create_dir_all(&directory).unwrap();
    git(&directory, &["init", "-q", &format!("--object-format={kind}")], b"");
    let blobs: Vec<_> = (100..400).map(|n| format!("blob\ndata 3\n{n}\n")).collect();
    git(&directory, &["-c", "fastimport.unpackLimit=1", "fast-import", "--quiet"], blobs.concat().as_bytes());
    let mut files =
        std::fs::read_dir(directory.join(".git/objects/pack")).unwrap().map(|it| it.unwrap().path());
    let pack = files.find(|path| path.extension() == Some("pack".as_ref())).unwrap();
    let words = ["index-pack", "--index-version=2,2000", "-o", "index", pack.to_str().unwrap()];
    git(&directory, &words, b"");
    std::fs::read(directory.join("index")).unwrap()
}

fn code<T>(result: Result<T, Error>) -> Option<Code> {
    result.err().map(|error| error.code)
}

#[test]
fn digests() {
    for (kind, text, hex) in [
        (Kind::Sha1, "", "da39a3ee5e6b4b0d3255bfef95601890afd80709"),
        (Kind::Sha1, "abc", "a9993e364706816aba3e25717850c26c9cd0d89d"),
        (Kind::Sha256, "", EMPTY),
        (Kind::Sha256, "abc", "ba7816bf8f01cfea414140de5dae2223b00361a396177a9cb410ff61f20015ad"),
    ] {
        let id = Id::digest(kind, text.as_bytes());
        assert_eq!(id.to_string(), hex);
        assert_eq!(
            (hex.to_uppercase().parse(), Id::from_bytes(id.as_bytes()), id.kind()),
            (Ok(id), Some(id), kind)
        );
        assert_eq!(Id::try_from(id.as_ref()), Ok(id));
        assert_eq!(
            (Prefix::from(id).to_string().as_str(), Prefix::from(id)),
            (hex, hex.to_uppercase().parse().unwrap())
        );
        for other in ["da39", EMPTY, "e3b", "b"] {
            let digits = &hex[..other.len().min(hex.len())];
            let order = (other.len() <= hex.len()).then(|| other.cmp(digits));
            assert_eq!(other.parse::<Prefix>().unwrap().cmp_id(&id), order);
        }
    }
}

#[test]
fn chunks() {
    let message: Vec<u8> = (0..1000u32).map(|n| (n % 251) as u8).collect();
    for kind in [Kind::Sha1, Kind::Sha256] {
        for size in 1..=130 {
            let mut hasher = Hasher::new(kind);
            for (at, chunk) in message.chunks(size).enumerate() {
                assert_eq!(hasher.finish(), Id::digest(kind, &message[..at * size]));
                hasher.write_all(chunk).unwrap();
            }
            let mut other = hasher.clone();
            other.update(b"more");
            assert_eq!((hasher.finish(), hasher.kind()), (Id::digest(kind, &message), kind));
            assert_eq!(other.finish(), Id::digest(kind, &[&message[..], b"more"].concat()));
        }
    }
}

#[test]
fn objects() {
    let directory = Path::new(env!("CARGO_TARGET_TMPDIR"));
    for kind in [Kind::Sha1, Kind::Sha256] {
        let directory = directory.join(format!("objects-{kind}"));
        std::fs::create_dir_all(&directory).unwrap();
        git(&directory, &["init", "-q", &format!("--object-format={kind}")], b"");
        for (object_type, name) in [
            (ObjectType::Commit, "commit"),
            (ObjectType::Tree, "tree"),
            (ObjectType::Blob, "blob"),
            (ObjectType::Tag, "tag"),
        ] {
            for bytes in [&b""[..], b"abc\n", &[7; 4095]] {
                let wanted = git(&directory, &["hash-object", "--literally", "--stdin", "-t", name], bytes);
                let id = Id::of_object(kind, object_type, bytes);
                assert_eq!(id.to_string(), String::from_utf8(wanted).unwrap().trim_end());
                let mut hasher = Hasher::for_object(kind, object_type, bytes.len() as u64);
                bytes.chunks(100).for_each(|chunk| hasher.update(chunk));
                assert_eq!(hasher.finish(), id);
                assert_eq!(id == Id::empty_blob(kind), bytes.is_empty() && object_type == ObjectType::Blob);
                assert_eq!(id == Id::empty_tree(kind), bytes.is_empty() && object_type == ObjectType::Tree);
            }
        }
        assert!(Id::null(kind).as_bytes().iter().all(|&byte| byte == 0) && Id::null(kind).kind() == kind);
    }
}

#[test]
fn texts() {
    for (text, id, prefix) in [
        ("", Some(Code::BadLength), Some(Code::BadLength)),
        ("e", Some(Code::BadLength), None),
        (&EMPTY[..39], Some(Code::BadLength), None),
        (&EMPTY[..40], None, None),
        (EMPTY, None, None),
        (&EMPTY.repeat(2)[..65], Some(Code::BadLength), Some(Code::BadLength)),
        (&EMPTY.replace('0', "g"), Some(Code::BadDigit), Some(Code::BadDigit)),
    ] {
        assert_eq!((code(text.parse::<Id>()), code(text.parse::<Prefix>())), (id, prefix), "{text}");
    }
    assert_eq!(Id::from([0x11; 20]).to_string(), "1".repeat(40));
    assert_eq!(Id::from([0x11; 32]).to_string(), "1".repeat(64));
    for (text, kind) in
        [("sha1", Some(Kind::Sha1)), ("sha256", Some(Kind::Sha256)), ("SHA1", None), ("", None)]
    {
        assert_eq!(text.parse::<Kind>().ok(), kind);
        assert!(kind.iter().all(|kind| kind.to_string() == text));
    }
    let sha1: Id = EMPTY[..40].parse().unwrap();
    assert_eq!(format!("{sha1:?}"), format!("Sha1({})", &EMPTY[..40]));
    assert_eq!(format!("{:?}", Some(EMPTY.parse::<Id>())), format!("Some(Ok(Sha256({EMPTY})))"));
    assert_eq!(format!("{:?} {sha1:.7}", "E3b".parse::<Prefix>().unwrap()), "Prefix(e3b) e3b0c44");
    let table = SortedDigests::new(Kind::Sha1, &[7; 59]).unwrap();
    assert_eq!(format!("{table:?}"), "SortedDigests { kind: Sha1, len: 2, .. }");
    for len in [1, 2, 7, 64] {
        assert_eq!(EMPTY[..len].to_uppercase().parse::<Prefix>().unwrap().to_string(), EMPTY[..len]);
    }
}

#[test]
fn indexes() {
    for kind in [Kind::Sha1, Kind::Sha256] {
        let mut bytes = index_of(kind, "indexes");
        let words = ["show-index", &format!("--object-format={kind}")];
        let shown = git(Path::new(env!("CARGO_TARGET_TMPDIR")), &words, &bytes);
        let index = PackIndex::new(kind, &bytes).unwrap();
        let lines: Vec<_> =
            index.iter().map(|it| format!("{} {} ({:08x})\n", it.offset, it.id, it.crc)).collect();
        assert_eq!(lines.concat(), String::from_utf8(shown).unwrap());
        let table: Vec<_> = index.iter().flat_map(|it| it.id.as_bytes().to_vec()).collect();
        let digests = SortedDigests::new(kind, &table).unwrap();
        for (at, entry) in index.iter().enumerate() {
            let hex_len = index.abbreviate(at).unwrap();
            let name: Prefix = entry.id.to_string()[..hex_len].parse().unwrap();
            let id = Some(entry.id);
            assert_eq!((name.hex_len(), index.id(at), digests.get(at)), (hex_len, id, id));
            assert_eq!((index.find(&name), digests.find(&name)), (Ok(at..at + 1), Ok(at..at + 1)));
        }
        let len = index.len();
        assert_eq!(format!("{index:?}"), format!("PackIndex {{ kind: {kind:?}, len: 300, .. }}"));
        assert_eq!((len, digests.len(), digests.is_empty(), index.is_empty()), (300, 300, false, false));
        assert!(digests.iter().eq(index.iter().map(|it| it.id)));
        assert_eq!((digests.kind(), digests.into_iter().len(), index.into_iter().len()), (kind, 300, 300));
        assert!(index.iter().rev().eq((0..300).rev().map(|at| index.get(at).unwrap())));
        assert_eq!((index.iter().nth(7), index.iter().skip(299).len()), (index.get(7), 1));
        assert_eq!(PackIndex::of_any_kind(&bytes).unwrap().kind(), kind);
        assert_eq!(
            (index.get(len), index.id(len), digests.get(len), code(index.abbreviate(len))),
            (None, None, None, Some(Code::OutOfRange))
        );
        let too_long = (kind == Kind::Sha1).then_some(Code::PrefixTooLong);
        assert_eq!(code(index.find(&EMPTY.parse().unwrap())), too_long);
        let other = if kind == Kind::Sha1 { Kind::Sha256 } else { Kind::Sha1 };
        assert_eq!(
            PackIndex::new(other, &bytes).unwrap_err(),
            Error { code: Code::OtherKind, detail: kind as u64 }
        );
        for (at, code, detail) in [
            (bytes.len() - 1, Code::WrongChecksum, 0),
            (1032, Code::NamesFall, 1),
            (7, Code::BadVersion, 0xfd),
        ] {
            bytes[at] ^= 0xff;
            for result in [PackIndex::new(kind, &bytes), PackIndex::of_any_kind(&bytes)] {
                assert_eq!(result.unwrap_err(), Error { code, detail });
            }
            bytes[at] ^= 0xff;
        }
    }
}

/// What a caller can get wrong. No call panics, and none takes it for right.
#[test]
fn hostile_calls() {
    for text in ["", " ", "\0", "\u{e9}", "\u{ff11}", "e ", " e", "+1", "-1", "0x", "e\n", "e\u{301}"] {
        for times in [1, 20, 40, 64, 65, 1 << 20] {
            let text = text.repeat(times);
            assert!(text.parse::<Id>().is_err() && text.parse::<Prefix>().is_err(), "{text:.80?}");
        }
    }
    for len in (0..100).filter(|len| ![20, 32].contains(len)) {
        let bytes = vec![0; len];
        assert_eq!((Id::from_bytes(&bytes), code(Id::try_from(&bytes[..]))), (None, Some(Code::BadLength)));
    }
    let mut bytes = index_of(Kind::Sha1, "hostile");
    for end in (0..bytes.len()).rev().step_by(7) {
        let start = bytes.len() - end;
        for part in [&bytes[..end], &bytes[start..]] {
            assert!(PackIndex::of_any_kind(part).is_err() && PackIndex::new(Kind::Sha256, part).is_err());
        }
    }
    for at in (0..bytes.len()).step_by(7) {
        bytes[at] ^= 1;
        assert!(PackIndex::of_any_kind(&bytes).is_err(), "{at}");
        bytes[at] ^= 1;
    }
    let fall = [[2; 20], [1; 20]].concat();
    assert_eq!(SortedDigests::new(Kind::Sha1, &fall).unwrap_err(), Error { code: Code::Unsorted, detail: 1 });
    let (index, table) = (PackIndex::of_any_kind(&bytes).unwrap(), [7; 59]);
    let digests = SortedDigests::new(Kind::Sha1, &table).unwrap();
    for at in [300, usize::MAX / 20, usize::MAX / 2 + 1, usize::MAX - 1, usize::MAX] {
        assert_eq!((index.get(at), index.iter().nth(at)), (None, None));
        assert_eq!((index.id(at), digests.get(at)), (None, None));
        assert_eq!(code(index.abbreviate(at)), Some(Code::OutOfRange));
    }
    for (prefix, run) in [("0", 0..2), ("06", 0..0), ("07", 0..2), ("08", 2..2)] {
        assert_eq!((digests.len(), digests.find(&prefix.parse().unwrap())), (2, Ok(run)));
    }
}
