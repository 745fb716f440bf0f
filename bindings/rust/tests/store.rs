//! Stores beside Git. They need `packtool`, of which `PACKTOOL` is the path: `cargo test --test store -- --include-ignored`.

use nunbirdstand::{Code, Id, Kind, Location, Prefix, Store, StoreError};
use std::cell::Cell;
use std::collections::BTreeMap;
use std::env;
use std::ffi::{OsStr, OsString};
use std::fs::{self, Permissions};
use std::io::Write;
use std::os::unix::ffi::{OsStrExt, OsStringExt};
use std::os::unix::fs::{symlink, PermissionsExt};
use std::path::{Path, PathBuf};
use std::process::{Command, Stdio};
use std::sync::atomic::{AtomicBool, AtomicUsize, Ordering};
use std::thread;

/// What git prints in a directory for some input. The user's own variables and configuration do not reach it.
fn git(directory: &Path, words: &[&OsStr], input: &str) -> String {
    let mut git = Command::new("git");
    git.env_clear().env("PATH", env::var_os("PATH").unwrap());
    git.envs([("GIT_CONFIG_GLOBAL", "/dev/null"), ("GIT_CONFIG_NOSYSTEM", "1")]);
    git.current_dir(directory).args(words).stdin(Stdio::piped()).stdout(Stdio::piped());
    let mut child = git.spawn().unwrap();
    child.stdin.take().unwrap().write_all(input.as_bytes()).unwrap();
    let output = child.wait_with_output().unwrap();
    assert!(output.status.success(), "git {words:?}: {}", output.status);
    String::from_utf8(output.stdout).unwrap()
}

fn words(text: &str) -> Vec<&OsStr> {
    text.split(' ').map(OsStr::new).collect()
}

/// A bare repository of some packs of 300 blobs and 30 loose blobs, and their sorted ids.
fn made(name: impl AsRef<OsStr>, kind: Kind, packs: usize) -> (PathBuf, Vec<Id>) {
    made_of(name, kind, packs, 300)
}

/// The same with packs of that many blobs.
fn made_of(name: impl AsRef<OsStr>, kind: Kind, packs: usize, blobs: usize) -> (PathBuf, Vec<Id>) {
    let top = Path::new(env!("CARGO_TARGET_TMPDIR")).canonicalize().unwrap();
    let path = top.join(Path::new(name.as_ref()));
    let _ = fs::remove_dir_all(&path);
    fs::create_dir_all(&path).unwrap();
    git(&path, &words(&format!("init -q --bare --object-format={kind}")), "");
    for pack in 0..packs {
        let blobs: String = (0..blobs).map(|n| format!("blob\ndata 7\n{pack:02}{n:05}\n")).collect();
        git(&path, &words("-c fastimport.unpackLimit=0 fast-import --quiet"), &blobs);
    }
    for n in 0..30 {
        git(&path, &words("hash-object -w --stdin"), &format!("loose {n}"));
    }
    let listed = git(&path, &words("cat-file --batch-all-objects --batch-check=%(objectname)"), "");
    let ids = listed.lines().map(|line| line.parse().unwrap()).collect();
    (path, ids)
}

/// Where the packed objects of a repository are.
fn packed(path: &Path) -> BTreeMap<Id, Location> {
    let mut found = BTreeMap::new();
    for entry in fs::read_dir(path.join("objects/pack")).unwrap().map(|it| it.unwrap().path()) {
        if entry.extension() == Some(OsStr::new("idx")) {
            let bytes = fs::read(&entry).unwrap();
            let (index, path) =
                (nunbirdstand::PackIndex::of_any_kind(&bytes).unwrap(), entry.with_extension("pack"));
            let located = |(id, offset)| (id, Location { id, path: path.clone(), offset: Some(offset) });
            found.extend(index.iter().map(|it| located((it.id, it.offset))));
        }
    }
    found
}

/// A pack index of sorted ids, each with its offset.
fn index_of(rows: &[(Id, u64)]) -> Vec<u8> {
    let count = |byte| rows.iter().filter(|(id, _)| id.as_bytes()[0] <= byte).count() as u32;
    let mut bytes: Vec<u8> = b"\xfftOc\0\0\0\x02".to_vec();
    bytes.extend((0..=255).flat_map(|byte| count(byte).to_be_bytes()));
    bytes.extend(rows.iter().flat_map(|(id, _)| id.as_bytes()));
    bytes.extend(vec![0; 4 * rows.len()]);
    let mut long = Vec::new();
    for (_, offset) in rows {
        let short = u32::try_from(*offset).ok().filter(|offset| offset >> 31 == 0);
        bytes.extend(short.unwrap_or((1 << 31) + long.len() as u32 / 8).to_be_bytes());
        long.extend(short.map_or(offset.to_be_bytes().to_vec(), |_| Vec::new()));
    }
    [bytes, long, vec![0; 40]].concat()
}

/// The processes that this thread has begun, and that run.
fn children() -> Vec<String> {
    let listed = fs::read_to_string("/proc/thread-self/children").unwrap();
    let runs = |pid: &&str| {
        fs::read_to_string(format!("/proc/{pid}/stat")).map_or(false, |stat| !stat.contains(") Z "))
    };
    listed.split_whitespace().filter(runs).map(str::to_owned).collect()
}

/// Kills them.
fn kill_all() {
    assert!(Command::new("kill").arg("-9").args(children()).status().unwrap().success());
}

/// How many bytes this thread has read.
fn bytes_read() -> usize {
    let counts = fs::read_to_string("/proc/thread-self/io").unwrap();
    counts.lines().next().unwrap().strip_prefix("rchar: ").unwrap().parse().unwrap()
}

fn is_killed(error: &StoreError) -> bool {
    error.to_string() == "packtool was ended by the signal 9"
}

fn beginning_with(ids: &[Id], prefix: &Prefix) -> Vec<Id> {
    ids.iter().filter(|id| prefix.cmp_id(id) == Some(std::cmp::Ordering::Equal)).copied().collect()
}

/// Writes a program in sh.
fn script(path: &Path, text: &str) {
    fs::create_dir_all(path.parent().unwrap()).unwrap();
    fs::write(path, format!("#!/bin/sh\n{text}\n")).unwrap();
    fs::set_permissions(path, Permissions::from_mode(0o755)).unwrap();
}

/// What the store of a path, or without one that of the surroundings, has for a process of its own in a directory and with
/// variables: its ids, or the error.
fn found_by_another(
    directory: &Path,
    path: Option<&Path>,
    variables: &[(&str, &OsStr)],
) -> Result<Vec<Id>, String> {
    found_by(&env::current_exe().unwrap(), directory, path, variables)
}

/// The same by this program, which may be a copy.
fn found_by(
    program: &Path,
    directory: &Path,
    path: Option<&Path>,
    variables: &[(&str, &OsStr)],
) -> Result<Vec<Id>, String> {
    let mut test = Command::new(program);
    test.args(["--exact", "is_another", "--include-ignored", "--nocapture"]).current_dir(directory);
    let output = test.env("IS_ANOTHER", path.unwrap_or(Path::new(""))).envs(variables.to_vec()).output();
    let printed = String::from_utf8(output.unwrap().stdout).unwrap();
    let said = |word: &'static str| printed.lines().filter_map(move |line| line.strip_prefix(word));
    match said("error: ").next() {
        Some(error) => Err(error.to_owned()),
        None if printed.contains("\nall ids\n") => Ok(said("id: ").map(|id| id.parse().unwrap()).collect()),
        None => panic!("{printed}"),
    }
}

/// The process of `found_by_another`.
#[test]
#[ignore = "needs packtool"]
fn is_another() {
    let Some(path) = env::var_os("IS_ANOTHER") else { return };
    let store = if path.is_empty() { Store::from_env(None) } else { Store::open(path, None) };
    // (a store stays in the directory in which it was opened)
    env::set_current_dir("/").unwrap();
    println!();
    match store.and_then(|store| store.abbreviations(4)?.collect::<Result<Vec<_>, _>>()) {
        Ok(names) => names.iter().for_each(|(_, id)| println!("id: {id}")),
        Err(error) => println!("error: {error}"),
    }
    println!("all ids");
}

fn prefix(text: &str) -> Prefix {
    text.parse().unwrap()
}

fn collected<T>(pairs: impl Iterator<Item = Result<T, StoreError>>) -> Vec<T> {
    pairs.collect::<Result<_, _>>().unwrap()
}

#[test]
#[ignore = "needs packtool"]
fn stores() {
    for kind in [Kind::Sha1, Kind::Sha256] {
        let (path, ids) = made(format!("stores-{kind}"), kind, 3);
        let store = Store::open(path.join("refs"), None).unwrap();
        assert_eq!((store.kind(), store.skipped()), (kind, vec![]));
        let names = collected(store.abbreviations(4).unwrap());
        assert_eq!(names.iter().map(|it| it.1).collect::<Vec<_>>(), ids);
        for (name, id) in &names {
            assert_eq!(beginning_with(&ids, &prefix(name)), [*id]);
            assert!(name.len() == 4 || beginning_with(&ids, &prefix(&name[..name.len() - 1])).len() > 1);
        }
        let longer = names.iter().map(|(name, id)| (id.to_string()[..name.len().max(9)].to_owned(), *id));
        assert_eq!(collected(store.abbreviations(9).unwrap()), longer.collect::<Vec<_>>());
        let texts =
            (0..256).map(|n| format!("{n:02x}")).chain(ids.iter().map(|id| id.to_string()[..5].to_owned()));
        let prefixes: Vec<Prefix> =
            texts.map(|text| prefix(&text)).chain(ids.iter().map(|&id| id.into())).collect();
        let wanted: Vec<_> = prefixes.iter().map(|it| (*it, beginning_with(&ids, it))).collect();
        assert_eq!(collected(store.find_many(prefixes.clone()).unwrap()), wanted);
        for (prefix, found) in wanted.iter().step_by(17) {
            assert_eq!(&store.find(prefix).unwrap(), found);
            match (store.resolve(prefix), &found[..]) {
                (Ok(id), [one]) => assert_eq!((id, store.contains(one).unwrap()), (*one, true)),
                (Err(StoreError::Missing { skipped: 0, .. }), []) => {}
                (Err(StoreError::Ambiguous { ids, .. }), several) => assert_eq!(ids, several),
                other => panic!("{prefix}: {other:?}"),
            }
        }
        for (name, id) in names.iter().step_by(17) {
            assert_eq!(&store.abbreviate(id, 0).unwrap(), name);
            assert_eq!(store.abbreviate(id, 99).unwrap(), id.to_string());
        }
        wrong_questions(&store, kind);
    }
}

/// Prefixes and ids that no store of the kind has.
fn wrong_questions(store: &Store, kind: Kind) {
    let (mut too_long, none) = ("0".repeat(2 * kind.len_in_bytes() + 1), Id::null(kind));
    let other = Id::null(if kind == Kind::Sha1 { Kind::Sha256 } else { Kind::Sha1 });
    for id in [none, other] {
        assert!(
            !store.contains(&id).unwrap()
                && matches!(store.abbreviate(&id, 4), Err(StoreError::Missing { .. }))
        );
    }
    let mut rows = vec![("a".to_owned(), Code::BadLength, "a store's prefix has 2 digits or more")];
    too_long.truncate(64);
    if kind == Kind::Sha1 {
        rows.push((too_long, Code::PrefixTooLong, "the prefix has more digits than ids of the kind"));
    }
    for (text, code, message) in rows {
        let asked = prefix(&text);
        let is = |found: Option<StoreError>| match found.unwrap() {
            StoreError::Prefix { prefix, error } => (prefix, error.code) == (asked, code),
            _ => false,
        };
        assert!(
            is(store.find(&asked).err()) && is(store.resolve(&asked).err()) && is(store.locate(&asked).err())
        );
        assert_eq!(store.find(&asked).unwrap_err().to_string(), format!("{text}: {message}"));
        for size in [0, 1, 8191, 9000, 20_000] {
            let given = [vec![prefix("0011"); size], vec![asked, prefix("00")]].concat();
            let mut many = store.find_many(given).unwrap();
            assert!(many.by_ref().take(size).all(|found| found.unwrap().0 == prefix("0011")));
            assert!(is(many.next().unwrap().err()) && many.next().is_none());
        }
    }
    assert!(store.find(&prefix("ffffffff")).unwrap().is_empty());
}

#[test]
#[ignore = "needs packtool"]
fn locations() {
    for name in [&b"place"[..], b"\xff", b"a\\b", b"a\nb\rc", b"\\n\n\\", b"a 12", b" bad"] {
        let (path, ids) = made(OsString::from_vec(name.to_vec()), Kind::Sha1, 1);
        let store = Store::open(&path, Some(Kind::Sha1)).unwrap();
        let packed = packed(&path);
        for id in ids {
            let digits = id.to_string();
            let own = path.join("objects").join(&digits[..2]).join(&digits[2..]);
            let wanted = packed.get(&id).cloned().unwrap_or(Location { id, path: own, offset: None });
            assert!(wanted.path.exists());
            assert_eq!(store.locate(&id.into()).unwrap(), [wanted], "{:?}", OsStr::from_bytes(name));
        }
        fs::write(path.join("config"), "[core]\n\trepositoryformatversion = 9\n").unwrap();
        let error = Store::open(&path, None).unwrap_err().to_string();
        // (where the path is not UTF-8, that of the config is relative)
        let shown = error.replace(": ./config", "/config");
        assert!(shown.starts_with(&format!("{}/config: ", path.display())), "{error}");
    }
}

#[test]
#[ignore = "needs packtool"]
fn offsets() {
    let (path, _) = made("offsets", Kind::Sha1, 0);
    let store = Store::open(&path, None).unwrap();
    let offsets = [12, (1 << 31) - 1, 1 << 31, (1 << 32) + 5, (1 << 63) - 1];
    let ids = (0..).map(|at| Id::from_bytes(&[at; 20]).unwrap());
    let rows: Vec<(Id, u64)> = ids.zip(offsets).collect();
    let pack = path.join("objects/pack/pack-1.pack");
    fs::write(&pack, "").unwrap();
    fs::write(pack.with_extension("idx"), index_of(&rows)).unwrap();
    for (id, offset) in rows {
        let wanted = Location { id, path: pack.clone(), offset: Some(offset) };
        assert_eq!(store.locate(&id.into()).unwrap(), [wanted]);
    }
}

/// A prefix is asked before and after an object comes, another one, and a pack of both.
#[test]
#[ignore = "needs packtool"]
fn asked_before() {
    let ((source, all), (path, ids)) = (made("source", Kind::Sha1, 4), made("before", Kind::Sha1, 1));
    let first_four = |id: &Id| prefix(&id.to_string()[..4]);
    let is_new = |pair: &&[Id]| {
        first_four(&pair[0]) == first_four(&pair[1]) && beginning_with(&ids, &first_four(&pair[0])).is_empty()
    };
    let pair = all.windows(2).find(is_new).unwrap();
    let (store, asked) = (Store::open(&path, None).unwrap(), first_four(&pair[0]));
    for (stage, wanted) in [&pair[..0], &pair[1..], pair, pair].into_iter().enumerate() {
        if let 1 | 2 = stage {
            let blob = git(&source, &words(&format!("cat-file blob {}", pair[2 - stage])), "");
            git(&path, &words("hash-object -w --stdin"), &blob);
        } else if stage == 3 {
            git(&path, &words("repack -adkq"), "");
        }
        for _ in 0..2 {
            same_as(&store, &asked, wanted, pair);
            let (locations, packed) = (store.locate(&asked).unwrap(), packed(&path));
            assert_eq!(locations.iter().map(|it| it.id).collect::<Vec<_>>(), wanted);
            for it in locations {
                assert!(it.path.exists() && (stage == 3) == it.offset.is_some(), "{stage} {it:?}");
                assert!(stage < 3 || packed[&it.id] == it);
            }
            assert_eq!(store.abbreviations(4).unwrap().count(), ids.len() + wanted.len());
        }
    }
}

/// That a store has of two ids, which share the prefix of 4 digits, those that are wanted.
fn same_as(store: &Store, asked: &Prefix, wanted: &[Id], pair: &[Id]) {
    assert_eq!(store.find(asked).unwrap(), wanted);
    assert_eq!(collected(store.find_many([*asked]).unwrap()), [(*asked, wanted.to_vec())]);
    match (store.resolve(asked), wanted) {
        (Ok(id), [one]) => assert_eq!(id, *one),
        (Err(error @ StoreError::Missing { .. }), []) => {
            assert_eq!(error.to_string(), format!("no id begins with {asked}"));
        }
        (Err(StoreError::Ambiguous { ids, prefix }), several) => {
            assert_eq!((&*ids, prefix), (several, *asked))
        }
        other => panic!("{other:?}"),
    }
    for id in pair {
        assert_eq!(store.contains(id).unwrap(), wanted.contains(id));
        match store.abbreviate(id, 4) {
            Ok(name) => {
                assert_eq!(beginning_with(wanted, &prefix(&name)), [*id]);
                assert_eq!(name.len() == 4, wanted.len() == 1);
            }
            Err(error) => assert!(matches!(error, StoreError::Missing { .. }) && !wanted.contains(id)),
        }
    }
}

#[test]
#[ignore = "needs packtool"]
fn killed() {
    let (path, ids) = made("killed", Kind::Sha1, 15);
    let store = Store::open(&path, None).unwrap();
    let ask = |call: usize| match call {
        0 => store.find(&ids[7].into()).map(drop),
        1 => store.locate(&ids[7].into()).map(drop),
        _ => store.abbreviate(&ids[7], 4).map(drop),
    };
    for call in [0, 0, 1, 1, 2, 2] {
        ask(call).unwrap();
        kill_all();
        assert!(is_killed(&ask(call).unwrap_err()));
        ask(call).unwrap();
    }
    for pid in children() {
        // (Ctrl-C is sent to the whole group of this process, and each of them has its own)
        let stat = fs::read_to_string(format!("/proc/{pid}/stat")).unwrap();
        assert_eq!(stat.rsplit(") ").next().unwrap().split(' ').nth(2), Some(&*pid));
        // (and it has no other's messages)
        let open = fs::read_dir(format!("/proc/{pid}/fd")).unwrap().map(|it| it.unwrap().path());
        let in_memory = |path: &PathBuf| fs::read_link(path).unwrap().to_string_lossy().contains("memfd:");
        assert_eq!(open.filter(in_memory).count(), 1);
    }
    let mut many = store.find_many(ids.iter().cycle().take(500_000).map(|&id| id.into())).unwrap();
    assert_eq!(many.next().unwrap().unwrap().1, [ids[0]]);
    kill_all();
    let mut rest: Vec<_> = many.by_ref().collect();
    assert!(is_killed(&rest.pop().unwrap().unwrap_err()) && many.next().is_none());
    for (found, id) in rest.into_iter().zip(ids.iter().cycle().skip(1)) {
        assert_eq!(found.unwrap(), ((*id).into(), vec![*id]));
    }
    let mut names = store.abbreviations(4).unwrap();
    names.next().unwrap().unwrap();
    kill_all();
    let mut rest: Vec<_> = names.by_ref().collect();
    assert!(is_killed(&rest.pop().unwrap().unwrap_err()) && names.next().is_none());
    for (found, id) in rest.into_iter().zip(&ids[1..]) {
        let (name, found) = found.unwrap();
        assert!(found == *id && id.to_string().starts_with(&name));
    }
}

#[test]
#[ignore = "needs packtool"]
fn surroundings() {
    let ((one, ids), (other, others)) = (made("one", Kind::Sha1, 1), made("other", Kind::Sha1, 2));
    let (objects, top) = (other.join("objects"), Path::new("/"));
    let (dir, common) = (("GIT_DIR", other.as_os_str()), ("GIT_COMMON_DIR", other.as_os_str()));
    let of_one = ("GIT_DIR", one.as_os_str());
    let (own, lent) = ("GIT_OBJECT_DIRECTORY", "GIT_ALTERNATE_OBJECT_DIRECTORIES");
    for (directory, path, variables, wanted) in [
        (&*one, None, &[][..], &ids),
        (&*one, None, &[dir][..], &others),
        (&*one, None, &[of_one, common][..], &others),
        (&*one, None, &[(own, objects.as_os_str())][..], &others),
        (&*one, None, &[(lent, objects.as_os_str())][..], &others),
        (
            &*one,
            Some(Path::new(".")),
            &[dir, (own, objects.as_os_str()), (lent, objects.as_os_str())][..],
            &ids,
        ),
        (top, Some(&*one), &[dir, common][..], &ids),
        (top, None, &[dir][..], &others),
    ] {
        assert_eq!(&found_by_another(directory, path, variables).unwrap(), wanted);
    }
    // (no directory has to be writable)
    let nowhere = ("TMPDIR", OsStr::new("/nowhere"));
    assert_eq!(found_by_another(top, Some(&one), &[nowhere]).unwrap(), ids);
    assert_eq!(Store::open(&one, Some(Kind::Sha256)).unwrap().kind(), Kind::Sha256);
    let tenfold = concat!(env!("CARGO_PKG_VERSION_MAJOR"), ".", env!("CARGO_PKG_VERSION_MINOR"), "0.0");
    for (version, why) in [
        ("packtool 0.4.9 of Nunbirdstand", "this is packtool 0.4.9 of Nunbirdstand"),
        ("packtool 10.6.0", "this is packtool 10.6.0"),
        (&format!("packtool {tenfold}"), &format!("this is packtool {tenfold}")),
        ("packtool", "no working packtool"),
        ("git version 2.39.5", "no working packtool"),
    ] {
        let program = one.join("old/packtool");
        script(&program, &format!("echo {version}"));
        let error = found_by_another(top, Some(&one), &[("PACKTOOL", program.as_os_str())]).unwrap_err();
        assert!(error.starts_with(&format!("{}: {why}: set PACKTOOL to ", program.display())), "{error}");
    }
}

/// What packtool does only in a bad moment, by a program that does so.
#[test]
#[ignore = "needs packtool"]
fn bad_moments() {
    let fake = Path::new(env!("CARGO_MANIFEST_DIR")).join("../fake_packtool");
    if env::var_os("PACKTOOL").unwrap() != fake {
        // (the variable is for a process of its own)
        let mut test = Command::new(env::current_exe().unwrap());
        test.args(["--exact", "bad_moments", "--include-ignored"]).env("PACKTOOL", fake);
        return assert!(test.status().unwrap().success());
    }
    let store = Store::open("/", None).unwrap();
    for (text, why) in [("a0", "packtool printed too few lines"), ("a4", "/f: not read")] {
        let (asked, given) = (prefix(text), ["bb", text, "cc"].map(prefix));
        let of_many = store.find_many(given).unwrap().find_map(Result::err);
        for error in [store.find(&asked).err(), store.locate(&asked).err(), of_many] {
            assert_eq!(error.unwrap().to_string(), why);
        }
    }
    assert_eq!(store.skipped(), ["/e: gone, skipped", "/g: gone, skipped"]);
    for (text, parts) in [("a3", 2), ("a1", 2), ("a2", 3)] {
        assert_eq!((store.find(&prefix(text)).unwrap(), store.skipped().len()), (vec![], parts));
    }
    assert_eq!(store.skipped()[2], "/half: gone, skipped");
    for (least, why) in [(4, "/c: not read"), (5, "packtool was ended by the signal 9")] {
        let errors = store.abbreviations(least).unwrap().filter_map(Result::err);
        assert_eq!(errors.map(|it| it.to_string()).collect::<Vec<_>>(), [why]);
    }
}

/// The number of first digits that two ids share.
fn shared(one: &Id, other: &Id) -> usize {
    one.to_string().bytes().zip(other.to_string().bytes()).take_while(|(a, b)| a == b).count()
}

/// A store of more ids than a pipe has room for.
#[test]
#[ignore = "needs packtool"]
fn many_ids() {
    let (path, ids) = made_of("many", Kind::Sha256, 2, 10_000);
    let store = Store::open(&path, None).unwrap();
    let names = collected(store.abbreviations(4).unwrap());
    assert!(names.iter().map(|it| it.1).eq(ids.iter().copied()));
    for (at, (name, id)) in names.iter().enumerate() {
        let neighbours = [at.checked_sub(1), Some(at + 1)].into_iter().flatten();
        let most = neighbours.filter_map(|at| ids.get(at)).map(|other| shared(id, other)).max();
        assert_eq!(name[..], id.to_string()[..most.map_or(4, |most| most + 1).max(4)]);
        for least in if name.len() > 6 { 4..13 } else { 0..0 } {
            assert_eq!(store.abbreviate(id, least).unwrap(), id.to_string()[..name.len().max(least)]);
        }
    }
    let given = || ids.iter().cycle().take(100_000).copied();
    let found = collected(store.find_many(given().map(Prefix::from)).unwrap());
    assert!(found.into_iter().eq(given().map(|id| (id.into(), vec![id]))));
    // (an id of the other kind is none, also if an id begins with it)
    let other = ids[0].to_string()[..40].parse::<Id>().unwrap();
    assert!(!store.contains(&other).unwrap());
    assert!(matches!(store.abbreviate(&other, 4), Err(StoreError::Missing { .. })));
    full_chunks(&store, &ids);
    drop(store);
    assert_eq!(fs::read_to_string("/proc/thread-self/children").unwrap(), "");
}

/// A short prefix counts as many, and may be the one with which a chunk is full.
fn full_chunks(store: &Store, ids: &[Id]) {
    let long: Vec<Prefix> = ids.iter().map(|id| prefix(&id.to_string()[..12])).collect();
    for (digits, cost) in [(2, 1024), (3, 64), (4, 4)] {
        let short = prefix(&ids[7].to_string()[..digits]);
        let wanted = beginning_with(ids, &short);
        for (at, size) in
            [(8189, 8190), (8190, 8191), (8191, 8192), (0, 8192), (8191 - cost, 8192), (8192 - cost, 8192)]
        {
            let mut given = long[..size].to_vec();
            given[at] = short;
            let found = collected(store.find_many(given.clone()).unwrap());
            assert!(found.iter().map(|it| it.0).eq(given));
            assert_eq!(found[at].1, wanted);
        }
    }
    let taken = Cell::new(0);
    let given = (0..40_000).inspect(|&at| taken.set(at)).map(|at| prefix(&format!("{at:08x}")));
    store.find_many(given).unwrap().next().unwrap().unwrap();
    assert!(taken.get() < 17_000);
}

#[test]
#[ignore = "needs packtool"]
fn threads_and_calls_within_iterators() {
    let (path, ids) = made("threads", Kind::Sha1, 2);
    let (store, asked) = (Store::open(&path, None).unwrap(), AtomicUsize::new(0));
    thread::scope(|scope| {
        for seed in 0..8 {
            let (store, ids, asked) = (&store, &ids, &asked);
            scope.spawn(move || {
                for at in 0..1000 {
                    let id = ids[(at * 7919 + seed * 31) % ids.len()];
                    match at % 5 {
                        0 => assert_eq!(store.locate(&id.into()).unwrap()[0].id, id),
                        1 => assert!(id.to_string().starts_with(&store.abbreviate(&id, 4).unwrap())),
                        _ => assert_eq!(store.find(&id.into()).unwrap(), [id]),
                    }
                    asked.fetch_add(1, Ordering::Relaxed);
                }
            });
        }
    });
    assert_eq!(asked.into_inner(), 8000);
    let given = ids.iter().map(|id| prefix(&store.abbreviate(id, 4).unwrap()));
    for (found, name) in store.find_many(given).unwrap().zip(store.abbreviations(4).unwrap()) {
        let ((prefix, found), (name, id)) = (found.unwrap(), name.unwrap());
        assert_eq!((prefix.to_string(), &found[..]), (name, &[id][..]));
        assert_eq!(store.locate(&prefix).unwrap()[0].id, id);
    }
    let mut many = store.find_many(ids.iter().cycle().take(100_000).map(|&id| id.into())).unwrap();
    assert_eq!(many.next().unwrap().unwrap().1, ids[..1]);
    drop(many);
    let same = vec![prefix("00"); 30_000];
    let wanted = beginning_with(&ids, &prefix("00"));
    assert!(store.find_many(same).unwrap().all(|it| it.unwrap().1 == wanted));
    assert_eq!(store.find_many([]).unwrap().count(), 0);
}

#[test]
#[ignore = "needs packtool"]
fn packed_meanwhile() {
    let (path, ids) = made("meanwhile", Kind::Sha1, 2);
    for id in &ids {
        fs::write(path.join("refs/tags").join(id.to_string()), format!("{id}\n")).unwrap();
    }
    let (store, is_over) = (Store::open(&path, None).unwrap(), AtomicBool::new(false));
    thread::scope(|scope| {
        scope.spawn(|| {
            for round in 0..6 {
                git(&path, &words("repack -adq"), "");
                let blob = format!("blob\ndata 7\nround {round}\n");
                git(&path, &words("-c fastimport.unpackLimit=0 fast-import --quiet"), &blob);
            }
            is_over.store(true, Ordering::Relaxed);
        });
        while !is_over.load(Ordering::Relaxed) {
            for &id in ids.iter().step_by(41) {
                assert_eq!(
                    (store.find(&id.into()).unwrap(), store.locate(&id.into()).unwrap()[0].id),
                    (vec![id], id)
                );
            }
            let found = collected(store.find_many(ids.iter().map(|&id| id.into())).unwrap());
            assert!(found.iter().zip(&ids).all(|(found, id)| found.1 == [*id]));
        }
    });
}

#[test]
#[ignore = "needs packtool"]
fn skipped_and_failed() {
    let (path, ids) = made("skipped", Kind::Sha1, 1);
    let alternates: String = (0..2000).map(|n| format!("/nowhere/{}/{n}\n", "long".repeat(20))).collect();
    fs::write(path.join("objects/info/alternates"), alternates).unwrap();
    let store = Store::open(&path, None).unwrap();
    assert_eq!(store.find(&ids[3].into()).unwrap(), [ids[3]]);
    assert_eq!(
        (store.locate(&ids[3].into()).unwrap().len(), store.abbreviations(4).unwrap().count()),
        (1, ids.len())
    );
    assert_eq!(store.skipped().len(), 2000);
    // (what it has said is read once)
    let before = bytes_read();
    for _ in 0..20 {
        assert_eq!(store.find(&ids[3].into()).unwrap(), [ids[3]]);
    }
    assert!(bytes_read() - before < 500_000);
    let none = "no id begins with ffffffff (2000 parts of the store left out: see skipped)";
    assert_eq!(store.resolve(&prefix("ffffffff")).unwrap_err().to_string(), none);
    assert!(store.skipped()[0].starts_with("/nowhere/long") && store.skipped()[0].ends_with(", skipped"));
    let (none, top) = (path.join("none"), Path::new("/"));
    for (path, text) in
        [(&none, "none: "), (&path.join("HEAD"), "HEAD"), (&top.to_path_buf(), "/: no git repository")]
    {
        let error = Store::open(path, None).unwrap_err().to_string();
        assert!(error.contains(text), "{error}");
    }
    fs::write(path.join("config"), "[core]\n\trepositoryformatversion = 9\n").unwrap();
    assert!(matches!(Store::open(&path, None), Err(StoreError::Failed(text)) if text.contains("config: ")));
}

/// What is in the current directory or in the repository is not run, whatever the variables have beside it.
#[test]
#[ignore = "needs packtool"]
fn programs_of_others() {
    let (path, ids) = made("others", Kind::Sha1, 1);
    let program = fs::canonicalize(env::var_os("PACKTOOL").unwrap()).unwrap();
    let (mark, directory) = (path.join("mark"), path.with_file_name("others bin"));
    for name in ["packtool", "bin/packtool"] {
        let text = format!(": > '{}'\nexec '{}' \"$@\"", mark.display(), program.display());
        script(&path.join(name), &text);
    }
    let _ = fs::remove_dir_all(&directory);
    fs::create_dir(&directory).unwrap();
    symlink(&program, directory.join("packtool")).unwrap();
    let locked = path.join("locked");
    script(&locked.join("packtool"), &format!(": > '{}'", mark.display()));
    fs::set_permissions(locked.join("packtool"), Permissions::from_mode(0o644)).unwrap();
    let (other, relative) = (path.parent().unwrap(), ["./packtool", "bin/packtool", "others/packtool"]);
    for paths in ["/nowhere", "", ":", ":/nowhere", "/nowhere:", ".", "bin", "./bin/", "others/bin"] {
        for (directory, given) in
            [&*path, other].iter().flat_map(|it| ["", "packtool"].map(|given| (it, given)))
        {
            let variables = [("PACKTOOL", OsStr::new(given)), ("PATH", OsStr::new(paths))];
            let error = found_by_another(directory, Some(&path), &variables).unwrap_err();
            assert!(error.starts_with("packtool: not on the PATH: "), "{error}");
        }
        // (it goes on behind what is left out, and behind a file that may not be run)
        let paths = format!("{paths}:{}:{}", locked.display(), directory.display());
        let variables = [("PACKTOOL", OsStr::new("")), ("PATH", OsStr::new(&paths))];
        assert_eq!(found_by_another(&path, Some(&path), &variables).unwrap(), ids);
    }
    // (the program beside this one is run, but no directory of its name)
    let (beside, test) = (directory.join("packtool"), directory.join("test"));
    fs::hard_link(env::current_exe().unwrap(), &test).unwrap();
    for paths in ["/nowhere", directory.join("moved").to_str().unwrap()] {
        let variables = [("PACKTOOL", OsStr::new("")), ("PATH", OsStr::new(paths))];
        assert_eq!(found_by(&test, &path, Some(&path), &variables).unwrap(), ids);
        if paths == "/nowhere" {
            fs::create_dir(directory.join("moved")).unwrap();
            fs::rename(&beside, directory.join("moved/packtool")).unwrap();
            fs::create_dir(&beside).unwrap();
        }
    }
    for (directory, given) in [&*path, other].iter().flat_map(|it| relative.map(|given| (it, given))) {
        let error = found_by_another(directory, Some(&path), &[("PACKTOOL", OsStr::new(given))]).unwrap_err();
        assert!(error.starts_with(&format!("{given}: not an absolute path: ")), "{error}");
    }
    assert!(!mark.exists());
}
