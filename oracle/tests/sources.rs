//! The twelve files are what was given: size and SHA-256 of each.

mod sha256;

const DIRECTORY: &str = concat!(env!("CARGO_MANIFEST_DIR"), "/../docs/src/syntax");

const FILES: [(&str, usize, &str); 12] = [
    ("cfg.rs", 6_507, "fa0b8381b1a6004630f5918433c341ccdd0d0b89dee8f24716972ee63a910d91"),
    ("check.rs", 26_734, "af9a88ade42274ee93af5fe9ee0a45194b7be540fcfb28f3de5eb83fc7640c0d"),
    ("discriminant.rs", 9_345, "e17a0e825a198ef999c1341cb4f86037e3a3a4af479f934ed7f0096591c8d7ac"),
    ("improper.rs", 1_522, "fff38d15990ddde97d32d1914d768815b01da48c4b5621d9982a9546c3a7d30f"),
    ("instantiate.rs", 3_700, "86e49fcea8479280046a02bf41ef2d1bd52ad03161de21ca6eed717f8d489cb4"),
    ("pod.rs", 1_458, "db2abba76cc4d8b64a948f54c9ac312b0e436920d3cb5b1c3e0c6bcb323e6a0c"),
    ("signature.rs", 3_911, "95167380ce3f957229173a89490369c669ef8c5b2e1918669821e67f299eaf5b"),
    ("toposort.rs", 1_408, "a2b54f20dadea562e0404c4135ff354725d60666406737b99052a62e02cec135"),
    ("trivial.rs", 10_169, "811eb8f936e2b8099ddb0419e02a041b75f0e76d23ca849fbd6971c0f1735748"),
    ("types.rs", 17_489, "9d022ed6de13d25649fde0f2a8a7ad3e24e035cfdc54e408d0ddb6f6a4e530db"),
    ("unpin.rs", 1_987, "8658cf21a82c43f0ae1c63617dc06c42a22de21ab0c15a40a1cb6f05d2372574"),
    ("visit.rs", 977, "9b70672ce6e8aa81e32423d30b8d2314f6e7fbc9330cb70a12220088817ef89f"),
];

#[test]
fn sources_are_unchanged() {
    for (name, size, sum) in FILES {
        let bytes = std::fs::read(format!("{DIRECTORY}/{name}")).expect(name);
        assert_eq!(bytes.len(), size, "{name}");
        assert_eq!(sha256::hex(&bytes), sum, "{name}");
    }
}

#[test]
fn sha256_is_right() {
    let empty = "e3b0c44298fc1c149afbf4c8996fb92427ae41e4649b934ca495991b7852b855";
    let abc = "ba7816bf8f01cfea414140de5dae2223b00361a396177a9cb410ff61f20015ad";
    assert_eq!(sha256::hex(b""), empty);
    assert_eq!(sha256::hex(b"abc"), abc);
}
