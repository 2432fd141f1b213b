//! What the library says of itself, and its checksum.

use std::path::Path;
use std::process::Command;

use generate::Random;
use library::{checksum, identity, Context, Mask};

/// CRC-32 by its polynomial, bit by bit from the highest power down on mirrored bytes: written anew.
fn crc(bytes: &[u8]) -> u32 {
    let mut remainder = u32::MAX;
    for byte in bytes {
        remainder ^= u32::from(byte.reverse_bits()) << 24;
        for _ in 0..8 {
            let falls_out = remainder >> 31 == 1;
            remainder <<= 1;
            if falls_out {
                remainder ^= 0x04C1_1DB7;
            }
        }
    }
    (!remainder).reverse_bits()
}

#[test]
fn known_checksums() {
    assert_eq!(checksum(b""), 0);
    assert_eq!(checksum(b"123456789"), 0xCBF4_3926, "the check value of CRC-32");
    assert_eq!(checksum(&[0; 4]), 0x2144_DF1C);
}

#[test]
fn checksums_of_any_bytes() {
    let mut random = Random::new(3);
    for length in (0..300).chain([1_021, 65_536, 70_001]) {
        let mut bytes = vec![0; length];
        random.fill_bytes(&mut bytes);
        assert_eq!(checksum(&bytes), crc(&bytes), "{length} bytes");
    }
}

/// A pixel changed by 1 anywhere gives another checksum.
#[test]
fn a_changed_pixel_is_seen() {
    let scene = scene::Scene::new(16, 16, [1, 2, 3, 255]).bytes();
    let mut surface = vec![0; 16 * 16 * 4];
    let answer = library::draw(
        &mut Context::default(),
        &scene,
        Mask::NONE,
        &mut surface,
        &mut vec![0; library::SCRATCH_NUMBERS],
    );
    assert_eq!(answer.code, 0);
    let right = checksum(&surface);
    for i in 0..surface.len() {
        surface[i] ^= 1;
        assert_ne!(checksum(&surface), right, "byte {i}");
        surface[i] ^= 1;
    }
}

/// The archive names the version of this workspace, and the sources that `tests/identity` finds.
#[test]
fn the_library_knows_itself() {
    let known = identity();
    assert_eq!(format!("{}.{}.{}", known.major, known.minor, known.patch), env!("CARGO_PKG_VERSION"));
    let root = Path::new(env!("CARGO_MANIFEST_DIR")).join("../..");
    let told = Command::new(root.join("tests/identity")).output().expect("tests/identity");
    let told = String::from_utf8(told.stdout).expect("text");
    let hash: String = known.source.iter().map(|byte| format!("{byte:02x}")).collect();
    assert!(told.contains(&format!("identity {} {hash}\n", env!("CARGO_PKG_VERSION"))), "{told}");
}
