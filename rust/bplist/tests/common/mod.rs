//! Property lists written by hand, for the tests.

/// Makes a file of these objects, each at most 255 bytes from the first, with references of one byte. The first is the
/// top.
pub fn file(objects: &[&[u8]]) -> Vec<u8> {
    let mut file = b"bplist00".to_vec();
    let mut offsets = Vec::new();
    for object in objects {
        offsets.push((file.len() as u16).to_be_bytes());
        file.extend_from_slice(object);
    }
    let table = file.len() as u64;
    for offset in offsets {
        file.extend_from_slice(&offset);
    }
    file.extend_from_slice(&[0, 0, 0, 0, 0, 0, 2, 1]);
    for number in [objects.len() as u64, 0, table] {
        file.extend_from_slice(&number.to_be_bytes());
    }
    file
}
