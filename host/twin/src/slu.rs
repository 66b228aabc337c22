//! SLU images, for tests and measurements.

/// An image of these parts, whether or not they fit together.
pub fn image(version: u16, base: u16, lengths: &[usize], code: &[u8]) -> Vec<u8> {
    let mut image = b"SLU".to_vec();
    image.extend(version.to_be_bytes());
    image.extend(base.to_be_bytes());
    image.push(lengths.len() as u8);
    for &length in lengths {
        image.extend((length as u16).to_be_bytes());
    }
    image.extend(code);
    image
}

/// An image of routines, the last of which is main.
pub fn image_of(version: u16, base: u16, routines: &[impl AsRef<[u8]>]) -> Vec<u8> {
    let lengths: Vec<usize> = routines.iter().map(|routine| routine.as_ref().len()).collect();
    let code: Vec<u8> = routines.iter().flat_map(|routine| routine.as_ref()).copied().collect();
    image(version, base, &lengths, &code)
}
