//! Picked texts as recorded ones are held: in parts, each with how often it is repeated.
use replay::harness::vector::document::Parts;

/// One in parts that are written down.
pub type Fixed = &'static [(&'static [u8], usize)];

/// Texts in one part each.
pub fn plain(texts: &[impl AsRef<str>]) -> Vec<Parts> {
    texts.iter().map(|text| whole(text.as_ref())).collect()
}

/// The same of texts that are written in pieces.
pub fn pieced(texts: &[&[&str]]) -> Vec<Parts> {
    texts.iter().map(|pieces| whole(&pieces.concat())).collect()
}

/// Texts in fixed parts.
pub fn fixed(texts: &[Fixed]) -> Vec<Parts> {
    let part = |(part, count): &(&[u8], usize)| (part.to_vec(), *count);
    let each = texts.iter().map(|parts| parts.iter().map(part).collect());
    each.collect()
}

fn whole(text: &str) -> Parts {
    vec![(text.as_bytes().to_vec(), 1)]
}
