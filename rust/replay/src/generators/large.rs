//! Large presets.
use port::text::TEXT_MAX;

/// 32 partitions, 64 components and 64 applications, with the fields that presets mostly have.
pub fn full() -> String {
    let board = "[board]\nname = \"bench\"\nchip = \"d13x\"\n[image]\nproduct = \"bench\"\n";
    let partitions = (0..32).map(|i| partition(&format!("part{i}"), i));
    let components = (0..64).map(|i| {
        let part = i % 32;
        format!(
            "[[component]]\nkind = \"app\"\nname = \"comp{i}\"\npackage = \"package-{i}\"\n\
             pbp_package = \"pbp\"\nfeatures = [\"pan\", \"tilt\", \"zoom\"]\npartition = \"part{part};mtd\"\n\
             load_address = 0x4070_0000\nwith_ext = true\next_reserve = 512\n"
        )
    });
    let apps = (0..64).map(|i| {
        let part = i % 32;
        format!(
            "[apps.profile-{i}]\nname = \"profile {i}\"\npartition = \"part{part}\"\n\
             features = \"pan tilt zoom\"\nload_address = 0x4070_0000\n"
        )
    });
    let lists = partitions.chain(components).chain(apps);
    board.to_string() + &lists.collect::<String>()
}

/// As many entries, with names as long as they may be, two packages for each component that no other has, and as many
/// features as a list may have.
pub fn named() -> String {
    let long = |head: char, i: usize| format!("{head}{i:02}{}", "-".repeat(29));
    let partitions = (0..32).map(|i| partition(&long('p', i), i));
    let components = (0..64).map(|i| {
        let (name, part) = (long('c', i), long('p', i % 32));
        format!(
            "[[component]]\nkind = \"app\"\nname = \"{name}\"\npackage = \"own{i}\"\npbp_package = \"pbp{i}\"\n\
             partition = \"{part}\"\nfeatures = {}\n",
            features(i)
        )
    });
    let apps = (0..64).map(|i| {
        let (name, part) = (long('a', i), long('p', i % 32));
        let words = features(i);
        format!("[apps.k{i:02}]\nname = \"{name}\"\npartition = \"{part}\"\nfeatures = {words}\n")
    });
    partitions.chain(components).chain(apps).collect()
}

/// As many entries, all components of one package, whose features every one of them has in another order.
pub fn shared() -> String {
    let partitions = (0..32).map(|i| partition(&format!("part{i}"), i));
    let components = (0..64).map(|i| {
        let words = features(i);
        format!(
            "[[component]]\nname = \"comp{i}\"\npackage = \"a\"\npbp_package = \"a\"\npartition = \"part0\"\n\
             features = {words}\n"
        )
    });
    let apps = (0..64).map(|i| {
        let words = features(i);
        let key = if i == 0 { "a".into() } else { format!("k{i}") };
        format!("[apps.{key}]\npartition = \"part1\"\nfeatures = {words}\n")
    });
    partitions.chain(components).chain(apps).collect()
}

fn partition(name: &str, i: usize) -> String {
    let offset = i * 4_096;
    format!("[[partition]]\nname = \"{name}\"\noffset = {offset}\nsize = 0x1000\n")
}

// 32 of one letter each, beginning with number i; every eighth list is an array, the others are strings.
fn features(i: usize) -> String {
    let letters = "abcdefghijklmnopqrstuvwxyz012345";
    let each = letters.chars().cycle().skip(i % 32).take(32);
    let each: Vec<_> = each.map(String::from).collect();
    if i % 8 == 0 {
        format!("[\"{}\"]", each.join("\", \""))
    } else {
        format!("\"{}\"", each.join(" "))
    }
}

/// As many entries, with names of 32 letters, or of 32 bytes that are all printed as two.
pub fn long_names(escaped: bool) -> String {
    let (end, pair) = if escaped {
        ("\\\"", ["\t", "\r"])
    } else {
        ("n", ["a", "b"])
    };
    let long = |i: usize| {
        let bits = (0..30).map(|k| pair[i >> (k % 7) & 1]);
        [end, &bits.collect::<String>(), end].concat()
    };
    let partitions = (0..32).map(|i| partition(&long(i), i));
    let components = (0..64).map(|i| {
        let (name, part) = (long(i), long(i % 32));
        format!("[[component]]\nname = \"{name}\"\npackage = \"{name}\"\npartition = \"{part}\"\n")
    });
    let apps = (0..64).map(|i| {
        let (key, part) = (long(64 + i), long(i % 32));
        format!("[apps.\"{key}\"]\npartition = \"{part}\"\n")
    });
    partitions.chain(components).chain(apps).collect()
}

/// The preset with the longest listing: all of the text that can be is a package of TABs, which stand there as they are
/// and are printed as two bytes each, in a build and once more as the stem.
pub fn escaped() -> String {
    let before = "[[partition]]\nname=\"a\"\noffset=0\nsize=4096\n\
                  [[component]]\nname=\"\"\nkind=\"app\"\npartition=\"a\"\npackage=\"";
    let package = "\t".repeat(TEXT_MAX - before.len() - 1);
    format!("{before}{package}\"")
}

/// A text and a comment after it, up to the longest that is read.
pub fn commented(text: &str) -> String {
    let dashes = "-".repeat(TEXT_MAX - text.len() - 2);
    format!("{text}#{dashes}\n")
}

/// Arrays inside one another, as many as are read, around so many integers.
pub fn deep(items: usize) -> String {
    let (open, close) = ("[".repeat(16), "]".repeat(16));
    format!("z = {open}{}{close}\n", "1,".repeat(items))
}
