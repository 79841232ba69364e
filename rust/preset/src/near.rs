//! Which known word another is most likely meant to be.

// Words with more slips between them than these are two words.
const SLIPS: usize = 2;

// Shorter parts are of many words.
const PART: usize = 3;
// In longer words slips are not counted: that takes the product of their lengths.
const LONGEST: usize = 100;

/// The first of the known words with the fewest slips, where they are few and less than half of the word's length.
/// Capitals, `-` and `_` make no other word.
pub(crate) fn near<'a>(word: &str, known: &[&'a str]) -> Option<&'a str> {
    let word = alike(word);
    let few = |slips: &usize| *slips <= SLIPS && 2 * slips < word.len();
    let each = known.iter().filter_map(|&own| {
        let letters = alike(own);
        // each letter more is a slip, so that most words need no counting
        let apart = word.len().abs_diff(letters.len()) > SLIPS;
        let long = word.len().max(letters.len()) > LONGEST;
        let slips = if apart || long {
            (word == letters).then_some(0)
        } else {
            Some(slips(&word, &letters))
        };
        Some((slips.filter(few)?, own))
    });
    let best = each.min_by_key(|(slips, _)| *slips)?;
    Some(best.1)
}

/// The same; else the one known word of which the word is a part, or that is a part of it.
pub(crate) fn likeliest<'a>(word: &str, known: &[&'a str]) -> Option<&'a str> {
    let own: String = alike(word).into_iter().collect();
    let part = |other: &str| {
        let other: String = alike(other).into_iter().collect();
        let long = own.len().min(other.len()) >= PART;
        long && (other.contains(&own) || own.contains(&other))
    };
    near(word, known).or_else(|| only(known, part))
}

/// The one known word that begins with the word, as with one that is cut short.
pub(crate) fn begun<'a>(word: &str, known: &[&'a str]) -> Option<&'a str> {
    let own = alike(word);
    let long = own.len() >= PART;
    only(known, |other| long && alike(other).starts_with(&own))
}

// The known word of a sort, where there is no second one.
fn only<'a>(known: &[&'a str], sort: impl Fn(&str) -> bool) -> Option<&'a str> {
    let mut found = known.iter().filter(|other| sort(other));
    let first = found.next()?;
    found.next().is_none().then_some(*first)
}

// The letters that make a word, whatever their size.
fn alike(word: &str) -> Vec<char> {
    let own = word.chars().filter(|c| !['-', '_'].contains(c));
    own.flat_map(char::to_lowercase).collect()
}

// How many letters are left out, put in, mistaken or swapped with the next: the edit distance of Damerau, in which no
// letter is touched twice.
fn slips(a: &[char], b: &[char]) -> usize {
    let mut rows: Vec<Vec<usize>> = vec![(0..=b.len()).collect()];
    for i in 1..=a.len() {
        let mut row = vec![i];
        for j in 1..=b.len() {
            let mistaken = rows[i - 1][j - 1] + usize::from(a[i - 1] != b[j - 1]);
            let least = mistaken.min(rows[i - 1][j] + 1).min(row[j - 1] + 1);
            let swapped = i > 1 && j > 1 && a[i - 1] == b[j - 2] && a[i - 2] == b[j - 1];
            row.push(if swapped {
                least.min(rows[i - 2][j - 2] + 1)
            } else {
                least
            });
        }
        rows.push(row);
    }
    rows[a.len()][b.len()]
}

#[cfg(test)]
mod tests {
    use super::{begun, likeliest, near, slips};

    #[test]
    fn slips_are_counted() {
        let count = |a: &str, b: &str| {
            let [a, b] = [a, b].map(|word| word.chars().collect::<Vec<_>>());
            assert_eq!(slips(&a, &b), slips(&b, &a));
            slips(&a, &b)
        };
        assert_eq!(count("", ""), 0);
        assert_eq!(count("", "name"), 4);
        assert_eq!(count("size", "size"), 0);
        assert_eq!(count("nme", "name"), 1);
        assert_eq!(count("naame", "name"), 1);
        assert_eq!(count("nome", "name"), 1);
        assert_eq!(count("nmae", "name"), 1);
        assert_eq!(count("anem", "name"), 2);
        assert_eq!(count("größe", "grosse"), 3);
        assert_eq!(count("kitten", "sitting"), 3);
    }

    #[test]
    fn the_nearest_word_counts() {
        let known = ["file", "filename", "pbp", "name"];
        assert_eq!(near("flie", &known), Some("file"));
        assert_eq!(near("filenmae", &known), Some("filename"));
        assert_eq!(near("nam", &known), Some("name"));
        assert_eq!(near("filenames_", &known), Some("filename"));
        assert_eq!(near("filenames__", &known), Some("filename"));
        assert_eq!(near("filenamesss", &known), None);
        // of two the first
        assert_eq!(near("cat", &["rat", "hat"]), Some("rat"));
        assert_eq!(near("cat", &["dog", "at"]), Some("at"));
        assert_eq!(near("cat", &[]), None);
    }

    // A word that only capitals and dashes part from a known one is that one, before any other.
    #[test]
    fn capitals_and_dashes_are_no_slips() {
        assert_eq!(near("SPI_NOR", &["spi-nand", "spi-nor"]), Some("spi-nor"));
        assert_eq!(near("spinor", &["spi-nor"]), Some("spi-nor"));
        assert_eq!(near("D13X", &["d21x", "d13x"]), Some("d13x"));
        assert_eq!(near("Boot", &["boat", "boot"]), Some("boot"));
        assert_eq!(near("É", &["é"]), Some("é"));
        assert_eq!(near("--", &["-"]), None);
        assert_eq!(near("", &[""]), None);
    }

    #[test]
    fn a_part_leads_to_the_only_word_with_it() {
        assert_eq!(likeliest("nor", &["spi-nor", "spi-nand"]), Some("spi-nor"));
        assert_eq!(likeliest("boot mtd", &["env", "boot"]), Some("boot"));
        assert_eq!(likeliest("spi", &["spi-nor", "spi-nand"]), None);
        assert_eq!(likeliest("no", &["spi-nor", "spi-nand"]), None);
        assert_eq!(likeliest("", &["spi-nor"]), None);
        assert_eq!(likeliest("cat", &["catalog", "cap"]), Some("cap"));
    }

    #[test]
    fn a_beginning_leads_to_the_only_word_with_it() {
        let known = ["name", "locked", "entry_point", "entry_offset"];
        assert_eq!(near("lock", &known), None);
        assert_eq!(begun("Lock", &known), Some("locked"));
        assert_eq!(begun("entry_p", &known), Some("entry_point"));
        for word in ["", "lo", "entry", "ocked", "locked by"] {
            assert_eq!(begun(word, &known), None, "{word}");
        }
    }

    // In a short word one letter more or less makes another word.
    #[test]
    fn short_words_are_near_to_nothing() {
        assert_eq!(near("pb", &["pbp"]), None);
        assert_eq!(near("x", &["ax"]), None);
        assert_eq!(near("", &["a"]), None);
        assert_eq!(near("zzze", &["size"]), None);
        assert_eq!(near("siez", &["size"]), Some("size"));
        assert_eq!(near("xxame", &["name"]), Some("name"));
        assert_eq!(near("xaxme", &["name"]), Some("name"));
        assert_eq!(near("xame", &["name"]), Some("name"));
        let long = "x".repeat(30_000);
        assert_eq!(near(&long, &["name"]), None);
        assert_eq!(near(&long, &[&format!("{long}y")]), None);
        assert_eq!(near(&long.to_uppercase(), &[&long]), Some(long.as_str()));
    }
}
