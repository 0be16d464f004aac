//! The form of a listing, line by line, asked of the text alone: nothing here makes a listing. "a printed finding ends in
//! " must" or " should"", and no other line does.

use crate::entries::level_word;
use crate::profile::level_of;

/// What a line is.
enum Line {
    /// A record's, behind which so many findings have theirs.
    Record(usize),
    Finding,
    Lost,
    Total,
}

/// Says the first line that is not as it should be, if there is one.
pub fn hold_form(listing: &str) -> Result<(), String> {
    if listing == "deck too long\n" {
        return Ok(());
    }
    let mut findings = 0;
    let mut is_over = false;
    for line in listing.split_inclusive('\n') {
        let is_in_place = match line.strip_suffix('\n').and_then(line_in) {
            Some(Line::Finding) if findings > 0 => {
                findings -= 1;
                true
            }
            Some(Line::Record(count)) if findings == 0 => {
                findings = count;
                !is_over
            }
            Some(Line::Lost) => findings == 0 && !is_over,
            Some(Line::Total) => findings == 0 && !std::mem::replace(&mut is_over, true),
            _ => false,
        };
        if !is_in_place {
            return Err(format!("the listing has no such line there: {line:?}"));
        }
    }
    if is_over {
        Ok(())
    } else {
        Err("the listing has no last line".to_string())
    }
}

/// Whether a text without LF is the line of a finding.
pub fn is_finding(line: &str) -> bool {
    matches!(line_in(line), Some(Line::Finding))
}

/// What line this is. One blank stands between two words, two stand before a finding, and none at an end.
fn line_in(line: &str) -> Option<Line> {
    let words: Vec<&str> = line.split(' ').collect();
    let (numbers, kind): (&[&str], Line) = match words.as_slice() {
        ["record", number, "profile", profile, "findings", count] => {
            (&[number, profile, count], Line::Record(count.parse().ok()?))
        }
        ["record", number, "profile", profile, "refused", refusal, "side", side, "at", place] => {
            (&[number, profile, refusal, side, place], Line::Record(0))
        }
        ["", "", rule, "at", start, "length", length, level] => {
            let is_level = level_word(level_of(rule.parse().ok()?)) == *level;
            (&[rule, start, length], is_level.then_some(Line::Finding)?)
        }
        ["lost", block, "short" | "unsound" | "stray"] => (&[block], Line::Lost),
        ["records", records, "blocks", blocks, "lost", lost] => (&[records, blocks, lost], Line::Total),
        _ => return None,
    };
    numbers.iter().all(|word| is_number(word)).then_some(kind)
}

/// Decimal digits, without a zero before others.
fn is_number(word: &str) -> bool {
    let is_digits = !word.is_empty() && word.bytes().all(|octet| octet.is_ascii_digit());
    is_digits && (word == "0" || !word.starts_with('0'))
}

#[cfg(test)]
mod tests {
    use super::hold_form;

    const GOOD: &str =
        "record 6 profile 2 findings 2\n  111 at 111 length 36 must\n  115 at 151 length 11 must\n\
                        record 7 profile 2 findings 0\nrecord 8 profile 9 refused 3 side 0 at 0\n\
                        lost 9 stray\nrecords 3 blocks 10 lost 1\n";

    #[test]
    fn listings_have_their_form() {
        for listing in [GOOD, "records 0 blocks 0 lost 0\n", "deck too long\n"] {
            assert_eq!(hold_form(listing), Ok(()));
        }
    }

    #[test]
    fn a_line_of_another_form_is_told() {
        for (part, wrong) in [
            // the level on another line than a finding's
            ("findings 2\n", "findings 2 must\n"),
            ("findings 0\n", "findings 0 must\n"),
            ("side 0 at 0\n", "side 0 at 0 must\n"),
            ("stray\n", "stray must\n"),
            ("lost 1\n", "lost 1 must\n"),
            // no level, another one, or one that is written otherwise
            (" 36 must\n", " 36\n"),
            (" 11 must\n", " 11\n"),
            (" 11 must\n", " 11 should\n"),
            (" 11 must\n", " 11 Must\n"),
            (" 11 must\n", " 11 1\n"),
            (" 11 must\n", " must 11\n"),
            // blanks
            (" 11 must\n", " 11  must\n"),
            (" 11 must\n", " 11must\n"),
            (" 11 must\n", " 11 must \n"),
            ("  115", " 115"),
            // numbers, counts and ends
            (" 11 must\n", " 011 must\n"),
            ("findings 2\n", "findings 1\n"),
            ("findings 2\n", "findings 3\n"),
            ("records 3 blocks 10 lost 1\n", ""),
            ("lost 1\n", "lost 1"),
            ("lost 1\n", "lost 1\nrecords 3 blocks 10 lost 1\n"),
            ("lost 1\n", "lost 1\nlost 9 stray\n"),
        ] {
            let listing = GOOD.replacen(part, wrong, 1);
            assert!(listing != GOOD && hold_form(&listing).is_err(), "{listing}");
        }
    }
}
