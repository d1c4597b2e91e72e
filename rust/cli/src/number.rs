//! Numbers as people write them: decimal or hexadecimal, with `_` between digits, and a unit where bytes are meant.
//! And as they are printed for people.

/// The bytes of a page.
pub const PAGE: u64 = 4096;

/// The units of bytes, the largest first.
const UNITS: [(&str, u32); 4] = [("TiB", 40), ("GiB", 30), ("MiB", 20), ("KiB", 10)];

/// What a number looks like that has no unit, and one that may have a unit behind a blank.
pub const PLAIN: &str = "4096 or 0x1000";
pub const WITH_UNIT: &str = "4096, 0x1000 or 4 KiB";

/// Whether a text ends in a unit of bytes.
pub fn has_unit(text: &str) -> bool {
    UNITS.iter().any(|&(unit, _)| text.ends_with(unit))
}

/// The number that a text without a unit is, or what is wrong with it.
pub fn plain(text: &str) -> Result<u64, String> {
    let number = in_bytes(text, PLAIN)?;
    if has_unit(text) {
        return Err(format!("`{text}` has a unit: write a plain number"));
    }
    Ok(number)
}

/// The number that a text is, which may have a unit, or what is wrong with it and what it should look like.
pub fn in_bytes(text: &str, like: &str) -> Result<u64, String> {
    let unit = UNITS.iter().find_map(|&(unit, shift)| Some((text.strip_suffix(unit)?.trim_end(), shift)));
    let (digits, shift) = unit.unwrap_or((text, 0));
    let (digits, radix) = digits.strip_prefix("0x").map_or((digits, 10), |rest| (rest, 16));
    let digits: String = digits.chars().filter(|&c| c != '_').collect();
    if digits.is_empty() || !digits.chars().all(|c| c.is_digit(radix)) {
        return Err(format!("`{text}` is no number: write it like {like}"));
    }
    let number = u64::from_str_radix(&digits, radix).ok();
    let scaled = number.and_then(|number| number.checked_mul(1 << shift));
    scaled.ok_or_else(|| format!("`{text}` is above 2^64 - 1"))
}

/// An address, as it is printed everywhere.
pub fn address(number: u64) -> String {
    format!("{number:#x}")
}

/// An address as TOML has it: as a string where TOML's integers don't reach.
pub fn toml_address(number: u64) -> String {
    let digits = address(number);
    if i64::try_from(number).is_ok() {
        digits
    } else {
        format!("\"{digits}\"")
    }
}

/// So many bytes, in the largest unit of which they are a whole number.
pub fn bytes(number: u128) -> String {
    let whole = |shift: u32| number != 0 && number % (1u128 << shift) == 0;
    match UNITS.iter().find(|&&(_, shift)| whole(shift)) {
        Some((unit, shift)) => format!("{} {unit}", number >> shift),
        None => format!("{number} bytes"),
    }
}

/// The bytes of so many pages, in words.
pub fn bytes_of_pages(pages: u64) -> String {
    bytes(u128::from(pages) * u128::from(PAGE))
}

/// A count with its noun, which has an `s` where the count is not 1.
pub fn counted(count: u64, noun: &str) -> String {
    format!("{count} {noun}{}", if count == 1 { "" } else { "s" })
}

#[cfg(test)]
mod tests {
    use super::{bytes, bytes_of_pages, counted, in_bytes, plain, toml_address, PLAIN, WITH_UNIT};

    #[test]
    fn reads_what_people_write() {
        let written = ["0", "4096", "0x1000", "1_000_000", "0xffff_ffff_ffff_ffff"];
        let meant = [0, 4096, 4096, 1_000_000, u64::MAX];
        assert_eq!(written.map(plain), meant.map(Ok));
        assert_eq!(written.map(|text| in_bytes(text, WITH_UNIT)), meant.map(Ok));
        let units = ["4 KiB", "4KiB", "0x10 GiB"].map(|text| in_bytes(text, WITH_UNIT));
        assert_eq!(units, [4096, 4096, 16 << 30].map(Ok));
    }

    #[test]
    fn a_plain_number_has_no_unit() {
        assert_eq!(plain("4 KiB"), Err("`4 KiB` has a unit: write a plain number".to_string()));
        assert_eq!(plain("x KiB"), Err("`x KiB` is no number: write it like 4096 or 0x1000".to_string()));
    }

    #[test]
    fn what_is_no_number_is_told_what_it_should_look_like() {
        let said = [PLAIN, WITH_UNIT].map(|like| in_bytes("x", like).unwrap_err());
        let wanted = ["4096 or 0x1000", "4096, 0x1000 or 4 KiB"];
        assert_eq!(said, wanted.map(|like| format!("`x` is no number: write it like {like}")));
    }

    #[test]
    fn addresses_are_strings_where_tomls_integers_end() {
        let addresses = [0, i64::MAX as u64, 1 << 63].map(toml_address);
        assert_eq!(addresses, ["0x0", "0x7fffffffffffffff", "\"0x8000000000000000\""]);
    }

    #[test]
    fn refuses_what_is_no_number() {
        for text in ["", "_", "0x", "-1", "+1", "1.5", "ten", "0b1", "KiB", "4 kib", "0x_"] {
            assert!(in_bytes(text, PLAIN).unwrap_err().contains("is no number"), "{text}");
        }
        for text in ["18446744073709551616", "0x1_0000_0000_0000_0000", "16777216 TiB"] {
            assert!(in_bytes(text, PLAIN).unwrap_err().contains("above 2^64 - 1"), "{text}");
        }
    }

    #[test]
    fn says_bytes_in_whole_units() {
        assert_eq!(bytes(0), "0 bytes");
        assert_eq!(bytes(1 << 30), "1 GiB");
        assert_eq!(bytes(3 << 19), "1536 KiB");
        assert_eq!(bytes_of_pages(u64::MAX), "73786976294838206460 KiB");
    }

    #[test]
    fn counts_in_words() {
        assert_eq!([0, 1, 2].map(|count| counted(count, "page")), ["0 pages", "1 page", "2 pages"]);
    }
}
