//! The numbers of those refusals of which the program says more than the library answers, under their names in
//! docs/RULES.md.
pub const TOO_SHORT: u8 = 1;
pub const LENGTH_NOT_ALLOWED: u8 = 2;
pub const WRONG_CHECK: u8 = 3;
pub const NO_ROOM: u8 = 4;
pub const CONTENT_LENGTH_NOT_ALLOWED: u8 = 5;
pub const NOT_A_CODE_WORD: u8 = 6;
pub const NO_SYNC: u8 = 7;
pub const UNKNOWN_SYNC_TAIL: u8 = 8;
pub const NO_SUCH_PLACE: u8 = 9;
pub const OUT_OF_RANGE: u8 = 10;
pub const UNKNOWN_CI: u8 = 11;
pub const BODY_TOO_SHORT: u8 = 12;
pub const NO_SUCH_CHANNEL: u8 = 13;
pub const ALLOWANCE_USED_UP: u8 = 14;
pub const TOO_LONG_FOR_CORRECTION: u8 = 23;
pub const NOT_IN_CORRECTION_CODE: u8 = 25;
pub const TOO_FAR_FOR_CORRECTION: u8 = 26;

#[cfg(test)]
mod tests {
    /// Each constant is the number whose word it spells.
    #[test]
    fn names_are_the_pages() {
        let lines = include_str!("numbers.rs").lines().filter_map(|line| line.strip_prefix("pub const "));
        let mut count = 0;
        for line in lines {
            let (name, number) = line.split_once(": u8 = ").expect("it is a number");
            let number = number.trim_end_matches(';').parse().expect("it is a number");
            let answer = kusikhut::answer(number).expect("it is an answer");
            assert_eq!(answer.name.replace('-', "_").to_uppercase(), name);
            count += 1;
        }
        assert_eq!(count, 17);
    }
}
