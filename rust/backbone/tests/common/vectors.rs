//! The cases of vectors.txt with their answers, which two programs agreed on that share nothing with this repository.

/// A line `operation numbers | words | answer`.
pub struct Case {
    /// Its number in the file, from 1.
    pub line: usize,
    pub operation: &'static str,
    /// Lengths of areas, in words and for a page in bytes, or a stroke's place.
    pub numbers: Vec<usize>,
    pub words: Vec<u32>,
    pub answer: &'static str,
}

impl Case {
    fn of((index, line): (usize, &'static str)) -> Case {
        let fail = |what: &str| -> ! { panic!("line {}: {what}", index + 1) };
        let mut parts = line.splitn(3, '|');
        let (Some(head), Some(words), Some(answer)) = (parts.next(), parts.next(), parts.next()) else {
            fail("it has fewer than two bars");
        };
        let mut head = head.split_whitespace();
        let operation = head.next().unwrap_or_else(|| fail("it has no operation"));
        let number = |text: &str| text.parse().unwrap_or_else(|_| fail("a number should stand here"));
        let word = |text: &str| u32::from_str_radix(text, 16).unwrap_or_else(|_| fail("a word should stand here"));
        Case {
            line: index + 1,
            operation,
            numbers: head.map(number).collect(),
            words: words.split_whitespace().map(word).collect(),
            answer: answer.strip_prefix(' ').unwrap_or_else(|| fail("the answer has no blank before it")),
        }
    }
}

/// Every line of the file.
pub fn cases() -> Vec<Case> {
    include_str!("../vectors.txt").lines().enumerate().map(Case::of).collect()
}

/// Words as an answer has them.
pub fn shown(words: &[u32]) -> String {
    words.iter().map(|word| format!("{word:08X}")).collect::<Vec<_>>().join(" ")
}
