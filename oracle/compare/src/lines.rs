//! Compares two files of lines.

/// How many differences are shown; all are counted.
const SHOWN: usize = 10;

/// Prints the first differences and both counts; a line that one side lacks differs too.
pub fn compare(expected: &str, got: &str) -> bool {
    let (mut expected, mut got) = (expected.lines(), got.lines());
    let (mut count, mut differences) = (0, 0);
    loop {
        let pair = (expected.next(), got.next());
        if pair == (None, None) {
            break;
        }
        count += 1;
        if pair.0 != pair.1 {
            differences += 1;
            if differences <= SHOWN {
                println!("line {count}: expected {}, got {}", show(pair.0), show(pair.1));
            }
        }
    }
    println!("{count} lines, {differences} differences");
    differences == 0
}

/// The lines but for those of these numbers, which count from 1 and rise.
pub fn without(numbers: &str, lines: &str) -> Result<String, String> {
    let number = |word: &str| word.parse::<usize>().map_err(|_| format!("{word} is no line"));
    let mut numbers = numbers.lines().map(number);
    let (mut next, mut left) = (numbers.next().transpose()?, String::new());
    for (place, line) in lines.lines().enumerate() {
        if next == Some(place + 1) {
            next = numbers.next().transpose()?;
        } else {
            left.push_str(line);
            left.push('\n');
        }
    }
    next.map_or(Ok(left), |number| Err(format!("there is no line {number}")))
}

fn show(line: Option<&str>) -> String {
    line.map_or("no line".to_string(), |line| format!("`{line}`"))
}

#[cfg(test)]
mod tests {
    use super::*;

    #[test]
    fn lines_are_left_out_by_their_numbers() {
        assert_eq!(without("1\n3\n", "a\nb\nc\nd\n").unwrap(), "b\nd\n");
        assert_eq!(without("", "a\n").unwrap(), "a\n");
        assert!(without("2\n", "a\n").is_err() && without("x\n", "a\n").is_err());
    }

    #[test]
    fn a_changed_or_missing_line_differs() {
        assert!(compare("1\n2\n", "1\n2\n"));
        assert!(!compare("1\n2\n", "1\n3\n"));
        assert!(!compare("1\n2\n", "1\n"));
        assert!(!compare("1\n", "1\n2\n"));
    }
}
