//! The words and signs of C and of Rattle, as far as both are alike.

/// The words, literals and signs of a source text, without its comments. A sign is one character.
pub fn tokens(source: &str) -> Vec<&str> {
    let mut found = Vec::new();
    let mut rest = source;
    while !rest.is_empty() {
        let (token, behind) = rest.split_at(token_length(rest));
        if !token.trim().is_empty() && !token.starts_with("//") && !token.starts_with("/*") {
            found.push(token);
        }
        rest = behind;
    }
    found
}

/// The length of the token, comment or white space that a text starts with.
fn token_length(rest: &str) -> usize {
    let first = rest.chars().next().expect("a text that is not empty");
    if rest.starts_with("//") {
        rest.find('\n').unwrap_or(rest.len())
    } else if rest.starts_with("/*") {
        rest.find("*/").map_or(rest.len(), |end| end + 2)
    } else if first == '"' {
        rest[1..].find('"').map_or(rest.len(), |end| end + 2)
    } else if is_word(rest) {
        rest.find(|letter: char| !letter.is_alphanumeric() && letter != '_').unwrap_or(rest.len())
    } else {
        first.len_utf8()
    }
}

/// Whether this is a name or a number and not a sign.
pub fn is_word(token: &str) -> bool {
    token.starts_with(|letter: char| letter.is_alphanumeric() || letter == '_')
}

/// The parts of a list between these signs, each without the sign; one at the end may be missing.
pub fn split<'a, 't>(tokens: &'t [&'a str], sign: &str) -> Vec<&'t [&'a str]> {
    let mut parts: Vec<&[&str]> = tokens.split(|token| *token == sign).collect();
    if parts.last().is_some_and(|part| part.is_empty()) {
        parts.pop();
    }
    parts
}

/// The tokens before the first of this sign, and those behind it.
pub fn cut<'a, 't>(tokens: &'t [&'a str], sign: &str) -> Result<(&'t [&'a str], &'t [&'a str]), String> {
    let place = tokens.iter().position(|token| *token == sign);
    let place = place.ok_or_else(|| format!("there is no `{sign}` behind `{}`", start(tokens)))?;
    Ok((&tokens[..place], &tokens[place + 1..]))
}

/// The first tokens, to name a place by.
pub fn start(tokens: &[&str]) -> String {
    tokens[..tokens.len().min(8)].join(" ")
}

#[cfg(test)]
mod tests {
    use super::*;

    #[test]
    fn comments_are_left_out() {
        assert_eq!(tokens("a /* b\n * c */ d // e\nf_1(*g);"), ["a", "d", "f_1", "(", "*", "g", ")", ";"]);
        assert_eq!(tokens("extern \"C\" // x"), ["extern", "\"C\""]);
    }

    #[test]
    fn lists_are_split() {
        let list = tokens("a, b c, d,");
        assert_eq!(split(&list, ","), [vec!["a"], vec!["b", "c"], vec!["d"]]);
        assert!(split(&[], ",").is_empty());
        assert_eq!(cut(&list, "c"), Ok((&["a", ",", "b"][..], &[",", "d", ","][..])));
        assert!(cut(&list, "e").is_err());
    }
}
