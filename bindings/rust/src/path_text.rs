//! The choices of a run as a text, a token for each: `0` or `max` for a draw, by the word that it takes, `on` or `off` for the power at a
//! call, `K/N` for branch K of a `choose(N)`, and `K:N` for the size at index K of the N at which a partial resize may stop.
use crate::Error;
use crate::foreign::Choice;
use crate::paths::Kind;

/// The text of choices.
pub(crate) fn text_of(choices: &[Choice]) -> String {
    let tokens: Vec<String> = choices.iter().map(token_of).collect();
    tokens.join(" ")
}

fn token_of(choice: &Choice) -> String {
    let Choice {
        kind,
        branch,
        among,
    } = choice;
    match *kind {
        kind if kind == Kind::Draw as u32 => word_text(if *branch == 0 { 0 } else { u64::MAX }),
        kind if kind == Kind::Power as u32 => if *branch == 0 { "on" } else { "off" }.to_owned(),
        kind if kind == Kind::Size as u32 => format!("{branch}:{among}"),
        _ => format!("{branch}/{among}"),
    }
}

/// Words as the line `words` of a script has them.
pub(crate) fn words_text(words: &[u64]) -> String {
    let words: Vec<String> = words.iter().copied().map(word_text).collect();
    words.join(" ")
}

fn word_text(word: u64) -> String {
    if word == u64::MAX {
        return "max".to_owned();
    }
    word.to_string()
}

/// The choices of a text. Error: `Argument` for a token that is none.
pub(crate) fn choices_of(text: &str) -> Result<Vec<Choice>, Error> {
    text.split_whitespace().map(choice_of).collect()
}

fn choice_of(token: &str) -> Result<Choice, Error> {
    let choice = |kind, branch, among| Choice {
        kind: kind as u32,
        branch,
        among,
    };
    let of = |kind, separator| {
        let (branch, among) = token.split_once(separator)?;
        let (branch, among) = (branch.parse().ok()?, among.parse().ok()?);
        (branch < among).then(|| choice(kind, branch, among))
    };
    match token {
        "0" => Ok(choice(Kind::Draw, 0, 2)),
        "max" => Ok(choice(Kind::Draw, 1, 2)),
        "on" => Ok(choice(Kind::Power, 0, 2)),
        "off" => Ok(choice(Kind::Power, 1, 2)),
        _ => of(Kind::Branch, '/').or_else(|| of(Kind::Size, ':')).ok_or_else(|| {
            Error::Argument(format!(
                "{token:?} is no choice of a path: `0`, `max`, `on`, `off`, a branch as `2/5` or a size as `2:5`"
            ))
        }),
    }
}

#[cfg(test)]
mod tests {
    use super::{choices_of, text_of};

    #[test]
    fn texts() {
        for text in [
            "",
            "0 max on off 2/5 2:5",
            "0/1 18446744073709551613:18446744073709551614",
        ] {
            assert_eq!(text_of(&choices_of(text).unwrap()), text);
        }
        for text in [
            "1",
            "-0",
            "5/5",
            "/",
            "on/2",
            "2:2",
            "max,",
            "18446744073709551616/2",
        ] {
            assert!(choices_of(text).is_err(), "{text}");
        }
    }
}
