//! Answers of the groups about owned strings, by the calls of `String`.

use crate::str_words::{
    char_of, char_word, chars_of, cut, has_pairs, list, number, shown, taken, Answer, Bits16, Bits32, NoCall, Question, Unjudged,
    Width, UNKNOWN,
};
use std::ops::Range;

/// Makes an edit of a text, and returns the word of what the call returns, or `-` if the text has no such offset or
/// range, and stays as it is. An edit is a letter and its arguments, as in the group `utfstring`.
fn edited(width: Width, text: &mut String, edit: &str) -> Answer {
    let (letter, arguments) = edit.split_at(1);
    let (place, more) = cut(arguments, ':');
    let at = if "ijrto".contains(letter) { width.byte_offset(text, number(place)) } else { 0 };
    let is_offset = text.is_char_boundary(at) && (letter != "r" || at < text.len());
    let range = if "xd".contains(letter) { width.byte_range(text, place) } else { Some(0..0) };
    let (true, Some(range)) = (is_offset || letter == "t" && at > text.len(), range) else {
        return Ok("-".to_string());
    };
    match letter {
        "c" => text.push(char_of(arguments)?),
        "s" | "u" => text.push_str(&width.text(&list(arguments))?),
        "e" => text.extend(chars_of(arguments).chars()),
        "n" => text.extend(chars_of(arguments).chars().collect::<Vec<char>>().iter()),
        "i" => text.insert(at, char_of(more)?),
        "j" => text.insert_str(at, &width.text(&list(more))?),
        "r" => return Ok(char_word(text.remove(at))),
        "t" => text.truncate(at),
        "o" => return Ok(width.words(&text.split_off(at))),
        "x" => text.replace_range(range, &width.text(&list(more))?),
        "d" => return Ok(drained(width, text, range, more)),
        "k" => return Ok(retained(text, number(arguments) as u32)),
        "p" => return Ok(shown(text.pop(), char_word)),
        "l" => text.clear(),
        _ => return Err(NoCall),
    }
    Ok(String::new())
}

fn drained(width: Width, text: &mut String, range: Range<usize>, calls: &str) -> String {
    let mut drain = text.drain(range);
    let given = taken(&mut drain, calls, char_word).join(" ");
    format!("{given};{}", width.words(drain.as_str()))
}

/// Retains the characters that have no bit of the mask, and returns how many it was asked about.
fn retained(text: &mut String, mask: u32) -> String {
    let mut asked = 0;
    text.retain(|c| {
        asked += 1;
        u32::from(c) & mask == 0
    });
    format!("{asked:X}")
}

pub fn utfstring(question: &Question) -> Answer {
    let (width, mut text) = (question.width, question.text()?);
    let mut calls = question.asked.split('/');
    if !calls.next().is_some_and(|maker| ["v", "t", "f", "u"].contains(&maker)) {
        return Err(NoCall);
    }
    let mut fields = vec![width.words(&text)];
    for call in calls {
        fields.push(edited(width, &mut text, call)?);
        fields.push(width.words(&text));
    }
    Ok(fields.join(";"))
}

pub fn pop(question: &Question) -> Answer {
    let mut text = question.text()?;
    let popped = question.list.iter().chain([&0]).map(|_| shown(text.pop(), char_word));
    Ok(popped.collect::<Vec<String>>().join(" "))
}

/// Returns what an edit of a string of any units returns, and the units after it.
fn edited_units(question: &Question, edit: &str) -> Result<(String, String), Unjudged> {
    let (width, mut text) = (question.width, question.text()?);
    let answer = edited(width, &mut text, edit)?;
    if answer == "-" && has_pairs(width, &text) {
        // The string may be edited between the units of a pair.
        return Err(NoCall);
    }
    Ok((answer, width.words(&text)))
}

pub fn insert(question: &Question) -> Answer {
    let (kind, rest) = question.asked.split_at(1);
    let (answer, units) = edited_units(question, &format!("{}{rest}", if kind == "c" { "i" } else { "j" }))?;
    Ok(if answer == "-" { answer } else { units })
}

pub fn remove(question: &Question) -> Answer {
    let (answer, units) = edited_units(question, &format!("r{}", question.asked))?;
    Ok(if answer == "-" { answer } else { format!("{answer};{units}") })
}

pub fn replace(question: &Question) -> Answer {
    let (answer, units) = edited_units(question, &format!("x{}", question.asked))?;
    Ok(if answer == "-" { answer } else { units })
}

pub fn split_off(question: &Question) -> Answer {
    let (answer, units) = edited_units(question, &format!("o{}", question.asked))?;
    Ok(if answer == "-" { answer } else { format!("{units};{answer}") })
}

pub fn drain(question: &Question) -> Answer {
    let (width, text) = (question.width, question.text()?);
    if has_pairs(width, &text) {
        // A string of any units gives one unit at a time.
        return Err(NoCall);
    }
    let (answer, units) = edited_units(question, &format!("d{}", question.asked))?;
    Ok(if answer == "-" { answer } else { format!("{answer};{units}") })
}

pub fn retain(question: &Question) -> Answer {
    let (width, mut text) = (question.width, question.text()?);
    if has_pairs(width, &text) {
        // A string of any units retains one unit or not.
        return Err(NoCall);
    }
    let (kind, rest) = question.asked.split_at(1);
    if kind == "u" {
        let gone = char_of(rest)?;
        text.retain(|c| c != gone);
        return Ok(width.words(&text));
    }
    let mut bits = rest.chars();
    text.retain(|_| bits.next() == Some('1'));
    Ok(format!("{:X};{}", question.list.len(), width.words(&text)))
}

/// Makes an edit by indices of characters, which are offsets in units of 32 bits, and returns the word of its reply.
fn edited_at_index(text: &mut String, edit: &str) -> Answer {
    let (letter, arguments) = edit.split_at(1);
    let (start, rest) = cut(arguments, ':');
    let (end, more) = cut(rest, ':');
    let answer = match letter {
        "d" => edited(Bits32, text, &format!("di{start},e{end}:"))?,
        "x" => edited(Bits32, text, &format!("xi{start},e{end}:{more}"))?,
        "k" => {
            let kept = chars_of(arguments);
            text.retain(|c| kept.contains(c));
            String::new()
        }
        _ => edited(Bits32, text, edit)?,
    };
    Ok(match (letter, answer.as_str()) {
        ("d" | "x", "-") => "r".to_string(),
        ("i" | "j" | "o" | "r", "-") => "p".to_string(),
        ("p" | "r", _) => answer,
        ("d" | "o", left) => format!("s {}", left.trim_start_matches(';')).trim_end().to_string(),
        _ => "d".to_string(),
    })
}

pub fn edits(question: &Question) -> Answer {
    let mut text = Bits32.text(question.list)?;
    let edits = question.asked.split('/').filter(|edit| !edit.is_empty());
    let replies: Result<Vec<String>, Unjudged> = edits.map(|edit| edited_at_index(&mut text, edit)).collect();
    let index = UNKNOWN.to_string();
    Ok([replies?, vec![Bits16.words(&text), Bits32.words(&text), index]].concat().join(";"))
}
