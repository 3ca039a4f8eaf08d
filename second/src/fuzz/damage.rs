//! Damaged texts and texts at a limit.

use crate::random::Random;
use crate::record::Texts;

/// Changes, deletes, inserts or doubles a few bytes of one of the texts.
pub fn damage(random: &mut Random, texts: &mut Texts) {
    let text = match random.weighted(&[3, 3, 2]) {
        0 => &mut texts.rules,
        1 => &mut texts.query,
        _ => &mut texts.steps,
    };
    for _ in 0..random.between(1, 3) {
        let at = random.below(text.len() + 1);
        let byte = *random.pick(b"(),;:=.?|-> \t\nXYaf01_\r#\xc3\0truefail");
        match random.below(5) {
            0 if at < text.len() => text[at] = byte,
            1 if at < text.len() => {
                text.remove(at);
            }
            2 if at < text.len() => {
                let end = text.len().min(at + random.between(1, 12));
                let piece = text[at..end].to_vec();
                let to = random.below(text.len() + 1);
                text.splice(to..to, piece);
            }
            3 if at < text.len() => text[at] ^= 1 << random.below(8),
            _ => text.insert(at, byte),
        }
    }
}

/// Changes whole tokens of the rules or the query, so that the text is likely
/// to stay of the grammar and be refused by 4 to 7.
pub fn misuse(random: &mut Random, texts: &mut Texts) {
    let rules = random.once_in(2);
    let text = if rules {
        &mut texts.rules
    } else {
        &mut texts.query
    };
    let swaps: [(&[u8], &[u8]); 10] = [
        (b"?", b"|"),
        (b"?", b"->"),
        (b"->", b"?"),
        (b"|", b"?"),
        (b"X", b"W9"),
        (b"Y", b"X"),
        (b"Z", b"X"),
        (b"X", b"X,X"),
        (b"p(", b"p(X,"),
        (b"q", b"none"),
    ];
    let (old, new) = *random.pick(&swaps);
    let found = |at: &usize| text[*at..].starts_with(old);
    let places: Vec<usize> = (0..text.len()).filter(found).collect();
    if random.once_in(5) && rules {
        // One definition twice.
        let end = text.iter().position(|&b| b == b'.').map_or(0, |at| at + 1);
        text.extend_from_within(..end);
    } else if !places.is_empty() {
        let at = *random.pick(&places);
        text.splice(at..at + old.len(), new.iter().copied());
    }
}

/// Texts with one count at its limit or one over.
pub fn boundary(random: &mut Random) -> Texts {
    let over = random.below(2);
    let many = |count: usize, each: &dyn Fn(usize) -> String, between: &str| {
        (0..count).map(each).collect::<Vec<_>>().join(between)
    };
    let variables = |count: usize| many(count, &|i| format!("V{i}"), ",");
    let (mut rules, mut query) = (String::from("p(X) := X = a.\n"), String::from("p(X)."));
    match random.below(12) {
        0 => rules = many(128 + over, &|i| format!("p{i} := true."), "\n"),
        1 => rules = format!("q({}) := true.", variables(8 + over)),
        2 => query = format!("X = f({}).", variables(8 + over)),
        3 => query = many(16 + over, &|i| format!("V{i} = a"), ", ") + ".",
        4 => {
            let depth = 32 + over;
            query = format!("{}true{}.", "(".repeat(depth), ")".repeat(depth));
        }
        5 => {
            let depth = 31 + over;
            let open = "(X : true, ".repeat(depth);
            rules = format!("p(X) := {open}(X = a ? true){}.", ")".repeat(depth));
        }
        6 => query = format!("X = {}.", "n".repeat(32 + over)),
        7 => query = format!("{} = a.", "N".repeat(32 + over)),
        8 => query = format!("X = {}.", "7".repeat(32 + over)),
        9 => {
            query = "X = a.".into();
            query += &" ".repeat(4_096 + over - query.len());
        }
        10 => {
            rules += &"\n".repeat(16_384 + over - rules.len());
        }
        _ => query = format!("({} : true).", variables(random.between(20, 40))),
    }
    let mut steps = match random.below(6) {
        0 => format!("1 {} 0\n", 4_294_967_295u64 + over as u64),
        1 => format!("1 {}2 0\n", "0".repeat(random.below(40))),
        2 => "0 0 0\n".repeat(2_730) + &"\n".repeat(over),
        3 => "1 2 0\n".into(),
        _ => String::new(),
    };
    if steps.is_empty() && random.once_in(3) {
        steps = "1 2 ".to_string() + &"0".repeat(16_384 + over - 5) + "\n";
    }
    Texts {
        rules: rules.into_bytes(),
        query: query.into_bytes(),
        steps: steps.into_bytes(),
    }
}
