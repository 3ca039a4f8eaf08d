//! Texts at the limits, small ones right and wrong, and the deepest and largest.

/// A program and a query, with the refusal that is due (0 for none).
pub struct Case {
    pub what: String,
    pub program: Vec<u8>,
    pub query: Vec<u8>,
    pub due: u32,
}

fn case(due: u32, what: &str, program: impl Into<Vec<u8>>, query: impl Into<Vec<u8>>) -> Case {
    Case {
        what: what.into(),
        program: program.into(),
        query: query.into(),
        due,
    }
}

/// `each(0)`, `each(1)`, .. with something between.
fn many(count: usize, between: &str, each: impl Fn(usize) -> String) -> String {
    (0..count).map(each).collect::<Vec<_>>().join(between)
}

fn variables(count: usize) -> String {
    many(count, ",", |i| format!("V{i}"))
}

/// A statement in so many brackets.
fn nested(open: &str, depth: usize, close: &str) -> String {
    format!("{}true{}", open.repeat(depth), close.repeat(depth))
}

/// The ways to nest brackets: what stands before and what behind each.
pub const NESTINGS: [(&str, &str, &str); 8] = [
    ("plain brackets", "(", ")"),
    ("hidings", "(X : ", ")"),
    ("choices in guards", "(", " ? true)"),
    ("choices in bodies", "(true -> ", ")"),
    ("choices in second guards", "(true | true ; ", " | true)"),
    (
        "choices in second bodies",
        "(X, Y : true ? true ; Z : X1 = Z ? ",
        ")",
    ),
    ("brackets behind commas", "true, (", ")"),
    ("hidings of ten", "(A,B,C,D,E,F,G,H,I,J : A = f(B,C), ", ")"),
];

/// A program text of a given length: statements, then blanks.
fn padded(text: String, length: usize) -> Vec<u8> {
    let mut text = text.into_bytes();
    assert!(text.len() <= length, "text of {} bytes", text.len());
    text.resize(length, b' ');
    text
}

fn definitions(count: usize) -> String {
    many(count, "\n", |i| format!("p{i} := true."))
}

/// The deepest and the largest texts.
pub fn large() -> Vec<Case> {
    let mut all = Vec::new();
    for (what, open, close) in NESTINGS {
        let name = |place: &str| format!("32 {what} in a {place}");
        let free = "X1 = X1, ";
        let program = format!("p(X1) := {free}{}.", nested(open, 32, close));
        let query = format!("{free}{}.", nested(open, 32, close));
        all.push(case(0, &name("program"), program.clone(), "true."));
        all.push(case(0, &name("query"), "", query.clone()));
        all.push(case(0, &name("program and a query"), program, query));
        let deep = 16_000 / (open.len() + close.len());
        let deep_program = format!("p(X1) := {}.", nested(open, deep, close));
        all.push(case(
            3,
            &format!("{deep} {what} in a program"),
            deep_program,
            "true.",
        ));
        let deep = 4_000 / (open.len() + close.len());
        let deep_query = format!("{}.", nested(open, deep, close));
        all.push(case(
            3,
            &format!("{deep} {what} in a query"),
            "",
            deep_query,
        ));
    }
    let last = format!("p := {}.", nested("(", 8_187, ")"));
    all.push(case(3, "8,187 brackets, 16,384 bytes", last, "true."));
    let flat = format!("p := {}fail.", "true,".repeat(3_274));
    all.push(case(0, "a flat program", flat, "true."));
    let flat = format!("p(X) := p(X){}.", ",p(X)".repeat(3_273));
    all.push(case(0, "a flat program of calls", flat, "p(X)."));
    let flat = format!("p(X) := X=X{}.", ",X=X".repeat(4_092));
    all.push(case(0, "a flat program of equations", flat, "p(X)."));
    let flat = format!("p := a{}. a := true.", ",a".repeat(8_180));
    all.push(case(0, "a flat program of 8,181 calls", flat, "p."));
    let flat = format!("X=a{}.", ",X=a".repeat(1_023));
    all.push(case(0, "a flat query", "", padded(flat, 4_096)));
    let clauses = format!("p := (true?true{}).", ";fail?fail".repeat(1_600));
    all.push(case(0, "1,601 clauses", clauses, "true."));
    let hidden = format!("p := ({} : true).", variables(2_500));
    all.push(case(0, "2,500 hidden variables", hidden, "true."));
    let each = format!("{}true", "(A,B,C,D,E,F,G,H:".repeat(32));
    let hidings = format!("p := {each}{}.", ")".repeat(32));
    all.push(case(
        0,
        "256 hidden variables in 32 brackets",
        hidings,
        "p.",
    ));
    let body = "X = f(Y), (Z : Y = g(Z) -> true ; true -> X = nil)";
    let defined = many(128, "\n", |i| format!("name_{i}(X,Y) := {body}."));
    all.push(case(0, "128 definitions", defined, "name_127(X,Y)."));
    let names = many(480, ",", |i| format!("X=n{i}{}", "abcdefghij".repeat(2)));
    let names = format!("p(X) := {names}.");
    all.push(case(0, "480 long names", names, "p(X)."));
    // names that begin in as many ways as bytes may follow
    let bytes = b"abcdefghijklmnopqrstuvwxyzABCDEFGHIJKLMNOPQRSTUVWXYZ0123456789_";
    let mut wide = String::from("p(X) := X=a");
    'outer: for &first in &bytes[..26] {
        for &second in bytes {
            if wide.len() > 16_370 {
                break 'outer;
            }
            wide += &format!(",X={}{}", first as char, second as char);
        }
    }
    wide += ".";
    all.push(case(0, "all names of two bytes", wide, "p(X)."));
    all.push(case(
        2,
        "opening brackets alone",
        "(".repeat(16_384),
        "true.",
    ));
    let open = format!("p := {}", "(".repeat(16_379));
    all.push(case(2, "a definition of opening brackets", open, "true."));
    all
}

/// Texts at each limit, and small ones.
pub fn limits() -> Vec<Case> {
    let mut all = small();
    let p = "p(X) := X = a.";
    for over in [0, 1] {
        let due = 3 * over as u32;
        let text = definitions(128 + over);
        all.push(case(due, "definitions", text.clone(), "p0."));
        let twice = text + " p0 := fail.";
        all.push(case(3, "one more definition, and twice", twice, "p0."));
        let twice = definitions(127 + over) + " p0 := fail.";
        all.push(case(4 - over as u32, "one defined twice", twice, "p0."));
        let list = variables(8 + over);
        let text = format!("q({list}) := true.");
        all.push(case(due, "parameters", text, "true."));
        let call = format!("q({list}).");
        let text = format!("q({}) := true.", variables(8));
        all.push(case(due, "arguments of an atom", text, call));
        let text = format!("{p} r(X) := p({}).", vec!["X"; 8 + over].join(","));
        let due_here = if over == 0 { 5 } else { 3 };
        all.push(case(due_here, "arguments in a program", text, "true."));
        let built = format!("X = f({}).", vec!["X"; 8 + over].join(","));
        all.push(case(due, "arguments of a constructor", "", built));
        let query = many(16 + over, ", ", |i| format!("V{i} = a")) + ".";
        all.push(case(due, "query variables", "", query));
        let query = many(8 + over, ", ", |i| format!("V{i} = W{i}"));
        let query = format!("({query}), (Z : Z = V0).");
        all.push(case(due, "query variables in a bracket", "", query));
        let query = format!("({} : {}).", variables(40), "V0 = V39");
        all.push(case(0, "hidden variables", "", query));
        let due_name = 2 * over as u32;
        for letter in ["n", "7"] {
            let query = format!("X = {}.", letter.repeat(32 + over));
            all.push(case(due_name, "a constructor's name", "", query));
        }
        let query = format!("{} = a.", "N".repeat(32 + over));
        all.push(case(due_name, "a variable's name", "", query));
        let name = "n".repeat(32 + over);
        let text = format!("{name} := true.");
        all.push(case(due_name, "a predicate's name", text, "true."));
        let text = format!("p({}) := true.", "N".repeat(32 + over));
        all.push(case(due_name, "a parameter's name", text, "true."));
        let due_size = over as u32;
        let text = padded(p.into(), 16_384 + over);
        all.push(case(due_size, "bytes of a program", text, "p(X)."));
        let text = vec![b'\n'; 16_384 + over];
        all.push(case(due_size, "blanks as a program", text, "true."));
        let text = padded("p(X).".into(), 4_096 + over);
        all.push(case(due_size, "bytes of a query", p, text));
        for (what, open, close) in NESTINGS {
            let body = nested(open, 32 + over, close);
            let what = format!("{} {what}", 32 + over);
            let text = format!("p(X1) := {body}.");
            all.push(case(due, &what, text, "true."));
            let query = format!("X1 = a, {body}.");
            all.push(case(due, &what, "", query));
        }
    }
    all.push(case(1, "20,000 bytes as a program", "(".repeat(20_000), ""));
    all.push(case(1, "20,000 bytes as a query", "", "(".repeat(20_000)));
    all
}

/// Small texts: program, query, refusal.
fn small() -> Vec<Case> {
    let p = "p(X) := X = a.";
    let texts: &[(u32, &str, &str)] = &[
        (0, "", "true."),
        (0, "", "fail."),
        (2, "", ""),
        (2, " \t\n", " "),
        (0, " \t\n", "\ttrue\n.\n"),
        (2, "", "true"),
        (2, "", "true. true."),
        (2, "", "."),
        (2, "", "true,."),
        (2, "", ",true."),
        (2, "", "()."),
        (2, "", "(true."),
        (2, "", "true)."),
        (2, "", "(true ? true ; fail)."),
        (2, "", "(true ? true ? true)."),
        (2, "", "(true ? true ;)."),
        (2, "", "(true ?)."),
        (2, "", "(? true)."),
        (2, "", "true ? true."),
        (2, "", "(X, Y)."),
        (2, "", "(X : Y : true)."),
        (2, "", "(X, a : true)."),
        (2, "", "( : true)."),
        (2, "", "X : true."),
        (2, "", "X."),
        (2, "", "X = ."),
        (2, "", "a = X."),
        (2, "", "X == Y."),
        (2, "", "X = f()."),
        (2, "", "X = f(a)."),
        (2, "", "X = Y(Z)."),
        (2, "", "true(X)."),
        (2, "", "12."),
        (2, "", "12(X)."),
        (2, "", "X = 1a."),
        (2, "", "X = _a."),
        (2, "", "_X = a."),
        (2, "", "X = a\r."),
        (2, "", "X = \u{e9}."),
        (2, "", "X = a\0."),
        (2, "", "p - > q."),
        (2, "", "(true - true)."),
        (2, "", "p := true."),
        (0, "", "X = true, Y = fail."),
        (0, "", "X = true(Y), Y = fail(X,X)."),
        (0, "", "X = 12(Y), Y = 0012, Z = 12."),
        (0, "", "X=Y,Y=X."),
        (0, "", "(X:X=Y)."),
        (0, "", "(X,Y:X=Y)."),
        (0, "", "(X:(X:X=a),X=Y),X=Y."),
        (0, "", "((((true))))."),
        (0, "", "(true,fail),(fail,true),true."),
        (0, "", "((X = a, Y = b), Z = c ? true, true, fail)."),
        (0, "", "(X : X = a ? X = b ; X = c ? Y = X)."),
        (0, "", "(X = a -> true ; true -> fail), X = Z."),
        (0, "", "((true ? true) -> (true | true) ; true -> true)."),
        (7, "", "(true ? true ; true -> true)."),
        (7, "", "(true ? true ; true ? true ; true | true)."),
        (4, "", "(X,X : true)."),
        (4, "", "(X,Y,X : true ? true)."),
        (4, "", "(true ? true ; X,Y,Y : true ? true)."),
        (0, "", "(X : true ? true ; X : true ? true)."),
        (5, "", "p."),
        (5, "", "p(X)."),
        (5, p, "p."),
        (5, p, "p(X,Y)."),
        (0, p, "p(X)."),
        (0, p, "p(X), p(Y), p(X)."),
        (5, p, "(X = a ? p ; true | true)."),
        (4, p, "(X,X : p ? true ; true | true)."),
        (2, p, "(X,X : p ? true ; true | true)"),
        (0, "p := q. q := p.", "p, q."),
        (0, "p(X) := true. p := true. p(X,Y) := p, p(X).", "p."),
        (4, "p := true. p := fail.", "p."),
        (4, "p(X) := true. p(Y) := fail.", "true."),
        (4, "p(X,X) := true.", "true."),
        (4, "p(X,Y,X) := p(X).", "true."),
        (4, "p(X) := (Y,Y : true).", "true."),
        (4, "p := X = a, q, (true ? true ; X,X : true -> true).", ""),
        (5, "p := q.", "true."),
        (5, "p := q(X), X = a.", "true."),
        (5, "p := (X = a ? q ; true -> true).", "true."),
        (6, "p := X = a.", "true."),
        (6, "p(X) := X = Y.", "true."),
        (6, "p(X) := X = f(X,Y).", "true."),
        (6, "p(X) := (Y : true), X = Y.", "true."),
        (6, "p(X) := p(Z).", "true."),
        (6, "p(X) := (Y : true ? true ; X = Y ? true).", "true."),
        (6, "p := (X = a ? true ; true -> true).", "true."),
        (7, "p := (true ? true ; true -> true).", "true."),
        (7, "p := (true ? true ; true -> true). q(X) := p.", "X."),
        (6, "p := (true ? true ; true -> true). q(X) := X = Y.", "X."),
        (5, "p := (true ? true ; true -> true), X = Y. q := r.", "X."),
        (0, "p(X) := (X : X = a), X = b.", "p(X)."),
        (0, "p(X) := (X : (X : X = a), X = b), X = c.", "p(X)."),
        (2, "p := true", "true."),
        (2, "p := true. q", "true."),
        (2, "p := true. q :=", "true."),
        (2, "p : = true.", "true."),
        (2, "p = true.", "true."),
        (2, "true := true.", "true."),
        (2, "fail(X) := true.", "true."),
        (2, "P := true.", "true."),
        (2, "12 := true.", "true."),
        (2, "p() := true.", "true."),
        (2, "p(a) := true.", "true."),
        (2, "p(X := true.", "true."),
        (2, "p(X,) := true.", "true."),
        (2, "(p) := true.", "true."),
        (2, "p := true.. ", "true."),
        (2, "p := true, .", "true."),
        (2, "p := true; true.", "true."),
        (2, "p := X : true.", "true."),
        (2, ".", "true."),
        (2, "true.", "true."),
        (0, "truex := true. fails(True) := True = truex.", "truex."),
        (0, "tr := fai. fai := tr.", "X = tru, X = fail, tr."),
        (0, "p:=true.q:=p.", "p,q."),
    ];
    let mut all: Vec<Case> = texts
        .iter()
        .map(|&(due, program, query)| case(due, "a small text", program, query))
        .collect();
    all.push(case(2, "bytes that are no text", vec![0xff, 0], "true."));
    all
}
