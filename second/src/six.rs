//! Books made on purpose at the limits of the new form, and at those of its copies.

use crate::limits::{answered, eleven, largest, smallest, widest, words, LONG_QUESTION};
use crate::width::Width;

/// A source in the new form.
fn new(text: String) -> String {
    format!("places 6\n{text}")
}

/// The sound ones, as sources.
pub fn sources() -> Vec<(&'static str, String)> {
    let mut sources = at_limits();
    sources.extend(without_old_form());
    sources
}

/// Those at the limits.
fn at_limits() -> Vec<(&'static str, String)> {
    let longest = format!("{LONG_QUESTION} b(x,x)");
    let widest_asked = || answered("p7_5,p3_4,p0_0,p7_5", widest(Width::Six));
    vec![
        ("new: smallest", new(smallest())),
        ("new: smallest, answered", new(answered("x", smallest()))),
        ("new: largest", largest("r0", Width::Six)),
        (
            "new: largest, answered",
            answered("b7,c126,a0,d7", largest("r0", Width::Six)),
        ),
        ("new: largest, heads met", largest("r63", Width::Six)),
        ("new: 66 variables, uncovered", eleven("t", 6)),
        ("new: 66 variables, covered", eleven("p", 6)),
        ("new: 55 variables, covered", eleven("p", 5)),
        (
            "new: 66 variables, answered",
            answered("a0,b5,h2", eleven("p", 6)),
        ),
        ("new: 48 variables", widest(Width::Six)),
        ("new: 48 variables, answered", widest_asked()),
        ("new: 64 members", new(words(7, "", "", 64))),
        ("new: 64 members, L 63", new(words(7, "", "", 63))),
        ("new: 65 members", new(words(8, "", "", 1000))),
        (
            "new: the largest union without answers",
            new(words(7, "", &longest, 1000)),
        ),
        (
            "new: the largest union",
            new(answered("z,x,x", words(7, "", &longest, 1000))),
        ),
        ("new: a loan of six places", loan("")),
        (
            "new: a loan, answered by four",
            loan("a(lender,who,sheet,room) : "),
        ),
    ]
}

/// Those that have no old form, or only just have one.
fn without_old_form() -> Vec<(&'static str, String)> {
    let high = |rule: &str, question: &str| {
        let head = "places 6\nrelation p 2\nconstant c\n";
        format!("{head}rule {rule}\nquestion {question}\nallow 9\n")
    };
    let wide = |places: &str, question: &str| {
        format!("places 6\nrelation p 2\nrelation q {places}\nquestion {question}\nallow 9\n")
    };
    vec![
        (
            "new: variable 31",
            high("p(v31,v0) -> p(v0,v31)", "p(v31,v31)"),
        ),
        (
            "new: variable 32 in a body",
            high("p(v32,x) -> p(x,y)", "p(x,v47)"),
        ),
        (
            "new: variable 32 in a head",
            high("p(x,x) -> p(x,v32)", "p(x,y)"),
        ),
        ("new: variable 47 in a head", high("-> p(c,v47)", "p(x,y)")),
        (
            "new: variable 47 in a question",
            high("p(x,x) -> p(x,y)", "p(x,y) p(x,v47)"),
        ),
        (
            "new: variable 40 in an answer",
            high("p(x,x) -> p(x,y)", "a(x,v40) : p(x,v40)"),
        ),
        (
            "new: four places and no more",
            wide("4", "p(x,y) q(x,y,x,y)"),
        ),
        ("new: five places in no atom", wide("5", "p(x,y)")),
        ("new: six places in no atom", wide("6", "p(x,v33)")),
        ("new: five places", wide("5", "q(x,y,z,u,w)")),
    ]
}

/// A loan line, and what follows for a sheet that is lent.
pub fn loan(answer: &str) -> String {
    format!(
        "relation loan 6\nrelation lent 2\nrelation out 1\n\
         rule lent(s,b) -> loan(a,b,s,r,f,t)\nrule loan(a,b,s,r,f,t) -> out(s)\n\
         question {answer}loan(lender,who,sheet,room,f,f) out(sheet)\nallow 50\n"
    )
}
