//! An ontology: unknowns, heads of several atoms, bodies that join.

use super::text::{ordinary, Words};

/// The books of so many rules: the first so many of each list.
pub fn books(rules: usize) -> Vec<Words> {
    let first = |all: [&str; 32]| all[..rules].iter().map(|rule| rule.to_string()).collect();
    vec![
        ordinary("ontology", "managers", first(MANAGERS), MANAGED),
        ordinary("ontology", "critical", first(MANAGERS), critical(rules)),
        ordinary("ontology", "loans", first(LOANS), lent(rules)),
        ordinary("ontology", "visits", first(LOANS), visited(rules)),
    ]
}

/// Source document 003's running example, in another order, and more of its kind.
const MANAGERS: [&str; 32] = [
    "project(x,y,z,w) -> hasArea(x,y) hasScManager(x,z) hasAdmManager(x,w)",
    "security(x) -> sensitiveArea(x)",
    "innovation(x) -> sensitiveArea(x)",
    "hasScManager(x,y) -> hasManager(x,y)",
    "isManagerOf(y,x) -> hasManager(x,y)",
    "hasManager(y,x) -> isManagerOf(x,y)",
    "isManagerOf(x,y) hasArea(y,z) sensitiveArea(z) -> criticalManager(x)",
    "accreditedManager(x) -> isManagerOf(x,y) project(y,z,v,w) security(z)",
    "hasAdmManager(x,y) -> hasManager(x,y)",
    "sensitiveArea(x) -> area(x)",
    "manager(x) -> isManagerOf(x,y)",
    "criticalManager(x) -> isManagerOf(x,y) hasArea(y,z) sensitiveArea(z)",
    "woman(x) -> person(x)",
    "manager(x) -> person(x)",
    "department(x) -> hasHead(x,y) person(y)",
    "hasHead(x,y) -> worksIn(y,x)",
    "director(x) -> manager(x)",
    "worksIn(x,y) -> person(x)",
    "institute(x) -> hasDepartment(x,y) department(y)",
    "hasDepartment(x,y) -> partOf(y,x)",
    "laboratory(x) -> department(x)",
    "funds(x,y) -> funded(y)",
    "agency(x) -> funds(x,y) institute(y)",
    "report(x) -> about(x,y) area(y)",
    "about(x,y) secret(x) -> sensitiveArea(y)",
    "audit(x) -> about(x,y) secret(x)",
    "grant(x,y) -> funds(x,z) partOf(z,y)",
    "engineer(x) -> person(x)",
    "chemist(x) -> person(x)",
    "worksIn(x,y) laboratory(y) -> researcher(x)",
    "thesis(x,y) -> author(x,y) person(y)",
    "author(x,y) -> researcher(y)",
];

const MANAGED: &str = "a(x) : hasManager(y,x) hasArea(y,z) sensitiveArea(z)";

/// Critical managers, by what else the book knows of them.
fn critical(rules: usize) -> &'static str {
    match rules {
        8 => "a(x) : criticalManager(x) woman(x)",
        16 => "a(x) : criticalManager(x) woman(x)",
        _ => "a(d) : hasHead(d,y) person(y) partOf(d,z) funded(z)",
    }
}

/// The light ledger, and what a lending office knows beside it.
const LOANS: [&str; 32] = [
    "hung(a,d) hung(b,d) hung(b,e) hung(c,e) -> chain(a,b,c)",
    "visit(a,d) visit(b,d) visit(b,e) visit(c,e) -> chain(a,b,c)",
    "under(a,k) under(b,k) under(b,l) under(c,l) -> chain(a,b,c)",
    "lent(s) -> under(s,l)",
    "crated(s) -> lent(s)",
    "watercolour(s) -> sheet(s)",
    "drawing(s) -> sheet(s)",
    "framed(s) -> hung(s,d)",
    "couriered(s) -> crate(k) in(s,k) crated(s)",
    "studied(s,p) -> visit(s,v) reader(p)",
    "gouache(s) -> watercolour(s)",
    "shown(d) -> hung(s,d) sheet(s)",
    "loan(l) -> under(s,l) lent(s) borrower(b) to(l,b)",
    "overdue(l) -> loan(l)",
    "faded(s) -> overhung(s)",
    "pastel(s) -> drawing(s)",
    "in(s,k) sealed(k) -> crated(s)",
    "museum(b) -> borrower(b)",
    "school(b) -> borrower(b)",
    "to(l,b) -> loan(l) borrower(b)",
    "album(x) -> leaf(x,s) sheet(s)",
    "leaf(x,s) -> bound(s)",
    "bound(s) -> leaf(x,s) album(x)",
    "mounted(s) -> framed(s)",
    "copy(s,t) -> sheet(s) sheet(t) after(s,t)",
    "after(s,t) -> earlier(t,s)",
    "earlier(s,t) -> after(t,s)",
    "restored(s) -> treated(s,w) workshop(w)",
    "treated(s,w) -> report(r) on(r,s)",
    "silverpoint(s) -> drawing(s)",
    "inventory(i) -> lists(i,s) sheet(s)",
    "lists(i,s) -> listed(s)",
];

/// The light ledger's question; with few rules of a wider word, so that they all have to do with it.
fn lent(rules: usize) -> &'static str {
    match rules {
        8 => "chain(a,b,c) overhung(a) sheet(c)",
        _ => "chain(a,b,c) overhung(a) watercolour(c)",
    }
}

/// What was seen together, by name.
fn visited(rules: usize) -> &'static str {
    match rules {
        8 => "a(s,t) : under(s,l) under(t,l) sheet(s) sheet(t)",
        16 => "a(s) : under(s,l) to(l,b) borrower(b) sheet(s)",
        _ => "a(s) : under(s,l) to(l,b) borrower(b) sheet(s) listed(s)",
    }
}
