//! Random texts: sound policies with a query, and the same broken in one way.

use std::fmt;

/// A small generator of random numbers (splitmix64), so that a seed gives the same texts everywhere.
pub struct Random(u64);

impl Random {
    pub fn new(seed: u64) -> Random {
        Random(seed)
    }

    /// From 0 to `bound` − 1.
    pub fn below(&mut self, bound: usize) -> usize {
        self.0 = self.0.wrapping_add(0x9E37_79B9_7F4A_7C15);
        let mut z = self.0;
        z = (z ^ (z >> 30)).wrapping_mul(0xBF58_476D_1CE4_E5B9);
        z = (z ^ (z >> 27)).wrapping_mul(0x94D0_49BB_1331_11EB);
        ((z ^ (z >> 31)) % bound as u64) as usize
    }

    fn one_in(&mut self, count: usize) -> bool {
        self.below(count) == 0
    }

    fn pick<'a, T>(&mut self, from: &'a [T]) -> &'a T {
        &from[self.below(from.len())]
    }
}

/// A file, before it is a text.
#[derive(Clone)]
pub struct Draft {
    format: u32,
    external: bool,
    our_key: Option<String>,
    keys: Vec<(String, String)>,
    lists: Vec<(String, u32, char)>,
    definitions: Vec<Definition>,
    queries: Vec<Expression>,
}

#[derive(Clone)]
struct Definition {
    name: String,
    number: Option<u32>,
    sign: char,
    open: bool,
    expression: Expression,
}

#[derive(Clone)]
enum Expression {
    Literal { all_but: bool, rows: Vec<Vec<String>> },
    Defined(String),
    List { issuer: String, list: String, by: Option<String> },
    Joined { word: &'static str, parts: Box<[Expression; 2]> },
    Each { head: Vec<String>, guards: Vec<Guard> },
}

#[derive(Clone)]
enum Guard {
    Member { row: Vec<String>, word: &'static str, operand: Expression },
    Compared([String; 2], &'static str),
}

const DRAW: &str = "in";
const ABSENT: &str = "not in";
const UNION: &str = "union";
const MINUS: &str = "minus";

impl fmt::Display for Draft {
    fn fmt(&self, out: &mut fmt::Formatter) -> fmt::Result {
        if self.format != 1 {
            writeln!(out, "format {}", self.format)?;
        }
        if self.external {
            writeln!(out, "external")?;
        }
        if let Some(key) = &self.our_key {
            writeln!(out, "our key {key}")?;
        }
        for (name, key) in &self.keys {
            writeln!(out, "key {name} = {key}")?;
        }
        for (name, number, sign) in &self.lists {
            writeln!(out, "list {name} = {number} {sign}")?;
        }
        for Definition { name, number, sign, expression, .. } in &self.definitions {
            let number = number.map(|number| format!("{number} ")).unwrap_or_default();
            writeln!(out, "define {name} {number}{sign} = {expression}")?;
        }
        self.queries.iter().try_for_each(|query| writeln!(out, "query {query}"))
    }
}

fn row(terms: &[String]) -> String {
    format!("({})", terms.join(", "))
}

fn separated<T>(items: &[T], shown: impl Fn(&T) -> String) -> String {
    items.iter().map(shown).collect::<Vec<_>>().join(", ")
}

impl fmt::Display for Expression {
    fn fmt(&self, out: &mut fmt::Formatter) -> fmt::Result {
        match self {
            Expression::Literal { all_but, rows } => {
                write!(out, "{}{{ {} }}", if *all_but { "all but " } else { "" }, separated(rows, |terms| row(terms)))
            }
            Expression::Defined(name) => write!(out, "{name}"),
            Expression::List { issuer, list, by: None } => write!(out, "{issuer}.{list}"),
            Expression::List { issuer, list, by: Some(by) } => write!(out, "{issuer}.{list} vetted by {by}"),
            Expression::Joined { word, parts } => write!(out, "({} {word} {})", parts[0], parts[1]),
            Expression::Each { head, guards } => write!(out, "{{ {} | {} }}", row(head), separated(guards, Guard::to_string)),
        }
    }
}

impl fmt::Display for Guard {
    fn fmt(&self, out: &mut fmt::Formatter) -> fmt::Result {
        match self {
            Guard::Member { row: terms, word, operand } => write!(out, "{} {word} {operand}", row(terms)),
            Guard::Compared([left, right], word) => write!(out, "{left} {word} {right}"),
        }
    }
}

// ---- sound ones

fn turned(sign: char) -> char {
    if sign == '+' {
        '-'
    } else {
        '+'
    }
}

const KEYS: [&str; 3] = ["alma", "vla", "k7"];
const OURS: &str = "archive";

/// With up to four definitions; those of an external one keep its rules.
pub fn sound(random: &mut Random) -> Draft {
    let lists = [("released", 1, '+'), ("shared", 2, '+'), ("withdrawn", 2, '-'), ("safe", 4, '-')];
    let mut draft = Draft {
        format: if random.one_in(3) { 2 } else { 1 },
        external: random.one_in(6),
        our_key: (!random.one_in(3)).then(|| OURS.to_string()),
        keys: [("alma", "k1"), ("vla", "k2"), (OURS, "k9")].map(|(name, key)| (name.to_string(), key.to_string())).to_vec(),
        lists: lists.map(|(name, number, sign)| (name.to_string(), number, sign)).to_vec(),
        definitions: Vec::new(),
        queries: Vec::new(),
    };
    for place in 0..random.below(5) {
        let lists_keys = draft.external && place == 0;
        let sign = if lists_keys || (!draft.external && random.one_in(3)) { '-' } else { '+' };
        let open = random.one_in(3);
        let expression = Writer::new(random, &draft).expression(sign, !open, 0);
        let number = if lists_keys { Some(0) } else { random.one_in(3).then_some(20 + place as u32) };
        draft.definitions.push(Definition { name: format!("d{place}"), number, sign, open, expression });
    }
    if !random.one_in(10) {
        let sign = if random.one_in(3) { '-' } else { '+' };
        let mut writer = Writer::new(random, &draft);
        writer.external = false;
        let query = writer.expression(sign, false, 0);
        draft.queries.push(query);
    }
    draft
}

/// Writes one definition or query.
struct Writer<'a> {
    random: &'a mut Random,
    draft: &'a Draft,
    external: bool,
    scope: Vec<String>,
    made: usize,
    draws: usize,
}

impl<'a> Writer<'a> {
    fn new(random: &'a mut Random, draft: &'a Draft) -> Writer<'a> {
        Writer { random, draft, external: draft.external, scope: Vec::new(), made: 0, draws: 0 }
    }

    /// One that has this polarity and, if asked, is not open.
    fn expression(&mut self, sign: char, closed: bool, depth: usize) -> Expression {
        let choices = if depth < 3 { 10 } else { 5 };
        match self.random.below(choices) {
            0 => {
                let all_but = !closed && self.random.one_in(2);
                self.literal(all_but)
            }
            1 | 2 if !(sign == '-' && closed) => self.list(sign),
            3 | 4 => self.defined(sign, closed),
            5 => self.joined(UNION, [sign, sign], [closed, closed], depth),
            6 if !self.external => self.joined(MINUS, [sign, turned(sign)], [closed, false], depth),
            7.. => self.each(sign, depth),
            _ => self.literal(false),
        }
    }

    fn joined(&mut self, word: &'static str, signs: [char; 2], closed: [bool; 2], depth: usize) -> Expression {
        let left = self.expression(signs[0], closed[0], depth + 1);
        let right = self.expression(signs[1], closed[1], depth + 1);
        Expression::Joined { word, parts: Box::new([left, right]) }
    }

    fn literal(&mut self, all_but: bool) -> Expression {
        let rows = (0..self.random.below(4)).map(|_| self.row()).collect();
        Expression::Literal { all_but, rows }
    }

    fn row(&mut self) -> Vec<String> {
        (0..=self.random.below(3)).map(|_| self.term()).collect()
    }

    fn term(&mut self) -> String {
        match self.random.below(3) {
            0 if !self.scope.is_empty() => self.random.pick(&self.scope).clone(),
            1 => self.random.pick(&KEYS).to_string(),
            _ => self.random.below(9).to_string(),
        }
    }

    fn list(&mut self, sign: char) -> Expression {
        let variable = !self.scope.is_empty() && self.random.one_in(2);
        let issuer = if variable { self.random.pick(&self.scope).clone() } else { self.random.pick(&KEYS).to_string() };
        let lists: Vec<String> = self.draft.lists.iter().filter(|list| list.2 == sign).map(|list| list.0.clone()).collect();
        let list = if self.random.one_in(4) { format!("7{sign}") } else { self.random.pick(&lists).clone() };
        let vetting: Vec<&Definition> = self.draft.definitions.iter().filter(|definition| definition.sign == '-').collect();
        let vetted = sign == '+' && !self.external && !vetting.is_empty() && self.random.one_in(4);
        Expression::List { issuer, list, by: vetted.then(|| self.random.pick(&vetting).name.clone()) }
    }

    /// By its name, or as an own name; a literal if there is none.
    fn defined(&mut self, sign: char, closed: bool) -> Expression {
        let fit = self.draft.definitions.iter().filter(|definition| definition.sign == sign && !(closed && definition.open));
        let fit: Vec<&Definition> = fit.collect();
        if fit.is_empty() {
            return self.literal(false);
        }
        let name = self.random.pick(&fit).name.clone();
        match &self.draft.our_key {
            Some(key) if self.random.one_in(2) => Expression::List { issuer: key.clone(), list: name, by: None },
            _ => Expression::Defined(name),
        }
    }

    fn each(&mut self, sign: char, depth: usize) -> Expression {
        let outer = self.scope.len();
        let mut guards = Vec::new();
        for _ in 0..self.random.below(4) {
            let guard = self.guard(sign, depth);
            guards.push(guard);
        }
        let head = self.row();
        self.scope.truncate(outer);
        Expression::Each { head, guards }
    }

    fn guard(&mut self, sign: char, depth: usize) -> Guard {
        match self.random.below(5) {
            0..=2 if self.draws < 6 => {
                self.draws += 1;
                let operand = self.expression(sign, true, depth + 1);
                let row = (0..=self.random.below(2)).map(|_| self.slot()).collect();
                Guard::Member { row, word: DRAW, operand }
            }
            3 if !self.external => {
                let row = self.row();
                Guard::Member { row, word: ABSENT, operand: self.expression(turned(sign), false, depth + 1) }
            }
            _ => Guard::Compared([self.term(), self.term()], if self.random.one_in(2) { "=" } else { "!=" }),
        }
    }

    fn slot(&mut self) -> String {
        match self.random.below(6) {
            0 => self.term(),
            1 => "_".to_string(),
            _ => {
                let name = format!("x{}", self.made);
                self.made += 1;
                self.scope.push(name.clone());
                name
            }
        }
    }
}

// ---- broken ones

/// A sound one with one change. Some changes leave it sound.
pub fn broken(random: &mut Random) -> Draft {
    let mut draft = sound(random);
    match random.below(16) {
        0 => change_list(random, &mut draft),
        1 => change_definition(random, &mut draft),
        2 => reorder(random, &mut draft),
        3 => change_key(random, &mut draft),
        4 => draft.format = 3 + random.below(3) as u32,
        5 => draft.external = !draft.external,
        6 => many_definitions(random, &mut draft),
        7 => many_words(random, &mut draft),
        8 => say_again(random, &mut draft),
        _ => change_expression(random, &mut draft),
    }
    draft
}

/// A sound one with some changes of signs, of leaves by others of a sign, and of what they are used for.
pub fn mixed(random: &mut Random) -> Draft {
    let mut draft = sound(random);
    for _ in 0..=random.below(3) {
        match random.below(6) {
            0 => {
                let place = random.below(draft.lists.len());
                draft.lists[place].2 = turned(draft.lists[place].2);
            }
            1 if !draft.definitions.is_empty() => {
                let place = random.below(draft.definitions.len());
                draft.definitions[place].sign = turned(draft.definitions[place].sign);
            }
            2 => somewhere(random, &mut draft, |node, random| turn_guard(random, node)),
            3 => somewhere(random, &mut draft, |node, _| turn_word(node)),
            _ => somewhere(random, &mut draft, |node, random| {
                if node.inside().is_empty() {
                    let leaves = ["released", "withdrawn", "9+", "9-"].map(|name| list("alma", name));
                    *node = random.pick(&leaves).clone();
                }
            }),
        }
    }
    draft
}

fn change_list(random: &mut Random, draft: &mut Draft) {
    let place = random.below(draft.lists.len());
    let list = &mut draft.lists[place];
    match random.below(5) {
        0 => list.1 = 65_536 + random.below(9) as u32,
        1 => list.0 = "d0".to_string(),
        2 => list.0.push('x'),
        _ => list.2 = turned(list.2),
    }
}

fn change_definition(random: &mut Random, draft: &mut Draft) {
    if draft.definitions.is_empty() {
        return;
    }
    let place = random.below(draft.definitions.len());
    let definition = &mut draft.definitions[place];
    match random.below(6) {
        0 => definition.number = Some(65_536),
        1 => definition.number = Some(20),
        2 => definition.name = "d1".to_string(),
        3 => definition.name.push('x'),
        _ => definition.sign = turned(definition.sign),
    }
}

fn reorder(random: &mut Random, draft: &mut Draft) {
    if draft.definitions.len() > 1 {
        let (first, second) = (random.below(draft.definitions.len()), random.below(draft.definitions.len()));
        draft.definitions.swap(first, second);
        if random.one_in(3) {
            draft.definitions.remove(first);
        }
    }
}

fn change_key(random: &mut Random, draft: &mut Draft) {
    match random.below(6) {
        0 => draft.our_key = Some("9".to_string()),
        1 => draft.our_key = Some("archiv".to_string()),
        2 => draft.our_key = None,
        3 => draft.our_key = Some("alma".to_string()),
        4 => draft.keys[0].1 = "k2147483647".to_string(),
        _ => {
            draft.keys.remove(random.below(2));
        }
    }
}

fn many_definitions(random: &mut Random, draft: &mut Draft) {
    for place in 0..14 + random.below(5) {
        let expression = Expression::Literal { all_but: false, rows: Vec::new() };
        draft.definitions.push(Definition { name: format!("more{place}"), number: None, sign: '+', open: false, expression });
    }
}

/// Rows of four, as many as a literal takes.
fn large() -> Expression {
    let atoms = |row: usize| (0..4).map(|atom| (4 * row + atom).to_string()).collect();
    Expression::Literal { all_but: false, rows: (0..128).map(atoms).collect() }
}

fn many_words(random: &mut Random, draft: &mut Draft) {
    if random.one_in(2) {
        for place in 0..6 + random.below(4) {
            draft.definitions.push(Definition { name: format!("large{place}"), number: None, sign: '+', open: false, expression: large() });
        }
    } else {
        let change = |node: &mut Expression, _: &mut Random| *node = Expression::Joined { word: UNION, parts: Box::new([node.clone(), large()]) };
        somewhere(random, draft, change);
    }
}

fn say_again(random: &mut Random, draft: &mut Draft) {
    match random.below(3) {
        0 => draft.queries.extend(draft.queries.clone()),
        1 => draft.keys.push(draft.keys[0].clone()),
        _ => draft.lists.push(draft.lists[0].clone()),
    }
}

/// Changes one expression of a definition or of the query.
fn somewhere(random: &mut Random, draft: &mut Draft, change: impl Fn(&mut Expression, &mut Random)) {
    let mut wholes: Vec<&mut Expression> =
        draft.definitions.iter_mut().map(|definition| &mut definition.expression).chain(&mut draft.queries).collect();
    if wholes.is_empty() {
        return;
    }
    let place = random.below(wholes.len());
    let whole = &mut wholes[place];
    let mut left = random.below(whole.count());
    if let Some(node) = whole.nth(&mut left) {
        change(node, random);
    }
}

impl Expression {
    fn inside(&mut self) -> Vec<&mut Expression> {
        match self {
            Expression::Joined { parts, .. } => parts.iter_mut().collect(),
            Expression::Each { guards, .. } => {
                guards.iter_mut().filter_map(|guard| if let Guard::Member { operand, .. } = guard { Some(operand) } else { None }).collect()
            }
            _ => Vec::new(),
        }
    }

    fn count(&mut self) -> usize {
        1 + self.inside().into_iter().map(Expression::count).sum::<usize>()
    }

    fn nth(&mut self, left: &mut usize) -> Option<&mut Expression> {
        if *left == 0 {
            return Some(self);
        }
        *left -= 1;
        self.inside().into_iter().find_map(|node| node.nth(left))
    }

    /// Its own rows, a literal's, patterns, heads.
    fn rows(&mut self) -> Vec<&mut Vec<String>> {
        match self {
            Expression::Literal { rows, .. } => rows.iter_mut().collect(),
            Expression::Each { head, guards } => {
                let rows = guards.iter_mut().filter_map(|guard| if let Guard::Member { row, .. } = guard { Some(row) } else { None });
                rows.chain([head]).collect()
            }
            _ => Vec::new(),
        }
    }
}

fn list(issuer: &str, list: &str) -> Expression {
    Expression::List { issuer: issuer.to_string(), list: list.to_string(), by: None }
}

fn change_expression(random: &mut Random, draft: &mut Draft) {
    let change = random.below(12);
    somewhere(random, draft, |node, random| match change {
        0 => *node = another_leaf(random),
        1 => *node = Expression::Joined { word: if random.one_in(2) { UNION } else { MINUS }, parts: Box::new([node.clone(), another_leaf(random)]) },
        2 => deepen(random, node),
        3 => change_term(random, node),
        4 => widen(random, node),
        5 => *node = crowded(random, node.clone()),
        6 => *node = drawn(random, node.clone()),
        7 => more_guards(random, node),
        8 => turn_guard(random, node),
        9 => change_list_leaf(random, node),
        10 => more_rows(random, node),
        _ => turn_word(node),
    });
}

fn turn_word(node: &mut Expression) {
    if let Expression::Joined { word, .. } = node {
        *word = if *word == UNION { MINUS } else { UNION };
    }
}

fn another_leaf(random: &mut Random) -> Expression {
    match random.below(9) {
        0 => list("alma", "released"),
        1 => list("alma", "withdrawn"),
        2 => list("vla", "65536+"),
        3 => list("archive", "99+"),
        4 => list("alma", "d0"),
        5 => Expression::Defined("d3".to_string()),
        6 => Expression::Literal { all_but: true, rows: Vec::new() },
        7 => Expression::List { issuer: "alma".to_string(), list: "released".to_string(), by: Some("d0".to_string()) },
        _ => Expression::List { issuer: "alma".to_string(), list: "safe".to_string(), by: Some("d0".to_string()) },
    }
}

fn deepen(random: &mut Random, node: &mut Expression) {
    for _ in 0..11 + random.below(6) {
        let empty = Expression::Literal { all_but: false, rows: Vec::new() };
        let parts = if random.one_in(2) { [empty, node.clone()] } else { [node.clone(), empty] };
        *node = Expression::Joined { word: UNION, parts: Box::new(parts) };
    }
}

fn change_term(random: &mut Random, node: &mut Expression) {
    let mut rows = node.rows();
    if rows.is_empty() {
        return;
    }
    let place = random.below(rows.len());
    let row = &mut rows[place];
    let place = random.below(row.len());
    row[place] = random.pick(&["_", "y", "x0", "almo", "k2147483647"]).to_string();
}

fn widen(random: &mut Random, node: &mut Expression) {
    let mut rows = node.rows();
    if !rows.is_empty() {
        let place = random.below(rows.len());
        rows[place].extend((0..4).map(|atom| atom.to_string()));
    }
}

/// Many variables in scope around it.
fn crowded(random: &mut Random, node: Expression) -> Expression {
    let draw = |_| Guard::Member { row: vec!["_".to_string(); 4], word: DRAW, operand: Expression::Literal { all_but: false, rows: Vec::new() } };
    let mut guards: Vec<Guard> = (0..3 + random.below(3)).map(draw).collect();
    guards.push(Guard::Member { row: vec!["x".to_string()], word: DRAW, operand: node });
    Expression::Each { head: vec!["7".to_string()], guards }
}

/// Many draws around it, one inside the other.
fn drawn(random: &mut Random, mut node: Expression) -> Expression {
    for _ in 0..1 + random.below(9) {
        let guard = Guard::Member { row: vec!["7".to_string()], word: DRAW, operand: node };
        node = Expression::Each { head: vec!["7".to_string()], guards: vec![guard] };
    }
    node
}

fn more_guards(random: &mut Random, node: &mut Expression) {
    if let Expression::Each { guards, .. } = node {
        let count = 6 + random.below(4);
        guards.extend((0..count).map(|_| Guard::Compared(["1".to_string(), "1".to_string()], "=")));
    }
}

fn turn_guard(random: &mut Random, node: &mut Expression) {
    if let Expression::Each { guards, .. } = node {
        for guard in guards {
            if let Guard::Member { word, .. } = guard {
                *word = if *word == DRAW { ABSENT } else { DRAW };
                if random.one_in(2) {
                    return;
                }
            }
        }
    }
}

fn change_list_leaf(random: &mut Random, node: &mut Expression) {
    if let Expression::List { issuer, list, by } = node {
        match random.below(5) {
            0 => *issuer = "almo".to_string(),
            1 => *issuer = "archive".to_string(),
            2 => *list = "relesed".to_string(),
            3 => *by = Some("d0".to_string()),
            _ => *list = random.pick(&["released", "withdrawn", "9+", "9-"]).to_string(),
        }
    }
}

fn more_rows(random: &mut Random, node: &mut Expression) {
    if let Expression::Literal { rows, .. } = node {
        rows.extend((0..126 + random.below(4)).map(|row| vec![row.to_string()]));
    }
}
