//! The formatter: a tree as text. A statement takes one line where it fits. Else a comprehension has each guard on a line of its own, `union` and `minus`
//! each begin a line, the rows of a literal fill lines. Comments stay with what they are about. What is printed and parsed again prints the same.

#[cfg(test)]
mod tests;

use crate::syntax::{
    Comment, Comments, Definition, Expression, ExpressionKind, File, Guard, GuardKind, KeyDeclaration, List, ListDeclaration, Polarity, Row,
    Statement, StatementKind, Term, TermKind,
};

/// The most columns of a line, the comment behind it aside.
const WIDEST: usize = 100;
const INDENT: usize = 4;

/// The text of a file, formatted.
///
/// ```
/// use txindurbe_language::{parse, print, Sources};
///
/// let mut sources = Sources::default();
/// let source = sources.add("public.qcm", "key alma=k1,vla=k2 # who");
/// let file = parse(&sources, source).expect("nothing is wrong with it");
/// assert_eq!(print(&file), "key alma = k1, vla = k2  # who\n");
/// ```
pub fn print(file: &File) -> String {
    let mut printer = Printer::default();
    for statement in &file.statements {
        printer.statement(statement);
    }
    printer.comments_apart(&file.comments_at_end);
    printer.text
}

/// An expression on one line, without its comments.
pub fn print_expression(expression: &Expression) -> String {
    one_line(expression)
}

// ---- on one line

fn one_line(expression: &Expression) -> String {
    match &expression.kind {
        ExpressionKind::Rows(rows) => rows_line(rows),
        ExpressionKind::AllBut(rows) => format!("all but {}", rows_line(rows)),
        ExpressionKind::Defined(name) => name.text.clone(),
        ExpressionKind::List { issuer, list } => list_line(issuer, list),
        ExpressionKind::Vetted { issuer, list, by } => format!("{} vetted by {}", list_line(issuer, list), by.text),
        ExpressionKind::Union(..) | ExpressionKind::Minus(..) => {
            let operands: Vec<String> = operands(expression).iter().map(Operand::line).collect();
            operands.join(" ")
        }
        ExpressionKind::Each { head, guards } if guards.is_empty() => format!("{{ {} | }}", row_line(head)),
        ExpressionKind::Each { head, guards } => {
            let guards: Vec<String> = guards.iter().map(guard_line).collect();
            format!("{{ {} | {} }}", row_line(head), guards.join(", "))
        }
    }
}

fn rows_line(rows: &[Row]) -> String {
    if rows.is_empty() {
        return "{}".to_string();
    }
    let rows: Vec<String> = rows.iter().map(row_line).collect();
    format!("{{ {} }}", rows.join(", "))
}

fn row_line(row: &Row) -> String {
    let terms: Vec<String> = row.terms.iter().map(term_line).collect();
    format!("({})", terms.join(", "))
}

fn term_line(term: &Term) -> String {
    match &term.kind {
        TermKind::Number(number) => number.to_string(),
        TermKind::Key(number) => format!("k{number}"),
        TermKind::Named(text) => text.clone(),
        TermKind::Any => "_".to_string(),
    }
}

fn list_line(issuer: &Term, list: &List) -> String {
    match list {
        List::Named(name) => format!("{}.{}", term_line(issuer), name.text),
        List::Numbered { number, polarity, .. } => format!("{}.{number}{}", term_line(issuer), sign(*polarity)),
    }
}

fn guard_line(guard: &Guard) -> String {
    match &guard.kind {
        GuardKind::Draw(row, set) => format!("{} in {}", row_line(row), one_line(set)),
        GuardKind::Absent(row, set) => format!("{} not in {}", row_line(row), one_line(set)),
        GuardKind::Same(left, right) => format!("{} = {}", term_line(left), term_line(right)),
        GuardKind::Different(left, right) => format!("{} != {}", term_line(left), term_line(right)),
    }
}

fn sign(polarity: Polarity) -> &'static str {
    match polarity {
        Polarity::Plus => "+",
        Polarity::Minus => "-",
    }
}

fn key_line(declaration: &KeyDeclaration) -> String {
    format!("{} = k{}", declaration.name.text, declaration.number)
}

fn list_declaration_line(declaration: &ListDeclaration) -> String {
    format!("{} = {} {}", declaration.name.text, declaration.number, sign(declaration.polarity))
}

// ---- what `union` and `minus` join

/// One of several sets with `union` or `minus` between them.
struct Operand<'a> {
    /// What it is joined to those before it by; nothing for the first.
    joined_by: &'static str,
    expression: &'a Expression,
    before: Vec<&'a str>,
    behind: Option<&'a str>,
}

impl<'a> Operand<'a> {
    fn new(joined_by: &'static str, expression: &'a Expression) -> Operand<'a> {
        Operand { joined_by, expression, before: texts(&expression.comments.before), behind: expression.comments.behind.as_deref() }
    }

    fn line(&self) -> String {
        let text = one_line(self.expression);
        let text = if is_joined(self.expression) { format!("({text})") } else { text };
        match self.joined_by {
            "" => text,
            word => format!("{word} {text}"),
        }
    }
}

fn is_joined(expression: &Expression) -> bool {
    matches!(expression.kind, ExpressionKind::Union(..) | ExpressionKind::Minus(..))
}

/// Those that stand side by side without parentheses. The expression's own comments are not among theirs.
fn operands(expression: &Expression) -> Vec<Operand<'_>> {
    let (word, left, right) = match &expression.kind {
        ExpressionKind::Union(left, right) => ("union", left, right),
        ExpressionKind::Minus(left, right) => ("minus", left, right),
        _ => return vec![Operand::new("", expression)],
    };
    // Left to right, without parentheses, where both are `union` or both `minus`.
    let alike = std::mem::discriminant(&left.kind) == std::mem::discriminant(&expression.kind);
    let mut found = if alike { operands_with_comments(left) } else { vec![Operand::new("", left)] };
    found.push(Operand::new(word, right));
    found
}

/// The same with the comments of an expression that `union` or `minus` joins, which the first and the last operand take.
fn operands_with_comments(expression: &Expression) -> Vec<Operand<'_>> {
    let mut found = operands(expression);
    if !is_joined(expression) {
        return found;
    }
    if let Some(first) = found.first_mut() {
        first.before.splice(0..0, texts(&expression.comments.before));
    }
    if let Some(last) = found.last_mut() {
        let behind = expression.comments.behind.as_deref();
        match last.behind {
            None => last.behind = behind,
            Some(_) => last.before.extend(behind),
        }
    }
    found
}

fn texts(comments: &[Comment]) -> Vec<&str> {
    comments.iter().map(|comment| comment.text.as_str()).collect()
}

// ---- comments

fn has_any(comments: &Comments) -> bool {
    !comments.before.is_empty() || comments.behind.is_some()
}

/// Whether it has comments, or something in it.
fn is_commented(expression: &Expression) -> bool {
    has_any(&expression.comments) || is_commented_inside(expression)
}

fn is_commented_inside(expression: &Expression) -> bool {
    let inside = match &expression.kind {
        ExpressionKind::Rows(rows) | ExpressionKind::AllBut(rows) => rows.iter().any(|row| has_any(&row.comments)),
        ExpressionKind::Defined(_) | ExpressionKind::List { .. } | ExpressionKind::Vetted { .. } => false,
        ExpressionKind::Union(left, right) | ExpressionKind::Minus(left, right) => is_commented(left) || is_commented(right),
        ExpressionKind::Each { head, guards } => has_any(&head.comments) || guards.iter().any(is_commented_guard),
    };
    inside || !expression.comments_at_end.is_empty()
}

fn is_commented_guard(guard: &Guard) -> bool {
    let inside = match &guard.kind {
        GuardKind::Draw(row, set) | GuardKind::Absent(row, set) => has_any(&row.comments) || is_commented(set),
        GuardKind::Same(..) | GuardKind::Different(..) => false,
    };
    inside || has_any(&guard.comments)
}

/// Those that come before a guard: its own and its row's.
fn comments_before(guard: &Guard) -> Vec<&str> {
    let mut found = texts(&guard.comments.before);
    if let GuardKind::Draw(row, _) | GuardKind::Absent(row, _) = &guard.kind {
        found.extend(texts(&row.comments.before));
        found.extend(row.comments.behind.as_deref());
    }
    found
}

// ---- on lines

#[derive(Default)]
struct Printer {
    text: String,
}

impl Printer {
    fn put(&mut self, text: &str) {
        self.text.push_str(text);
    }

    /// Begins a line.
    fn line(&mut self, indent: usize) {
        self.text.push('\n');
        self.text.extend(std::iter::repeat_n(' ', indent));
    }

    /// Whether so many more columns are left on this line.
    fn is_room_for(&self, columns: usize) -> bool {
        let begin = self.text.rfind('\n').map_or(0, |place| place + 1);
        self.text[begin..].chars().count() + columns <= WIDEST
    }

    fn empty_line_if(&mut self, apart: bool) {
        if apart && !self.text.is_empty() {
            self.text.push('\n');
        }
    }

    fn comment(&mut self, text: &str) {
        self.put("#");
        self.put(text);
    }

    /// On lines of their own, at the beginning of one.
    fn comments(&mut self, comments: &[&str], indent: usize) {
        for text in comments {
            self.comment(text);
            self.line(indent);
        }
    }

    fn comment_behind(&mut self, text: Option<&str>) {
        if let Some(text) = text {
            self.put("  ");
            self.comment(text);
        }
    }

    /// Between statements, where empty lines are kept.
    fn comments_apart(&mut self, comments: &[Comment]) {
        for comment in comments {
            self.empty_line_if(comment.apart);
            self.comment(&comment.text);
            self.put("\n");
        }
    }

    fn statement(&mut self, statement: &Statement) {
        self.comments_apart(&statement.comments.before);
        self.empty_line_if(statement.apart);
        match &statement.kind {
            StatementKind::Format { number, .. } => self.put(&format!("format {number}")),
            StatementKind::External => self.put("external"),
            StatementKind::OurKey(term) => self.put(&format!("our key {}", term_line(term))),
            StatementKind::Keys(declared) => {
                self.declarations("key", declared.iter().map(|declaration| (key_line(declaration), &declaration.comments)).collect());
            }
            StatementKind::Lists(declared) => {
                self.declarations("list", declared.iter().map(|declaration| (list_declaration_line(declaration), &declaration.comments)).collect());
            }
            StatementKind::Define(definition) => self.definition(definition),
            StatementKind::Query(expression) => {
                self.put("query");
                self.set(expression, 0, 0);
            }
        }
        self.comment_behind(statement.comments.behind.as_deref());
        self.put("\n");
    }

    fn definition(&mut self, definition: &Definition) {
        let number = definition.number.map_or_else(String::new, |(number, _)| format!(" {number}"));
        self.put(&format!("define {}{number} {} =", definition.name.text, sign(definition.polarity)));
        self.set(&definition.expression, 0, 0);
    }

    /// On one line, or each on its own.
    fn declarations(&mut self, word: &str, declared: Vec<(String, &Comments)>) {
        self.put(word);
        let lines: Vec<&str> = declared.iter().map(|(line, _)| line.as_str()).collect();
        let all = lines.join(", ");
        if self.is_room_for(1 + all.chars().count()) && !declared.iter().any(|(_, comments)| has_any(comments)) {
            self.put(" ");
            return self.put(&all);
        }
        for (place, (line, comments)) in declared.iter().enumerate() {
            let is_last = place + 1 == declared.len();
            let mut before = texts(&comments.before);
            // Behind the last one stands the statement's own.
            before.extend(comments.behind.as_deref().filter(|_| is_last));
            if place == 0 && before.is_empty() {
                self.put(" ");
            } else {
                self.line(INDENT);
                self.comments(&before, INDENT);
            }
            self.put(line);
            if !is_last {
                self.put(",");
                self.comment_behind(comments.behind.as_deref());
            }
        }
    }

    /// Behind `=`, `in` or `query`, on a line that is indented so far. So many columns more are wanted behind it.
    fn set(&mut self, expression: &Expression, indent: usize, behind: usize) {
        let line = one_line(expression);
        if !is_commented(expression) && (self.is_room_for(1 + line.chars().count() + behind) || is_short(expression)) {
            self.put(" ");
            self.put(&line);
        } else if is_in_braces(expression) && !has_any(&expression.comments) {
            self.put(" ");
            self.braces(expression, indent);
        } else {
            self.line(indent + INDENT);
            self.joined(operands_with_comments(expression), indent + INDENT, behind);
        }
    }

    /// Each operand on lines of its own, from the beginning of one.
    fn joined(&mut self, operands: Vec<Operand>, indent: usize, behind: usize) {
        let count = operands.len();
        for (place, mut operand) in operands.into_iter().enumerate() {
            let is_last = place + 1 == count;
            if place > 0 {
                self.line(indent);
            }
            if is_last {
                // What comes behind the last one is not to end in its comment.
                operand.before.extend(operand.behind.take());
            }
            self.comments(&operand.before, indent);
            self.operand(&operand, indent, if is_last { behind } else { 0 });
            self.comment_behind(operand.behind);
        }
    }

    fn operand(&mut self, operand: &Operand, indent: usize, behind: usize) {
        let (expression, line) = (operand.expression, operand.line());
        if !is_commented_inside(expression) && (self.is_room_for(line.chars().count() + behind) || is_short(expression)) {
            return self.put(&line);
        }
        if !operand.joined_by.is_empty() {
            self.put(operand.joined_by);
            self.put(" ");
        }
        if is_joined(expression) {
            self.put("(");
            self.line(indent + INDENT);
            self.joined(operands(expression), indent + INDENT, 0);
            self.line(indent);
            self.put(")");
        } else {
            self.braces(expression, indent);
        }
    }

    /// On several lines.
    fn braces(&mut self, expression: &Expression, indent: usize) {
        let inner = indent + INDENT;
        match &expression.kind {
            ExpressionKind::Rows(rows) => {
                self.put("{");
                self.rows(rows, inner);
            }
            ExpressionKind::AllBut(rows) => {
                self.put("all but {");
                self.rows(rows, inner);
            }
            ExpressionKind::Each { head, guards } => {
                self.put("{");
                self.head(head, inner);
                self.guards(guards, inner);
            }
            _ => return self.put(&one_line(expression)),
        }
        for comment in &expression.comments_at_end {
            self.line(inner);
            self.comment(&comment.text);
        }
        self.line(indent);
        self.put("}");
    }

    /// As many on a line as there is room for.
    fn rows(&mut self, rows: &[Row], indent: usize) {
        let mut line_ended = true;
        for (place, row) in rows.iter().enumerate() {
            let comma = if place + 1 < rows.len() { "," } else { "" };
            let text = row_line(row) + comma;
            if line_ended || !row.comments.before.is_empty() || !self.is_room_for(1 + text.chars().count()) {
                self.line(indent);
                self.comments(&texts(&row.comments.before), indent);
            } else {
                self.put(" ");
            }
            self.put(&text);
            self.comment_behind(row.comments.behind.as_deref());
            line_ended = row.comments.behind.is_some();
        }
    }

    fn head(&mut self, head: &Row, indent: usize) {
        if head.comments.before.is_empty() {
            self.put(" ");
        } else {
            self.line(indent);
            self.comments(&texts(&head.comments.before), indent);
        }
        self.put(&row_line(head));
        self.put(" |");
        self.comment_behind(head.comments.behind.as_deref());
    }

    fn guards(&mut self, guards: &[Guard], indent: usize) {
        for (place, guard) in guards.iter().enumerate() {
            let comma = if place + 1 < guards.len() { "," } else { "" };
            self.line(indent);
            self.comments(&comments_before(guard), indent);
            match &guard.kind {
                GuardKind::Draw(row, set) => {
                    self.put(&format!("{} in", row_line(row)));
                    self.set(set, indent, comma.len());
                }
                GuardKind::Absent(row, set) => {
                    self.put(&format!("{} not in", row_line(row)));
                    self.set(set, indent, comma.len());
                }
                GuardKind::Same(..) | GuardKind::Different(..) => self.put(&guard_line(guard)),
            }
            self.put(comma);
            self.comment_behind(guard.comments.behind.as_deref());
        }
    }
}

fn is_in_braces(expression: &Expression) -> bool {
    matches!(expression.kind, ExpressionKind::Rows(_) | ExpressionKind::AllBut(_) | ExpressionKind::Each { .. })
}

/// Cannot take several lines.
fn is_short(expression: &Expression) -> bool {
    !is_in_braces(expression) && !is_joined(expression)
}
