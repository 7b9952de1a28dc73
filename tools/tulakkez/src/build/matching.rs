//! Case and let over patterns, as core cases, let pairs and lets.
//!
//! A table has a column for each value that is at hand and a row for each arm that is still possible. Columns are taken apart from the left,
//! as the first row asks; where its patterns ask for nothing more, its arm is the one. An arm that serves several alternatives is
//! written out for each. Branches stand in the order of the type's alternatives, whatever the order of the arms: the engine's rule of first
//! match goes by that order.

use super::patterns::{CorePattern, Form, Keeper};
use super::rebuild::{Parts, Row, Split};
use super::terms::{Bound, Builder, Made};
use crate::core::term::{Binder, Term, TermKind};
use crate::core::types::{TypeId, View};
use crate::text::tree::{Arm, Expr, Pattern, Side};
use crate::text::{Mistake, Span};

/// A value at hand: its variable, its type where that is known, and what is marked if taking it apart is refused.
#[derive(Clone, Copy)]
struct Column {
    number: usize,
    ty: Option<TypeId>,
    span: Span,
}

#[derive(Clone)]
struct Table {
    columns: Vec<Column>,
    rows: Vec<Row>,
}

impl Table {
    /// The table once the value at a place has been taken apart into these. The column itself was taken out before.
    fn opened(mut self, at: usize, parts: &[Column], split: Split) -> Result<Table, Mistake> {
        self.columns.splice(at..at, parts.iter().copied());
        let rows = self.rows.into_iter().filter_map(|row| row.special(at, &split).transpose());
        Ok(Table { columns: self.columns, rows: rows.collect::<Result<_, _>>()? })
    }
}

/// A term whose value stands at a place of the rows, and has no column yet.
struct Subject {
    term: Term,
    span: Span,
    at: usize,
}

/// A form of value that no arm takes.
#[derive(Clone, Debug)]
pub(super) enum Untaken {
    Any,
    Pair(Box<Untaken>, Box<Untaken>),
    Inject(Side, Box<Untaken>),
    Roll(Box<Untaken>),
}

enum Unmatched {
    Mistake(Mistake),
    /// One form for each column.
    Untaken(Vec<Untaken>),
}

impl From<Mistake> for Unmatched {
    fn from(mistake: Mistake) -> Unmatched {
        Unmatched::Mistake(mistake)
    }
}

type Matched = Result<Term, Unmatched>;

struct Arms<'a> {
    bodies: Vec<&'a Expr>,
    taken: Vec<bool>,
    want: Option<TypeId>,
}

impl Builder<'_> {
    pub(super) fn let_in(
        &mut self,
        pattern: &Pattern,
        bound: &Expr,
        body: &Expr,
        span: Span,
        want: Option<TypeId>,
    ) -> Made {
        let head = span.to(pattern.span);
        self.choose(bound, &[(pattern, body)], Span::new(span.start, head.end), want)
    }

    pub(super) fn case_of(&mut self, scrutinee: &Expr, arms: &[Arm], span: Span, want: Option<TypeId>) -> Made {
        let arms: Vec<(&Pattern, &Expr)> = arms.iter().map(|arm| (&arm.pattern, &arm.body)).collect();
        self.choose(scrutinee, &arms, Span::new(span.start, scrutinee.span.end), want)
    }

    fn choose(&mut self, scrutinee: &Expr, arms: &[(&Pattern, &Expr)], head: Span, want: Option<TypeId>) -> Made {
        let term = self.term(scrutinee, None)?;
        let ty = term.ty;
        let mut rows = Vec::new();
        for (arm, (pattern, _)) in arms.iter().enumerate() {
            rows.push(Row::new(self.pattern(pattern, ty)?, arm));
        }
        let bodies = arms.iter().map(|(_, body)| *body).collect();
        let mut chosen = Arms { bodies, taken: vec![false; arms.len()], want };
        let subject = Subject { term, span: head, at: 0 };
        let table = Table { columns: Vec::new(), rows };
        let made = self.apart(&mut chosen, subject, table).map_err(|unmatched| match unmatched {
            Unmatched::Mistake(mistake) => mistake,
            Unmatched::Untaken(forms) => {
                let form = forms.first().map_or("_".to_string(), |form| self.untaken(form, ty, false));
                Mistake::new(head, format!("no arm takes {form}")).help("add an arm for it")
            }
        })?;
        match chosen.taken.iter().position(|taken| !taken) {
            Some(arm) => Err(Mistake::new(arms[arm].0.span, "this arm is never taken")
                .help("the arms before it take every value that it would")),
            None => Ok(made),
        }
    }

    fn matched(&mut self, arms: &mut Arms, mut table: Table) -> Matched {
        let Some(first) = table.rows.first() else {
            return Err(Unmatched::Untaken(vec![Untaken::Any; table.columns.len()]));
        };
        match first.patterns.iter().position(|pattern| !matches!(pattern.form, Form::Any(_))) {
            None => self.leaf(arms, &table.columns, first),
            Some(at) => {
                let Column { number, ty, span } = table.columns.remove(at);
                let term = self.make(span, TermKind::Variable(number), ty)?;
                self.apart(arms, Subject { term, span, at }, table)
            }
        }
    }

    /// Takes a value apart as the first row asks; where it asks for nothing, binds it by a let.
    fn apart(&mut self, arms: &mut Arms, subject: Subject, table: Table) -> Matched {
        let Some(first) = table.rows.first() else { return self.matched(arms, table) };
        match first.patterns[subject.at].form.clone() {
            Form::Any(_) => self.bind(arms, subject, table),
            Form::Pair(left, right) => self.apart_pair(arms, subject, table, [&left, &right]),
            Form::Inject(..) => self.apart_sum(arms, subject, table),
            Form::Roll(folded, _) => self.apart_fold(arms, subject, table, folded),
        }
    }

    fn bind(&mut self, arms: &mut Arms, subject: Subject, mut table: Table) -> Matched {
        let Subject { term, span, at } = subject;
        let binder = binder(&table.rows[0].patterns[at]);
        table.columns.insert(at, Column { number: self.variables, ty: term.ty, span });
        let body = self.under(1, |builder| builder.matched(arms, table))?;
        let ty = body.ty;
        Ok(self.make(span, TermKind::Let(Box::new(term), Box::new(body)), ty)?.binding(vec![binder]))
    }

    fn apart_pair(
        &mut self,
        arms: &mut Arms,
        subject: Subject,
        table: Table,
        parts: [&CorePattern; 2],
    ) -> Matched {
        let Subject { term, span, at } = subject;
        let (left, right) = self.two_types(term.ty);
        let number = self.variables;
        let columns = [
            Column { number, ty: left, span: parts[0].span },
            Column { number: number + 1, ty: right, span: parts[1].span },
        ];
        let table = table.opened(at, &columns, Split::Pair)?;
        let matched = self.under(2, |builder| builder.matched(arms, table));
        let body = matched.map_err(|unmatched| unmatched.paired(at))?;
        let ty = body.ty;
        let binders = parts.into_iter().map(binder).collect();
        Ok(self.make(span, TermKind::LetPair(Box::new(term), Box::new(body)), ty)?.binding(binders))
    }

    fn apart_sum(&mut self, arms: &mut Arms, subject: Subject, table: Table) -> Matched {
        let Subject { term, span, at } = subject;
        let (left, right) = self.two_types(term.ty);
        let mut branch = |builder: &mut Self, side: Side, ty: Option<TypeId>| {
            let column = Column { number: builder.variables, ty, span };
            let mut table = table.clone().opened(at, &[column], Split::Inject(side, term.ty))?;
            let pattern = table.rows.first().map(|row| row.patterns[at].clone());
            let binder = pattern.as_ref().map_or(Binder { name: "_".into(), span }, binder);
            table.columns[at].span = binder.span;
            let matched = builder.under(1, |builder| builder.matched(arms, table));
            let branch = matched.map_err(|unmatched| unmatched.wrapped(at, |form| Untaken::Inject(side, form)))?;
            Ok::<_, Unmatched>((Box::new(branch), binder))
        };
        let (left, left_binder) = branch(self, Side::Left, left)?;
        let (right, right_binder) = branch(self, Side::Right, right)?;
        let ty = left.ty.or(right.ty);
        let case = self.make(span, TermKind::Case(Box::new(term), left, right), ty)?;
        Ok(case.binding(vec![left_binder, right_binder]))
    }

    /// What is unrolled is taken apart further before anything else, so that it needs no variable.
    fn apart_fold(&mut self, arms: &mut Arms, subject: Subject, table: Table, folded: TypeId) -> Matched {
        let Subject { term, span, at } = subject;
        let folded = term.ty.unwrap_or(folded);
        let unfolded = self.unfolded(folded);
        let term = self.make(term.span, TermKind::Unroll(folded, Box::new(term)), unfolded)?;
        let table = table.opened(at, &[], Split::Roll(folded))?;
        let matched = self.apart(arms, Subject { term, span, at }, table);
        matched.map_err(|unmatched| unmatched.wrapped(at, Untaken::Roll))
    }

    /// The types of a product's or a sum's parts.
    fn two_types(&mut self, ty: Option<TypeId>) -> (Option<TypeId>, Option<TypeId>) {
        match ty.map(|ty| self.types().view(ty)) {
            Some(View::Product(left, right) | View::Sum(left, right)) => (Some(left), Some(right)),
            _ => (None, None),
        }
    }

    /// The first row's arm: its names are bound to variables, or to values put together again from their parts.
    fn leaf(&mut self, arms: &mut Arms, columns: &[Column], row: &Row) -> Matched {
        let outer = self.scope.len();
        let mut holes = Vec::new();
        for (column, pattern) in columns.iter().zip(&row.patterns) {
            let Column { number, ty, .. } = *column;
            match &pattern.form {
                Form::Any(Some(Keeper::Name(name))) => {
                    let parts = Parts::Variable(number, ty);
                    self.scope.push(Bound { name: name.clone(), parts });
                }
                Form::Any(Some(Keeper::Hole(hole))) => holes.push((*hole, number, ty)),
                _ => (),
            }
        }
        arms.taken[row.arm] = true;
        let (body, want) = (arms.bodies[row.arm], arms.want);
        self.scope.extend(row.rebuilt(&holes).into_iter().map(|(name, parts)| Bound { name, parts }));
        let made = self.term(body, want)?;
        self.scope.truncate(outer);
        arms.want = arms.want.or(made.ty);
        Ok(made)
    }

    /// Runs a part of the building with so many more variables in scope.
    pub(super) fn under<T>(&mut self, count: usize, part: impl FnOnce(&mut Self) -> T) -> T {
        self.variables += count;
        let made = part(self);
        self.variables -= count;
        made
    }
}

fn binder(pattern: &CorePattern) -> Binder {
    let name = match &pattern.form {
        Form::Any(Some(Keeper::Name(name))) => name.clone(),
        _ => "_".into(),
    };
    Binder { name, span: pattern.span }
}

impl Unmatched {
    fn wrapped(self, at: usize, wrap: impl Fn(Box<Untaken>) -> Untaken) -> Unmatched {
        match self {
            Unmatched::Mistake(mistake) => Unmatched::Mistake(mistake),
            Unmatched::Untaken(mut forms) => {
                let form = forms.remove(at);
                forms.insert(at, wrap(Box::new(form)));
                Unmatched::Untaken(forms)
            }
        }
    }

    fn paired(self, at: usize) -> Unmatched {
        match self {
            Unmatched::Mistake(mistake) => Unmatched::Mistake(mistake),
            Unmatched::Untaken(mut forms) => {
                let left = forms.remove(at);
                let right = forms.remove(at);
                forms.insert(at, Untaken::Pair(Box::new(left), Box::new(right)));
                Unmatched::Untaken(forms)
            }
        }
    }
}
