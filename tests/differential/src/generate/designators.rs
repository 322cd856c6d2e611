//! Random designators: variables and guards, and the fields and elements in them.

use super::types::Shape;
use super::{Maker, VAR};
use crate::image::row;

/// Where a designator begins: a variable, or a guard of it, and the type there.
#[derive(Clone, Copy)]
struct Root {
    variable: usize,
    guarded: bool,
    ty: usize,
}

impl Maker<'_> {
    /// A designator of just this type, where a variable that can be named holds one.
    pub fn designator(&mut self, wanted: usize, fuel: usize) -> Option<usize> {
        let roots = self.roots(|maker, ty| maker.types.holds(ty, wanted));
        let (mut node, mut ty) = self.begin(&roots)?;
        while ty != wanted {
            (node, ty) = self.descend(node, ty, Some(wanted), fuel);
        }
        Some(node)
    }

    /// A designator of the type or, of a record, of an extension.
    pub fn extending(&mut self, wanted: usize, fuel: usize) -> Option<usize> {
        let mut choices = self.types.extensions(wanted);
        if self.random.chance(350) {
            choices.truncate(1);
        }
        let roots = self.roots(|maker, ty| choices.iter().any(|choice| maker.types.holds(ty, *choice)));
        let (mut node, mut ty) = self.begin(&roots)?;
        let inside: Vec<usize> = choices.into_iter().filter(|choice| self.types.holds(ty, *choice)).collect();
        let choice = *self.random.pick(&inside);
        while ty != choice {
            (node, ty) = self.descend(node, ty, Some(choice), fuel);
        }
        Some(node)
    }

    /// Any designator that the body can name, and its type.
    pub fn target(&mut self, fuel: usize) -> Option<(usize, usize)> {
        let roots = self.roots(|_, _| true);
        if self.daring && self.random.chance(600) {
            if let Some(whole) = self.whole_parameter(&roots) {
                return Some(whole);
            }
        }
        let (mut node, mut ty) = self.begin(&roots)?;
        while self.has_parts(ty) && self.random.chance(600) {
            (node, ty) = self.descend(node, ty, None, fuel);
        }
        Some((node, ty))
    }

    /// A whole VAR record, as a target that may hold an extension.
    fn whole_parameter(&mut self, roots: &[Root]) -> Option<(usize, usize)> {
        let records: Vec<Root> = roots.iter().copied().filter(|root| self.can_guard(root.variable)).collect();
        self.begin(&records)
    }

    fn roots(&mut self, good: impl Fn(&Self, usize) -> bool) -> Vec<Root> {
        let spare = self.random.chance(950);
        let mut roots = vec![];
        for variable in self.visible() {
            if spare && self.busy.contains(&variable) {
                continue;
            }
            let ty = self.variables[variable].ty;
            if good(self, ty) {
                roots.push(Root { variable, guarded: false, ty });
            }
            for ty in self.guards(variable) {
                if good(self, ty) {
                    roots.push(Root { variable, guarded: true, ty });
                }
            }
        }
        roots
    }

    /// Whether a guard or a test can name it.
    pub fn can_guard(&self, variable: usize) -> bool {
        let named = self.variables[variable];
        named.kind == VAR && self.types.is_record(named.ty)
    }

    /// Types for guards of the variable: its own, those that are known to hold, and seldom any.
    fn guards(&mut self, variable: usize) -> Vec<usize> {
        if !self.can_guard(variable) {
            return vec![];
        }
        let declared = self.variables[variable].ty;
        let mut guards = self.types.extensions(declared);
        if self.random.chance(3 * self.risk()) {
            return guards;
        }
        let known: Vec<usize> = self.known.iter().filter(|(v, _)| *v == variable).map(|(_, ty)| *ty).collect();
        let own = self.random.chance(250);
        guards.retain(|ty| (own && *ty == declared) || known.iter().any(|k| self.types.extends(*k, *ty)));
        guards
    }

    fn begin(&mut self, roots: &[Root]) -> Option<(usize, usize)> {
        let daring = self.daring && self.random.chance(800);
        let preferred = |root: &Root| match daring {
            true => self.types.has_array(root.ty),
            false => self.own(root.variable),
        };
        let preferred: Vec<Root> = roots.iter().copied().filter(preferred).collect();
        let from = if preferred.is_empty() || self.random.chance(300) { roots } else { &preferred };
        let root = self.random.any(from)?;
        let node = match root.guarded {
            true => row(4, root.variable, root.ty, 0),
            false => row(1, root.variable, 0, 0),
        };
        Some((self.push(node), root.ty))
    }

    fn has_parts(&self, ty: usize) -> bool {
        let described = &self.types.list[ty];
        matches!(described.shape, Shape::Array { .. }) || !described.fields.is_empty()
    }

    /// A field or an element of what the node designates, where asked for one that holds the wanted type.
    fn descend(&mut self, node: usize, ty: usize, wanted: Option<usize>, fuel: usize) -> (usize, usize) {
        if let Shape::Array { element, length } = self.types.list[ty].shape {
            let index = self.index(length, fuel);
            return (self.push(row(3, node, index, 0)), element);
        }
        let fields = self.types.list[ty].fields.iter().copied().enumerate();
        let choices: Vec<(usize, usize)> =
            fields.filter(|(_, field)| wanted.is_none_or(|wanted| self.types.holds(*field, wanted))).collect();
        let (number, field) = *self.random.pick(&choices);
        (self.push(row(2, node, number, 0)), field)
    }
}
