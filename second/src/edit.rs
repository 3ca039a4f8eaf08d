//! Rebuilding the tree of a configuration: making, linking and freeing goals.

use crate::chain::Chain;
use crate::config::{some, AndBox, AndId, Config, Constraint, Goal, Node, Shape, Variable, NONE};

/// Rebuilding the tree. These functions leave `order` and `parts` alone.
impl Config {
    pub(crate) fn set(&mut self, goal: Goal, shape: Shape) {
        self.nodes[usize::from(goal.0)].shape = shape;
    }

    pub(crate) fn new_goal(&mut self, shape: Shape) -> Goal {
        let node = Node {
            shape,
            parent: NONE,
            before: NONE,
            after: NONE,
            first: NONE,
            last: NONE,
            children: 0,
        };
        if let Some(goal) = self.free_nodes.pop() {
            self.nodes[usize::from(goal.0)] = node;
            return goal;
        }
        self.nodes.push(node);
        Goal(self.nodes.len() as u16 - 1)
    }

    /// New and-box contents: no locals, empty store.
    pub(crate) fn new_and(&mut self) -> AndId {
        self.copy_and(Chain::EMPTY, Chain::EMPTY)
    }

    /// New and-box contents with the locals and store of another.
    fn copy_and(&mut self, locals: Chain, store: Chain) -> AndId {
        self.stamps += 1;
        let and = AndBox {
            locals,
            store,
            stamp: self.stamps,
        };
        if let Some(id) = self.free_ands.pop() {
            self.ands[usize::from(id.0)] = and;
            return id;
        }
        self.ands.push(and);
        AndId(self.ands.len() as u16 - 1)
    }

    pub(crate) fn add_locals(&mut self, id: AndId, locals: std::ops::Range<u16>) {
        let and = &mut self.ands[usize::from(id.0)];
        for local in locals {
            self.locals.append(&mut and.locals, Variable(local));
        }
    }

    pub(crate) fn add_constraint(&mut self, id: AndId, constraint: Constraint) {
        let and = &mut self.ands[usize::from(id.0)];
        self.constraints.append(&mut and.store, constraint);
        self.grown.note(id);
    }

    /// Adds locals and store of an and-box to the ends of those of another.
    pub(crate) fn add_contents(&mut self, from: AndId, to: AndId) {
        let AndBox { locals, store, .. } = *self.and(from);
        let and = &mut self.ands[usize::from(to.0)];
        self.locals.append_all(&mut and.locals, locals);
        self.constraints.append_all(&mut and.store, store);
        self.grown.note(to);
    }

    /// Lets an and-box that stands elsewhere now count as another.
    pub(crate) fn stamp_anew(&mut self, id: AndId) {
        self.stamps += 1;
        self.ands[usize::from(id.0)].stamp = self.stamps;
    }

    /// Gives back and-box contents.
    pub(crate) fn free_and(&mut self, id: AndId) {
        let and = &mut self.ands[usize::from(id.0)];
        (and.locals, and.store) = (Chain::EMPTY, Chain::EMPTY);
        self.free_ands.push(id);
    }

    /// A goal like another, with and-box contents of its own and no children.
    pub(crate) fn copy_goal(&mut self, goal: Goal) -> Goal {
        let shape = match self.shape(goal) {
            Shape::And(id) => {
                let AndBox { locals, store, .. } = *self.and(id);
                Shape::And(self.copy_and(locals, store))
            }
            shape => shape,
        };
        let copy = self.new_goal(shape);
        if self.copies.len() < self.nodes.len() {
            self.copies.resize(self.nodes.len(), NONE);
        }
        self.copies[usize::from(goal.0)] = copy;
        copy
    }

    /// The last copy made of a goal.
    pub(crate) fn copy_of(&self, goal: Goal) -> Goal {
        self.copies[usize::from(goal.0)]
    }

    /// Gives back a goal, with its and-box contents.
    pub(crate) fn free(&mut self, goal: Goal) {
        if let Shape::And(id) = self.shape(goal) {
            self.free_and(id);
        }
        self.free_nodes.push(goal);
    }

    /// Forgets the children of a goal.
    pub(crate) fn forget_children(&mut self, goal: Goal) {
        let node = &mut self.nodes[usize::from(goal.0)];
        node.first = NONE;
        node.last = NONE;
        node.children = 0;
    }

    /// Puts a goal after all children of another.
    pub(crate) fn append(&mut self, parent: Goal, child: Goal) {
        let last = self.nodes[usize::from(parent.0)].last;
        self.link(parent, last, child, NONE);
    }

    /// Puts a goal to the right of another.
    pub(crate) fn insert_after(&mut self, left: Goal, child: Goal) {
        let Node { parent, after, .. } = self.nodes[usize::from(left.0)];
        self.link(parent, left, child, after);
    }

    fn link(&mut self, parent: Goal, left: Goal, child: Goal, right: Goal) {
        let node = &mut self.nodes[usize::from(child.0)];
        (node.parent, node.before, node.after) = (parent, left, right);
        self.nodes[usize::from(parent.0)].children += 1;
        self.join(parent, left, child);
        self.join(parent, child, right);
    }

    /// Makes two children of `parent` neighbours; `NONE` stands for an end.
    fn join(&mut self, parent: Goal, left: Goal, right: Goal) {
        match some(left) {
            Some(left) => self.nodes[usize::from(left.0)].after = right,
            None => self.nodes[usize::from(parent.0)].first = right,
        }
        match some(right) {
            Some(right) => self.nodes[usize::from(right.0)].before = left,
            None => self.nodes[usize::from(parent.0)].last = left,
        }
    }

    /// Takes a goal out of its parent.
    pub(crate) fn unlink(&mut self, goal: Goal) {
        let node = self.nodes[usize::from(goal.0)];
        self.nodes[usize::from(node.parent.0)].children -= 1;
        self.join(node.parent, node.before, node.after);
    }

    /// Puts a goal in the position of another, which is taken out.
    pub(crate) fn replace(&mut self, old: Goal, new: Goal) {
        let node = self.nodes[usize::from(old.0)];
        self.unlink(old);
        self.link(node.parent, node.before, new, node.after);
    }

    /// Puts the children of an or-box in its position in the outer one.
    pub(crate) fn splice_children(&mut self, goal: Goal) {
        let node = self.nodes[usize::from(goal.0)];
        self.unlink(goal);
        if node.children == 0 {
            return;
        }
        let mut child = node.first;
        while let Some(inner) = some(child) {
            let inner = &mut self.nodes[usize::from(inner.0)];
            inner.parent = node.parent;
            child = inner.after;
        }
        self.nodes[usize::from(node.parent.0)].children += node.children;
        self.join(node.parent, node.before, node.first);
        self.join(node.parent, node.last, node.after);
    }

    /// Lets the `old` places from `at` become `new` places; places to the right
    /// move. The caller fills what is new.
    pub(crate) fn reshape(&mut self, at: usize, old: usize, new: usize) {
        let length = self.order.len();
        if new > old {
            self.order.resize(length + new - old, NONE);
        }
        self.order.copy_within(at + old..length, at + new);
        self.order.truncate(length + new - old);
    }
}
