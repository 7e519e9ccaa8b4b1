//! The classes of sheets that are timed.

use super::bodies::{self, Plan};
use crate::draft::Made;
use crate::random::Random;

pub struct Class {
    pub name: &'static str,
    form: Form,
}

enum Form {
    Body(Plan),
    /// That many blocks, one in the other.
    Nest(usize),
}

impl Class {
    const fn body(name: &'static str, plan: Plan) -> Self {
        Self { name, form: Form::Body(plan) }
    }

    /// How many sheets of the class are timed: about as many items in all for
    /// each class, so that none fits the processor's memory much better.
    pub fn sheets(&self) -> u64 {
        let items = match self.form {
            Form::Body(plan) => plan.items,
            Form::Nest(levels) => 5 * levels,
        };
        (16_384 / items as u64).clamp(16, 256)
    }

    pub fn make(&self, random: &mut Random) -> Made {
        match self.form {
            Form::Body(plan) => bodies::body(random, plan),
            Form::Nest(levels) => bodies::nest(random, levels),
        }
    }
}

const TYPICAL: Plan = Plan { items: 100, locals: 30, uses: 100, depth: 4, blocks: 22, gotos: 0 };
const LARGE: Plan = Plan { items: 1024, locals: 300, uses: 1024, depth: 6, ..TYPICAL };

pub const CLASSES: [Class; 6] = [
    // Most function bodies are like that.
    Class::body("tiny", Plan { items: 10, locals: 3, uses: 9, depth: 1, ..TYPICAL }),
    Class::body("typical", TYPICAL),
    Class::body("large", LARGE),
    Class { name: "deep", form: Form::Nest(64) },
    Class::body("gotos", Plan { items: 512, locals: 60, uses: 400, gotos: 60, ..TYPICAL }),
    Class::body("one local", Plan { items: 512, locals: 1, uses: 1024, ..TYPICAL }),
];

/// The classes that are timed with scope sheets too.
pub const SCOPED: [&str; 4] = ["tiny", "typical", "large", "one local"];

const fn items(items: usize) -> Class {
    Class::body("items", Plan { items, uses: items, locals: 16, ..LARGE })
}

const fn locals(locals: usize) -> Class {
    Class::body("locals", Plan { locals, ..LARGE })
}

pub const GROWTH: [(&str, &[Class]); 2] = [
    ("Items", &[items(64), items(128), items(256), items(512), items(1024)]),
    ("Locals", &[locals(16), locals(32), locals(64), locals(128), locals(256)]),
];
