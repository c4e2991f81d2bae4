//! Writes whole programs and their declarations.

use super::types::First;
use super::vocabulary::*;
use super::writer::{Writer, Written};
use crate::random::Random;

/// A valid program of about so many tokens, most often of one to three
/// declarations.
pub fn small_program(random: &mut Random, about_tokens: usize) -> Written {
    let mut writer = Writer::new(random);
    let (names, declared) = writer.choose_type_names();
    let others = 1 + writer.random.below(3);
    let mut kinds = vec![None; others];
    for name in declared {
        let place = writer.random.below(kinds.len() + 1);
        kinds.insert(place, Some(name));
    }
    let share = about_tokens / kinds.len();
    for kind in kinds {
        writer.allow(share);
        match kind {
            Some(name) => writer.type_declaration(name),
            None => writer.declaration(),
        }
    }
    Written {
        tokens: writer.tokens,
        names: names.join("\n"),
    }
}

/// The tokens of a larger valid program, declaration by declaration: some
/// types, and then functions and other declarations until `is_enough` says so
/// of a declaration's tokens.
pub fn large_program(random: &mut Random, mut is_enough: impl FnMut(&[Text]) -> bool) {
    let mut writer = Writer::new(random);
    writer.known = TYPE_NAMES[..5].to_vec();
    for name in &TYPE_NAMES[..5] {
        writer.tokens.clear();
        writer.allow(20);
        writer.type_declaration(name);
        if is_enough(&writer.tokens) {
            return;
        }
    }
    loop {
        writer.tokens.clear();
        writer.pointer_cast_end = usize::MAX;
        writer.allow(40);
        if writer.random.once_in(6) {
            writer.declaration();
        } else {
            writer.long_function();
        }
        if is_enough(&writer.tokens) {
            return;
        }
    }
}

impl Writer<'_> {
    /// Chooses the type names of the program: those of the name list, and
    /// those to be declared.
    fn choose_type_names(&mut self) -> (Vec<Text>, Vec<Text>) {
        let mut listed = Vec::new();
        let mut declared = Vec::new();
        for _ in 0..self.random.below(3) {
            let name = self.random.pick(&TYPE_NAMES);
            if self.known.contains(&name) {
                continue;
            }
            self.known.push(name);
            if self.random.once_in(3) {
                listed.push(name);
            } else {
                declared.push(name);
            }
        }
        (listed, declared)
    }

    /// A declaration that is not one of a type.
    fn declaration(&mut self) {
        match self.random.below(10) {
            0 => self.import(),
            1 => self.foreign(),
            2 => self.trait_declaration(),
            3 => self.impl_declaration(),
            4 | 5 => self.constant(),
            _ => self.function(true),
        }
    }

    fn import(&mut self) {
        self.put("$");
        self.string();
        if self.random.once_in(2) {
            let alias = self.any_name();
            self.put(alias);
        }
    }

    fn string(&mut self) {
        let text = self.random.pick(&STRINGS);
        self.put(text);
    }

    fn foreign(&mut self) {
        self.put("&");
        self.string();
        self.put("@");
        let name = self.any_name();
        self.put(name);
        self.fields(3);
        self.put("→");
        self.any_type();
    }

    /// Fields or foreign parameters. Rule 5: one without a name is not
    /// followed by an IDENT.
    fn fields(&mut self, most: usize) {
        let mut first = First::Any;
        for _ in 0..self.some(most) {
            self.type_from(first);
            if self.random.once_in(4) {
                first = First::NoName;
            } else {
                let name = self.any_name();
                self.put(name);
                first = First::Any;
            }
        }
    }

    /// param* with param = type IDENT ;
    pub fn parameters(&mut self) {
        for _ in 0..self.some(2) {
            self.any_type();
            let name = self.any_name();
            self.put(name);
        }
    }

    /// '@' IDENT type_params? param* '→' type
    fn signature(&mut self) {
        self.put("@");
        let name = self.any_name();
        self.put(name);
        self.list_once_in(5, false);
        self.parameters();
        self.put("→");
        self.any_type();
    }

    /// A function, or a header if it shall have no body.
    fn function(&mut self, with_body: bool) {
        self.signature();
        if with_body {
            let count = 1 + self.random.below(3);
            self.block_of(count);
        }
    }

    /// A function with a body of several statements, each of ordinary length.
    fn long_function(&mut self) {
        self.allow(10);
        self.signature();
        self.put("{");
        let mut after_complement = false;
        for _ in 0..3 + self.random.below(10) {
            let length = 3 + self.random.below(12);
            self.allow(length);
            after_complement = self.statement(after_complement);
        }
        self.put("}");
    }

    fn trait_declaration(&mut self) {
        self.put("%");
        let name = self.any_name();
        self.put(name);
        self.list_once_in(2, false);
        self.put("{");
        for _ in 0..self.some(2) {
            let with_body = self.random.once_in(2);
            self.function(with_body);
        }
        self.put("}");
    }

    fn impl_declaration(&mut self) {
        self.put("%");
        let name = self.any_name();
        self.put(name);
        self.list_once_in(4, false);
        self.any_type();
        self.put("{");
        for _ in 0..self.some(2) {
            self.function(true);
        }
        self.put("}");
    }

    /// A struct or an enum of this name.
    fn type_declaration(&mut self, name: Text) {
        self.put(":");
        if self.random.once_in(2) {
            self.put("|");
            self.put(name);
            self.put("{");
            for _ in 0..self.some(3) {
                let variant = self.unknown_name();
                self.put(variant);
                for _ in 0..self.some(2) {
                    self.type_from(First::Known);
                }
            }
        } else {
            self.put(name);
            self.list_once_in(3, false);
            self.put("{");
            self.fields(4);
        }
        self.put("}");
    }

    fn constant(&mut self) {
        self.put(":");
        if self.random.once_in(3) {
            self.put("~");
        }
        self.any_type();
        let name = self.any_name();
        self.put(name);
        self.literal();
    }
}
