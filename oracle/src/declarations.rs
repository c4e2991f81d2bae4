//! The productions of top-level declarations.

use crate::coverage::{asked, took, took_literal};
use crate::expressions::begins_literal;
use crate::kinds::{row, token};
use crate::parser::{Parser, Step};
use crate::types::{begins_type, Words};

impl Parser<'_> {
    /// decl = import_decl | ffi_decl | trait_decl | impl_decl | fn_decl
    ///      | struct_decl | enum_decl | const_decl ;
    pub fn declaration(&mut self, level: u32) -> Step {
        match self.kind() {
            token::DOLLAR => self.import_decl(level),
            token::AMPERSAND => self.ffi_decl(level),
            token::PERCENT => self.trait_or_impl_decl(level),
            token::AT => self.fn_decl(level),
            token::COLON => self.colon_decl(level),
            _ => {
                took("decl: none begins");
                Err(self.cannot_take())
            }
        }
    }

    /// import_decl = '$' STR IDENT? ;
    fn import_decl(&mut self, level: u32) -> Step {
        took("decl = import_decl");
        let index = self.open(row::IMPORT, level, self.sees(token::DOLLAR))?;
        self.take(token::DOLLAR)?;
        self.take(token::STR)?;
        if asked("import_decl: IDENT?", self.sees(token::IDENT)) {
            self.take(token::IDENT)?;
        }
        self.close(index)
    }

    /// ffi_decl = '&' STR '@' IDENT ffi_param* '→' type ;
    fn ffi_decl(&mut self, level: u32) -> Step {
        took("decl = ffi_decl");
        let index = self.open(row::FOREIGN, level, self.sees(token::AMPERSAND))?;
        self.take(token::AMPERSAND)?;
        self.take(token::STR)?;
        self.take(token::AT)?;
        self.take(token::IDENT)?;
        while asked("ffi_decl: another ffi_param", begins_type(self.kind())) {
            self.field(level + 1, "rule 5: ffi_param = type IDENT")?;
        }
        self.take(token::ARROW)?;
        self.type_expr(level + 1)?;
        self.close(index)
    }

    /// ffi_param = type IDENT? ;  field = type IDENT? ;
    /// Rule 5: one without a name is not followed by an IDENT. The text is for
    /// the coverage counts.
    fn field(&mut self, level: u32, with_name: &'static str) -> Step {
        let index = self.open(row::PARAMETER, level, begins_type(self.kind()))?;
        self.type_expr(level + 1)?;
        if asked(with_name, self.sees(token::IDENT)) {
            self.take(token::IDENT)?;
        }
        self.close(index)
    }

    /// param = type IDENT ;
    pub fn param(&mut self, level: u32) -> Step {
        took("param = type IDENT");
        let index = self.open(row::PARAMETER, level, begins_type(self.kind()))?;
        self.type_expr(level + 1)?;
        self.take(token::IDENT)?;
        self.close(index)
    }

    /// param* '→' type, for a row at `level`.
    pub fn params_and_result(&mut self, level: u32) -> Step {
        while asked("param*: another param", begins_type(self.kind())) {
            self.param(level + 1)?;
        }
        self.take(token::ARROW)?;
        self.type_expr(level + 1)
    }

    /// '@' IDENT type_params? param* '→' type, for a row at `level`.
    fn signature(&mut self, level: u32) -> Step {
        self.take(token::AT)?;
        self.take(token::IDENT)?;
        let optional = "fn_decl and fn_header: type_params?";
        self.optional_name_list(Words::Declared, level + 1, optional)?;
        self.params_and_result(level)
    }

    /// fn_decl = '@' IDENT type_params? param* '→' type block ;
    fn fn_decl(&mut self, level: u32) -> Step {
        took("decl = fn_decl");
        let index = self.open(row::FUNCTION, level, self.sees(token::AT))?;
        self.signature(level)?;
        self.block(level + 1)?;
        self.close(index)
    }

    /// ( fn_header | fn_decl ), told apart by the `{` of the block.
    /// fn_header = '@' IDENT type_params? param* '→' type ;
    fn trait_method(&mut self, level: u32) -> Step {
        let index = self.open(row::HEADER, level, self.sees(token::AT))?;
        self.signature(level)?;
        if asked(
            "trait_decl: fn_decl and no fn_header",
            self.sees(token::OPEN_BRACE),
        ) {
            self.change_kind(index, row::FUNCTION);
            self.block(level + 1)?;
        }
        self.close(index)
    }

    /// trait_decl = '%' IDENT type_params? '{' ( fn_header | fn_decl )* '}' ;
    /// impl_decl = '%' IDENT type_params? type '{' fn_decl* '}' ;
    fn trait_or_impl_decl(&mut self, level: u32) -> Step {
        let index = self.open(row::TRAIT, level, self.sees(token::PERCENT))?;
        self.take(token::PERCENT)?;
        self.take(token::IDENT)?;
        let optional = "trait_decl and impl_decl: type_params?";
        self.optional_name_list(Words::Declared, level + 1, optional)?;
        if self.sees(token::OPEN_BRACE) {
            took("decl = trait_decl");
            self.take(token::OPEN_BRACE)?;
            while asked("trait_decl: another method", !self.sees(token::CLOSE_BRACE)) {
                self.trait_method(level + 1)?;
            }
        } else {
            took("decl = impl_decl");
            self.change_kind(index, row::IMPL);
            self.type_expr(level + 1)?;
            self.take(token::OPEN_BRACE)?;
            while asked("impl_decl: another fn_decl", !self.sees(token::CLOSE_BRACE)) {
                self.fn_decl(level + 1)?;
            }
        }
        self.take(token::CLOSE_BRACE)?;
        self.close(index)
    }

    /// The three declarations that begin with `:`. An enum has `|` next, a
    /// struct an IDENT and then `{` or `[`; a constant has an IDENT after its
    /// type, so it has neither there.
    fn colon_decl(&mut self, level: u32) -> Step {
        let takes_list = self.settings().edition.struct_takes_list();
        if self.sees_all(&[token::COLON, token::BAR]) {
            self.enum_decl(level)
        } else if self.sees_all(&[token::COLON, token::IDENT, token::OPEN_BRACE])
            || (takes_list && self.sees_all(&[token::COLON, token::IDENT, token::OPEN_BRACKET]))
        {
            self.struct_decl(level)
        } else {
            self.const_decl(level)
        }
    }

    /// struct_decl = ':' IDENT type_params? '{' field* '}' ;
    fn struct_decl(&mut self, level: u32) -> Step {
        took("decl = struct_decl");
        let index = self.open(row::STRUCT, level, self.sees(token::COLON))?;
        self.take(token::COLON)?;
        self.take(token::IDENT)?;
        if self.settings().edition.struct_takes_list() {
            let optional = "struct_decl: type_params?";
            self.optional_name_list(Words::Declared, level + 1, optional)?;
        }
        self.take(token::OPEN_BRACE)?;
        while asked("struct_decl: another field", !self.sees(token::CLOSE_BRACE)) {
            self.field(level + 1, "rule 5: field = type IDENT")?;
        }
        self.take(token::CLOSE_BRACE)?;
        self.close(index)
    }

    /// enum_decl = ':' '|' IDENT '{' enum_variant* '}' ;
    fn enum_decl(&mut self, level: u32) -> Step {
        took("decl = enum_decl");
        let index = self.open(row::ENUM, level, self.sees(token::COLON))?;
        self.take(token::COLON)?;
        self.take(token::BAR)?;
        self.take(token::IDENT)?;
        self.take(token::OPEN_BRACE)?;
        while asked(
            "enum_decl: another enum_variant",
            !self.sees(token::CLOSE_BRACE),
        ) {
            self.enum_variant(level + 1)?;
        }
        self.take(token::CLOSE_BRACE)?;
        self.close(index)
    }

    /// enum_variant = IDENT type* ;
    /// Rule 4: the name is an IDENT not in N.
    fn enum_variant(&mut self, level: u32) -> Step {
        let names_variant = asked("rule 4: an IDENT begins a variant", self.sees(token::IDENT))
            && asked(
                "rule 4: a variant's IDENT is not in N",
                !self.sees_type_name(),
            );
        let index = self.open(row::VARIANT, level, names_variant)?;
        self.take(token::IDENT)?;
        while asked("enum_variant: another type", self.begins_enum_payload()) {
            self.type_expr(level + 1)?;
        }
        self.close(index)
    }

    /// Rule 4: "a payload begins with a keyword, a sigil, `T`, `F` or an IDENT
    /// in N."
    fn begins_enum_payload(&self) -> bool {
        if self.sees(token::IDENT) {
            asked(
                "rule 4: an IDENT after a variant is in N",
                self.sees_type_name(),
            )
        } else {
            asked(
                "rule 4: another token after a variant begins a type",
                begins_type(self.kind()),
            )
        }
    }

    /// const_decl = ':' '~'? type IDENT literal ;
    fn const_decl(&mut self, level: u32) -> Step {
        took("decl = const_decl");
        let index = self.open(row::CONSTANT, level, self.sees(token::COLON))?;
        self.take(token::COLON)?;
        if asked("const_decl: '~'?", self.sees(token::TILDE)) {
            self.take(token::TILDE)?;
        }
        self.type_expr(level + 1)?;
        self.take(token::IDENT)?;
        if asked("const_decl: a literal", begins_literal(self.kind())) {
            took_literal(self.kind());
        }
        self.leaf(row::LITERAL, level + 1, begins_literal(self.kind()))?;
        self.close(index)
    }
}
