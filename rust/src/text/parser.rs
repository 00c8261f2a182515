//! Parses a text. Lines end instructions and declarations; inside brackets they do not count. What
//! cannot be read is an error, behind which the next line or item is read all the same.

use super::error::{first_in_lines, Error};
use super::hints;
use super::lexer::{tokens, Span, Token};
use super::syntax::{
    operator, FileLine, Function, Item, Line, Name, Number, Operator, Part, Reference, Statement,
    Struct, Type, TypeForm, Typed, Value, CONVERSIONS, KEYWORDS,
};
use crate::builder::record;
use crate::file::Record;
use crate::module::MAX_TERMS;
use std::collections::HashSet;

struct Parser {
    tokens: Vec<(Token, Span)>,
    at: usize,
    errors: Vec<Error>,
    /// A line of code is read, where hints for signs of C fit.
    in_code: bool,
}

/// All items of a text, in order, and what cannot be read.
pub fn parse(text: &str) -> (Vec<Item>, Vec<Error>) {
    let (tokens, errors) = tokens(text);
    let mut parser = Parser { tokens, at: 0, errors, in_code: false };
    let mut items = Vec::new();
    loop {
        parser.skip_lines();
        if *parser.peek() == Token::End {
            return (items, first_in_lines(parser.errors));
        }
        match parser.item() {
            Ok(item) => items.push(item),
            Err(error) => {
                parser.errors.push(error);
                parser.skip_to_item();
            }
        }
    }
}

impl Parser {
    fn peek(&self) -> &Token {
        self.peek_behind(0)
    }

    /// The token so many behind the next one.
    fn peek_behind(&self, count: usize) -> &Token {
        &self.tokens[(self.at + count).min(self.tokens.len() - 1)].0
    }

    fn span(&self) -> Span {
        self.tokens[self.at].1
    }

    /// From a part to the token that was taken last.
    fn since(&self, first: Span) -> Span {
        first.to(self.tokens[self.at.max(1) - 1].1)
    }

    fn advance(&mut self) {
        if self.at + 1 < self.tokens.len() {
            self.at += 1;
        }
    }

    fn expected_error(&self, what: &str) -> Error {
        let error = Error::new(self.span(), format!("expected {what}, found {}", self.peek()));
        match self.peek() {
            Token::Sign(sign) if self.in_code => error.hinting(hints::of_sign(sign)),
            _ => error,
        }
    }

    fn expected<T>(&self, what: &str) -> Result<T, Error> {
        Err(self.expected_error(what))
    }

    fn skip_lines(&mut self) {
        while *self.peek() == Token::Line {
            self.advance();
        }
    }

    /// Goes to the end of the line, or to the brace that closes what encloses the line; gives how
    /// many braces the line leaves open.
    fn skip_line(&mut self) -> usize {
        let mut open = 0;
        loop {
            match self.peek() {
                Token::Line | Token::End => return open,
                Token::Sign("{") => open += 1,
                Token::Sign("}") if open == 0 => return open,
                Token::Sign("}") => open -= 1,
                _ => (),
            }
            self.advance();
        }
    }

    /// Goes to the next line that begins an item.
    fn skip_to_item(&mut self) {
        while *self.peek() != Token::End {
            let begins_line = self.at == 0 || self.tokens[self.at - 1].0 == Token::Line;
            if begins_line
                && (self.begins_item() || self.is_word("raw") || self.begins_c_function())
            {
                return;
            }
            self.advance();
        }
    }

    fn is_word(&self, text: &str) -> bool {
        matches!(self.peek(), Token::Word(word) if word == text)
    }

    /// An item begins here, and no line of code.
    fn begins_item(&self) -> bool {
        let structure = self.is_word("struct")
            && matches!(self.peek_behind(2), Token::Sign("{" | "(") | Token::Line);
        structure || ["type", "fn", "file"].into_iter().any(|word| self.is_word(word))
    }

    /// A function begins here as C writes it: words of a type, a name and an opening bracket.
    fn begins_c_function(&self) -> bool {
        let Token::Word(first) = self.peek() else {
            return false;
        };
        let rest = self.tokens[self.at + 1..].iter().map(|(token, _)| token);
        let mut rest = rest.skip_while(|token| matches!(token, Token::Word(_) | Token::Sign("*")));
        let named = rest.next() == Some(&Token::Sign("("));
        named && !hints::of_item(first).is_empty() && *self.peek_behind(1) != Token::Sign("(")
    }

    /// Takes a sign or keyword if it stands here.
    fn takes(&mut self, text: &str) -> bool {
        let here = match self.peek() {
            Token::Sign(sign) => *sign == text,
            Token::Word(word) => word == text,
            _ => false,
        };
        if here {
            self.advance();
        }
        here
    }

    fn expect(&mut self, text: &str) -> Result<(), Error> {
        if self.takes(text) {
            return Ok(());
        }
        self.expected(&format!("`{text}`"))
    }

    /// The same with a hint for what may stand there in its place.
    fn expect_or(&mut self, text: &str, hint: &str) -> Result<(), Error> {
        self.expect(text).map_err(|error| match self.peek() {
            Token::Sign(_) | Token::Word(_) if error.hint.is_empty() => error.hinting(hint),
            _ => error,
        })
    }

    /// A semicolon is an error that hides no others.
    fn skip_semicolon(&mut self) {
        if *self.peek() == Token::Sign(";") {
            let error = self.expected_error("the end of the line");
            self.errors.push(error.hinting(hints::of_sign(";")));
            self.advance();
        }
    }

    /// Goes to a brace that opens in a later line.
    fn skip_lines_to_brace(&mut self) {
        let lines = self.tokens[self.at..].iter();
        let lines = lines.take_while(|(token, _)| *token == Token::Line).count();
        if *self.peek_behind(lines) == Token::Sign("{") {
            self.at += lines;
        }
    }

    fn end_of_line(&mut self) -> Result<(), Error> {
        self.skip_semicolon();
        match self.peek() {
            Token::Line => self.advance(),
            Token::End | Token::Sign("}") => (),
            Token::Sign(sign) if self.in_code => {
                let error = self.expected_error("the end of the line");
                return Err(error.hinting(hints::behind(sign)));
            }
            _ => return self.expected("the end of the line"),
        }
        Ok(())
    }

    fn is_name(&self) -> bool {
        matches!(self.peek(), Token::Word(word) if !KEYWORDS.contains(&word.as_str()))
    }

    fn name(&mut self, what: &str) -> Result<Name, Error> {
        let span = self.span();
        match self.peek().clone() {
            Token::Word(word) if KEYWORDS.contains(&word.as_str()) => {
                Error::at(span, format!("expected {what}, found `{word}`, a word of the language"))
            }
            Token::Word(text) => {
                self.advance();
                Ok(Name { text, span })
            }
            _ => self.expected(what),
        }
    }

    fn number(&mut self, what: &str, limit: u32) -> Result<u32, Error> {
        match *self.peek() {
            Token::Number(number) if number <= limit => {
                self.advance();
                Ok(number)
            }
            _ if limit == u32::MAX => self.expected(what),
            _ => self.expected(&format!("{what} (at most {limit})")),
        }
    }

    fn reference(&mut self, what: &str) -> Result<Reference, Error> {
        let span = self.span();
        if let Token::Number(number) = *self.peek() {
            self.advance();
            return Ok(Reference::Number(number, span));
        }
        Ok(Reference::Named(self.name(&format!("{what} (a name or a number)"))?))
    }

    /// Elements between brackets, with commas; lines do not count.
    fn list<T>(
        &mut self,
        close: &str,
        element: impl Fn(&mut Parser) -> Result<T, Error>,
    ) -> Result<Vec<T>, Error> {
        let mut elements = Vec::new();
        loop {
            self.skip_lines();
            if self.takes(close) {
                return Ok(elements);
            }
            elements.push(element(self)?);
            self.skip_lines();
            if !self.takes(",") && !matches!(self.peek(), Token::Sign(sign) if *sign == close) {
                return self.expected(&format!("`,` or `{close}`"));
            }
        }
    }

    fn written_type(&mut self) -> Result<Type, Error> {
        self.nested_type(MAX_TERMS)
    }

    /// A type of at most so many levels, each of which is a term of the module.
    fn nested_type(&mut self, levels: usize) -> Result<Type, Error> {
        let first = self.span();
        if levels == 0 {
            return Error::at(first, format!("expected a type of at most {MAX_TERMS} levels"));
        }
        let form = if self.takes("*") {
            let target = self.nested_type(levels - 1)?;
            self.expect("in")?;
            TypeForm::Pointer(Box::new(target), self.reference("a region")?)
        } else if self.takes("[") {
            let element = self.nested_type(levels - 1)?;
            self.expect(";")?;
            let count = self.number("the array's count", u32::MAX)?;
            self.expect("]")?;
            TypeForm::Array(Box::new(element), count)
        } else if self.takes("i8") {
            TypeForm::Integer(1)
        } else if self.takes("i16") {
            TypeForm::Integer(2)
        } else if self.takes("i32") {
            TypeForm::Integer(4)
        } else if self.is_name() {
            let name = self.name("a type")?;
            let regions = if self.takes("(") {
                self.list(")", |parser| parser.reference("a region"))?
            } else {
                Vec::new()
            };
            TypeForm::Named(name.text, regions)
        } else {
            return self.expected("a type: i8, i16, i32, `*T in r`, `[T; n]` or a name");
        };
        Ok(Type { form, span: self.since(first) })
    }

    fn type_of_name(&mut self) -> Result<Type, Error> {
        if !self.takes(":") {
            return Err(self.expected_error("`:`").hinting(hints::TYPED));
        }
        self.written_type()
    }

    /// A name before its type. C has the type first.
    fn typed_name(&mut self, what: &str) -> Result<Name, Error> {
        self.name(what).map_err(|error| match (self.peek(), self.peek_behind(1)) {
            (Token::Word(_), Token::Word(_) | Token::Sign("*")) => error.hinting(hints::TYPED),
            _ => error,
        })
    }

    fn typed(&mut self, what: &str) -> Result<Typed, Error> {
        let name = self.typed_name(what)?;
        Ok(Typed { name, written: self.type_of_name()? })
    }

    /// Names with types between brackets. One that cannot be read is an error and has no known type
    /// if its name is seen: before a colon or a type, or last, as C writes it.
    fn typed_list(&mut self, close: &str, what: &str) -> Result<Vec<Typed>, Error> {
        self.list(close, |parser| {
            let first = parser.at;
            parser.typed(what).or_else(|error| {
                let ends = |token: &Token| {
                    let sign = matches!(token, Token::Sign("," | ")" | "]" | "{"));
                    sign || matches!(token, Token::Line | Token::End)
                };
                while !ends(parser.peek()) {
                    parser.advance();
                }
                let written = &parser.tokens[first..parser.at];
                let named = match written {
                    [name, (Token::Sign(":"), _), ..] => name,
                    [name, .., (Token::Word(last), _)] if hints::is_type(last) => name,
                    [_, .., name] => name,
                    _ => return Err(error),
                };
                let (Token::Word(text), span) = named.clone() else {
                    return Err(error);
                };
                parser.errors.push(error);
                let written = Type { form: TypeForm::Unknown, span };
                Ok(Typed { name: Name { text, span }, written })
            })
        })
    }

    fn item(&mut self) -> Result<Item, Error> {
        let first = self.span();
        if self.takes("type") {
            let name = self.name("the type's name")?;
            let read = self.type_line();
            Ok(self.known(name, read, |name, written| Item::Type { name, written }))
        } else if self.takes("struct") {
            self.structure()
        } else if self.takes("fn") {
            self.function()
        } else if self.takes("raw") {
            let record = self.raw()?;
            let span = self.since(first);
            self.end_of_line()?;
            Ok(Item::Raw(record, span))
        } else if self.takes("file") {
            let line = self.file_line()?;
            let span = self.since(first);
            self.end_of_line()?;
            Ok(Item::File(line, span))
        } else if self.begins_c_function() {
            let error = self.no_item();
            self.errors.push(error);
            while *self.peek_behind(1) != Token::Sign("(") {
                self.advance();
            }
            self.function()
        } else {
            Err(self.no_item())
        }
    }

    fn no_item(&self) -> Error {
        let error = self.expected_error("`type`, `struct`, `fn`, `raw` or `file`");
        match self.peek() {
            Token::Word(word) => error.hinting(hints::of_item(word)),
            _ => error,
        }
    }

    /// The item of a name, if the rest of it could be read.
    fn known<T>(
        &mut self,
        name: Name,
        read: Result<T, Error>,
        item: impl Fn(Name, T) -> Item,
    ) -> Item {
        match read {
            Ok(rest) => item(name, rest),
            Err(error) => {
                self.errors.push(error);
                self.skip_to_item();
                Item::Unknown(name)
            }
        }
    }

    fn type_line(&mut self) -> Result<Type, Error> {
        self.expect("=")?;
        let written = self.written_type()?;
        self.end_of_line()?;
        Ok(written)
    }

    fn structure(&mut self) -> Result<Item, Error> {
        let name = self.name("the struct's name")?;
        let read = self.struct_regions().map(|regions| (regions, self.fields()));
        Ok(self.known(name, read, |name, (regions, fields)| match fields {
            Some(fields) => Item::Struct(Struct { name, regions, fields }),
            None => Item::Unknown(name),
        }))
    }

    fn struct_regions(&mut self) -> Result<Vec<Name>, Error> {
        let regions = if self.takes("(") {
            self.list(")", |parser| parser.name("a region's name"))?
        } else {
            Vec::new()
        };
        self.skip_lines_to_brace();
        self.expect("{")?;
        Ok(regions)
    }

    /// The fields up to the closing brace; none if one of them cannot be read.
    fn fields(&mut self) -> Option<Vec<Typed>> {
        let mut fields = Some(Vec::new());
        loop {
            self.skip_lines();
            if self.takes("}") {
                self.skip_semicolon();
                return fields;
            }
            if *self.peek() == Token::End || self.begins_item() {
                self.errors.push(self.expected_error("a field's name or `}`"));
                return None;
            }
            match (self.field(), &mut fields) {
                (Ok(field), Some(fields)) => fields.push(field),
                (Ok(_), None) => (),
                (Err(error), _) => {
                    self.errors.push(error);
                    self.skip_line();
                    fields = None;
                }
            }
        }
    }

    fn field(&mut self) -> Result<Typed, Error> {
        let field = self.typed("a field's name or `}`")?;
        if !self.takes(",") {
            self.end_of_line()?;
        }
        Ok(field)
    }

    fn function(&mut self) -> Result<Item, Error> {
        let name = self.name("the function's name")?;
        let head = self.head();
        let known = head.is_ok();
        let (regions, registers, return_type) = match head {
            Ok(head) => head,
            Err(error) => {
                self.errors.push(error);
                self.skip_line_up_to_brace();
                self.skip_lines_to_brace();
                if !self.takes("{") {
                    self.skip_to_item();
                    return Ok(Item::UnknownFunction(name));
                }
                (Vec::new(), Vec::new(), Type { form: TypeForm::Unknown, span: name.span })
            }
        };
        let mut function = Function {
            name,
            region_parameters: regions.len(),
            regions,
            parameters: registers.len(),
            registers,
            return_type,
            code: Vec::new(),
            end: self.span(),
        };
        self.body(&mut function);
        Ok(match known {
            true => Item::Function(function),
            false => Item::UnknownFunction(function.name),
        })
    }

    /// Region parameters, parameters and result, up to the opening brace.
    fn head(&mut self) -> Result<(Vec<Typed>, Vec<Typed>, Type), Error> {
        let regions = if self.takes("[") {
            self.typed_list("]", "a region parameter's name")?
        } else {
            Vec::new()
        };
        self.expect("(")?;
        if self.is_word("void") && *self.peek_behind(1) == Token::Sign(")") {
            self.errors.push(self.expected_error("a parameter's name or `)`").hinting(hints::VOID));
            self.advance();
        }
        let registers = self.typed_list(")", "a parameter's name")?;
        let span = self.span();
        // Behind all parameters stands a result, or nothing as in C.
        let whole = matches!(self.peek(), Token::Sign("->" | "{" | ";") | Token::Line | Token::End);
        let return_type = self.result().or_else(|error| {
            if !whole {
                return Err(error);
            }
            self.errors.push(error);
            self.skip_line_up_to_brace();
            Ok(Type { form: TypeForm::Unknown, span })
        })?;
        self.skip_lines_to_brace();
        self.expect("{")?;
        Ok((regions, registers, return_type))
    }

    fn result(&mut self) -> Result<Type, Error> {
        if !self.takes("->") {
            return Err(self.expected_error("`->`").hinting(hints::RESULT));
        }
        self.written_type()
    }

    fn skip_line_up_to_brace(&mut self) {
        while !matches!(self.peek(), Token::Line | Token::End | Token::Sign("{")) {
            self.advance();
        }
    }

    /// The lines up to the closing brace. Registers that are declared as in C have no known type.
    fn body(&mut self, function: &mut Function) {
        let from_c = self.lines(function);
        let known = function.registers.iter().map(|one| one.name.text.clone());
        let mut known: HashSet<String> = known.collect();
        let new = from_c.into_iter().filter(|one| known.insert(one.name.text.clone()));
        function.registers.extend(new);
    }

    /// The same; gives the registers that are declared as in C. Braces that lines leave open which
    /// cannot be read are closed before the last one.
    fn lines(&mut self, function: &mut Function) -> Vec<Typed> {
        let mut from_c = Vec::new();
        let mut open = 0;
        loop {
            self.skip_lines();
            function.end = self.span();
            let first = self.at;
            if self.takes("}") {
                if open == 0 {
                    self.skip_semicolon();
                    return from_c;
                }
                open += self.skip_line();
                open -= 1;
            } else if *self.peek() == Token::End || self.begins_item() {
                self.errors.push(self.expected_error("`}` at the end of the function"));
                return from_c;
            } else if let Err(error) = self.body_line(function) {
                self.errors.push(error);
                from_c.extend(self.declared_as_in_c(first));
                function.code.push(Line::Unknown);
                open += self.skip_line();
            }
        }
    }

    /// The register of a line that declares it as C does: words of a type before a name.
    fn declared_as_in_c(&self, first: usize) -> Option<Typed> {
        let line = self.tokens[first..].iter();
        let line = line.skip(usize::from(self.tokens[first].0 == Token::Word("reg".to_string())));
        let words =
            line.take_while(|(token, _)| matches!(token, Token::Word(_) | Token::Sign("*")));
        let words: Vec<&(Token, Span)> = words.collect();
        let [(Token::Word(first), _), .., (Token::Word(text), span)] = words[..] else {
            return None;
        };
        (hints::is_type(first) && !KEYWORDS.contains(&text.as_str())).then(|| Typed {
            name: Name { text: text.clone(), span: *span },
            written: Type { form: TypeForm::Unknown, span: *span },
        })
    }

    fn body_line(&mut self, function: &mut Function) -> Result<(), Error> {
        if self.takes("region") {
            let name = self.typed_name("the region's name")?;
            self.declare(vec![name], &mut function.regions)?;
            return self.end_of_line();
        }
        if self.takes("reg") {
            let mut names = vec![self.typed_name("the register's name")?];
            while self.takes(",") {
                names.push(self.typed_name("a register's name")?);
            }
            self.declare(names, &mut function.registers)?;
            return self.end_of_line();
        }
        self.in_code = true;
        let line = self.line();
        self.in_code = false;
        function.code.push(line?);
        Ok(())
    }

    /// Names of one type, which are declared also where the type cannot be read.
    fn declare(&mut self, names: Vec<Name>, declared: &mut Vec<Typed>) -> Result<(), Error> {
        let read = self.type_of_name();
        for name in names {
            let unknown = Type { form: TypeForm::Unknown, span: name.span };
            let written = read.clone().unwrap_or(unknown);
            declared.push(Typed { name, written });
        }
        read.map(|_| ())
    }

    fn line(&mut self) -> Result<Line, Error> {
        let first = self.span();
        if self.takes("raw") {
            let record = self.raw()?;
            let span = self.since(first);
            self.end_of_line()?;
            return Ok(Line::Raw(record, span));
        }
        if self.is_name() && *self.peek_behind(1) == Token::Sign(":") {
            let label = self.name("a label")?;
            self.advance();
            return Ok(Line::Label(label));
        }
        let statement = self.statement()?;
        let span = self.since(first);
        self.end_of_line()?;
        Ok(Line::Instruction(statement, span))
    }

    fn register(&mut self) -> Result<Name, Error> {
        self.name("a register")
    }

    /// A number with its minus, if one stands here.
    fn signed_number(&mut self) -> Result<Option<Number>, Error> {
        let first = self.span();
        let negative = self.takes("-");
        if !negative && !matches!(self.peek(), Token::Number(_)) {
            return Ok(None);
        }
        let value = self.number("a number", u32::MAX).map_err(|error| match self.peek() {
            Token::Word(_) => error.hinting(hints::NEGATIVE),
            _ => error,
        })?;
        Ok(Some(Number { value, negative, span: self.since(first) }))
    }

    fn value(&mut self) -> Result<Value, Error> {
        Ok(match self.signed_number()? {
            Some(number) => Value::Number(number),
            None => Value::Register(self.name("a register or a number")?),
        })
    }

    fn statement(&mut self) -> Result<Statement, Error> {
        if self.takes("*") {
            let a = self.register()?;
            self.expect_or("=", hints::STORE)?;
            return Ok(Statement::Store { a, value: self.value()? });
        }
        if self.takes("free") {
            return Ok(plain(28, Some(self.register()?), None, None, 0));
        }
        if self.takes("output") {
            let value = self.value().map_err(|error| match self.peek() {
                Token::Sign("(") => error.hinting(hints::OUTPUT_FORM),
                _ => error,
            });
            return Ok(Statement::Output { value: value? });
        }
        if self.takes("return") {
            let value = self.value().map_err(|error| match self.peek() {
                Token::Line | Token::Sign(";" | "}") => error.hinting(hints::RESULT),
                _ => error,
            });
            return Ok(Statement::Return { value: value? });
        }
        if self.takes("goto") {
            return Ok(Statement::Jump { target: self.reference("a label")? });
        }
        if self.takes("if") {
            return self.branch();
        }
        if !self.is_name() {
            let error = self.expected_error("an instruction, a label, `region`, `reg` or `}`");
            return Err(match self.peek() {
                Token::Word(word) => error.hinting(hints::of_line(word)),
                _ => error,
            });
        }
        let a = self.register()?;
        if !self.takes("=") {
            return Err(self.no_value(&a));
        }
        self.value_of(a)
    }

    /// A line that begins with a name and sets nothing.
    fn no_value(&self, first: &Name) -> Error {
        let hint = hints::of_line(&first.text);
        if !hint.is_empty() {
            let message = format!("expected an instruction, found `{}`", first.text);
            return Error::new(first.span, message).hinting(hint);
        }
        let error = self.expected_error("`=`");
        match self.peek() {
            Token::Sign("(") => error.hinting(hints::CALL),
            Token::Sign("." | "[" | "->") => error.hinting(hints::STORE),
            Token::Sign(sign) if operator(sign).is_some_and(Operator::compares) => {
                error.hinting(hints::COMPARISON)
            }
            _ => error,
        }
    }

    /// What follows `if`.
    fn branch(&mut self) -> Result<Statement, Error> {
        let left = self.value().map_err(|error| match self.peek() {
            Token::Sign("(") => error.hinting(hints::CONDITION),
            _ => error,
        })?;
        let sign = self.at;
        let compared = match self.operator() {
            Some(operator) if !operator.compares() => {
                self.at = sign;
                let error = self.expected_error("a comparison or `goto`");
                return Err(error.hinting(hints::behind("")));
            }
            Some(operator) => Some((operator, self.value()?)),
            None => None,
        };
        if *self.peek() == Token::Sign("=") {
            return Err(self.expected_error("a comparison or `goto`").hinting(hints::EQUAL));
        }
        self.expect("goto")?;
        let target = self.reference("a label")?;
        Ok(match compared {
            Some((operator, right)) => Statement::Compare { left, operator, right, target },
            None => Statement::Branch { value: left, target },
        })
    }

    /// The right side of an instruction that sets register a.
    fn value_of(&mut self, a: Name) -> Result<Statement, Error> {
        if let Some(number) = self.signed_number()? {
            return match self.operator() {
                Some(operator) => self.operation(a, Value::Number(number), operator),
                None => Ok(Statement::Constant { a, number }),
            };
        }
        if self.takes("*") {
            let pointer = self.register()?;
            if matches!(self.peek(), Token::Sign("." | "[" | "->")) {
                return Err(self
                    .expected_error("the end of the line")
                    .hinting(hints::of_sign("->")));
            }
            return Ok(plain(25, Some(a), Some(pointer), None, 0));
        }
        if self.takes("new") {
            if matches!(self.peek(), Token::Word(_) | Token::Sign("(" | "*")) {
                return Err(self.expected_error("the end of the line").hinting(hints::NEW));
            }
            return Ok(plain(27, Some(a), None, None, 0));
        }
        if self.takes("field") {
            let b = self.register()?;
            let position = self.number("the position of a primitive", u32::MAX)?;
            return Ok(plain(23, Some(a), Some(b), None, position));
        }
        if self.takes("form") {
            self.expect("[")?;
            let place = self.value()?;
            self.expect_or("]", hints::behind(""))?;
            return Ok(Statement::Form { a, place });
        }
        if self.takes("check") {
            return Ok(Statement::Check { a, value: self.value()? });
        }
        for (word, kind) in CONVERSIONS {
            if self.takes(word) {
                return Ok(plain(kind, Some(a), Some(self.register()?), None, 0));
            }
        }
        if !self.is_name() {
            let error =
                self.expected_error("a value: a register, a number, `*`, `new`, `form`, ..");
            return Err(match (self.peek(), self.peek_behind(1)) {
                (Token::Sign("("), Token::Word(word)) if hints::is_type(word) => {
                    error.hinting(hints::WIDTHS)
                }
                (Token::Sign("("), _) => error.hinting(hints::behind("")),
                _ => error,
            });
        }
        let b = self.name("a register or a function")?;
        self.after_name(a, b)
    }

    /// What follows `a = b`: nothing, an operation, a path, an index or a call's lists.
    fn after_name(&mut self, a: Name, b: Name) -> Result<Statement, Error> {
        if let Some(operator) = self.operator() {
            return self.operation(a, Value::Register(b), operator);
        }
        match *self.peek() {
            Token::Sign("(") => self.call(a, b, Vec::new()),
            Token::Sign(".") => self.path(a, b),
            Token::Sign("[") if self.is_call() => self.regions_and_call(a, b),
            Token::Sign("[") if matches!(self.peek_behind(1), Token::Number(_)) => self.path(a, b),
            Token::Sign("[") => {
                self.advance();
                let c = self.name("a register or an element's number")?;
                self.expect_or("]", hints::behind(""))?;
                Ok(plain(24, Some(a), Some(b), Some(c), 0))
            }
            Token::Sign(sign) if sign != "}" && sign != ";" => {
                self.expected("an operation, a path, an index, a call or the end of the line")
            }
            _ => Ok(plain(17, Some(a), Some(b), None, 0)),
        }
    }

    /// A list in square brackets and then an opening bracket: regions of a call.
    fn is_call(&self) -> bool {
        let tokens = self.tokens[self.at..].windows(2).map(|two| [&two[0].0, &two[1].0]);
        // A list goes on behind a line's end where a comma or its bracket stands before it.
        let ends = |two: &[&Token; 2]| match two {
            [Token::Sign("]"), _] => true,
            [Token::Sign("," | "["), Token::Line] => false,
            [Token::Line, _] => false,
            [_, Token::Line] => true,
            _ => false,
        };
        let mut closed = tokens.skip_while(|two| !ends(two));
        matches!(closed.next(), Some([Token::Sign("]"), Token::Sign("(")]))
    }

    fn regions_and_call(&mut self, a: Name, function: Name) -> Result<Statement, Error> {
        self.advance();
        let regions = self.list("]", |parser| parser.reference("a region"))?;
        self.call(a, function, regions)
    }

    fn call(
        &mut self,
        a: Name,
        function: Name,
        regions: Vec<Reference>,
    ) -> Result<Statement, Error> {
        self.expect("(")?;
        let arguments = self.list(")", Parser::value)?;
        Ok(Statement::Call { a, function, regions, arguments })
    }

    fn path(&mut self, a: Name, b: Name) -> Result<Statement, Error> {
        let mut path = Vec::new();
        loop {
            let span = self.span();
            if self.takes(".") {
                path.push(Part::Field(self.name("a field")?));
            } else if self.takes("[") {
                let index = self.number("an element's number", u32::MAX)?;
                self.expect("]")?;
                path.push(Part::Element(index, self.since(span)));
            } else {
                return Ok(Statement::Path { a, b, path });
            }
        }
    }

    /// An operator with its word, if one stands here.
    fn operator(&mut self) -> Option<Operator> {
        let Token::Sign(sign) = *self.peek() else {
            return None;
        };
        let alone = operator(sign)?;
        self.advance();
        for word in ["nearest", "signed"] {
            if let (true, Some(with_word)) =
                (self.is_word(word), operator(&format!("{sign} {word}")))
            {
                self.advance();
                return Some(with_word);
            }
        }
        Some(alone)
    }

    fn operation(&mut self, a: Name, left: Value, operator: Operator) -> Result<Statement, Error> {
        Ok(Statement::Operation { a, left, operator, right: self.value()? })
    }

    /// Five numbers (kind, a, b, c, d) or the eight bytes.
    fn raw(&mut self) -> Result<Record, Error> {
        let mut numbers = Vec::new();
        let first = self.span();
        while let Token::Number(number) = *self.peek() {
            numbers.push(number);
            self.advance();
            self.takes(",");
        }
        let bytes: Option<Vec<u8>> =
            numbers.iter().map(|&number| u8::try_from(number).ok()).collect();
        match (bytes, &numbers[..]) {
            (Some(bytes), [_, _, _, _, _, _, _, _]) => {
                Ok(Record(bytes.try_into().expect("eight bytes")))
            }
            (_, &[kind @ ..=255, a @ ..=255, b @ ..=255, c @ ..=255, d]) => {
                Ok(record(kind as u8, a as u8, b as u8, c as u8, d))
            }
            _ => Error::at(
                self.since(first),
                "expected a record: five numbers (kind, a, b, c below 256, and d) or eight bytes",
            ),
        }
    }

    fn file_line(&mut self) -> Result<FileLine, Error> {
        let valued = |parser: &mut Parser, what: &str, limit: u32| {
            parser.expect("=")?;
            parser.number(what, limit)
        };
        if self.takes("blocks") {
            return Ok(FileLine::Blocks(valued(self, "a number of blocks", 65_535)?));
        }
        if self.takes("length") {
            return Ok(FileLine::Length(valued(self, "a number of bytes", 1 << 25)?));
        }
        if self.takes("byte") {
            let at = self.number("a byte's offset in the file", 1 << 25)?;
            return Ok(FileLine::Byte { at, value: valued(self, "a byte", 255)? });
        }
        if self.takes("check") {
            let block = self.number("a block's number", 65_535)?;
            return Ok(FileLine::Check { block, value: valued(self, "the check", u32::MAX)? });
        }
        self.expected("`blocks`, `byte`, `check` or `length`")
    }
}

fn plain(kind: u8, a: Option<Name>, b: Option<Name>, c: Option<Name>, d: u32) -> Statement {
    Statement::Plain { kind, a, b, c, d }
}
