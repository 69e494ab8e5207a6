//! A plain lexer for the same tokens, and the race against the proved one.
//! Run `bench/lexer`, which builds and links both.

use std::hint::black_box;
use std::time::{Duration, Instant};

const LENGTH: usize = 16 * 1024 * 1024;
const ROUNDS: usize = 9;

#[derive(Clone, Copy, Debug, PartialEq, Eq)]
pub struct Place {
    pub file: u16,
    pub line: u32,
    pub col: u32,
}

#[derive(Clone, Copy, Debug, PartialEq, Eq)]
pub struct Token {
    pub kind: TokenKind,
    pub start: u32,
    pub end: u32,
    pub place: Place,
}

#[derive(Clone, Copy, Debug, PartialEq, Eq)]
pub enum Fault {
    BadByte(Place),
    BadNumber(Place),
    OpenComment(Place),
}

/// What a token is. The text of a name is the token's bytes.
#[derive(Clone, Copy, Debug, PartialEq, Eq)]
pub enum TokenKind {
    Name,
    /// A bit-vector type, by its width.
    BvType(u32),
    /// A number, by its value.
    Number(u128),
    /// A bit-vector literal, by its value and its width.
    BvLit(u128, u32),
    KwModule,
    KwType,
    KwVar,
    KwInput,
    KwOutput,
    KwConst,
    KwFunction,
    KwDefine,
    KwProcedure,
    KwReturns,
    KwRequires,
    KwEnsures,
    KwModifies,
    KwInstance,
    KwInit,
    KwNext,
    KwInvariant,
    KwAxiom,
    KwHyperinvariant,
    KwHyperaxiom,
    KwControl,
    KwBoolean,
    KwInteger,
    KwEnum,
    KwRecord,
    KwIf,
    KwElse,
    KwThen,
    KwCase,
    KwDefault,
    KwEsac,
    KwFor,
    KwIn,
    KwCall,
    KwSkip,
    KwAssert,
    KwAssume,
    KwHavoc,
    KwOld,
    KwTrue,
    KwFalse,
    KwForall,
    KwExists,
    KwWhile,
    /// `(`
    LeftParen,
    /// `)`
    RightParen,
    /// `{`
    LeftBrace,
    /// `}`
    RightBrace,
    /// `[`
    LeftBracket,
    /// `]`
    RightBracket,
    /// `,`
    Comma,
    /// `;`
    Semicolon,
    /// `:`
    Colon,
    /// `.`
    Dot,
    /// `'`
    Prime,
    /// `=`
    Assign,
    /// `==`
    Equal,
    /// `!=`
    NotEqual,
    /// `<==>`
    Iff,
    /// `==>`
    Implies,
    /// `&&`
    And,
    /// `||`
    Or,
    /// `!`
    Not,
    /// `<`
    Less,
    /// `<=`
    LessEqual,
    /// `>`
    Greater,
    /// `>=`
    GreaterEqual,
    /// `<_u`
    LessUnsigned,
    /// `<=_u`
    LessEqualUnsigned,
    /// `>_u`
    GreaterUnsigned,
    /// `>=_u`
    GreaterEqualUnsigned,
    /// `+`
    Plus,
    /// `-`
    Minus,
    /// `*`
    Star,
    /// `++`
    Concat,
    /// `&`
    Ampersand,
    /// `|`
    Bar,
    /// `^`
    Caret,
    /// `~`
    Tilde,
    /// `->`
    Arrow,
}

fn keyword(word: &[u8]) -> Option<TokenKind> {
    use TokenKind::*;
    Some(match word {
        b"module" => KwModule,
        b"type" => KwType,
        b"var" => KwVar,
        b"input" => KwInput,
        b"output" => KwOutput,
        b"const" => KwConst,
        b"function" => KwFunction,
        b"define" => KwDefine,
        b"procedure" => KwProcedure,
        b"returns" => KwReturns,
        b"requires" => KwRequires,
        b"ensures" => KwEnsures,
        b"modifies" => KwModifies,
        b"instance" => KwInstance,
        b"init" => KwInit,
        b"next" => KwNext,
        b"invariant" => KwInvariant,
        b"axiom" => KwAxiom,
        b"hyperinvariant" => KwHyperinvariant,
        b"hyperaxiom" => KwHyperaxiom,
        b"control" => KwControl,
        b"boolean" => KwBoolean,
        b"integer" => KwInteger,
        b"enum" => KwEnum,
        b"record" => KwRecord,
        b"if" => KwIf,
        b"else" => KwElse,
        b"then" => KwThen,
        b"case" => KwCase,
        b"default" => KwDefault,
        b"esac" => KwEsac,
        b"for" => KwFor,
        b"in" => KwIn,
        b"call" => KwCall,
        b"skip" => KwSkip,
        b"assert" => KwAssert,
        b"assume" => KwAssume,
        b"havoc" => KwHavoc,
        b"old" => KwOld,
        b"true" => KwTrue,
        b"false" => KwFalse,
        b"forall" => KwForall,
        b"exists" => KwExists,
        b"while" => KwWhile,
        _ => return None,
    })
}

pub struct Lexer<'a> {
    file: u16,
    text: &'a [u8],
    at: usize,
    line: u32,
    line_start: usize,
}

fn is_letter(c: u8) -> bool {
    c.is_ascii_alphabetic() || c == b'_'
}

fn is_word(c: u8) -> bool {
    c.is_ascii_alphanumeric() || c == b'_'
}

impl<'a> Lexer<'a> {
    pub fn new(file: u16, text: &'a [u8]) -> Lexer<'a> {
        Lexer { file, text, at: 0, line: 1, line_start: 0 }
    }

    fn peek(&self, ahead: usize) -> u8 {
        self.text.get(self.at + ahead).copied().unwrap_or(0)
    }

    fn place(&self) -> Place {
        Place { file: self.file, line: self.line, col: (self.at - self.line_start + 1) as u32 }
    }

    fn skip_gap(&mut self) -> Result<(), Fault> {
        while let Some(&c) = self.text.get(self.at) {
            match c {
                b' ' | b'\t' | b'\r' => self.at += 1,
                b'\n' => {
                    self.at += 1;
                    self.line += 1;
                    self.line_start = self.at;
                }
                b'/' if self.peek(1) == b'/' => {
                    while self.at < self.text.len() && self.text[self.at] != b'\n' {
                        self.at += 1;
                    }
                }
                b'/' if self.peek(1) == b'*' => self.skip_block()?,
                _ => break,
            }
        }
        Ok(())
    }

    fn skip_block(&mut self) -> Result<(), Fault> {
        let open = self.place();
        self.at += 2;
        while self.at + 1 < self.text.len() {
            if self.text[self.at] == b'*' && self.text[self.at + 1] == b'/' {
                self.at += 2;
                return Ok(());
            }
            if self.text[self.at] == b'\n' {
                self.line += 1;
                self.line_start = self.at + 1;
            }
            self.at += 1;
        }
        Err(Fault::OpenComment(open))
    }

    fn count(&self, from: usize, is_kind: impl Fn(u8) -> bool) -> usize {
        self.text[from..].iter().take_while(|c| is_kind(**c)).count()
    }

    pub fn next(&mut self) -> Result<Option<Token>, Fault> {
        self.skip_gap()?;
        let place = self.place();
        let start = self.at;
        let Some(&first) = self.text.get(start) else {
            return Ok(None);
        };
        let kind = if is_letter(first) {
            self.word(place)?
        } else if first.is_ascii_digit() {
            self.number(place)?
        } else {
            self.sign(place)?
        };
        Ok(Some(Token { kind, start: start as u32, end: self.at as u32, place }))
    }

    fn word(&mut self, place: Place) -> Result<TokenKind, Fault> {
        let start = self.at;
        self.at += self.count(start, is_word);
        let word = &self.text[start..self.at];
        if let Some(keyword) = keyword(word) {
            return Ok(keyword);
        }
        match word.strip_prefix(b"bv") {
            Some(digits) if !digits.is_empty() && digits.iter().all(u8::is_ascii_digit) => {
                let width = value(digits).and_then(|w| u32::try_from(w).ok());
                Ok(TokenKind::BvType(width.ok_or(Fault::BadNumber(place))?))
            }
            _ => Ok(TokenKind::Name),
        }
    }

    fn number(&mut self, place: Place) -> Result<TokenKind, Fault> {
        let start = self.at;
        self.at += self.count(start, |c| c.is_ascii_digit());
        let bad = Fault::BadNumber(place);
        let digits = value(&self.text[start..self.at]);
        if self.peek(0) == b'b' && self.peek(1) == b'v' && self.peek(2).is_ascii_digit() {
            let from = self.at + 2;
            self.at = from + self.count(from, |c| c.is_ascii_digit());
            let width = value(&self.text[from..self.at]).and_then(|w| u32::try_from(w).ok());
            return Ok(TokenKind::BvLit(digits.ok_or(bad)?, width.ok_or(bad)?));
        }
        if is_letter(self.peek(0)) {
            return Err(bad);
        }
        Ok(TokenKind::Number(digits.ok_or(bad)?))
    }

    fn unsigned(&self, from: usize) -> bool {
        self.peek(from) == b'_' && self.peek(from + 1) == b'u' && !is_word(self.peek(from + 2))
    }

    fn sign(&mut self, place: Place) -> Result<TokenKind, Fault> {
        use TokenKind::*;
        let (kind, length) = match (self.text[self.at], self.peek(1)) {
            (b'<', b'=') if self.peek(2) == b'=' && self.peek(3) == b'>' => (Iff, 4),
            (b'<', b'=') if self.unsigned(2) => (LessEqualUnsigned, 4),
            (b'<', b'=') => (LessEqual, 2),
            (b'<', _) if self.unsigned(1) => (LessUnsigned, 3),
            (b'<', _) => (Less, 1),
            (b'>', b'=') if self.unsigned(2) => (GreaterEqualUnsigned, 4),
            (b'>', b'=') => (GreaterEqual, 2),
            (b'>', _) if self.unsigned(1) => (GreaterUnsigned, 3),
            (b'>', _) => (Greater, 1),
            (b'=', b'=') if self.peek(2) == b'>' => (Implies, 3),
            (b'=', b'=') => (Equal, 2),
            (b'=', _) => (Assign, 1),
            (b'!', b'=') => (NotEqual, 2),
            (b'!', _) => (Not, 1),
            (b'&', b'&') => (And, 2),
            (b'&', _) => (Ampersand, 1),
            (b'|', b'|') => (Or, 2),
            (b'|', _) => (Bar, 1),
            (b'+', b'+') => (Concat, 2),
            (b'+', _) => (Plus, 1),
            (b'-', b'>') => (Arrow, 2),
            (b'-', _) => (Minus, 1),
            (b'(', _) => (LeftParen, 1),
            (b')', _) => (RightParen, 1),
            (b'{', _) => (LeftBrace, 1),
            (b'}', _) => (RightBrace, 1),
            (b'[', _) => (LeftBracket, 1),
            (b']', _) => (RightBracket, 1),
            (b',', _) => (Comma, 1),
            (b';', _) => (Semicolon, 1),
            (b':', _) => (Colon, 1),
            (b'.', _) => (Dot, 1),
            (b'\'', _) => (Prime, 1),
            (b'*', _) => (Star, 1),
            (b'^', _) => (Caret, 1),
            (b'~', _) => (Tilde, 1),
            _ => return Err(Fault::BadByte(place)),
        };
        self.at += length;
        Ok(kind)
    }
}

fn value(digits: &[u8]) -> Option<u128> {
    digits.iter().try_fold(0u128, |value, digit| {
        value.checked_mul(10)?.checked_add(u128::from(digit - b'0'))
    })
}

#[repr(C)]
#[derive(Clone, Copy, Debug, PartialEq, Eq)]
pub struct Summary {
    tokens: u64,
    digest: u64,
}

unsafe extern "C" {
    fn uc_lexer_summary(text: *const u8, length: usize) -> Summary;
}

fn proved(text: &[u8]) -> Summary {
    assert!(text.len() <= LENGTH);
    unsafe { uc_lexer_summary(text.as_ptr(), text.len()) }
}

fn plain(text: &[u8]) -> Summary {
    let mut lexer = Lexer::new(0, text);
    let (mut tokens, mut digest) = (0, 0);
    while let Ok(Some(token)) = lexer.next() {
        digest = mixed(digest, token);
        tokens += 1;
    }
    Summary { tokens, digest }
}

fn mixed(digest: u64, token: Token) -> u64 {
    let place = u64::from(token.place.line) << 32 | u64::from(token.place.col);
    let span = u64::from(token.start) << 32 | u64::from(token.end);
    black_box(token.kind);
    digest.wrapping_mul(31).wrapping_add(place ^ span)
}

/// A text like a model: declarations, statements, formulas and comments, with names of many lengths.
fn generated(length: usize) -> Vec<u8> {
    const NAMES: [&str; 12] = [
        "x", "acc", "count", "counter_next", "fetch_buffer", "valid", "pc", "regs", "is_ready", "i", "mem_address", "bv_value",
    ];
    let mut seed = 88172645463325252u64;
    let mut random = move |below: usize| {
        seed ^= seed << 13;
        seed ^= seed >> 7;
        seed ^= seed << 17;
        (seed % below as u64) as usize
    };
    let mut text = String::with_capacity(length + 512);
    while text.len() < length {
        let (a, b, c) = (NAMES[random(12)], NAMES[random(12)], NAMES[random(12)]);
        let (n, w) = (random(100_000), 1 + random(64));
        text += &match random(10) {
            0 => format!("  var {a}_{n}, {b} : bv{w};\n"),
            1 => format!("    if ({a} <= {n} && {b}[{n}] ==> {c}.{a}) {{ {a}' = {b} + {n}; }} else {{ {c}' = {c}; }}\n"),
            2 => format!("    // the {a} of {b} is kept while {c} is below {n}\n"),
            3 => format!("    {a}' = if {b} <_u {n}bv{w} then {c} ++ {a} else ~{b};\n"),
            4 => format!("  invariant {a}_{n} : forall_{b} || !({c} == {n}) && ({a} >= {b} * {n});\n"),
            5 => format!("  procedure step_{n}({a} : integer) returns ({b} : boolean)\n    requires {a} > {n};\n    modifies {c};\n  {{\n    havoc {c};\n    assert {a} != {b};\n  }}\n"),
            6 => format!("  /* {a}, {b} and {c}\n     stand for {n} * {w} */\n"),
            7 => format!("  define {a}_{n}({b} : [bv{w}]boolean) : boolean = {b}[{n}bv{w} -> true][{c}];\n"),
            8 => format!("    case {a} == {n} : {{ {b} = {c} - {n}; }} default : {{ skip; }} esac\n"),
            _ => format!("    call ({a}, {b}) = step_{n}({c}, {n}, -{n});\n"),
        };
    }
    text.truncate(length);
    text.into_bytes()
}

fn timed(lex: fn(&[u8]) -> Summary, text: &[u8]) -> (Duration, Summary) {
    let start = Instant::now();
    let summary = black_box(lex(black_box(text)));
    (start.elapsed(), summary)
}

fn main() {
    let text = generated(LENGTH);
    let mut best = [Duration::MAX; 2];
    for _ in 0..ROUNDS {
        let (ours, proved) = timed(proved, &text);
        let (theirs, plain) = timed(plain, &text);
        assert_eq!(proved, plain, "the two lexers read different tokens");
        best = [best[0].min(ours), best[1].min(theirs)];
    }
    let tokens = plain(&text).tokens;
    println!("{LENGTH} bytes, {tokens} tokens, best of {ROUNDS} rounds");
    println!("proved lexer {:.1} ms, plain lexer {:.1} ms", best[0].as_secs_f64() * 1e3, best[1].as_secs_f64() * 1e3);
    println!("ratio {:.2}", best[0].as_secs_f64() / best[1].as_secs_f64());
}
