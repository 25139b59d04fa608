
// Put behind the parser: what the changes call.

/// At most so many direct children (19), and so deep (16).
const CHILDREN: usize = 65_535;
pub const DEPTH: usize = 19;

/// M-100: `atomicrmw` is never compared with the Rust, so nothing is said of what stands behind the word.
pub const LEFT_OUT: &str = "left out for atomicrmw";

impl Parser
{
    /// 16: a type or value begins here.
    fn enter(&mut self) -> Result<(), ParseError>
    {
        self.input.eat_ws()?;
        if self.depth == DEPTH {
            return self.input.parse_error("question 16");
        }
        self.depth += 1;
        Ok(())
    }

    fn parse_type(&mut self) -> Result<Type, ParseError>
    {
        self.enter()?;
        let ty = self.parse_type_inside()?;
        self.depth -= 1;
        Ok(ty)
    }

    fn parse_value(&mut self) -> Result<Value, ParseError>
    {
        self.enter()?;
        let val = self.parse_value_inside()?;
        self.depth -= 1;
        Ok(val)
    }

    /// M-101: `dead_on_return` stands in both lists; bare where no `(` follows. `bare` keeps the
    /// first place where the Rust refuses it with 3.
    fn skip_parens_of(&mut self, kw: &str) -> Result<(), ParseError>
    {
        self.input.eat_ws()?;
        if FLAG_ATTRS.contains(&kw) && self.input.peek_ch() != '(' {
            self.bare.get_or_insert(self.input.place());
            return Ok(());
        }
        self.skip_parens()
    }

    /// 15: a number from low to high, asked behind its digits, at the first of them.
    fn ask_int(&mut self, low: i128, high: i128) -> Result<i128, ParseError>
    {
        let first = self.input.checkpoint();
        let n = self.input.parse_int(10)?;
        if n < low || high < n {
            self.input.restore(first);
            return self.input.parse_error("question 15");
        }
        Ok(n)
    }

    /// 17: a valid decimal, without its underscores.
    fn ask_decimal(&self, s: &str, f: f64) -> Result<Value, ParseError>
    {
        if supported(s) {
            Ok(Value::Float(f))
        } else {
            self.input.parse_error("question 17")
        }
    }

    /// 18.
    fn ask_quoted(&self) -> Result<(), ParseError>
    {
        self.input.parse_error("question 18")
    }

    /// 19: the n-th child has been read.
    fn ask_children(&self, n: usize) -> Result<(), ParseError>
    {
        if n > CHILDREN {
            return self.input.parse_error("question 19");
        }
        Ok(())
    }

    /// A typed value as two more children of a node that has `before`.
    fn parse_counted_val(&mut self, before: usize) -> Result<TypedVal, ParseError>
    {
        let ty = self.parse_type()?;
        self.ask_children(before + 1)?;
        let val = self.parse_value()?;
        self.ask_children(before + 2)?;
        Ok(TypedVal { ty, val })
    }

    /// A statement may belong to the tail, which has no node: its place is kept until the
    /// terminator shows that it does not.
    fn note_child(&self, n: usize, over: &mut Option<crate::lexer::Checkpoint>)
    {
        if n == CHILDREN + 1 {
            *over = Some(self.input.checkpoint());
        }
    }

    /// 19 of a block, when its terminator has been read.
    fn ask_block(&mut self, insts: usize, over: &mut Option<crate::lexer::Checkpoint>) -> Result<(), ParseError>
    {
        self.note_child(insts + 1, over);
        if let Some(place) = over.take() {
            self.input.restore(place);
            return self.input.parse_error("question 19");
        }
        Ok(())
    }
}

/// 26 (M-106): numbers are below this.
const NUMBERS: u64 = 1 << 32;

impl Parser
{
    /// 26: the next number, for what has no name.
    fn take_number(&mut self) -> Result<(), ParseError>
    {
        if self.counter >= NUMBERS {
            return self.input.parse_error("question 26");
        }
        self.counter += 1;
        Ok(())
    }

    /// 26: the name of a parameter, destination or label has just been read.
    fn ask_number(&mut self, name: &str, quoted: bool) -> Result<(), ParseError>
    {
        if quoted || !name.chars().all(|c| c.is_ascii_digit()) {
            return Ok(());
        }
        let digits = name.trim_start_matches('0');
        let number = match digits {
            "" => Some(0),
            digits if digits.len() <= 10 => digits.parse::<u64>().ok(),
            _ => None,
        };
        match number {
            Some(n) if self.counter <= n && n < NUMBERS => self.counter = n + 1,
            _ => return self.input.parse_error("question 26"),
        }
        Ok(())
    }

    fn parse_counted_name(&mut self) -> Result<String, ParseError>
    {
        let sigil = self.input.checkpoint();
        self.input.eat_ch();
        let quoted = self.input.peek_ch() == '"';
        self.input.restore(sigil);
        let name = self.parse_local_name()?;
        self.ask_number(&name, quoted)?;
        Ok(name)
    }

    /// 26: a label, before its `:`, behind an instruction or not.
    fn ask_label(&mut self, name: &str, quoted: bool, insts: &[Inst]) -> Result<(), ParseError>
    {
        if !insts.is_empty() {
            return self.input.parse_error("question 26");
        }
        self.ask_number(name, quoted)
    }

    /// 26: a statement begins there, in a block that has a label or another statement before it, or not.
    fn number_block(&mut self, start: crate::lexer::Checkpoint, entered: bool) -> Result<(), ParseError>
    {
        if entered {
            return Ok(());
        }
        let behind = self.input.checkpoint();
        self.input.restore(start);
        self.take_number()?;
        self.input.restore(behind);
        Ok(())
    }

    /// 26: an instruction without a destination has been read; a call that is not void takes a number.
    fn number_call(&mut self, kind: &InstKind) -> Result<(), ParseError>
    {
        match kind {
            InstKind::Call { ret_ty, .. } if *ret_ty != Type::Void => self.take_number(),
            _ => Ok(()),
        }
    }
}

/// Zero, or at most 15 digits without outer zeros, times ten to the -22 up to 22.
fn supported(s: &str) -> bool
{
    let s = s.trim_start_matches(['+', '-']);
    let (numeral, power) = s.split_once(['e', 'E']).unwrap_or((s, "0"));
    let behind = numeral.split_once('.').map_or(0, |(_, d)| d.len());
    let digits = numeral.replace('.', "");
    let digits = digits.trim_start_matches('0');
    let core = digits.trim_end_matches('0');
    if core.is_empty() {
        return true;
    }
    let power = match power.parse::<i64>() {
        Ok(n) if n.unsigned_abs() < 1 << 40 => n,
        _ => return false,
    };
    let power = power - behind as i64 + (digits.len() - core.len()) as i64;
    core.len() <= 15 && (-22..=22).contains(&power)
}
