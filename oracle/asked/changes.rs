/// In the test copy, `from` stands `times` times and becomes `to`.
struct Change {
    times: usize,
    from: &'static str,
    to: &'static str,
}

const fn change(times: usize, from: &'static str, to: &'static str) -> Change {
    Change { times, from, to }
}

const LEXER: &[Change] = &[
    // Only for speed: most words differ in their first character.
    change(
        1,
        "        let token_chars: Vec<char>",
        "        if !token.starts_with(self.peek_ch()) {\n            return Ok(false);\n        }\n        let token_chars: Vec<char>",
    ),
    change(
        1,
        "        let chars: Vec<char> = keyword",
        "        if !keyword.starts_with(self.peek_ch()) {\n            return Ok(false);\n        }\n        let chars: Vec<char> = keyword",
    ),
    // A number beyond 128 bits is out of every range.
    change(
        1,
        "int_val = (radix as i128) * int_val + digit.unwrap() as i128;",
        "int_val = int_val.saturating_mul(radix as i128).saturating_add(digit.unwrap() as i128);",
    ),
];

const PARSER: &[Change] = &[
    change(
        1,
        "    input: Lexer,\n}",
        "    input: Lexer,\n    depth: usize,\n    pub bare: Option<usize>,\n    counter: u64,\n}",
    ),
    change(1, "Parser { input }", "Parser { input, depth: 0, bare: None, counter: 0 }"),
    // M-101
    change(
        1,
        "if self.input.match_keyword(kw)? {\n                    self.skip_parens()?;\n",
        "if self.input.match_keyword(kw)? {\n                    self.skip_parens_of(kw)?;\n",
    ),
    // 15
    change(
        1,
        "let width = self.input.parse_int(10)? as u32;",
        "let width = self.ask_int(1, 8_388_608)? as u32;",
    ),
    change(
        1,
        "let index = self.input.parse_int(10)? as u32;",
        "let index = self.ask_int(0, u32::MAX as i128)? as u32;",
    ),
    change(
        2,
        "let len = self.input.parse_int(10)? as u64;",
        "let len = self.ask_int(0, u64::MAX as i128)? as u64;",
    ),
    change(
        2,
        "align = Some(self.input.parse_int(10)? as u64);",
        "align = Some(self.ask_int(0, u64::MAX as i128)? as u64);",
    ),
    change(
        2,
        "self.input.parse_int(10)?;",
        "self.ask_int(0, u64::MAX as i128)?;",
    ),
    // 16: the questions come with their own `parse_type` and `parse_value`, which call these.
    change(
        1,
        "fn parse_type(&mut self)",
        "fn parse_type_inside(&mut self)",
    ),
    change(
        1,
        "fn parse_value(&mut self)",
        "fn parse_value_inside(&mut self)",
    ),
    // The list of a call is as deep as where the type reader sees it first.
    change(
        1,
        "            let (params, varargs) = self.parse_type_list()?;\n            self.input.expect_token(\")\")?;\n            fn_ty =",
        "            self.depth += 1;\n            let (params, varargs) = self.parse_type_list()?;\n            self.depth -= 1;\n            self.input.expect_token(\")\")?;\n            fn_ty =",
    ),
    // 17
    change(
        1,
        "Ok(f) => Ok(Value::Float(f)),",
        "Ok(f) => self.ask_decimal(&s, f),",
    ),
    // M-100
    change(
        1,
        "\"atomicrmw\" => self.parse_atomicrmw(),",
        "\"atomicrmw\" => self.input.parse_error(LEFT_OUT),",
    ),
    // 18
    change(
        1,
        "            if c == '\"' {\n                self.input.parse_str('\"')?;\n",
        "            if c == '\"' {\n                self.ask_quoted()?;\n",
    ),
    // 19: types in structs and lists
    change(
        1,
        "fields.push(self.parse_type()?);",
        "fields.push(self.parse_type()?);\n                self.ask_children(fields.len())?;",
    ),
    change(
        1,
        "tys.push(self.parse_type()?);",
        "tys.push(self.parse_type()?);\n            self.ask_children(1 + tys.len())?;",
    ),
    // 19: typed values in constants
    change(
        1,
        "elems.push(self.parse_typed_val()?);",
        "elems.push(self.parse_counted_val(2 * elems.len())?);",
    ),
    change(
        1,
        "fields.push(self.parse_typed_val()?);",
        "fields.push(self.parse_counted_val(2 * fields.len())?);",
    ),
    change(
        1,
        "per-index `inrange`\n            indices.push(self.parse_typed_val()?);",
        "per-index `inrange`\n            indices.push(self.parse_counted_val(3 + 2 * indices.len())?);",
    ),
    // 19: instructions
    change(
        1,
        "continue;\n            }\n            indices.push(self.parse_typed_val()?);",
        "continue;\n            }\n            indices.push(self.parse_counted_val(2 + 2 * indices.len())?);",
    ),
    change(
        1,
        "            let val = self.parse_value()?;\n            self.input.expect_token(\",\")?;\n            let label = self.parse_local_name()?;\n",
        "            let val = self.parse_value()?;\n            self.ask_children(2 + 2 * incoming.len())?;\n            self.input.expect_token(\",\")?;\n            let label = self.parse_local_name()?;\n            self.ask_children(3 + 2 * incoming.len())?;\n",
    ),
    change(
        1,
        "let args = self.parse_arg_list()?;",
        "let args = self.parse_arg_list(2 + fn_ty.is_some() as usize)?;",
    ),
    change(
        1,
        "fn parse_arg_list(&mut self)",
        "fn parse_arg_list(&mut self, before: usize)",
    ),
    change(
        1,
        "            let ty = self.parse_type()?;\n            self.skip_attrs()?;\n            let val = self.parse_value()?;\n",
        "            let ty = self.parse_type()?;\n            self.ask_children(before + 2 * args.len() + 1)?;\n            self.skip_attrs()?;\n            let val = self.parse_value()?;\n            self.ask_children(before + 2 * args.len() + 2)?;\n",
    ),
    change(
        1,
        "cases.push((case, dest));",
        "cases.push((case, dest));\n            self.ask_children(3 + cases.len())?;",
    ),
    // 19: parameters and blocks
    change(
        1,
        "params.push(Param { ty, name });",
        "params.push(Param { ty, name });\n            self.ask_children(1 + params.len())?;",
    ),
    change(
        1,
        "let mut insts: Vec<Inst> = vec![];",
        "let mut insts: Vec<Inst> = vec![];\n        let mut over = None;",
    ),
    change(
        1,
        "insts.push(Inst { dest: Some(dest), kind });",
        "insts.push(Inst { dest: Some(dest), kind });\n                self.note_child(insts.len(), &mut over);",
    ),
    change(
        4,
        "insts.push(Inst { dest: None, kind });",
        "self.number_call(&kind)?;\n                    insts.push(Inst { dest: None, kind });\n                    self.note_child(insts.len(), &mut over);",
    ),
    change(
        4,
        "blocks.push(finish_block(",
        "self.ask_block(insts.len(), &mut over)?;\n                    blocks.push(finish_block(",
    ),
    // 26: parameters, destinations, labels, blocks; calls above
    change(
        1,
        "                Some(self.parse_local_name()?)\n            } else {\n                None\n",
        "                Some(self.parse_counted_name()?)\n            } else {\n                self.take_number()?;\n                None\n",
    ),
    change(
        1,
        "                let dest = self.parse_local_name()?;\n",
        "                let start = self.input.checkpoint();\n                self.number_block(start, label.is_some() || !insts.is_empty())?;\n                let dest = self.parse_counted_name()?;\n",
    ),
    change(
        1,
        "            let word = self.read_word()?;\n            if word.is_empty() {",
        "            let (start, quoted) = (self.input.checkpoint(), c == '\"');\n            let word = self.read_word()?;\n            if word.is_empty() {",
    ),
    change(
        1,
        "            if self.input.match_char(':') {\n                label = Some(word);\n                continue;\n            }\n",
        "            if self.input.peek_ch() == ':' {\n                self.ask_label(&word, quoted, &insts)?;\n                self.input.eat_ch();\n                label = Some(word);\n                continue;\n            }\n            self.number_block(start, label.is_some() || !insts.is_empty())?;\n",
    ),
];
