//! Each call, on a small grammar: values by hand.
use sulderko::{Array, Error, Fault, Outcome};

const GRAMMAR: &[u8] = b"%token NUM\n%%\nlist : | list NUM ';' ;\n";

#[test]
fn a_sentence_is_accepted_with_its_steps() {
    let verdict = sulderko::judge(GRAMMAR, b"NUM ';' NUM ';'").unwrap();
    assert_eq!(verdict.outcome, Outcome::Accepted { steps: 8 });
    assert!(verdict.exact);
}

#[test]
fn a_list_that_is_none_is_rejected_at_its_token() {
    let verdict = sulderko::judge(GRAMMAR, b"NUM NUM").unwrap();
    assert_eq!(verdict.outcome, Outcome::Rejected { token: 2 });
}

#[test]
fn a_session_replies_to_each_line() {
    let replies = sulderko::session(GRAMMAR, b"NUM ';'", b"step\nstep\nback 1\n").unwrap();
    assert_eq!(replies, b"1 reduce 1\n2 shift NUM\n1 undo shift NUM\n");
}

#[test]
fn a_long_reply_comes_whole() {
    let commands = b"show\n".repeat(1_000);
    let replies = sulderko::session(GRAMMAR, b"NUM ';'", &commands).unwrap();
    let once = sulderko::session(GRAMMAR, b"NUM ';'", b"show\n").unwrap();
    assert_eq!(replies, once.repeat(1_000));
}

#[test]
fn tokens_have_the_numbers_of_the_table() {
    let (table, conflicts) = sulderko::table(GRAMMAR).unwrap();
    assert!(table.starts_with(b"table 2\n"));
    assert_eq!((conflicts.shift_reduce, conflicts.reduce_reduce), (0, 0));
    let numbers = sulderko::tokens(GRAMMAR, b"NUM ';'").unwrap();
    let text = String::from_utf8(table).unwrap();
    let name = |number: usize| {
        let front = format!("{number} t ");
        let line = text.lines().find(|line| line.starts_with(&front)).unwrap();
        line.rsplit(' ').next().unwrap().to_string()
    };
    assert_eq!([name(numbers[0]), name(numbers[1])], ["NUM", "';'"]);
}

#[test]
fn the_arrays_of_a_parser_have_the_rules() {
    let (lengths, sizes) = sulderko::code(GRAMMAR, Array::Len).unwrap();
    assert_eq!(lengths, [2, 0, 3]);
    assert_eq!((sizes.rules, sizes.tokens), (3, 4));
    let (rows, _) = sulderko::code(GRAMMAR, Array::Row).unwrap();
    assert_eq!(rows.len(), sizes.states);
}

#[test]
fn a_report_counts_conflicts() {
    let (report, conflicts) = sulderko::report(b"%% e : e '+' e | 'n' ;").unwrap();
    assert_eq!((conflicts.shift_reduce, conflicts.reduce_reduce), (1, 0));
    assert!(!report.is_empty());
}

#[test]
fn a_fault_says_where_it_is() {
    let broken = b"%token NUM\n%%\nlist : numbers ;\n";
    let wanted = Fault::Grammar { code: 7, line: Some(3), offset: 21 };
    assert_eq!(sulderko::fault(broken, b""), Ok(Some(wanted)));
    assert_eq!(sulderko::table(broken), Err(Error::Fault(wanted)));
    let wanted = Fault::Tokens { code: 1, place: Some(2) };
    assert_eq!(sulderko::judge(GRAMMAR, b"NUM XUM"), Err(Error::Fault(wanted)));
    assert_eq!(sulderko::fault(GRAMMAR, b"NUM"), Ok(None));
}

#[test]
fn threads_call_at_once() {
    let call = || sulderko::judge(GRAMMAR, b"NUM ';'").unwrap().outcome;
    let threads: Vec<_> = (0..8).map(|_| std::thread::spawn(call)).collect();
    for it in threads {
        assert_eq!(it.join().unwrap(), Outcome::Accepted { steps: 5 });
    }
}

#[test]
fn a_parse_goes_forward_and_back() {
    let mut parse = sulderko::Stepper::new(GRAMMAR, b"NUM ';'").expect("a parse");
    let kinds: Vec<u32> = parse.by_ref().map(|made| made.kind).collect();
    assert_eq!(kinds, [2, 1, 1, 2, 3]);
    assert_eq!(parse.step(), Err(sulderko::Refused::Halted));
    assert_eq!(parse.back().expect("an undo").kind, 3);
    assert_eq!(parse.insert(b"nothing"), Err(sulderko::Refused::BadToken));
    assert_eq!(parse.insert(b"NUM").expect("an edit").kind, 9);
    assert_eq!(parse.place().position, 5);
    parse.to(0).expect("the start");
    assert_eq!(parse.back(), Err(sulderko::Refused::AtStart));
    assert!(parse.show().expect("a text").starts_with(b"0 running\n"));
}

#[test]
fn a_parse_tells_which_tokens_could_come() {
    use sulderko::Outlook::{Expected, Unexpected};
    let mut parse = sulderko::Stepper::new(GRAMMAR, b"NUM ';'").expect("a parse");
    let told = |parse: &mut sulderko::Stepper| parse.expected().expect("outlooks");
    assert_eq!(told(&mut parse), [Expected, Unexpected, Expected, Unexpected]);
    parse.to(2).expect("two steps");
    assert_eq!(told(&mut parse), [Unexpected, Unexpected, Unexpected, Expected]);
    assert_eq!(parse.place().position, 2);
    parse.to(5).expect("all steps");
    assert_eq!(told(&mut parse), [Unexpected; 4]);
}
