// A straightforward interpreter of postfix code: enum instructions in a Vec, a Vec as stack.
// evaluate ROWS: for how many of so many rows `late < 20 and day < 2` is true.

#[derive(Clone, Copy)]
enum Value {
    Null,
    Number(u64),
    Word(u64),
}

#[derive(Clone, Copy)]
enum Operator {
    Add,
    Subtract,
    Multiply,
    Divide,
    Remainder,
    Equal,
    NotEqual,
    Less,
    LessOrEqual,
    And,
    Or,
}

enum Instruction {
    Constant(Value),
    Column(usize),
    Operator(Operator),
    Not,
    IsNull,
    If,
}

const LIMIT: u64 = 1 << 63;

fn number(n: Option<u64>) -> Value {
    match n {
        Some(n) if n < LIMIT => Value::Number(n),
        _ => Value::Null,
    }
}

fn truth(v: Value) -> Option<bool> {
    match v {
        Value::Number(n) => Some(n != 0),
        _ => None,
    }
}

fn of_truth(t: Option<bool>) -> Value {
    match t {
        Some(b) => Value::Number(b as u64),
        None => Value::Null,
    }
}

fn compare(a: Value, b: Value, test: impl Fn(&u64, &u64) -> bool) -> Value {
    match (a, b) {
        (Value::Number(x), Value::Number(y)) => Value::Number(test(&x, &y) as u64),
        (Value::Word(x), Value::Word(y)) => Value::Number(test(&x, &y) as u64),
        _ => Value::Null,
    }
}

fn calculate(a: Value, b: Value, f: impl Fn(u64, u64) -> Option<u64>) -> Value {
    match (a, b) {
        (Value::Number(x), Value::Number(y)) => number(f(x, y)),
        _ => Value::Null,
    }
}

fn apply(o: Operator, a: Value, b: Value) -> Value {
    match o {
        Operator::Add => calculate(a, b, u64::checked_add),
        Operator::Subtract => calculate(a, b, u64::checked_sub),
        Operator::Multiply => calculate(a, b, u64::checked_mul),
        Operator::Divide => calculate(a, b, u64::checked_div),
        Operator::Remainder => calculate(a, b, u64::checked_rem),
        Operator::Equal => compare(a, b, u64::eq),
        Operator::NotEqual => compare(a, b, u64::ne),
        Operator::Less => compare(a, b, u64::lt),
        Operator::LessOrEqual => compare(a, b, u64::le),
        Operator::And => of_truth(match (truth(a), truth(b)) {
            (Some(false), _) | (_, Some(false)) => Some(false),
            (Some(true), Some(true)) => Some(true),
            _ => None,
        }),
        Operator::Or => of_truth(match (truth(a), truth(b)) {
            (Some(true), _) | (_, Some(true)) => Some(true),
            (Some(false), Some(false)) => Some(false),
            _ => None,
        }),
    }
}

fn evaluate(code: &[Instruction], row: &[Value], stack: &mut Vec<Value>) -> Value {
    stack.clear();
    for instruction in code {
        match instruction {
            Instruction::Constant(v) => stack.push(*v),
            Instruction::Column(i) => stack.push(row[*i]),
            Instruction::Operator(o) => {
                let b = stack.pop().unwrap();
                let a = stack.pop().unwrap();
                stack.push(apply(*o, a, b));
            }
            Instruction::Not => {
                let a = stack.pop().unwrap();
                stack.push(of_truth(truth(a).map(|b| !b)));
            }
            Instruction::IsNull => {
                let a = stack.pop().unwrap();
                stack.push(Value::Number(matches!(a, Value::Null) as u64));
            }
            Instruction::If => {
                let c = stack.pop().unwrap();
                let b = stack.pop().unwrap();
                let a = stack.pop().unwrap();
                stack.push(match truth(a) {
                    Some(true) => b,
                    Some(false) => c,
                    None => Value::Null,
                });
            }
        }
    }
    stack.pop().unwrap()
}

// Other expressions, so that the compiler can't specialize the interpreter to the one that is measured.
fn written(name: &str) -> Vec<Instruction> {
    let arithmetic = [Operator::Add, Operator::Subtract, Operator::Multiply, Operator::Divide, Operator::Remainder];
    let rest = [Operator::Equal, Operator::NotEqual, Operator::LessOrEqual, Operator::Or];
    let mut code = Vec::new();
    if name == "late" {
        code.push(Instruction::Column(0));
        code.push(Instruction::Constant(Value::Number(20)));
        code.push(Instruction::Operator(Operator::Less));
        code.push(Instruction::Column(1));
        code.push(Instruction::Constant(Value::Number(2)));
        code.push(Instruction::Operator(Operator::Less));
        code.push(Instruction::Operator(Operator::And));
    } else {
        code.push(Instruction::Constant(Value::Word(name.len() as u64)));
        for o in arithmetic.into_iter().chain(rest) {
            code.push(Instruction::Column(0));
            code.push(Instruction::Operator(o));
        }
        code.push(Instruction::Not);
        code.push(Instruction::IsNull);
        code.push(Instruction::Column(0));
        code.push(Instruction::Column(1));
        code.push(Instruction::If);
    }
    code
}

fn main() {
    let arguments: Vec<String> = std::env::args().collect();
    let rows: u64 = arguments.get(1).and_then(|n| n.parse().ok()).unwrap_or(0);
    let code = written(arguments.get(2).map_or("late", |name| name.as_str()));
    let mut stack = Vec::new();
    let mut count = 0u64;
    for i in 0..rows {
        let row = [Value::Number(i % 40), Value::Number(i % 5)];
        if truth(evaluate(&code, &row, &mut stack)) == Some(true) {
            count += 1;
        }
    }
    println!("{count}");
}
