//! The part of the language that is run: what terms mean, and what is refused.

use rules_runner::machine::{with_large_stack, Machine};
use rules_runner::program::{Hashes, Program};
use rules_runner::syntax::Error;
use rules_runner::value::{List, Value};
use std::fs;
use std::path::PathBuf;
use std::sync::atomic::{AtomicUsize, Ordering};

const HEAD: &str = "use Rattle.std.specs.Prelude.{ℕ, zero, suc, ◌+◌, ◌-◌, ◌*◌, ◌/◌, ◌%◌, ◌^◌}
use Rattle.std.specs.Prelude.{Bool, true, false, cond, not, ◌&&◌, ◌||◌}
use Rattle.std.specs.Prelude.{List, [], ◌∷◌, ◌++◌, map}
use Rattle.std.specs.Prelude.{leb, ltb, eqb}
use Rattle.std.specs.Prelude.{length, get_or, take, drop, set, replicate}
";

/// How many folders were made: tests run side by side, and two may take the same name.
static FOLDERS: AtomicUsize = AtomicUsize::new(0);

/// A folder of crates with one file, `test/specs/File.antt`; it goes with the value.
struct Folder(PathBuf);

impl Folder {
    fn new(name: &str, text: &str) -> Folder {
        let (process, at) = (std::process::id(), FOLDERS.fetch_add(1, Ordering::Relaxed));
        let root = std::env::temp_dir().join(format!("rules_runner_{process}_{at}_{name}"));
        fs::create_dir_all(root.join("test/specs")).unwrap();
        fs::write(root.join("test/specs/File.antt"), format!("{HEAD}{text}")).unwrap();
        Folder(root)
    }

    fn load(&self) -> Result<Program, Error> {
        Program::load(&self.0, "test", "File", Hashes::Defined)
    }
}

impl Drop for Folder {
    fn drop(&mut self) {
        fs::remove_dir_all(&self.0).unwrap();
    }
}

fn shown(value: Value) -> String {
    match value {
        Value::Number(number) => number.to_string(),
        Value::Wide(number) => number.to_string(),
        Value::Bool(value) => value.to_string(),
        Value::List(list) => list
            .values()
            .into_iter()
            .map(shown)
            .collect::<Vec<_>>()
            .join(" "),
        value => format!("{value:?}"),
    }
}

/// The value of `name` in a file that has this text.
fn value(name: &str, text: &str, arguments: Vec<u64>) -> String {
    let folder = Folder::new(name, text);
    with_large_stack(|| {
        let program = folder.load().unwrap_or_else(|error| panic!("{error}"));
        let arguments = arguments.into_iter().map(Value::Number).collect();
        let mut machine = Machine::new(&program);
        let value = machine.call(program.function(&format!("test.File.{name}")), arguments);
        shown(machine.whole(value))
    })
}

/// The value of a term of this type.
fn term(name: &str, of: &str, text: &str) -> String {
    value(
        name,
        &format!("{name} : {of}\n{name} =\n    {text}\n"),
        Vec::new(),
    )
}

#[test]
fn operators() {
    assert_eq!(term("a", "ℕ", "2 + 3 * 4 ^ 2 - 1"), "49");
    assert_eq!(term("b", "ℕ", "2 ^ 3 ^ 2"), "512");
    assert_eq!(term("c", "ℕ", "100 / 7 % 5 * 2"), "8");
    assert_eq!(term("d", "ℕ", "3 - 5 + 1"), "1");
    assert_eq!(
        term("e", "List ℕ", "(1 + 1) ∷ 2 * 3 ∷ [] ++ (0x1f ∷ [])"),
        "2 6 31"
    );
    assert_eq!(term("f", "Bool", "true || false && false"), "true");
    assert_eq!(
        term("g", "Bool", "not (leb 3 2) && (ltb 2 3 && eqb 4 4)"),
        "true"
    );
    // division by 0
    assert_eq!(term("h", "ℕ", "7 / 0 * 10 + 7 % 0"), "7");
}

#[test]
fn lists() {
    assert_eq!(term("a", "List ℕ", "set (replicate 3 7) 1 0"), "7 0 7");
    assert_eq!(term("b", "List ℕ", "set (1 ∷ []) 1 0"), "1");
    assert_eq!(
        term("c", "List ℕ", "take 2 (drop 1 (1 ∷ 2 ∷ 3 ∷ 4 ∷ []))"),
        "2 3"
    );
    assert_eq!(
        term(
            "d",
            "ℕ",
            "get_or (1 ∷ 2 ∷ []) 2 9 + length (take 5 (1 ∷ []))"
        ),
        "10"
    );
    assert_eq!(
        term(
            "e",
            "List ℕ",
            "map (λ x. let y = x + 1 in y * y) (1 ∷ 2 ∷ [])"
        ),
        "4 9"
    );
    // a list that is used twice is not changed by what grows from it
    assert_eq!(
        term(
            "f",
            "List ℕ",
            "let l = 1 ∷ [] in (l ++ (2 ∷ [])) ++ (l ++ (3 ∷ []))"
        ),
        "1 2 1 3"
    );
}

// A definition by its name or with some of its arguments is a function of the others, and a parameter can be one.
#[test]
fn functions_are_values() {
    let text = "weigh : ℕ → ℕ → ℕ → ℕ
weigh a b c = a * 100 + b * 10 + c

twice : (ℕ → ℕ) → ℕ → ℕ
twice f zero = f 0
twice f (suc n) = f (f n)

fold : (ℕ → ℕ → ℕ) → List ℕ → ℕ
fold f [] = 0
fold f (x ∷ xs) = f x (fold f xs)

double : ℕ → ℕ
double n = n * 2

all : ℕ → List ℕ
all n = map double (n ∷ 5 ∷ [])
    ++ (map (weigh 1 (n + 1)) (7 ∷ 8 ∷ []) ++ (twice (weigh 0 n) 2 ∷ fold (weigh n) (1 ∷ 2 ∷ []) ∷ []))
";
    assert_eq!(value("all", text, vec![3]), "6 10 147 148 61 630");
}

#[test]
fn lists_are_shared() {
    let mut list = List::of_numbers(vec![1, 2]);
    let kept = list.clone().take(1);
    list = list.append(&List::of_numbers(vec![3]));
    let grown = kept.clone().append(&List::of_numbers(vec![4]));
    assert_eq!(list.numbers(), Some(&[1, 2, 3][..]));
    assert_eq!(kept.numbers(), Some(&[1][..]));
    assert_eq!(grown.numbers(), Some(&[1, 4][..]));
}

#[test]
fn clauses_and_records() {
    let text = "pub record Pair : Type 0 where
  pub low : ℕ
  pub high : ℕ

-- a comment
unfoldable pub pair : ℕ → ℕ → Pair
pair a b = record { low = a; high = b; }

sum : List ℕ → ℕ
sum [] = 0
sum (x ∷ xs) = x + sum xs

abbrev pub both : ℕ → ℕ → ℕ
both n zero = sum (1 ∷ 2 ∷ [])
both n (suc (suc m)) = (pair n m).low * 10 + (pair n m).high
both n (suc zero) = let p = pair n n in p.low + p.high
";
    assert_eq!(value("both", text, vec![4, 0]), "3");
    assert_eq!(value("both", text, vec![4, 1]), "8");
    assert_eq!(value("both", text, vec![4, 5]), "43");
}

// Constructors of a type that a crate's code declares, with arguments and without; patterns look into the arguments.
#[test]
fn constructors() {
    let text = "use Rattle.test.specs.declared.Shape.{Shape}
use Rattle.test.specs.declared.Shape.TheVariants.{Dot, Line, Pair}

shape : ℕ → Shape
shape zero = Dot
shape (suc zero) = Line 7 (3 ∷ [])
shape (suc (suc zero)) = Line (4 + 4) (5 ∷ 6 ∷ [])
shape n = Pair (let m = n + n in shape (m - 7)) (Line n [])

sum : Shape → ℕ
sum Dot = 1
sum (Line 7 (n ∷ [])) = n
sum (Line n (a ∷ b ∷ [])) = n * 100 + a * 10 + b
sum (Line n l) = n
sum (Pair Dot b) = 90
sum (Pair a b) = sum a * 10 + sum b

run : ℕ → ℕ
run n = sum (shape n)
";
    for (n, sum) in [(0, "1"), (1, "3"), (2, "856"), (3, "90"), (4, "34")] {
        assert_eq!(value("run", text, vec![n]), sum);
    }
}

// Types that a file declares: constructors with arguments over lines, and a record with parameters.
#[test]
fn declared_types() {
    let text = "pub data Shape : Type 0 where
  dot : Shape
  -- two lengths
  box : ℕ → (ℕ → ℕ)
      → Shape
  both : Shape → Shape → Shape

pub record Sized (f : ℕ → ℕ) : Type 0 where
  pub size : (n : ℕ) → f n ≡ n

area : Shape → ℕ
area dot = 1
area (box n f) = n * f n
area (both dot b) = 90
area (both a b) = area a * 10 + area b

run : ℕ → ℕ
run zero = area dot
run (suc zero) = area (both dot dot)
run n = area (both (box n (λ x. x + 1)) dot)
";
    for (n, area) in [(0, "1"), (1, "90"), (2, "61")] {
        assert_eq!(value("run", text, vec![n]), area);
    }
}

// A constructor with other arguments than the pattern's is no value of the type.
#[test]
#[should_panic(expected = "is matched against Constructor")]
fn constructors_of_another_arity() {
    let text = "use Rattle.test.specs.declared.Shape.TheVariants.{Line}

one : Shape → ℕ
one (Line a b) = a

bad : ℕ → ℕ
bad n = one (Line n)
";
    value("bad", text, vec![1]);
}

// What is not asked for is not computed: here it would not fit in 128 bits.
#[test]
fn delayed() {
    let text = "pub record Two : Type 0 where
  pub one : ℕ
  pub other : ℕ

unless {ℓ} : {A : Type ℓ} → ℕ → A → A → A
unless zero done kept = done
unless (suc n) done kept = kept

lazy : ℕ → ℕ
lazy n =
    let huge = 2 ^ (200 + n) in
    let r = record { one = 5; other = huge } in
    cond (eqb n 1) (unless n huge r.one) huge
";
    assert_eq!(value("lazy", text, vec![1]), "5");
}

// A last call takes no stack, and a deep one has enough.
#[test]
fn deep() {
    let text = "count : ℕ → ℕ → ℕ
count zero m = m
count (suc n) m = count n (m + 2)

deep : ℕ → ℕ
deep zero = 0
deep (suc n) = deep n + 1
";
    assert_eq!(value("count", text, vec![3_000_000, 1]), "6000001");
    assert_eq!(value("deep", text, vec![100_000]), "100000");
}

// Numbers past 64 bits, and back.
#[test]
fn wide() {
    for (at, (text, value)) in [
        ("2 ^ 64", "18446744073709551616"),
        ("2 ^ 64 - 1", "18446744073709551615"),
        ("2 ^ 63 * 2 ^ 63 / 2 ^ 64", "4611686018427387904"),
        ("(2 ^ 63 + 5) * 4 % 2 ^ 64", "20"),
        ("(2 ^ 70 + 1) % 2 ^ 70", "1"),
        ("7 / 2 ^ 64", "0"),
    ]
    .into_iter()
    .enumerate()
    {
        assert_eq!(term(&format!("wide_{at}"), "ℕ", text), value, "{text}");
    }
}

#[test]
#[should_panic(expected = "a power does not fit in 128 bits")]
fn large() {
    term("large", "ℕ", "2 ^ 128");
}

// Each text is refused, with the file and the line.
#[test]
fn refused() {
    let lines = HEAD.lines().count();
    for (at, (line, part, text)) in [
        (
            1,
            "'elim' is not read",
            "f : ℕ → ℕ\nf n = elim n [ zero ↦ 1 | suc m ↦ m ]\n",
        ),
        (
            0,
            "a name is expected",
            "data D : Type 0 where\n  one : D\n",
        ),
        (1, "':' is expected", "pub data D : Type 0 where\n  one D\n"),
        (
            1,
            "Sign(')') is not read",
            "pub data D : Type 0 where\n  one : D)\n  two : D\n",
        ),
        (1, "'g' is not known", "f : ℕ → ℕ\nf n = n + g\n"),
        (1, "takes 2 arguments, not 1", "f : ℕ → ℕ\nf n = leb n\n"),
        (
            3,
            "takes 1 arguments, not 2",
            "f : ℕ → ℕ\nf n = n\ng : ℕ\ng = f 1 2\n",
        ),
        (0, "'f' has no clause", "f : ℕ → ℕ\n"),
        (0, "'f' has no signature", "f n = n\n"),
        (
            2,
            "clauses of different length",
            "f : ℕ → ℕ → ℕ\nf zero n = n\nf (suc m) = m\n",
        ),
        (
            0,
            "'Rattle.std.specs.Prelude.min' is not known",
            "use Rattle.std.specs.Prelude.{min}\n",
        ),
        (1, "this pattern is not read", "f : ℕ → ℕ\nf (n + 1) = n\n"),
        (1, "is a type", "f : ℕ\nf = ℕ\n"),
        (2, "a term is expected", "f : ℕ\nf =\n    (1 +\n"),
        (0, "'\"' is not read here", "f : ℕ → \"\n"),
    ]
    .into_iter()
    .enumerate()
    {
        let folder = Folder::new(&format!("refused_{at}"), text);
        match folder.load() {
            Ok(_) => panic!("taken: {text}"),
            Err(error) => {
                assert!(error.text.contains(part), "{text}\ngave {error}");
                assert_eq!(error.file, "test/specs/File.antt");
                assert_eq!(
                    error.line.saturating_sub(1),
                    lines + line,
                    "{text}\ngave {error}"
                );
            }
        }
    }
}
