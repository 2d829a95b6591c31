//! The same push in SQL: the tables of S with what is asked of their rows, the
//! run's rows, the equations of S as questions, the tables of T, one statement for
//! each table of T, and what Sigma gives, to compare with.

use reference::plain::*;
use vectors::full::{half_schema, rows, two_copies};

/// The files by their names: what makes all tables and fills those of Sigma's
/// result; what loads a row into each table of S, and the rows; what asks for a row
/// where an equation does not hold; what pushes; what empties the tables of T, and
/// those of S; a question for the number of rows that differ from Sigma's; and rows
/// with a mistake each, a link, a value too small, one too large, and an equation.
pub fn files(total: usize) -> Vec<(&'static str, String)> {
    let t = half_schema();
    let (s, f) = two_copies(&t);
    let run = rows(&s, total / 16);
    let sigma = reference::migrate::sigma(&s, &t, &f, &run).expect("an even mapping");
    let targets_first = targets_first(&s);
    let setup = [
        "PRAGMA foreign_keys = ON;\nBEGIN;\n".to_string(),
        targets_first.iter().map(|&node| table("s", node, &s, asked)).collect(),
        (0..t.nodes).map(|node| table("t", node, &t, nothing_asked)).collect(),
        (0..t.nodes).map(|node| table("sigma", node, &t, nothing_asked)).collect(),
        fill("sigma", &t, &sigma),
        "COMMIT;\n".to_string(),
    ];
    let each = |statement: &dyn Fn(usize) -> String| (0..t.nodes).map(statement).collect();
    let other = |a: &str, b: &str, d: usize| {
        format!(" + (SELECT count(*) FROM (SELECT * FROM {a}{d} EXCEPT SELECT * FROM {b}{d}))")
    };
    let differing: String = each(&|d| other("t", "sigma", d) + &other("sigma", "t", d));
    let sources_first = targets_first.iter().rev();
    let rows = |&node: &usize| (0..run.rows[node]).map(|row| values(&s, &run, node, row)).collect();
    let loaded: Loaded = targets_first.iter().map(rows).collect();
    let [link, below, above, equation] = mistakes(&loaded);
    vec![
        ("setup.sql", setup.concat()),
        ("load.sql", targets_first.iter().map(|&node| load(&s, node)).collect()),
        ("check.sql", s.equations.iter().map(|equation| broken(&s, equation)).collect()),
        ("push.sql", each(&|d| push(&s, &t, &f, d))),
        ("clear.sql", each(&|d| format!("DELETE FROM t{d};\n"))),
        ("unload.sql", sources_first.map(|node| format!("DELETE FROM s{node};\n")).collect()),
        ("differing.sql", format!("SELECT 0{differing};\n")),
        ("run.rows", text(&loaded)),
        ("link.rows", text(&link)),
        ("below.rows", text(&below)),
        ("above.rows", text(&above)),
        ("equation.rows", text(&equation)),
    ]
}

/// The tables, each after those that its links lead to.
fn targets_first(schema: &Schema) -> Vec<usize> {
    let mut order: Vec<usize> = Vec::new();
    while order.len() < schema.nodes {
        let known = |&edge: &usize| order.contains(&schema.edges[edge].target);
        let next = (0..schema.nodes)
            .find(|&node| !order.contains(&node) && schema.edges_from(node).iter().all(known));
        order.push(next.expect("a schema without a loop"));
    }
    order
}

/// For each table its rows, for each row its number, its links and its values.
type Loaded = Vec<Vec<Vec<i64>>>;

/// The rows with a link to a row that is not there, with a value below the smallest
/// of every kind, with one above the largest, and with a link to another row than its
/// twin's.
fn mistakes(loaded: &Loaded) -> [Loaded; 4] {
    let with = |change: fn(&mut Vec<i64>, i64)| {
        let mut loaded = loaded.clone();
        let count = loaded[0].len() as i64;
        // The tables have as many rows each, and the last one has links and a value.
        change(loaded.last_mut().and_then(|rows| rows.last_mut()).expect("a row"), count);
        loaded
    };
    [
        with(|row, count| row[1] = count),
        with(|row, _| *row.last_mut().expect("a value") = -1),
        with(|row, _| *row.last_mut().expect("a value") = 1 << 32),
        with(|row, count| row[1] = (row[1] + 1) % count),
    ]
}

/// The rows of all tables, each table after the number of its rows.
fn text(loaded: &Loaded) -> String {
    let words = |row: &Vec<i64>| row.iter().map(|n| format!("{n} ")).collect::<String>() + "\n";
    let table = |rows: &Vec<Vec<i64>>| {
        format!("{}\n", rows.len()) + &rows.iter().map(words).collect::<String>()
    };
    loaded.iter().map(table).collect()
}

/// The rows of an instance, as statements.
fn fill(name: &str, schema: &Schema, instance: &Instance) -> String {
    let mut text = String::new();
    for node in 0..schema.nodes {
        for row in 0..instance.rows[node] {
            let values = values(schema, instance, node, row).into_iter().map(|v| v.to_string());
            let values = values.collect::<Vec<_>>().join(", ");
            text += &format!("INSERT INTO {name}{node} VALUES ({values});\n");
        }
    }
    text
}

/// A column and what is asked of it.
type Asked = fn(&Schema, Column) -> String;

/// A column of a table: the link along an edge, or an attribute.
#[derive(Clone, Copy)]
enum Column {
    Link(usize),
    Value(usize),
}

fn nothing_asked(_: &Schema, _: Column) -> String {
    String::new()
}

/// A link leads to a row that is there, a value is one of its kind.
fn asked(schema: &Schema, column: Column) -> String {
    match column {
        Column::Link(edge) => format!(" NOT NULL REFERENCES s{}(row)", schema.edges[edge].target),
        Column::Value(a) => {
            let (smallest, largest) = RANGES[schema.attributes[a].kind].clone().into_inner();
            format!(" NOT NULL CHECK (v{a} BETWEEN {smallest} AND {largest})")
        }
    }
}

fn columns(schema: &Schema, node: usize) -> Vec<Column> {
    let links = schema.edges_from(node).into_iter().map(Column::Link);
    links.chain(schema.attributes_at(node).into_iter().map(Column::Value)).collect()
}

fn table(name: &str, node: usize, schema: &Schema, asked: Asked) -> String {
    let column = |column: Column| match column {
        Column::Link(edge) => format!(", l{edge} INTEGER{}", asked(schema, column)),
        Column::Value(a) => format!(", v{a} INTEGER{}", asked(schema, column)),
    };
    let columns: String = columns(schema, node).into_iter().map(column).collect();
    format!("CREATE TABLE {name}{node} (row INTEGER PRIMARY KEY{columns});\n")
}

fn values(schema: &Schema, run: &Instance, node: usize, row: usize) -> Vec<i64> {
    let value = |column: Column| match column {
        Column::Link(edge) => run.links[edge][row] as i64,
        Column::Value(a) => i64::from(run.values[a][row]),
    };
    [row as i64].into_iter().chain(columns(schema, node).into_iter().map(value)).collect()
}

/// The statement that loads a row.
fn load(s: &Schema, node: usize) -> String {
    format!("INSERT INTO s{node} VALUES (?{});\n", ", ?".repeat(columns(s, node).len()))
}

/// The question for a row where the two sides of an equation lead to different
/// rows.
fn broken(s: &Schema, equation: &Equation) -> String {
    let mut tables = format!("s{} AS start", equation.left.start);
    let mut side = |name: &str, path: &Path| {
        let mut end = "start.row".to_string();
        for (step, &edge) in path.edges.iter().enumerate() {
            let from = if step == 0 { "start".into() } else { format!("{name}{step}") };
            if step > 0 {
                let table = s.edges[edge].source;
                tables += &format!(" JOIN s{table} AS {from} ON {from}.row = {end}");
            }
            end = format!("{from}.l{edge}");
        }
        end
    };
    let (left, right) = (side("p", &equation.left), side("q", &equation.right));
    format!("SELECT 1 FROM {tables} WHERE {left} <> {right};\n")
}

/// The first place of a table's rows in the joined list.
fn first_place(f: &Mapping, c: usize) -> String {
    let fibre = f.fibre(f.nodes[c]).into_iter().filter(|&before| before < c);
    fibre.map(|before| format!(" + (SELECT count(*) FROM s{before})")).collect()
}

/// Sigma's table at d: the joined list over the fibre.  Every edge of T has one
/// edge of S over it at each node.
fn push(s: &Schema, t: &Schema, f: &Mapping, d: usize) -> String {
    let selects = f.fibre(d).into_iter().map(|c| {
        let links = t.edges_from(d).into_iter().map(|e| {
            let over = s.edges_from(c).into_iter().find(|&over| f.edges[over] == [e]);
            let over = over.expect("an edge over each");
            format!(", l{over}{}", first_place(f, s.edges[over].target))
        });
        let columns = t.attributes_at(d).into_iter().map(|b| {
            let over = s.attributes_at(c).into_iter().find(|&a| f.attributes[a] == b);
            format!(", v{}", over.expect("a column over each"))
        });
        let all: String = links.chain(columns).collect();
        format!("SELECT row{}{all} FROM s{c}", first_place(f, c))
    });
    format!("INSERT INTO t{d} {};\n", selects.collect::<Vec<_>>().join(" UNION ALL "))
}
