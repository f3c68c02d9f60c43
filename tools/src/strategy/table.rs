//! Every play of the other side, and the values that answer it.

use super::Strategy;

/// How many rows a table has at most.
pub const MOST: usize = 4096;

/// The table: a line of names, and one for each play; how many variables the other side has if that
/// is too many.
pub fn write(strategy: &Strategy) -> Result<String, usize> {
    let (others, own) = (strategy.others(), strategy.owned());
    if others.len() > MOST.ilog2() as usize {
        return Err(others.len());
    }
    let column = |x: &usize| strategy.names.of(*x);
    let columns: Vec<String> = others.iter().map(column).collect();
    let answers: Vec<String> = own.iter().map(column).collect();
    let mut text = line(&columns, &answers, &columns, &answers);
    for play in 0..1usize << others.len() {
        // The first variable changes last.
        let bit = |at: usize| play >> (others.len() - 1 - at) & 1 == 1;
        let values: Vec<bool> = (0..others.len()).map(bit).collect();
        let played = strategy.answer(&values).values;
        let digits = |variables: &[usize]| -> Vec<String> {
            variables.iter().map(|&x| u8::from(played[x]).to_string()).collect()
        };
        text += &line(&columns, &answers, &digits(&others), &digits(&own));
    }
    Ok(text)
}

/// Words below the columns that they belong to.
fn line(columns: &[String], answers: &[String], left: &[String], right: &[String]) -> String {
    let padded = |columns: &[String], words: &[String]| -> String {
        let word = |(column, word): (&String, &String)| format!("{word:<0$} ", column.len());
        columns.iter().zip(words).map(word).collect()
    };
    let line = format!("{}| {}", padded(columns, left), padded(answers, right));
    line.trim_end().to_string() + "\n"
}
