//! The lines of README.md: teaches four counters, names two, is refused once, and lets four threads improve lists.
use spoonmeadow::{Error, Game, Heads, Lists, Params, Points, Relay};
fn main() -> Result<(), Error> {
    let points = Points::new(1, vec![0.0, 1.0, 3.0, 7.0]);
    let game = Game::teach(points.clone(), Params::default())?;
    println!("{:?}", game.search(&[0, 3], &[6.5], 2)?.neighbors);
    println!("{}", game.search(&[0], &[f32::NAN], 1).unwrap_err());
    let relay = Relay::open(&points, &Lists::unfilled(4, 2), &[(0, 1), (0, 3), (0, 2)])?;
    let heads = Heads::new(relay);
    heads.drive(4)?;
    println!("{:?}", heads.into_relay().close()?.lists.list(0));
    Ok(())
}
