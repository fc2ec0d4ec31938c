// The programs of the tests, by name: those with races, those without, and those that end badly.
mod broken;
mod clean;
mod races;

// Ends with another status if no program has the name.
fn main() {
    let name = std::env::args().nth(1).unwrap_or_default();
    match name.as_str() {
        "counter" => races::counter(),
        "cell" => races::cell(),
        "reader" => races::reader(),
        "relaxed" => races::relaxed(),
        "element" => races::element(),
        "dropped" => races::dropped(),
        "scoped" => races::scoped(),
        "tried" => races::tried(),
        "mutex" => clean::mutex(),
        "channel" => clean::channel(),
        "arc" => clean::arc(),
        "others" => clean::others(),
        "downgraded" => clean::downgraded(),
        "polled" => clean::polled(),
        "timed" => clean::timed(),
        "printed" => clean::printed(),
        "panicked" => broken::panicked(),
        "aborted" => broken::aborted(),
        "exits" => broken::exits(),
        "killed" => broken::killed(),
        "many" => broken::many(),
        "alone" => broken::alone(),
        "scoped_deadlock" => broken::scoped_deadlock(),
        "hangs" => broken::hangs(),
        "in_turns" => broken::in_turns(),
        "at_once" => broken::at_once(),
        "deadlock" => broken::deadlock(),
        _ => std::process::exit(9),
    }
}
