//! Measures the library: time and stack beside the accounts where it is linked into the same process,
//! and the instructions that it takes; over a bridge, instructions and stack.

#[cfg(not(bridged))]
mod bank;
#[cfg(not(bridged))]
mod channel;
#[cfg(not(bridged))]
mod console;
#[cfg(not(bridged))]
mod direct;
mod instructions;
#[cfg(not(bridged))]
mod measure;
#[cfg(not(bridged))]
mod pieces;
mod replay;
#[cfg(not(bridged))]
mod rounds;
#[cfg(bridged)]
mod stack;

fn main() {
    // The one thing to be measured where it is named.
    if std::env::args().nth(1).as_deref() == Some("replay") {
        replay::main();
        return;
    }
    #[cfg(bridged)]
    println!(
        "The library is called over a bridge here; tests/at_hand.sh builds one for this machine, of \
         which time can be measured, and stack beside the accounts'."
    );
    instructions::main();
    #[cfg(bridged)]
    stack::main();
    #[cfg(not(bridged))]
    {
        measure::main();
        console::main();
        pieces::main();
        bank::main();
        channel::main();
        direct::main();
    }
    replay::main();
}
