#!/usr/bin/env bash
# Misuses of a card that the compiler must refuse, each for its own reason: an unchecked card that is to open a node,
# a checked card that is to open two, a checked card that is cloned, and one made without checking. A proper use
# beside them must pass. Prints a line for each; fails where one is not answered as it must be.
set -euo pipefail
cd "$(dirname "$0")"

work=$(mktemp -d)
trap 'rm -rf "$work"' EXIT
mkdir -p "$work/crates"
for crate in quantity reservoir ground card places node; do
    cp -r "crates/$crate" "$work/crates/"
    rm -rf "$work/crates/$crate/must-fail" "$work/crates/$crate/out"
    grep "^$crate:" crates.txt >> "$work/crates.txt"
done
git -C "$work" init -q

# NAME: a crate over nodes, with the source on standard input.
crate() {
    echo "$1: quantity ground card places node" >> "$work/crates.txt"
    mkdir -p "$work/crates/$1/src"
    cat > "$work/crates/$1/src/lib.rt"
}

crate proper_use << 'RATTLE'
use card::card::Card;
use card::fault::CardFault;
use node::node::Node;
use places::interface::Places;

pub fn open<P: Places>(card: Card, reservoirs: P) -> Result<Node<P>, CardFault> {
    let checked = card.check()?;
    Ok(Node::open(checked, reservoirs))
}
RATTLE

crate unchecked_card << 'RATTLE'
use card::card::Card;
use node::node::Node;
use places::interface::Places;

pub fn open<P: Places>(card: Card, reservoirs: P) -> Node<P> {
    Node::open(card, reservoirs)
}
RATTLE

crate opened_twice << 'RATTLE'
use card::card::CheckedCard;
use node::node::Node;
use places::interface::Places;

pub fn open<P: Places>(card: CheckedCard, first: P, second: P) -> (Node<P>, Node<P>) {
    (Node::open(card, first), Node::open(card, second))
}
RATTLE

crate cloned_card << 'RATTLE'
use card::card::CheckedCard;

pub fn clone(card: &CheckedCard) -> CheckedCard {
    card.clone()
}
RATTLE

crate card_without_checking << 'RATTLE'
use card::areas::CheckedAreas;
use card::card::CheckedCard;
use card::concentrations::CheckedConcentrations;
use ground::soil::CheckedSoil;

pub fn make(areas: CheckedAreas, soil: CheckedSoil, concentrations: CheckedConcentrations) -> CheckedCard {
    CheckedCard { areas, soil, concentrations }
}
RATTLE

# NAME STATUS TEXT: rt ends with the status, 0 where the crate is proved and 1 where it is refused, and what it writes has
# the text. The crates below may be proved in the same run and say so too, so that the text alone would show nothing.
expect() {
    local status=0
    (cd "$work/crates/$1" && rt check) > "$work/log" 2>&1 || status=$?
    if [ "$status" != "$2" ] || ! grep -qF -- "$3" "$work/log"; then
        echo "refused_by_types: $1 was not answered by status $2 and '$3', but by status $status:"
        cat "$work/log"
        exit 1
    fi
    echo "$1: $3"
}

expect proper_use 0 'fn proper_use::open: proved'
expect unchecked_card 1 'error[mismatched-types]'
expect opened_twice 1 'error[borrow-e0382]'
expect cloned_card 1 'is not `Clone`'
expect card_without_checking 1 'error[private-field]'
