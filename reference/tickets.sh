#!/bin/sh
# What a host cannot do with a ticket: let it go unspent, spend it twice, or make one. Each try is a crate of its own
# above the book, in a copy of the repository. It has a lawful use of a ticket first, and then the misuse: the check has to
# find the error that stands beside the try, on the line that is marked by `// here`, and no other.
set -e
cd "$(dirname "$0")/.."
copy=$(mktemp -d)
trap 'rm -rf "$copy"' EXIT
tar -c --exclude=out crates crates.txt | tar -x -C "$copy"
host="$copy/crates/host/src/lib.rt"
mkdir -p "$copy/crates/host/src"
echo "host: declarations" >> "$copy/crates.txt"

rejected() {
    {
        cat <<'RATTLE'
use declarations::book::Book;
use declarations::ticket::NotOpen;
use declarations::ticket::Ticket;

pub fn keep_what_is_opened(book: &mut Book) -> Result<(), NotOpen> {
    match book.open() {
        Ok(ticket) => book.keep(ticket),
        Err(_) => Ok(()),
    }
}

RATTLE
        cat
    } > "$host"
    line=$(grep -n "// here$" "$host" | cut -d: -f1)
    if (cd "$copy/crates/host" && rt check) > "$copy/log" 2>&1; then
        echo "tickets: not rejected: $1"
        exit 1
    fi
    wanted="^src/lib.rt:$line:[0-9]*: error\[$2\]"
    if ! grep -q "$wanted" "$copy/log" || grep "error\[" "$copy/log" | grep -qv "$wanted"; then
        cat "$copy/log"
        echo "tickets: rejected, but not by $2 alone on line $line: $1"
        exit 1
    fi
    echo "tickets: rejected by $2: $1"
}

rejected "a ticket goes out of use unspent" linear-value-let-go <<'RATTLE'
pub fn forget(book: &mut Book) {
    match book.open() {
        Ok(_ticket) => {} // here
        Err(_) => {}
    }
}
RATTLE

rejected "a ticket is spent twice" borrow-e0382 <<'RATTLE'
pub fn spend_twice(book: &mut Book, ticket: Ticket) -> Result<(), NotOpen> {
    book.keep(ticket)?;
    book.withdraw(ticket) // here
}
RATTLE

rejected "a host makes a ticket" private-field <<'RATTLE'
pub fn forge(book: &mut Book) -> Result<(), NotOpen> {
    book.keep(Ticket { book: 0, trial: 1 }) // here
}
RATTLE
