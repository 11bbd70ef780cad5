//! The stored cases that `against` hands to the library, given to the model: they are tried on every
//! machine, and what stands beside each is what the model says too.

#[path = "../against/src/stored.rs"]
#[allow(dead_code)]
mod stored;

use trial::table::Lanes;
use trial::{book, programs};

#[test]
fn stored_books_get_their_number_and_place() {
    for (name, bytes, room, number, place) in
        [stored::books(), stored::books_of_edition_2()].concat()
    {
        let out = book::read(&bytes, &mut Lanes::zero(room));
        assert_eq!((out.number, out.place), (number, place), "{name}");
    }
}

#[test]
fn stored_books_give_their_listing() {
    for (name, bytes, listing) in [stored::listings(), stored::listings_of_rule_set_2()].concat() {
        assert_eq!(programs::close_book_program(&bytes), listing, "{name}");
    }
}
